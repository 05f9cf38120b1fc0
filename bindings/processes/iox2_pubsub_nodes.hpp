// SPDX-License-Identifier: Apache-2.0 OR MIT
/** @file
 * Which processes have a domain, whose its ports are, and which processes died. It is included by iox2_pubsub_processes.hpp.
 *
 *     for (const auto &node : domain.nodes().expect("the processes")) std::printf("%d: %zu publishers\n", node.pid, node.number_of_publishers);
 *     auto heard = domain.set_dead_node_listener([](const iox2ps::NodeView &node) { std::printf("%d died\n", node.pid); });
 */
#ifndef IOX2_PUBSUB_NODES_HPP
#define IOX2_PUBSUB_NODES_HPP

#include "iox2_pubsub_processes.h"
#include "iox2_pubsub_shared.hpp"

#include <algorithm>
#include <array>
#include <cstddef>
#include <cstdint>
#include <functional>
#include <memory>
#include <mutex>
#include <optional>
#include <type_traits>
#include <utility>
#include <vector>

#include <sys/types.h>

namespace iox2ps {

/** Whether a process lives. */
enum class NodeState : std::uint32_t {
  Alive = IOX2PS_NODE_STATE_ALIVE, /**< it lives, or is stopped */
  Dead = IOX2PS_NODE_STATE_DEAD    /**< it ended without giving back what it had */
};

/** A process that has a domain: what iceoryx2 calls a node. One of dead_nodes() has nothing any longer. */
struct NodeView {
  Id id;                             /**< as Header::node_id of its messages; no other process has it, of this domain or another one */
  pid_t pid;                         /**< its process identifier, as it knows it: another container has other numbers */
  NodeState state;                   /**< whether it lives */
  std::size_t number_of_publishers;  /**< that it has open; of a dead one, what isn't given back yet, as the next three */
  std::size_t number_of_subscribers; /**< that it has open */
  std::size_t number_of_loans;       /**< messages that it is to send, also those that wait for room */
  std::size_t number_of_samples;     /**< messages that it has received and holds */
};

/** An open publisher of any process. */
struct PublisherDetails {
  Id publisher_id; /**< as its id(), and in headers */
  Id node_id;      /**< of its process */
};

/** An open subscriber of any process. */
struct SubscriberDetails {
  Id subscriber_id; /**< as its id() */
  Id node_id;       /**< of its process */
};

/** What cleanup_dead_nodes() did. */
struct CleanupState {
  std::size_t cleanups; /**< how many processes were found dead, and had all that they had given back */
};

namespace detail {

inline NodeView node_of(const iox2ps_node_t &raw) {
  return {id_of(raw.node_id),        static_cast<pid_t>(raw.pid), static_cast<NodeState>(raw.state), raw.number_of_publishers,
          raw.number_of_subscribers, raw.number_of_loans,         raw.number_of_samples};
}
inline std::optional<NodeView> listed_of(const iox2ps_node_t &raw, const NodeView *) { return node_of(raw); }
inline std::optional<PublisherDetails> listed_of(const iox2ps_port_t &raw, const PublisherDetails *) {
  if (raw.kind != IOX2PS_PORT_PUBLISHER) return std::nullopt;
  return PublisherDetails{id_of(raw.id), id_of(raw.node_id)};
}
inline std::optional<SubscriberDetails> listed_of(const iox2ps_port_t &raw, const SubscriberDetails *) {
  if (raw.kind != IOX2PS_PORT_SUBSCRIBER) return std::nullopt;
  return SubscriberDetails{id_of(raw.id), id_of(raw.node_id)};
}

/* What a call of C tells of one after the other. A vector that has no more room ends it, since nothing may be thrown through C, and the
 * call is made anew with more. */
template <typename T, typename Raw> class Listing {
public:
  template <typename List> iox2ps_status_t fill(List &&list) {
    iox2ps_status_t code;
    do {
      is_whole_ = true;
      all_.reserve(2 * all_.capacity() + 16);
      all_.clear();
      code = list(&Listing::add, this);
    } while (code == IOX2PS_OK && !is_whole_);
    return code;
  }

  std::vector<T> take() { return std::move(all_); }

private:
  static int add(const Raw *raw, void *to) noexcept {
    Listing &it = *static_cast<Listing *>(to);
    auto one = listed_of(*raw, static_cast<const T *>(nullptr));
    if (!one) return 0;
    it.is_whole_ = it.all_.size() < it.all_.capacity();
    if (it.is_whole_) it.all_.push_back(*std::move(one));
    return it.is_whole_ ? 0 : 1;
  }

  std::vector<T> all_;
  bool is_whole_ = true;
};

/* How many of the dead iox2ps_domain_dead_node() knows. */
inline constexpr std::size_t deaths_kept = 64;

/* What is called for each process that died, once and in their order. They are noted under the domain's lock, which takes no memory. */
template <typename Lock> class DeadNodes final : public Due {
public:
  template <typename F> explicit DeadNodes(F &&listener) : listener_(std::forward<F>(listener)) {}

  /* Where as many wait to be told as there is room for, the first of them is forgotten. */
  void note(const NodeView &node) {
    std::lock_guard<Lock> lock(lock_);
    nodes_[noted_++ % deaths_kept] = node;
  }

private:
  void call_all() const override {
    while (auto node = next()) listener_(*node);
  }

  std::optional<NodeView> next() const {
    std::lock_guard<Lock> lock(lock_);
    if (noted_ - told_ > deaths_kept) told_ = noted_ - deaths_kept;
    if (told_ == noted_) return std::nullopt;
    return nodes_[told_++ % deaths_kept];
  }

  const std::function<void(const NodeView &)> listener_;
  mutable Lock lock_;
  std::array<NodeView, deaths_kept> nodes_ = {};
  std::uint64_t noted_ = 0;
  mutable std::uint64_t told_ = 0;
};

template <typename M> class NamedProcesses;

/* The calls of Domain. */
template <typename M> struct Nodes<M, std::void_t<M>> {
  using Node = NodeView;
  using OfPublisher = PublisherDetails;
  using OfSubscriber = SubscriberDetails;
  using Cleanup = CleanupState;

  template <typename P> static Result<Id> own(const Domain<P, M> &domain) {
    iox2ps_wide_t id = {0, 0};
    iox2ps_status_t code = Raw::call(domain, 0, [&](iox2ps_domain_t *its) { return iox2ps_domain_node_id(its, &id); });
    if (code != IOX2PS_OK) return error_of(code);
    return id_of(id);
  }

  template <typename P> static Result<std::vector<NodeView>> all(const Domain<P, M> &domain) {
    return listed<NodeView, iox2ps_node_t>(domain, iox2ps_domain_nodes);
  }
  template <typename P> static Result<std::vector<PublisherDetails>> publishers(const Domain<P, M> &domain) {
    return listed<PublisherDetails, iox2ps_port_t>(domain, iox2ps_domain_ports);
  }
  template <typename P> static Result<std::vector<SubscriberDetails>> subscribers(const Domain<P, M> &domain) {
    return listed<SubscriberDetails, iox2ps_port_t>(domain, iox2ps_domain_ports);
  }

  template <typename P> static Result<std::vector<NodeView>> dead(const Domain<P, M> &domain) {
    std::vector<NodeView> all;
    all.reserve(deaths_kept);
    iox2ps_status_t code = Raw::call(domain, 0, [&](iox2ps_domain_t *its) {
      std::uint64_t count = 0;
      iox2ps_status_t asked = iox2ps_domain_dead_node_count(its, &count);
      iox2ps_node_t node;
      for (std::uint64_t index = count - (std::min<std::uint64_t>)(count, deaths_kept); asked == IOX2PS_OK && index < count; index++) {
        asked = iox2ps_domain_dead_node(its, index, &node);
        if (asked == IOX2PS_OK) all.push_back(node_of(node));
      }
      return asked;
    });
    if (code != IOX2PS_OK) return error_of(code);
    return all;
  }

  template <typename P> static Result<CleanupState> clean_up(const Domain<P, M> &domain) {
    CleanupState state = {0};
    iox2ps_status_t code = Raw::call(domain, 0, [&](iox2ps_domain_t *its) { return iox2ps_domain_cleanup_dead_nodes(its, &state.cleanups); });
    if (code != IOX2PS_OK) return error_of(code);
    return state;
  }

  template <typename P, typename F> static Done listen(const Domain<P, M> &domain, F &&listener) {
    const Hold<M> &hold = Raw::hold(domain);
    if (!hold) return Error::NotLive;
    if (!hold.is_here()) return Error::AfterFork;
    auto &threads = hold.many();
    if (!threads.has_others()) return Error::ProcessesNotShared;
    if (!threads.is_watched()) return Error::OutOfMemory;
    tell(threads, std::make_shared<typename NamedProcesses<M>::Deaths>(std::forward<F>(listener)));
    return std::monostate{};
  }

  template <typename P> static void listen_no_longer(const Domain<P, M> &domain) {
    const Hold<M> &hold = Raw::hold(domain);
    if (hold.is_here() && hold.many().has_others()) tell(hold.many(), std::shared_ptr<typename NamedProcesses<M>::Deaths>());
  }

private:
  template <typename T, typename R, typename P, typename List> static Result<std::vector<T>> listed(const Domain<P, M> &domain, List list) {
    Listing<T, R> listing;
    iox2ps_status_t code = Raw::call(domain, 0, [&](iox2ps_domain_t *its) {
      return listing.fill([&](auto add, void *to) { return list(its, add, to); });
    });
    if (code != IOX2PS_OK) return error_of(code);
    return listing.take();
  }

  /* What was set before is dropped without the lock. */
  template <typename Deaths> static void tell(Threads<M> &threads, std::shared_ptr<Deaths> listener) {
    threads.change_others([&](OtherProcesses &others) { static_cast<NamedProcesses<M> &>(others).tell_of_deaths(listener); });
  }
};

} // namespace detail

} // namespace iox2ps

#endif
