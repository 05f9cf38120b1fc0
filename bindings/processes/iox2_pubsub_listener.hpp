// SPDX-License-Identifier: Apache-2.0 OR MIT
/** @file
 * Events, by which processes that share a domain tell each other that something happened, without a message: Notifier and Listener. It is
 * included by iox2_pubsub_processes.hpp.
 *
 *     auto notifier = domain.notifier(iox2ps::EventId(3)).expect("a notifier");
 *     auto told = notifier.notify().expect("a notification");
 *
 * and in another process, or in this one:
 *
 *     auto listener = domain.listener().expect("a listener");
 *     for (auto event_id : listener.blocking_wait_all().expect("events")) std::printf("%zu\n", event_id.as_value());
 *
 * Which events there are, and that none is lost, iox2_pubsub_processes.h says at iox2ps_listener_t. */
#ifndef IOX2_PUBSUB_LISTENER_HPP
#define IOX2_PUBSUB_LISTENER_HPP

#include "iox2_pubsub_processes.h"
#include "iox2_pubsub_shared.hpp"

#include <chrono>
#include <cstddef>
#include <cstdint>
#include <iterator>
#include <memory>
#include <optional>
#include <type_traits>
#include <utility>

namespace iox2ps {

/** The number of an event. */
class EventId {
public:
  static constexpr std::size_t max_value = IOX2PS_EVENT_ID_MAX_VALUE; /**< the largest that may be notified */

  constexpr EventId() = default;                                               /**< 0 */
  constexpr explicit EventId(std::size_t value) : value_(value) {}             /**< this number */
  [[nodiscard]] constexpr std::size_t as_value() const { return value_; }      /**< the number */
  friend constexpr bool operator==(EventId one, EventId other) { return one.value_ == other.value_; } /**< whether they are the same */
  friend constexpr bool operator!=(EventId one, EventId other) { return !(one == other); }            /**< whether they aren't */
  friend constexpr bool operator<(EventId one, EventId other) { return one.value_ < other.value_; }   /**< by their numbers */

private:
  std::size_t value_ = 0;
};

/** Some events, each once, which are gone over by their numbers. */
class EventIds {
public:
  EventIds() = default; /**< none */

  /** Goes over them. */
  class iterator {
  public:
    using iterator_category = std::input_iterator_tag; /**< its values aren't kept anywhere */
    using value_type = EventId;                        /**< what it goes over */
    using difference_type = std::ptrdiff_t;            /**< between two */
    using pointer = const EventId *;                   /**< to one */
    using reference = EventId;                         /**< one */

    EventId operator*() const { return EventId(at_); } /**< the event */
    /** The next. */
    iterator &operator++() {
      at_ = all_->from(at_ + 1);
      return *this;
    }
    /** The next, and returns this one. */
    iterator operator++(int) {
      iterator before = *this;
      ++*this;
      return before;
    }
    friend bool operator==(iterator one, iterator other) { return one.at_ == other.at_; } /**< of the same events */
    friend bool operator!=(iterator one, iterator other) { return !(one == other); }      /**< of the same events */

  private:
    friend class EventIds;
    iterator(const EventIds *all, std::size_t at) : all_(all), at_(at) {}

    const EventIds *all_;
    std::size_t at_;
  };

  [[nodiscard]] iterator begin() const { return {this, from(0)}; }                  /**< the first */
  [[nodiscard]] iterator end() const { return {this, EventId::max_value + 1}; }     /**< past the last */
  [[nodiscard]] bool empty() const { return begin() == end(); }                     /**< whether there is none */
  [[nodiscard]] std::size_t size() const { return static_cast<std::size_t>(std::distance(begin(), end())); } /**< how many there are */
  /** Whether the event is among them. */
  [[nodiscard]] bool contains(EventId event_id) const { return iox2ps_event_ids_have(&raw_, event_id.as_value()) != 0; }

private:
  template <typename M> friend class Listener;
  friend class detail::Heard;

  /* The first from this number on; past the last where there is none. */
  [[nodiscard]] std::size_t from(std::size_t at) const {
    while (at <= EventId::max_value && !contains(EventId(at))) at++;
    return at;
  }
  void add(const iox2ps_event_ids_t &others) {
    for (std::size_t word = 0; word < std::size(raw_.words); word++) raw_.words[word] |= others.words[word];
  }
  void remove(EventId event_id) { raw_.words[event_id.as_value() / 64] &= ~(std::uint64_t(1) << event_id.as_value() % 64); }

  iox2ps_event_ids_t raw_ = {};
};

namespace detail {

/* What a listener has heard, and hasn't told yet. It is used under the domain's lock. */
class Heard final : public EventSource {
public:
  explicit Heard(const iox2ps_listener_t &port) : port_(port) {}

  /* Adds what came, or waits for it so long where nothing did. IOX2PS_NO_SAMPLE where nothing is there then. */
  iox2ps_status_t hear(iox2ps_domain_t *domain, std::uint64_t timeout_ns) {
    iox2ps_event_ids_t came = {};
    iox2ps_status_t code = iox2ps_listener_timed_wait_all(domain, &port_, ids_.empty() ? timeout_ns : 0, &came);
    if (code == IOX2PS_OK) ids_.add(came);
    if (code != IOX2PS_PROCESSES_TIMED_OUT) return code;
    return ids_.empty() ? IOX2PS_NO_SAMPLE : IOX2PS_OK;
  }

  iox2ps_status_t look(iox2ps_domain_t *domain, bool &has_event) override {
    iox2ps_status_t code = hear(domain, 0);
    has_event = code == IOX2PS_OK;
    return code;
  }

  /* By turns, so that none keeps others back. Something is there. */
  EventId take_one() {
    std::size_t found = ids_.from(next_);
    EventId taken(found <= EventId::max_value ? found : ids_.from(0));
    ids_.remove(taken);
    next_ = taken.as_value() + 1;
    return taken;
  }
  EventIds take_all() { return std::exchange(ids_, EventIds()); }

  iox2ps_status_t close(iox2ps_domain_t *domain) const { return iox2ps_listener_close(domain, &port_); }
  [[nodiscard]] Id id() const { return id_of(port_.id); }
  /* By which those who wait are told apart: no port of messages has such a number. */
  [[nodiscard]] iox2ps_wide_t key() const { return {port_.id.low, UINT64_MAX}; }

private:
  const iox2ps_listener_t port_;
  EventIds ids_;
  std::size_t next_ = 0;
};

} // namespace detail

/** Tells all listeners of a domain, in whichever process, that something happened. It may be used by several threads where the domain
 * is, and keeps the domain. */
template <typename M> class Notifier {
public:
  Notifier(Notifier &&) noexcept = default;            /**< leaves the other empty */
  Notifier &operator=(Notifier &&) noexcept = default; /**< leaves the other empty */
  ~Notifier() = default;

  explicit operator bool() const { return static_cast<bool>(hold_); }                                                 /**< whether it notifies */
  [[nodiscard]] EventId default_event_id() const { return EventId(port_.default_event_id); }                          /**< that of notify() */
  /** Notifies by its own event, and returns how many listeners there are. As the next. */
  Result<std::size_t> notify() const { return notify_with_custom_event_id(default_event_id()); }
  /** Notifies by this event, and returns how many listeners there are: they find all that was called before, as a message that was sent
   * first. Error::NotifyEventIdOutOfBounds where the number is above EventId::max_value, and nobody is notified. */
  Result<std::size_t> notify_with_custom_event_id(EventId event_id) const {
    if (!hold_) return Error::NotLive;
    std::size_t listeners = 0;
    iox2ps_status_t code = hold_.call(only(detail::Waits::Event), [&](iox2ps_domain_t *domain) {
      return iox2ps_notifier_notify_with_custom_event_id(domain, &port_, event_id.as_value(), &listeners);
    });
    if (code != IOX2PS_OK) return detail::error_of(code);
    return listeners;
  }

private:
  friend struct detail::Events<M>;

  Notifier(detail::Hold<M> hold, const iox2ps_notifier_t &port) : hold_(std::move(hold)), port_(port) {}

  detail::Hold<M> hold_;
  iox2ps_notifier_t port_;
};

/** Hears of notifications since it was made, also of its own process', until it is destroyed: each event once, however often it came since
 * it was told last. Where several threads have the domain, several may wait here, and each event is told to one of them. */
template <typename M> class Listener {
public:
  Listener(Listener &&) noexcept = default; /**< leaves the other empty */
  /** Closes what it was, and leaves the other empty. */
  Listener &operator=(Listener &&other) noexcept {
    if (this != &other) {
      close();
      hold_ = std::move(other.hold_);
      open_ = other.open_;
      heard_ = std::move(other.heard_);
    }
    return *this;
  }
  ~Listener() { close(); }

  explicit operator bool() const { return hold_ && open_; } /**< whether it is open */
  /** That no other listener of its domain has. */
  [[nodiscard]] Id id() const { return *this ? heard_->id() : Id{0, 0}; }

  /** An event that came, of several by turns; or none. */
  Result<std::optional<EventId>> try_wait_one() { return one(now()); }
  /** The same; waits for one, or, where a time is given, until that has passed, or until waits are stopped. */
  Result<std::optional<EventId>> blocking_wait_one(Until until = {}) { return one(until); }
  /** The same, for so long. */
  Result<std::optional<EventId>> timed_wait_one(std::chrono::nanoseconds timeout) { return one(detail::after(timeout)); }

  /** All events that came, or none. */
  Result<EventIds> try_wait_all() { return all(now()); }
  /** The same; waits as blocking_wait_one() does. */
  Result<EventIds> blocking_wait_all(Until until = {}) { return all(until); }
  /** The same, for so long. */
  Result<EventIds> timed_wait_all(std::chrono::nanoseconds timeout) { return all(detail::after(timeout)); }

  /** Closes it. Other threads that wait for an event of it then return Error::NotLive. */
  void close() {
    if (!heard_) return;
    iox2ps_wide_t key = heard_->key();
    hold_.close(open_, 0, detail::id_of(key), [&](iox2ps_domain_t *domain) { return heard_->close(domain); });
  }

private:
  friend struct detail::Events<M>;
  friend struct detail::Raw;

  Listener(detail::Hold<M> hold, const iox2ps_listener_t &port)
      : hold_(std::move(hold)), heard_(std::make_shared<detail::Heard>(port)), port_(heard_) {}

  /* A time that has passed: it is looked once. */
  static Until now() { return (std::chrono::steady_clock::time_point::min)(); }

  Result<std::optional<EventId>> one(Until until) {
    std::optional<EventId> taken;
    iox2ps_status_t code = wait(until, [&] { taken = heard_->take_one(); });
    if (code != IOX2PS_OK && code != IOX2PS_NO_SAMPLE) return detail::error_of(code);
    return taken;
  }

  Result<EventIds> all(Until until) {
    EventIds taken;
    iox2ps_status_t code = wait(until, [&] { taken = heard_->take_all(); });
    if (code != IOX2PS_OK && code != IOX2PS_NO_SAMPLE) return detail::error_of(code);
    return taken;
  }

  template <typename Take> iox2ps_status_t wait(Until until, Take &&take) {
    if (!hold_) return IOX2PS_NOT_LIVE;
    auto hear = [&](iox2ps_domain_t *domain, std::uint64_t timeout_ns) {
      iox2ps_status_t code = heard_->hear(domain, timeout_ns);
      if (code == IOX2PS_OK) take();
      return code;
    };
    if constexpr (detail::is_shared<M>) {
      return hold_.wait(detail::Waits::Event, heard_->key(), 0, until, [&](iox2ps_domain_t *domain) { return hear(domain, 0); });
    } else {
      return hold_.ask([&](iox2ps_domain_t *domain) { return hear(domain, detail::left_until(until)); });
    }
  }

  detail::Hold<M> hold_;
  typename detail::Threads<M>::Open open_;
  std::shared_ptr<detail::Heard> heard_;
  std::shared_ptr<detail::EventSource> port_; /* what a WaitSet asks */
};

namespace detail {

/* The calls of Domain. */
template <typename M> struct Events<M, std::void_t<M>> {
  using Number = EventId;
  using Notifies = iox2ps::Notifier<M>;
  using Listens = iox2ps::Listener<M>;

  template <typename P> static Result<Notifies> notifier(const Domain<P, M> &domain, EventId default_event_id) {
    iox2ps_notifier_t port;
    iox2ps_status_t code = Raw::call(domain, 0, [&](iox2ps_domain_t *its) {
      return iox2ps_notifier_create(its, default_event_id.as_value(), &port);
    });
    if (code != IOX2PS_OK) return error_of(code);
    return Notifies(Raw::hold(domain), port);
  }

  template <typename P> static Result<Listens> listener(const Domain<P, M> &domain) {
    iox2ps_listener_t port;
    iox2ps_status_t code = Raw::call(domain, 0, [&](iox2ps_domain_t *its) { return iox2ps_listener_create(its, &port); });
    if (code != IOX2PS_OK) return error_of(code);
    return Listens(Raw::hold(domain), port);
  }
};

} // namespace detail

} // namespace iox2ps

#endif
