// SPDX-License-Identifier: Apache-2.0 OR MIT
/** @file
 * What tells that a message may have come in a domain that several threads use: listeners, and on Linux a file descriptor.
 * It is included by iox2_pubsub_shared.hpp. */
#ifndef IOX2_PUBSUB_EVENTS_HPP
#define IOX2_PUBSUB_EVENTS_HPP

#include "iox2_pubsub.hpp"

#include <atomic>
#include <functional>
#include <memory>
#include <mutex>
#include <optional>
#include <utility>
#include <vector>

#ifdef __linux__
#include <sys/eventfd.h>
#include <unistd.h>
#endif

namespace iox2ps {

namespace detail {

class Due;

/* Whether this thread calls listeners, and the first of those that are to be called after them. */
struct Calling {
  bool is_on;
  Due *first;
};

inline Calling &calling() {
  static thread_local Calling own = {false, nullptr};
  return own;
}

/* What is to be called once the lock was given back. Nothing here takes memory, since a call that brings something may be that of a
 * destructor. */
class Due {
public:
  Due() = default;
  Due(const Due &) = delete;
  Due &operator=(const Due &) = delete;
  virtual ~Due() = default;

  /* Calls it, and then what is due because of that: so a listener that sends isn't called inside of itself. */
  static void call(std::shared_ptr<Due> due) noexcept {
    Calling &mine = calling();
    if (mine.is_on) return put_off(mine, std::move(due));
    mine.is_on = true;
    while (due) {
      due->call_all();
      due = take(mine);
    }
    mine.is_on = false;
  }

private:
  virtual void call_all() const = 0;

  /* Where another thread has put it off, that one calls it after this. */
  static void put_off(Calling &mine, std::shared_ptr<Due> due) {
    if (due->is_put_off_.exchange(true, std::memory_order_acq_rel)) return;
    Due *it = due.get();
    it->next_ = std::exchange(mine.first, it);
    it->itself_ = std::move(due);
  }

  static std::shared_ptr<Due> take(Calling &mine) {
    Due *it = mine.first;
    if (!it) return nullptr;
    mine.first = it->next_;
    std::shared_ptr<Due> due = std::move(it->itself_);
    it->is_put_off_.exchange(false, std::memory_order_acq_rel);
    return due;
  }

  std::atomic<bool> is_put_off_{false};
  /* The thread's that has put it off: the next of those that it is to call, and what keeps this one. */
  Due *next_ = nullptr;
  std::shared_ptr<Due> itself_;
};

/* What a WaitSet asks under the domain's lock whether it has an event. IOX2PS_NOT_LIVE where it is closed. */
class EventSource {
public:
  virtual iox2ps_status_t look(iox2ps_domain_t *domain, bool &has_event) = 0;

protected:
  ~EventSource() = default;
};
class Heard;

/* What is called when a message may have come for a subscriber. */
using Listener = std::shared_ptr<const std::function<void()>>;

/* The listeners of a domain's subscribers, in the order of their ids. They have a lock of their own. */
template <typename Lock> class Listeners final : public Due {
public:
  /* The port's is this from now on, or none. Returns the one before, which is dropped without the lock. */
  Listener set(Id port, Listener listener) {
    std::lock_guard<Lock> lock(lock_);
    auto at = all_.begin();
    while (at != all_.end() && at->port < port) ++at;
    if (at == all_.end() || at->port != port) {
      if (listener) all_.insert(at, {port, std::move(listener)});
      return nullptr;
    }
    std::swap(at->listener, listener);
    if (!at->listener) all_.erase(at);
    return listener;
  }

private:
  struct One {
    Id port;
    Listener listener;
  };

  void call_all() const override {
    for (One one = after(std::nullopt); one.listener; one = after(one.port)) (*one.listener)();
  }

  /* The first that comes after this port: so none is passed over where others come and go meanwhile. */
  One after(std::optional<Id> port) const {
    std::lock_guard<Lock> lock(lock_);
    for (const One &one : all_) {
      if (!port || *port < one.port) return one;
    }
    return {{0, 0}, nullptr};
  }

  mutable Lock lock_;
  std::vector<One> all_;
};

} // namespace detail

#ifdef __linux__
/** A file descriptor that is readable when a message may have come for its subscriber, until reset(), for poll, epoll and event
 * loops. It begins readable. Copies are the same descriptor, which is closed with the last of them and the listener; a child of the
 * process leaves it open. */
class MessageFd {
public:
  [[nodiscard]] int fd() const { return raised_->fd; } /**< the descriptor, which isn't to be closed or read */

  /** Lets it be readable no longer. Reset it first, and then receive until nothing waits: so no message is missed. In a child of the
   * process that made it nothing is done, so that the signal stays the parent's. */
  void reset() const {
    if (!raised_->process.is_here()) return;
    std::uint64_t count = 0;
    static_cast<void>(!::read(raised_->fd, &count, sizeof count));
    raised_->is_raised.exchange(false, std::memory_order_acq_rel);
  }

private:
  template <typename P, typename M> friend class Subscriber;

  struct Raised {
    int fd = ::eventfd(1, EFD_CLOEXEC | EFD_NONBLOCK);
    std::atomic<bool> is_raised{true};
    detail::OfProcess process;
    Raised() = default;
    Raised(const Raised &) = delete;
    Raised &operator=(const Raised &) = delete;
    ~Raised() {
      if (fd >= 0 && process.is_here()) ::close(fd);
    }
  };

  static Result<MessageFd> create() {
    auto raised = std::make_shared<Raised>();
    if (raised->fd < 0) return Error::NoDescriptor;
    return MessageFd(std::move(raised));
  }

  explicit MessageFd(std::shared_ptr<Raised> raised) : raised_(std::move(raised)) {}

  /* Written once until it is reset. There is always room for 1. */
  void raise() const {
    if (raised_->is_raised.exchange(true, std::memory_order_acq_rel)) return;
    std::uint64_t one = 1;
    static_cast<void>(!::write(raised_->fd, &one, sizeof one));
  }

  std::shared_ptr<Raised> raised_;
};
#endif

} // namespace iox2ps

#endif
