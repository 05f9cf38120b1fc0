// SPDX-License-Identifier: Apache-2.0 OR MIT
/** @file
 * A WaitSet, for C++17: one thread waits for subscribers and publishers of several domains that threads share, and for times. The
 * names are iceoryx2's.
 *
 * An attach_ call returns a guard, which detaches when it is destroyed. A wait sleeps until there is an event, and then calls a
 * function for each attachment that has one, in the order in which they were attached:
 *
 * - A subscriber has an event as long as a message waits for it, also one that can't be received yet: where the function receives
 *   nothing it is called again at once. A message that another thread receives first isn't seen.
 * - A publisher has one when it is attached, and whenever a loan or a send that it refused may be made, or a send that is blocked may
 *   be retried. That may be for nothing: each release of a sample brings one. So it is attached while something of it waits.
 * - A Listener of a domain that processes share has one as long as it has an event that wasn't taken.
 * - A deadline is missed where a wait finds no event of the port for so long: since it was attached, had its last event, or missed
 *   it. Then it begins anew.
 * - An interval has an event whenever so much time has passed. Those that were due while the thread was elsewhere are one.
 *
 * A port that is closed is detached: nothing is called for it. stop_waits() of a domain ends the wait of each set that has a port of
 * it, once no port has an event.
 *
 * One thread at a time uses a set and its guards, as a std::vector; any thread may bring what it waits for. A guard may outlive its
 * set. The function may attach, detach, close ports and wait by this set, and it doesn't destroy or move it. What it throws leaves
 * the wait. Events that nothing was called for then, or after CallbackProgression::Stop, are there for the next wait. Memory is taken
 * where something is attached, and in no wait. */
#ifndef IOX2_PUBSUB_WAIT_SET_HPP
#define IOX2_PUBSUB_WAIT_SET_HPP

#include "iox2_pubsub_shared.hpp"

#include <algorithm>
#include <atomic>
#include <chrono>
#include <cstddef>
#include <cstdint>
#include <functional>
#include <memory>
#include <new>
#include <optional>
#include <utility>

namespace iox2ps {

/** What a function that a wait calls wants. */
enum class CallbackProgression : unsigned char {
  Stop,    /**< that the wait ends */
  Continue /**< the next event */
};

/** Why a wait has ended. */
enum class WaitSetRunResult : unsigned char {
  TerminationRequest, /**< waits are stopped in the domain of a port, and no port has an event */
  StopRequest,        /**< the function returned CallbackProgression::Stop */
  AllEventsHandled    /**< the function was called for each event, or the time has passed */
};

namespace detail {

using Clock = std::chrono::steady_clock;

/* Where the thread of a set sleeps. It is raised under the lock of a domain, for which that thread doesn't wait meanwhile. */
class Alarm {
public:
  void raise() {
    if (!is_raised_.exchange(true, std::memory_order_acq_rel)) bell_.ring();
  }
  void lower() { is_raised_.exchange(false, std::memory_order_acq_rel); }
  void sleep(Until until) { bell_.sleep(is_raised_, until); }

private:
  std::atomic<bool> is_raised_{false};
  Bell bell_;
};

/* What an attachment has. */
enum class Event : unsigned char { None, Notification, MissedDeadline };

/* What an attachment says that is asked for its event. */
struct Answer {
  bool is_live = true, has_event = false, is_stopped = false;
};

class Attachments;

/* What a guard has attached: by itself an interval. It is detached where it is destroyed. */
class Attachment {
public:
  explicit Attachment(std::optional<std::chrono::nanoseconds> period) : period_(period) { begin_anew(Clock::now()); }
  Attachment(const Attachment &) = delete;
  Attachment &operator=(const Attachment &) = delete;
  virtual ~Attachment();

  [[nodiscard]] std::uint64_t number() const { return number_; }

protected:
  void begin_anew(Clock::time_point now) { due_ = period_ ? later(now, *period_) : std::nullopt; }

private:
  friend class Attachments;

  virtual Answer look() { return {}; }

  /* What it has where it is due. */
  [[nodiscard]] virtual Event when_due() const { return Event::Notification; }

  /* Its event is handled now. An interval goes on in step with what was due before. */
  virtual void handle(Event, Clock::time_point now) {
    due_ = period_->count() == 0 ? now : later(now, *period_ - (now - *due_) % *period_);
  }

  /* Its event is left to the next wait. */
  virtual void put_off() {}

  /* No domain tells it anything any longer. */
  virtual void leave() {}

  inline static std::atomic<std::uint64_t> numbers{0};

  const std::uint64_t number_ = numbers.fetch_add(1, std::memory_order_relaxed) + 1;
  const std::optional<std::chrono::nanoseconds> period_;
  Until due_;
  Event event_ = Event::None;
  Attachments *set_ = nullptr;
  Attachment *before_ = nullptr, *after_ = nullptr;
};

/* A port. Its domain tells it what calls bring, as a language that has joined. */
template <typename M> class Member : public Attachment, private iox2ps_joined_t {
public:
  Member(const Hold<M> &hold, Brings wanted, Alarm &alarm, std::optional<std::chrono::nanoseconds> period)
      : Attachment(period), iox2ps_joined_t(), hold_(hold), wanted_(wanted), alarm_(alarm) {
    struct_size = sizeof(iox2ps_joined_t);
    wake = tell;
    connect = connect_none;
    if (hold_.many().is_watched()) hold_.many().join(*this);
    else hold_ = Hold<M>();
  }
  ~Member() override { Member::leave(); }

  /* Whether its domain tells it of what comes. */
  [[nodiscard]] bool has_joined() const { return static_cast<bool>(hold_); }

protected:
  /* It is asked in the next wait, whatever comes. */
  void put_off() override { is_told_.store(true, std::memory_order_release); }

  void handle(Event, Clock::time_point now) override { begin_anew(now); }

private:
  [[nodiscard]] Event when_due() const override { return Event::MissedDeadline; }

  /* With the lock: whether it has an event. IOX2PS_NOT_LIVE where it is closed. */
  virtual iox2ps_status_t find_event(Shared<M> &shared, bool &has_event) const = 0;

  Answer look() override {
    answer_.has_event = false;
    if (!is_told_.exchange(false, std::memory_order_acq_rel)) return answer_;
    iox2ps_status_t code = hold_.ask([this](iox2ps_domain_t *) {
      answer_.is_stopped = waits_are_stopped != 0;
      return find_event(*hold_.operator->(), answer_.has_event);
    });
    answer_.is_live = code != IOX2PS_NOT_LIVE;
    return answer_;
  }

  void leave() override {
    if (hold_.is_here()) hold_.many().leave(*this);
    hold_ = Hold<M>();
  }

  static void tell(iox2ps_joined_t *joined, std::uint32_t brings) noexcept {
    Member &told = static_cast<Member &>(*joined);
    if ((brings & told.wanted_) == 0) return;
    told.is_told_.store(true, std::memory_order_release);
    told.alarm_.raise();
  }
  static void connect_none(iox2ps_joined_t *, iox2ps_domain_t *) noexcept {}

  Hold<M> hold_;
  const Brings wanted_;
  Alarm &alarm_;
  /* Something came since it was asked. */
  std::atomic<bool> is_told_{true};
  Answer answer_;
};

/* A port that has an event as long as something waits for it: so it is asked in the next wait, too. */
template <typename M> class ReceivingMember : public Member<M> {
public:
  using Member<M>::Member;

private:
  void handle(Event event, Clock::time_point now) override {
    Member<M>::handle(event, now);
    this->put_off();
  }
};

template <typename M> class SubscriberMember final : public ReceivingMember<M> {
public:
  static constexpr Brings wanted = only(Waits::Message);

  template <typename... Words>
  explicit SubscriberMember(const iox2ps_subscriber_t &port, Words &&...words) : ReceivingMember<M>(std::forward<Words>(words)...), port_(port) {}

private:
  iox2ps_status_t find_event(Shared<M> &shared, bool &has_event) const override {
    std::uint32_t waits = 0;
    iox2ps_status_t code = iox2ps_subscriber_has_samples(&shared.domain, &port_, &waits);
    has_event = waits != 0 || code != IOX2PS_OK; /* why a receive is refused it says itself */
    return code;
  }

  const iox2ps_subscriber_t port_;
};

template <typename M> class PublisherMember final : public Member<M> {
public:
  static constexpr Brings wanted = (Waits::Room | Waits::Free) | Waits::Loan;

  template <typename... Words>
  explicit PublisherMember(const iox2ps_publisher_t &port, Words &&...words) : Member<M>(std::forward<Words>(words)...), id_(id_of(port.id)) {}

private:
  iox2ps_status_t find_event(Shared<M> &shared, bool &has_event) const override {
    for (const Sender *one = shared.open; one && !has_event; one = one->after) has_event = id_of(one->port.id) == id_;
    return has_event ? IOX2PS_OK : IOX2PS_NOT_LIVE;
  }

  const Id id_;
};

template <typename M> class ListenerMember final : public ReceivingMember<M> {
public:
  static constexpr Brings wanted = only(Waits::Event);

  template <typename... Words>
  explicit ListenerMember(std::shared_ptr<EventSource> port, Words &&...words) : ReceivingMember<M>(std::forward<Words>(words)...), port_(std::move(port)) {}

private:
  iox2ps_status_t find_event(Shared<M> &shared, bool &has_event) const override { return port_->look(&shared.domain, has_event); }

  const std::shared_ptr<EventSource> port_;
};

/* What a set has, in the order in which it was attached. */
class Attachments {
public:
  Attachments() = default;
  Attachments(const Attachments &) = delete;
  Attachments &operator=(const Attachments &) = delete;
  ~Attachments() {
    while (first_) detach(*first_);
  }

  [[nodiscard]] std::size_t len() const { return len_; }
  Alarm &alarm() { return alarm_; }

  void add(Attachment &one) {
    one.set_ = this;
    one.before_ = last_;
    (last_ ? last_->after_ : first_) = &one;
    last_ = &one;
    len_++;
  }

  void remove(Attachment &one) {
    if (due_ == &one) due_ = one.after_;
    (one.before_ ? one.before_->after_ : first_) = one.after_;
    (one.after_ ? one.after_->before_ : last_) = one.before_;
    one.set_ = nullptr;
    len_--;
  }

  /* Waits until there are events, none where the time has passed first, or waits are stopped and no port has any. */
  Result<WaitSetRunResult> wait_for_events(Until until) {
    put_off(); /* what an earlier wait has left, or one that called this */
    while (true) {
      if (!process_.is_here()) return Error::AfterFork;
      alarm_.lower();
      Found found = look_at_all();
      if (!first_) return Error::NoAttachments;
      bool is_stopped = found.is_stopped || calling().is_on;
      if (found.of_ports || (found.of_times && !is_stopped)) return WaitSetRunResult::AllEventsHandled;
      put_off();
      if (is_stopped) return WaitSetRunResult::TerminationRequest;
      if (until && *until <= now_) return WaitSetRunResult::AllEventsHandled;
      alarm_.sleep(until && found.next ? (std::min)(*until, *found.next) : until ? until : found.next);
    }
  }

  /* The next that has an event, which is handled now; Event::None where there is none. */
  Event take_event(std::uint64_t &number) {
    Attachment *one = next_due();
    if (!one) return Event::None;
    Event event = std::exchange(one->event_, Event::None);
    number = one->number_;
    one->handle(event, now_);
    return event;
  }

private:
  /* All events are left to the next wait. */
  void put_off() {
    while (Attachment *one = next_due()) {
      one->event_ = Event::None;
      one->put_off();
    }
  }

  /* Whether ports have events, and times; and when the next is due where there are none. */
  struct Found {
    bool of_ports = false, of_times = false, is_stopped = false;
    Until next;
  };

  Found look_at_all() {
    now_ = Clock::now();
    Found found;
    for (Attachment *one = first_, *after = nullptr; one; one = after) {
      after = one->after_;
      look_at(*one, found);
    }
    due_ = first_;
    return found;
  }

  void look_at(Attachment &one, Found &found) {
    Answer answer = one.look();
    if (!answer.is_live) return detach(one);
    found.is_stopped |= answer.is_stopped;
    if (answer.has_event) {
      one.event_ = Event::Notification;
      found.of_ports = true;
    } else if (one.due_ && *one.due_ <= now_) {
      one.event_ = one.when_due();
      found.of_times = true;
    } else if (one.due_) {
      found.next = found.next ? (std::min)(*found.next, *one.due_) : *one.due_;
    }
  }

  /* Its guard stays, and has nothing. */
  void detach(Attachment &one) {
    remove(one);
    one.leave();
  }

  Attachment *next_due() {
    while (due_ && due_->event_ == Event::None) due_ = due_->after_;
    return due_;
  }

  Alarm alarm_;
  OfProcess process_;
  Attachment *first_ = nullptr, *last_ = nullptr;
  std::size_t len_ = 0;
  /* No one before this has an event. */
  Attachment *due_ = nullptr;
  /* When they were looked at last. */
  Clock::time_point now_;
};

inline Attachment::~Attachment() {
  if (set_) set_->remove(*this);
}

} // namespace detail

/** Keeps something attached to a WaitSet until it is destroyed. */
class [[nodiscard]] WaitSetGuard {
public:
  WaitSetGuard(WaitSetGuard &&) noexcept = default; /**< leaves the other empty */
  /** Detaches what it had attached, and leaves the other empty. */
  WaitSetGuard &operator=(WaitSetGuard &&) noexcept = default;
  ~WaitSetGuard() = default;

private:
  friend class WaitSet;
  friend class WaitSetAttachmentId;

  explicit WaitSetGuard(std::unique_ptr<detail::Attachment> attachment) noexcept : attachment_(std::move(attachment)) {}

  std::unique_ptr<detail::Attachment> attachment_;
};

/** What a wait has called a function for. It may be the key of a std::map or a std::unordered_map. */
class WaitSetAttachmentId {
public:
  /** That of the events of what the guard has attached. No event has that of an empty guard. */
  [[nodiscard]] static WaitSetAttachmentId from_guard(const WaitSetGuard &guard) noexcept {
    return {guard.attachment_ ? guard.attachment_->number() : 0, false};
  }

  /** Whether it is an event of the guard's port, or its interval's. */
  [[nodiscard]] bool has_event_from(const WaitSetGuard &guard) const noexcept { return *this == from_guard(guard); }

  /** Whether the guard's port had no event within its deadline. */
  [[nodiscard]] bool has_missed_deadline(const WaitSetGuard &guard) const noexcept {
    return missed_ && number_ == from_guard(guard).number_;
  }

  /** Whether they are the same event of the same guard. */
  friend bool operator==(WaitSetAttachmentId a, WaitSetAttachmentId b) noexcept {
    return a.number_ == b.number_ && a.missed_ == b.missed_;
  }
  friend bool operator!=(WaitSetAttachmentId a, WaitSetAttachmentId b) noexcept { return !(a == b); } /**< whether they aren't */
  /** Whether the first was attached earlier; of one guard the missed deadline is the last. */
  friend bool operator<(WaitSetAttachmentId a, WaitSetAttachmentId b) noexcept {
    return a.number_ != b.number_ ? a.number_ < b.number_ : a.missed_ < b.missed_;
  }

private:
  friend class WaitSet;
  friend struct std::hash<WaitSetAttachmentId>;

  WaitSetAttachmentId(std::uint64_t number, bool missed) noexcept : number_(number), missed_(missed) {}

  std::uint64_t number_;
  bool missed_;
};

/** Waits for subscribers and publishers of several domains, and for times, as the head of this file says. One that was moved from is
 * empty: it attaches nothing and doesn't wait, and its calls return Error::NotLive. */
class WaitSet {
public:
  /** Makes a set. Error::OutOfMemory. */
  static Result<WaitSet> create() {
    if (!detail::count_forks()) return Error::OutOfMemory;
    std::unique_ptr<detail::Attachments> made(new (std::nothrow) detail::Attachments);
    if (!made) return Error::OutOfMemory;
    return WaitSet(std::move(made));
  }

  explicit operator bool() const noexcept { return all_ != nullptr; } /**< whether it is a set */
  /** How much is attached. */
  [[nodiscard]] std::size_t len() const noexcept { return all_ ? all_->len() : 0; }
  [[nodiscard]] bool is_empty() const noexcept { return len() == 0; } /**< whether nothing is */

  /** Attaches a subscriber of a SharedDomain. Error::NotLive where it is closed, Error::OutOfMemory, Error::AfterFork. */
  template <typename P, typename M> Result<WaitSetGuard> attach_notification(const Subscriber<P, M> &subscriber) {
    return attach<detail::SubscriberMember, M>(subscriber, std::nullopt);
  }
  /** The same of a publisher. */
  template <typename P, typename M> Result<WaitSetGuard> attach_notification(const Publisher<P, M> &publisher) {
    return attach<detail::PublisherMember, M>(publisher, std::nullopt);
  }

  /** The same of a Listener of events. */
  template <typename M> Result<WaitSetGuard> attach_notification(const Listener<M> &listener) {
    return attach<detail::ListenerMember, M>(listener, std::nullopt);
  }

  /** Attaches a subscriber with a deadline: there is an event too where it has none of its own for so long. Errors as of
   * attach_notification(). */
  template <typename P, typename M>
  Result<WaitSetGuard> attach_deadline(const Subscriber<P, M> &subscriber, std::chrono::nanoseconds deadline) {
    return attach<detail::SubscriberMember, M>(subscriber, deadline);
  }
  /** The same of a publisher. */
  template <typename P, typename M>
  Result<WaitSetGuard> attach_deadline(const Publisher<P, M> &publisher, std::chrono::nanoseconds deadline) {
    return attach<detail::PublisherMember, M>(publisher, deadline);
  }

  /** The same of a Listener. */
  template <typename M> Result<WaitSetGuard> attach_deadline(const Listener<M> &listener, std::chrono::nanoseconds deadline) {
    return attach<detail::ListenerMember, M>(listener, deadline);
  }

  /** Attaches an interval: there is an event whenever so much time has passed; of zero or less, in each wait. Error::OutOfMemory. */
  Result<WaitSetGuard> attach_interval(std::chrono::nanoseconds interval) {
    if (!all_) return Error::NotLive;
    return added(new (std::nothrow) detail::Attachment(at_least_zero(interval)));
  }

  /** Waits and calls the function with the WaitSetAttachmentId of each event, again and again, until it returns
   * CallbackProgression::Stop or waits are stopped. Error::NoAttachments where nothing is attached any longer, Error::AfterFork. */
  template <typename F> Result<WaitSetRunResult> wait_and_process(F &&call) {
    while (true) {
      auto ended = process(call, std::nullopt);
      if (!ended || *ended != WaitSetRunResult::AllEventsHandled) return ended;
    }
  }

  /** Waits once, and calls the function for each event that there is then. Errors as of wait_and_process(). */
  template <typename F> Result<WaitSetRunResult> wait_and_process_once(F &&call) { return process(call, std::nullopt); }

  /** The same, for so long at most. */
  template <typename F> Result<WaitSetRunResult> wait_and_process_once_with_timeout(F &&call, std::chrono::nanoseconds timeout) {
    return process(call, detail::after(timeout));
  }

private:
  explicit WaitSet(std::unique_ptr<detail::Attachments> all) noexcept : all_(std::move(all)) {}

  static std::chrono::nanoseconds at_least_zero(std::chrono::nanoseconds time) {
    return (std::max)(time, std::chrono::nanoseconds(0));
  }

  template <template <typename> class Member, typename M, typename Port>
  Result<WaitSetGuard> attach(const Port &port, std::optional<std::chrono::nanoseconds> period) {
    const detail::Hold<M> &hold = detail::Raw::hold(port);
    if (!all_ || !port) return Error::NotLive;
    if (!hold.is_here()) return Error::AfterFork;
    static_cast<void>(hold.many()); /* its words are better than those about what is missing below */
    if (period) period = at_least_zero(*period);
    using Made = Member<M>;
    std::unique_ptr<Made> made(new (std::nothrow) Made(detail::Raw::port(port), hold, Made::wanted, all_->alarm(), period));
    return added(made && made->has_joined() ? made.release() : nullptr);
  }

  Result<WaitSetGuard> added(detail::Attachment *made) {
    if (!made) return Error::OutOfMemory;
    all_->add(*made);
    return WaitSetGuard(std::unique_ptr<detail::Attachment>(made));
  }

  template <typename F> Result<WaitSetRunResult> process(F &call, Until until) {
    if (!all_) return Error::NotLive;
    auto waited = all_->wait_for_events(until);
    if (!waited) return waited;
    std::uint64_t number = 0;
    for (auto event = all_->take_event(number); event != detail::Event::None; event = all_->take_event(number)) {
      WaitSetAttachmentId id(number, event == detail::Event::MissedDeadline);
      if (call(id) == CallbackProgression::Stop) return WaitSetRunResult::StopRequest;
    }
    return waited;
  }

  std::unique_ptr<detail::Attachments> all_;
};

} // namespace iox2ps

/** So that an id may be the key of a std::unordered_map. */
template <> struct std::hash<iox2ps::WaitSetAttachmentId> {
  std::size_t operator()(iox2ps::WaitSetAttachmentId id) const noexcept { /**< of one */
    return std::hash<std::uint64_t>()(id.number_ << 1 | (id.missed_ ? 1u : 0u));
  }
};

#endif
