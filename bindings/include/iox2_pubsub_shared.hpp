// SPDX-License-Identifier: Apache-2.0 OR MIT
/** @file
 * Domains that several threads use at a time, for C++17: the classes of iox2_pubsub.hpp over a lock.
 *
 * Each call of the library is made under the domain's lock, so that all calls are one list, as for one thread. A handle
 * may be given to another thread, and the calls of one publisher or subscriber that are const or receive, loan and send
 * may be made by several at a time. A message is written and read without the lock: by the thread that has its loan, and
 * by those that have its samples. A Loan, a Sample and a BlockedSend are used by one thread at a time, as a std::vector
 * is; several may read one Sample.
 *
 * blocking_.. and timed_.. calls wait for a message, for room, for a publisher's earlier send, or for a loan. Whoever waits
 * is in the domain's list, and is woken by the call that may have brought something: one after the other, so
 * that those who are woken don't all want the lock at once. stop_waits of the domain ends all waits. close() of a publisher or a
 * subscriber, which may be called while other threads wait in it, ends these alone: they return Error::NotLive. So the handle
 * keeps the domain until it goes. Nobody moves or destroys a handle that another thread uses.
 *
 * The lock is a std::mutex. Another may be brought: a class with lock() and unlock() that no other thread passes between the
 * two, as SharedDomain<P, MyLock>. One that knows priorities says `static constexpr bool wakes_all = true;`, so that nobody
 * waits until a thread that was woken earlier, and may have a lower priority, has had its turn.
 * `static constexpr unsigned looks = 0;` says that a thread sleeps at once, and looks for no change first.
 *
 * set_listener and message_fd of a subscriber let a receive fit into an event loop: a function is called, or a file descriptor
 * is readable, when a message may have come. iox2_pubsub_wait_set.hpp waits for several at once.
 *
 * share() of the domain hands it to another language of the same process, as iox2_pubsub_shared.h says: its calls are made under the
 * same lock, and wake those who wait here.
 *
 * Nothing more is thrown than by iox2_pubsub.hpp, but std::bad_alloc by these two. No call on a message takes memory, also where a
 * thread waits for the first time; only connections do, which are made when a port is, or by an update. A lock that throws where a
 * thread waits ends the program. */
#ifndef IOX2_PUBSUB_SHARED_HPP
#define IOX2_PUBSUB_SHARED_HPP

#include "iox2_pubsub.hpp"
#include "iox2_pubsub_events.hpp"
#include "iox2_pubsub_shared.h"

#include <array>
#include <atomic>
#include <condition_variable>
#include <memory>
#include <mutex>
#include <new>
#include <thread>

namespace iox2ps {

namespace detail {

/* What wakes one that sleeps. */
class Ringer {
public:
  virtual void ring() = 0;

protected:
  ~Ringer() = default;
};

/* Where threads sleep until they are woken. Whoever wakes a thread may come late, when its call and the thread itself are gone: so
 * bells are never destroyed. A thread that shares its bell with another is woken for that one too, and sleeps on. */
class Bell final : public Ringer {
public:
  void ring() override {
    { std::lock_guard<std::mutex> lock(mutex_); }
    signal_.notify_all();
  }

  void sleep(const std::atomic<bool> &is_woken, Until until) {
    std::unique_lock<std::mutex> lock(mutex_);
    auto is_so = [&] { return is_woken.load(std::memory_order_acquire); };
    if (until) signal_.wait_until(lock, *until, is_so);
    else signal_.wait(lock, is_so);
  }

private:
  std::mutex mutex_;
  std::condition_variable signal_;
};

/* The bells of all threads, which are made with the first domain: so no thread takes memory where it first waits. They are never
 * destroyed, since a destructor at the end of the program may wait too. A child of the process begins with new ones: a thread that
 * it doesn't have may have been at one of those. */
class Bells {
public:
  static Bells &all() {
    static Bells &all = made();
    return all;
  }

  /* This thread's. */
  Bell &own() {
    static thread_local const std::size_t at = threads_.fetch_add(1, std::memory_order_relaxed) % bells_.size();
    return bells_[at];
  }

private:
  static Bells &made() {
    Bells &all = made_anew();
#if defined(__unix__) || defined(__APPLE__)
    static_cast<void>(pthread_atfork(nullptr, nullptr, [] { static_cast<void>(made_anew()); }));
#endif
    return all;
  }

  static Bells &made_anew() {
    alignas(Bells) static unsigned char place[sizeof(Bells)];
    return *new (place) Bells;
  }

  std::array<Bell, 256> bells_;
  std::atomic<std::size_t> threads_{0};
};

/* A thread that waits in a domain, for as long as its call does. But for the last field all of it is used under the lock. */
struct Waiting {
  Waits what;
  Id port;
  Bell &bell;
  /* What wakes it: its bell, or what it sleeps in for all of the process. */
  Ringer *ringer = &bell;
  /* Something came that may help; it was woken, and isn't back yet. */
  bool is_due = false, is_awake = false;
  Waiting *before = nullptr, *after = nullptr;
  std::atomic<bool> is_woken{false};
};

/* Whatever a call may bring. */
inline constexpr Brings everything = IOX2PS_BRINGS_MESSAGE | IOX2PS_BRINGS_ROOM | IOX2PS_BRINGS_FREE | IOX2PS_BRINGS_LOAN | only(Waits::Event);

/* What may bring what is waited for. */
constexpr Brings helped_by(Waits what) { return what == Waits::Loan ? Waits::Loan | Waits::Free : only(what); }

/* Those who wait in a domain. All of it is used under the lock. */
class WaitingList {
public:
  [[nodiscard]] bool is_anybody_told() const { return told_ > 0; }

  /* Listeners are told from now on. */
  void has_listeners() { told_++; }

  /* Another language joins, which has its own list of those who wait there. */
  void join(iox2ps_joined_t &one) {
    one.before_ = nullptr;
    one.after_ = joined_;
    if (joined_) joined_->before_ = &one;
    joined_ = &one;
    told_++;
  }

  void leave(iox2ps_joined_t &one) {
    (one.before_ ? one.before_->after_ : joined_) = one.after_;
    if (one.after_) one.after_->before_ = one.before_;
    told_--;
  }

  /* Does this with each that has joined. */
  template <typename Do> void each_joined(Do &&with) {
    for (iox2ps_joined_t *one = joined_; one; one = one->after_) with(*one);
  }

  /* A thread begins to wait. */
  void add(Waiting &one) {
    one.is_due = one.is_awake = false;
    one.is_woken.store(false, std::memory_order_relaxed);
    one.before = last_;
    one.after = nullptr;
    (last_ ? last_->after : first_) = &one;
    last_ = &one;
    told_++;
  }

  /* It is back: by a wake-up, because its time is up, or for no reason. */
  void remove(Waiting &one) {
    if (one.is_awake) awake_--;
    (one.before ? one.before->after : first_) = one.after;
    (one.after ? one.after->before : last_) = one.before;
    told_--;
  }

  /* Something came that may help those who wait for it. One that is awake tries again anyway. */
  void bring(Brings brings) {
    for (Waiting *one = first_; one; one = one->after) {
      if (!one->is_awake && (brings & helped_by(one->what)) != 0) one->is_due = true;
    }
    if (brings != 0) each_joined([brings](iox2ps_joined_t &one) { one.wake(&one, brings); });
  }

  /* Nothing came for this subscriber, so that no other thread finds it there. */
  void nothing_for(Id port) {
    for (Waiting *one = first_; one; one = one->after) {
      if (one->what == Waits::Message && one->port == port) one->is_due = false;
    }
  }

  /* This port was closed, and each that waits for it finds that. */
  void end(Id port) {
    for (Waiting *one = first_; one; one = one->after) {
      if (!one->is_awake && one->port == port) one->is_due = true;
    }
  }

  /* What they wait for. */
  [[nodiscard]] Brings wanted() const {
    Brings all = joined_ ? everything : 0;
    for (const Waiting *one = first_; one; one = one->after) all |= helped_by(one->what);
    return all;
  }

  /* Somebody to wake once the lock was given back, who sleeps for all then; nobody, where another thread is awake that will come here. */
  Ringer *any() { return first_ && awake_ == 0 ? &rouse(*first_) : nullptr; }

  /* To wake those who only sleep for others. */
  void end_watch() {
    for (Waiting *one = first_; one; one = one->after) {
      if (one->what == Waits::Nothing && !one->is_awake) rouse(*one).ring();
    }
  }

  /* Whom to wake once the lock was given back: the first whom something may help. Nobody, where another thread is awake that
   * will come here, and so wake the next. */
  Ringer *next() {
    for (Waiting *one = first_; one; one = one->after) {
      if (awake_ > 0) break;
      if (one->is_due) return &rouse(*one);
    }
    return nullptr;
  }

  /* Wakes all whom something may help. */
  void wake_all() {
    for (Waiting *one = first_; one; one = one->after) {
      if (one->is_due) rouse(*one).ring();
    }
  }

private:
  Ringer &rouse(Waiting &one) {
    one.is_due = false;
    one.is_awake = true;
    awake_++;
    one.is_woken.store(true, std::memory_order_release);
    return *one.ringer;
  }

  Waiting *first_ = nullptr, *last_ = nullptr;
  /* How many are told what comes, with 1 for listeners; and how many of those who slept were woken. */
  std::size_t told_ = 0, awake_ = 0;
  iox2ps_joined_t *joined_ = nullptr;
};

/* Whether a call that waits for this tries again after this code. */
inline bool waits_on(Waits what, iox2ps_status_t code) {
  switch (what) {
  case Waits::Nothing:
  case Waits::Message:
  case Waits::Event: return code == IOX2PS_NO_SAMPLE;
  case Waits::Room: return code == IOX2PS_BLOCKED;
  case Waits::Free: return code == IOX2PS_PUBLISHER_IS_BLOCKED;
  case Waits::Loan: break;
  }
  return code == IOX2PS_PUBLISHER_IS_BLOCKED || code == IOX2PS_LOAN_ERROR_EXCEEDS_MAX_LOANS
      || code == IOX2PS_LOAN_ERROR_OUT_OF_MEMORY;
}

/* The other processes that have a domain: iox2_pubsub_processes.hpp has them. All is called under the lock, but for what says nothing of
 * it. One thread at a time sleeps here for all of the process. */
class OtherProcesses : public Ringer {
public:
  OtherProcesses() = default;
  OtherProcesses(const OtherProcesses &) = delete;
  OtherProcesses &operator=(const OtherProcesses &) = delete;
  virtual ~OtherProcesses() = default;

  /* What calls of all processes have brought since this was asked last; and what is due for those that died meanwhile. */
  virtual Brings news(std::shared_ptr<Due> &deaths) = 0;
  /* A thread is to sleep until other processes bring one of these, or of those said before. It asks for news afterwards. */
  virtual std::uint64_t begin_sleep(Brings brings) = 0;
  /* Without the lock: sleeps until they have done so since then, or ring() was called, or for a while. */
  virtual void sleep(std::uint64_t begun, Until until) = 0;

  /* How many calls are made of all processes; how often a thread looks for more before it sleeps; and, without the lock, whether there are. */
  virtual std::uint64_t calls() = 0;
  virtual unsigned looks() const = 0;
  virtual bool are_ahead(std::uint64_t calls) const = 0;

  /* Without the lock: lets a thread of its own sleep for all from now on, if there can be one. */
  virtual bool watch() = 0;
  /* The domain goes, and not in that thread; or false, and it does so there, later. */
  virtual bool may_go() = 0;
  virtual void end() = 0;
};

/* A domain as another language has it, which keeps it until the last gives it back. */
template <typename P, typename M> class Handed final : public iox2ps_shared_domain_t {
public:
  explicit Handed(const Domain<P, M> &domain) : iox2ps_shared_domain_t(), domain_(domain) {
    struct_size = sizeof(iox2ps_shared_domain_t);
    version = iox2ps_version();
    is_slice = detail::is_slice<P> ? 1 : 0;
    element_size = sizeof(Element<P>);
    element_alignment = alignof(Element<P>);
    call = make_calls;
    join = add;
    leave = remove;
    stop_waits = stop;
    keep = count;
    release = give_back;
  }

private:
  using Itself = const iox2ps_shared_domain_t *;

  static const Handed &of(Itself shared) { return static_cast<const Handed &>(*shared); }

  static iox2ps_status_t make_calls(Itself shared, std::uint32_t brings, iox2ps_make_t make, void *what) noexcept {
    const Domain<P, M> &domain = of(shared).domain_;
    return Raw::call(domain, brings & everything, [&](iox2ps_domain_t *its) {
      iox2ps_status_t code = make(its, what);
      if (code == IOX2PS_OK && (brings & IOX2PS_BRINGS_SUBSCRIBER) != 0) Raw::connect_publishers(domain);
      return code;
    });
  }

  static iox2ps_status_t add(Itself shared, iox2ps_joined_t *joined) noexcept {
    return Raw::hand(of(shared).domain_, [&](auto &threads) { threads.join(*joined); });
  }
  static void remove(Itself shared, iox2ps_joined_t *joined) noexcept {
    static_cast<void>(Raw::hand(of(shared).domain_, [&](auto &threads) { threads.leave(*joined); }));
  }
  static void stop(Itself shared, std::uint32_t stopped) noexcept { of(shared).domain_.stop_waits(stopped != 0); }

  static void count(Itself shared) noexcept { of(shared).holders_.fetch_add(1, std::memory_order_relaxed); }
  static void give_back(Itself shared) noexcept {
    if (of(shared).holders_.fetch_sub(1, std::memory_order_acq_rel) == 1) delete &of(shared);
  }

  Domain<P, M> domain_;
  mutable std::atomic<std::size_t> holders_{1};
};

struct GiveBack {
  void operator()(const iox2ps_shared_domain_t *shared) const { shared->release(shared); }
};

template <typename Lock, typename = void> constexpr bool wakes_all = false;
template <typename Lock> constexpr bool wakes_all<Lock, std::enable_if_t<Lock::wakes_all>> = true;

/* How often a thread that waits looks for a change before it sleeps. */
template <typename Lock, typename = void> constexpr unsigned looks = 10;
template <typename Lock> constexpr unsigned looks<Lock, std::enable_if_t<(Lock::looks >= 0)>> = Lock::looks;

} // namespace detail

/** Says of handles that they are for many threads, under a lock of this type. */
template <typename Lock> struct ManyThreadsWith {};

namespace detail {

/* By one after the other, each with the lock. */
template <typename Lock> class Threads<ManyThreadsWith<Lock>> {
public:
#ifdef __linux__
  using MessageFd = iox2ps::MessageFd;
#endif
  using Share = std::unique_ptr<const iox2ps_shared_domain_t, GiveBack>;
  template <typename P> using Handed = detail::Handed<P, ManyThreadsWith<Lock>>;

  /* How many handles a domain has. */
  class Count {
  public:
    void count_one() { count_.fetch_add(1, std::memory_order_relaxed); }
    bool is_last() { return count_.fetch_sub(1, std::memory_order_acq_rel) == 1; }

  private:
    std::atomic<std::size_t> count_{1};
  };

  /* Whether a port is open, which other threads may ask. */
  class Open {
  public:
    Open() = default;
    Open(const Open &other) noexcept : is_so_(static_cast<bool>(other)) {}
    Open &operator=(const Open &other) noexcept {
      is_so_.store(static_cast<bool>(other), std::memory_order_relaxed);
      return *this;
    }

    explicit operator bool() const { return is_so_.load(std::memory_order_relaxed); }
    bool close() { return is_so_.exchange(false, std::memory_order_relaxed); }

  private:
    std::atomic<bool> is_so_{true};
  };

  /* Other processes have the domain too. */
  void meet(std::unique_ptr<OtherProcesses> others) { processes_ = std::move(others); }
  [[nodiscard]] bool has_others() const { return processes_ != nullptr; }
  /* What comes from them is told, whether or not a thread waits. */
  bool is_watched() { return !processes_ || processes_->watch(); }
  bool may_go() { return !processes_ || processes_->may_go(); }
  void end() {
    if (processes_) processes_->end();
  }
  /* Those who only sleep for others are to look whether they should. */
  void end_watch() {
    std::lock_guard<Lock> lock(lock_);
    count(others_); /* one may be about to sleep */
    list_.end_watch();
  }

  /* Changes what is told of the others, for which this process may have to be woken from now on. */
  template <typename Change> void change_others(Change &&change) {
    Wake before, wake;
    {
      std::lock_guard<Lock> lock(lock_);
      before = catch_up();
      change(*processes_);
      wake = begin_to_want(0);
    }
    before.wake();
    wake.wake();
  }

  /* Makes a call, and wakes those whom it may help. */
  template <typename Call> iox2ps_status_t call(Brings brings, Call &&make) {
    Held held(lock_);
    iox2ps_status_t code = make();
    if (!list_.is_anybody_told()) count_all(all_brought(brings, code));
    else tell(held.left(), brings, code);
    return code;
  }

  /* Makes calls as long as their code says that the port still waits, each time when something came that may help. */
  template <typename Call> iox2ps_status_t wait(Waits what, Id port, Brings brings, Until until, Call &&make) noexcept {
    Waiting mine{what, port, bells_.own()};
    bool is_listed = false;
    while (true) {
      Wake before, wake;
      iox2ps_status_t code;
      Seen seen;
      bool is_over, may_be_helped;
      {
        std::lock_guard<Lock> lock(lock_);
        if (!list_.is_anybody_told()) before = catch_up(); /* the call sees what came until now */
        if (std::exchange(is_listed, false)) list_.remove(mine);
        code = make();
        if (code == IOX2PS_NO_SAMPLE) list_.nothing_for(port);
        wake = brought(brings, code);
        is_over = !waits_on(what, code) || (is_stopped_ && what != Waits::Nothing) || is_past(until) || calling().is_on;
        if (is_over) resign(mine, wake);
        /* Another process may have brought it behind the call that found nothing. */
        may_be_helped = processes_ && (wake.brings & helped_by(what)) != 0;
        seen = see(what);
      }
      before.wake();
      wake.wake();
      if (is_over) return code;
      if (may_be_helped || looks_out(what, seen)) continue;
      is_listed = falls_asleep(mine, seen, until);
    }
  }

  /* Of a call under way: it has brought this, whatever its code says. */
  void bring_too(Brings brings) { too_ = brings; }

  /* Of a call under way: it has closed this port, and nothing waits for it any longer. */
  void end_waits(Id port) {
    count(messages_);
    count(others_);
    list_.end(port);
    list_.each_joined([](iox2ps_joined_t &one) { one.wake(&one, everything); });
  }

  /* Another language joins, and leaves. */
  void join(iox2ps_joined_t &one) {
    Wake before, wake;
    {
      std::lock_guard<Lock> lock(lock_);
      one.waits_are_stopped = is_stopped_ ? 1 : 0;
      before = catch_up();
      list_.join(one);
      wake = begin_to_want(everything);
    }
    before.wake();
    wake.wake();
  }
  void leave(iox2ps_joined_t &one) {
    std::lock_guard<Lock> lock(lock_);
    list_.leave(one);
  }

  /* Of a call under way: it has made a subscriber, to which the publishers of other languages connect too. */
  void connect_joined(iox2ps_domain_t *domain) {
    list_.each_joined([domain](iox2ps_joined_t &one) { one.connect(&one, domain); });
  }

  /* No call waits any longer, or calls wait again. */
  void stop(bool is_stopped) {
    Wake wake;
    {
      std::lock_guard<Lock> lock(lock_);
      is_stopped_ = is_stopped;
      list_.each_joined([is_stopped](iox2ps_joined_t &one) { one.waits_are_stopped = is_stopped ? 1 : 0; });
      count(messages_);
      count(others_);
      list_.bring(everything);
      list_.wake_all();
      wake.listeners = listeners_;
    }
    wake.wake();
  }

  bool is_stopped() {
    std::lock_guard<Lock> lock(lock_);
    return is_stopped_;
  }

  /* This is called from now on when a message may have come for the port, in place of what was before; or nothing is. */
  void listen(Id port, Listener listener) {
    auto made = std::make_shared<Listeners<Lock>>();
    Wake before, wake;
    {
      std::lock_guard<Lock> lock(lock_);
      before = catch_up();
      if (!listeners_) list_.has_listeners();
      if (listeners_) made = listeners_;
      else listeners_ = made;
    }
    before.wake();
    made->set(port, std::move(listener));
    {
      std::lock_guard<Lock> lock(lock_);
      wake = begin_to_want(only(Waits::Message));
    }
    wake.wake();
  }

  /* A subscriber goes, and nothing is called for it any longer. */
  void forget(Id port) {
    std::shared_ptr<Listeners<Lock>> listeners;
    {
      std::lock_guard<Lock> lock(lock_);
      listeners = listeners_;
    }
    if (listeners) listeners->set(port, nullptr);
  }

private:
  /* Whom to wake, and what to call, once the lock was given back. */
  struct Wake {
    Ringer *ringer = nullptr;
    Brings brings = 0;
    std::shared_ptr<Listeners<Lock>> listeners;
    std::shared_ptr<Due> deaths;

    void wake() {
      if (ringer) ringer->ring();
      if (listeners) Due::call(std::move(listeners));
      if (deaths) Due::call(std::move(deaths));
    }
  };

  /* Under the lock: what a call that returned this code has brought, with what it says itself. */
  Brings all_brought(Brings brings, iox2ps_status_t code) {
    return code == IOX2PS_OK && too_ == 0 ? brings : brought_and_more(brings, code);
  }
  [[gnu::noinline]] Brings brought_and_more(Brings brings, iox2ps_status_t code) {
    return iox2ps_brought_by(brings, code) | std::exchange(too_, 0u);
  }

  void count_all(Brings brings) {
    if ((brings & only(Waits::Message)) != 0) count(messages_);
    if ((brings & ~only(Waits::Message)) != 0) count(others_);
  }

  /* Under the lock: the same with what other processes have brought, and who is told. */
  Wake brought(Brings brings, iox2ps_status_t code) {
    Wake wake;
    brings = all_brought(brings, code);
    if (processes_) brings |= processes_->news(wake.deaths);
    count_all(brings);
    wake.brings = brings;
    if ((brings & only(Waits::Message)) != 0) wake.listeners = listeners_;
    if (list_.is_anybody_told()) wake.ringer = next(brings);
    return wake;
  }

  /* Has the lock until it goes, or leaves it to another. */
  class Held {
  public:
    explicit Held(Lock &lock) : lock_(&lock) { lock.lock(); }
    Held(const Held &) = delete;
    Held &operator=(const Held &) = delete;
    ~Held() {
      if (lock_) lock_->unlock();
    }
    Lock &left() { return *std::exchange(lock_, nullptr); }

  private:
    Lock *lock_;
  };

  /* Gives the lock back that the call has, and tells them. Apart, so that a call takes a few instructions where nobody is told. */
  [[gnu::noinline]] void tell(Lock &held, Brings brings, iox2ps_status_t code) {
    Wake wake;
    {
      std::lock_guard<Lock> lock(held, std::adopt_lock);
      wake = brought(brings, code);
    }
    wake.wake();
  }

  Ringer *next(Brings brings) {
    list_.bring(brings);
    if (!wakes_all<Lock>) return list_.next();
    list_.wake_all();
    return nullptr;
  }

  static bool is_past(Until until) { return until && *until <= std::chrono::steady_clock::now(); }

  /* What a thread has seen of what it waits for. */
  struct Seen {
    std::size_t changes;
    std::uint64_t calls;
  };
  Seen see(Waits what) { return {changes(what).load(std::memory_order_relaxed), processes_ ? processes_->calls() : 0}; }
  bool has_changed(Waits what, const Seen &seen) { return changes(what).load(std::memory_order_relaxed) != seen.changes; }

  /* Looks for a change without the lock, for about as long as it takes to fall asleep. */
  bool looks_out(Waits what, Seen seen) {
    if (processes_) return looks<Lock> > 0 && what != Waits::Nothing && looks_at_others(what, seen);
    for (unsigned turn = 0; turn < looks<Lock>; turn++) {
      if (turn > 6) std::this_thread::yield();
      for (unsigned look = 0; look < 1u << (turn < 6 ? turn : 0); look++) {
        if (has_changed(what, seen)) return true;
      }
    }
    return false;
  }

  /* The same for what other processes bring. It takes the lock where they have made calls. */
  bool looks_at_others(Waits what, Seen seen) {
    for (unsigned look = processes_->looks(); look > 0 && !has_changed(what, seen); look--) {
      if (!processes_->are_ahead(seen.calls)) continue;
      Wake wake;
      {
        std::lock_guard<Lock> lock(lock_);
        wake = brought(0, IOX2PS_OK);
        seen.calls = processes_->calls();
      }
      wake.wake();
    }
    return has_changed(what, seen);
  }

  /* Sleeps, unless something has come. Whether the thread is in the list of those who wait. */
  bool falls_asleep(Waiting &mine, const Seen &seen, Until until) {
    Wake wake;
    std::uint64_t begun = 0;
    {
      std::lock_guard<Lock> lock(lock_);
      if (has_changed(mine.what, seen)) return false;
      list_.add(mine);
      if (processes_) wake = begin_sleep(mine, begun);
    }
    wake.wake();
    if (mine.ringer == &mine.bell) mine.bell.sleep(mine.is_woken, until);
    else sleep_for_all(mine, begun, until);
    return true;
  }

  /* Under the lock: this thread is to sleep, for all of the process where no other does. It looks once more afterwards, so that one of
   * the two sees the other: this process, or one that calls now. */
  Wake begin_sleep(Waiting &mine, std::uint64_t &begun) {
    if (!sleeper_) sleeper_ = &mine;
    bool is_for_all = sleeper_ == &mine;
    if (is_for_all) mine.ringer = processes_.get();
    begun = processes_->begin_sleep(is_for_all ? wanted() : helped_by(mine.what));
    return brought(0, IOX2PS_OK);
  }

  /* Under the lock, before somebody else is told: who isn't told of what came before. */
  Wake catch_up() { return processes_ ? brought(0, IOX2PS_OK) : Wake(); }

  /* Under the lock: who sleeps for all is to be woken for these too. */
  Wake begin_to_want(Brings brings) {
    if (!processes_) return {};
    processes_->begin_sleep(brings);
    return brought(0, IOX2PS_OK);
  }

  Brings wanted() const { return list_.wanted() | (listeners_ ? only(Waits::Message) : 0); }

  /* Tells the others of this process what comes from other processes, until this thread is woken or its time is over. */
  void sleep_for_all(Waiting &mine, std::uint64_t begun, Until until) {
    auto is_over = [&] { return mine.is_woken.load(std::memory_order_acquire) || is_past(until); };
    while (!is_over()) {
      processes_->sleep(begun, until);
      if (is_over()) break;
      Wake wake;
      {
        std::lock_guard<Lock> lock(lock_);
        begun = processes_->begin_sleep(wanted());
        wake = brought(0, IOX2PS_OK);
      }
      if (wake.ringer == processes_.get()) wake.ringer = nullptr; /* it is awake */
      wake.wake();
    }
  }

  /* Under the lock: this thread waits no longer. If it slept for all, another does that now. */
  void resign(const Waiting &mine, Wake &wake) {
    if (!processes_) return;
    if (sleeper_ == &mine) sleeper_ = nullptr;
    if (!sleeper_ && !wake.ringer) wake.ringer = list_.any();
  }

  std::atomic<std::size_t> &changes(Waits what) { return what == Waits::Message ? messages_ : others_; }

  /* Under the lock, so that nothing is lost between the two. */
  static void count(std::atomic<std::size_t> &changes) {
    changes.store(changes.load(std::memory_order_relaxed) + 1, std::memory_order_relaxed);
  }

  Lock lock_;
  WaitingList list_;
  /* Where the domain has a name, and who sleeps for all of this process. */
  std::unique_ptr<OtherProcesses> processes_;
  const Waiting *sleeper_ = nullptr;
  bool is_stopped_ = false;
  Brings too_ = 0;
  /* None until one is set. */
  std::shared_ptr<Listeners<Lock>> listeners_;
  /* What came so far: messages, and all else. They are read without the lock too. */
  std::atomic<std::size_t> messages_{0}, others_{0};
  Bells &bells_ = Bells::all();
};

} // namespace detail

/** A domain for another language of the process, from SharedDomain::share(): it keeps the domain. */
using Share = detail::Threads<ManyThreadsWith<std::mutex>>::Share;

/** The same, under the standard library's lock. */
using ManyThreads = ManyThreadsWith<std::mutex>;

/** A service whose messages are of the type P, for many threads. Copies are the same domain. */
template <typename P, typename Lock = std::mutex> using SharedDomain = Domain<P, ManyThreadsWith<Lock>>;

} // namespace iox2ps

#endif
