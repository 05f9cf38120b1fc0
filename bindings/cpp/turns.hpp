// SPDX-License-Identifier: Apache-2.0 OR MIT
/* A lock that counts each thread's turns, so that a test knows when a thread sleeps, and can stop it between two turns. No test
 * has to give a thread time, and hope that it was enough. */
#ifndef TURNS_HPP
#define TURNS_HPP

#include <condition_variable>
#include <cstddef>
#include <cstdint>
#include <cstdio>
#include <cstdlib>
#include <memory>
#include <mutex>
#include <thread>

/* How often a wait takes the lock before its thread sleeps: it tries, and is put into the list of those who wait. */
constexpr std::size_t to_sleep = 2;

/* Those of one thread. */
class Turns {
public:
  explicit Turns(std::size_t allowed) : allowed_(allowed) {}

  void begin() {
    change([this] { comes_ = true; });
    wait_until([this] { return had_ < allowed_; });
  }

  void end() {
    change([this] {
      had_++;
      comes_ = false;
    });
  }

  /* Waits until it has had that many turns. */
  void has_had(std::size_t turns) {
    bool are_few = true;
    wait_until([&] {
      are_few = had_ < turns;
      return !are_few || has_ended_;
    });
    if (are_few) too_few();
  }

  /* Waits until it has had that many turns and is before the lock. */
  void stands_after(std::size_t turns) {
    bool has_ended = false;
    wait_until([&] {
      has_ended = has_ended_;
      return (comes_ && had_ == turns) || has_ended;
    });
    if (has_ended) too_few();
  }

  /* It stops no more. */
  void allow_all() { change([this] { allowed_ = SIZE_MAX; }); }

  /* The thread has ended. */
  void are_all() { change([this] { has_ended_ = true; }); }

  /* This thread's, where they are counted. */
  static Turns *&own() {
    static thread_local Turns *own = nullptr;
    return own;
  }

private:
  template <typename Change> void change(Change change) {
    std::lock_guard<std::mutex> lock(mutex_);
    change();
    changed_.notify_all();
  }

  template <typename IsSo> void wait_until(IsSo is_so) {
    std::unique_lock<std::mutex> lock(mutex_);
    changed_.wait(lock, is_so);
  }

  [[noreturn]] void too_few() {
    std::fprintf(stderr, "a thread has ended after %zu turns\n", had_);
    std::abort();
  }

  std::mutex mutex_;
  std::condition_variable changed_;
  std::size_t had_ = 0;
  /* Before the next one its thread stops. */
  std::size_t allowed_;
  /* It wants the next one. */
  bool comes_ = false;
  bool has_ended_ = false;
};

/* A lock that counts the turns of each Watch. */
class Watched {
public:
  void lock() {
    if (Turns::own()) Turns::own()->begin();
    mutex_.lock();
  }

  void unlock() {
    mutex_.unlock();
    if (Turns::own()) Turns::own()->end();
  }

private:
  std::mutex mutex_;
};

/* A thread whose turns are counted. */
class Watch {
public:
  /* After that many turns it stops before its next one. */
  template <typename Run> Watch(std::size_t allowed, Run run)
      : turns_(std::make_shared<Turns>(allowed)), thread_([turns = turns_, run = std::move(run)]() mutable {
          Turns::own() = turns.get();
          run();
          Turns::own() = nullptr;
          turns->are_all();
        }) {}

  void has_had(std::size_t turns) { turns_->has_had(turns); }
  void stands_after(std::size_t turns) { turns_->stands_after(turns); }
  void go_on() { turns_->allow_all(); }
  void join() { thread_.join(); }

private:
  std::shared_ptr<Turns> turns_;
  std::thread thread_;
};

/* Starts a thread, and returns when it has had the lock so often: to_sleep times in the wait in which it sleeps then, and before
 * that in the calls before. */
template <typename Run> Watch asleep_after(std::size_t turns, Run run) {
  Watch watch(SIZE_MAX, std::move(run));
  watch.has_had(turns);
  return watch;
}

/* Starts a thread, and returns when it sleeps in its first wait. Where it is woken it stops before the lock, until it is told to go
 * on. */
template <typename Run> Watch asleep_and_stopped(Run run) {
  Watch watch(to_sleep, std::move(run));
  watch.has_had(to_sleep);
  return watch;
}

/* Starts a thread, and returns when it has had the lock that often. The thread waits before the lock then,
 * until it is told to go on. */
template <typename Run> Watch stopped_after(std::size_t turns, Run run) {
  Watch watch(turns, std::move(run));
  watch.stands_after(turns);
  return watch;
}

#endif
