// SPDX-License-Identifier: Apache-2.0 OR MIT
/* What tests of C++ between processes have in common. The other processes are the test's program, started anew as ROLE NAME. */
#ifndef IOX2PS_ROLES_HPP
#define IOX2PS_ROLES_HPP

#include "children.h"
#include "iox2_pubsub_processes.hpp"
#include <algorithm>
#include <chrono>
#include <cstdio>
#include <cstdlib>
#include <initializer_list>
#include <string>
#include <sys/wait.h>
#include <thread>

using namespace std::chrono_literals;
using iox2ps::Error;

struct Reading {
  std::uint64_t number;
  double celsius[2];
};
template <> struct iox2ps::ZeroCopySend<Reading> : iox2ps::Fields<&Reading::number, &Reading::celsius> {};

#define CHECK(it) check((it), #it, __FILE__, __LINE__)
inline void check(bool is_so, const char *what, const char *file, int line) {
  if (is_so) return;
  std::fprintf(stderr, "%s:%d: %s; %s\n", file, line, what, iox2ps::why_refused());
  std::abort();
}

inline constexpr std::uint64_t messages = 300;
/* None looks by itself, so that only a wake-up ends a sleep. */
inline const auto by_wakes = iox2ps::ProcessesOptions().reap_every(1h).spins(10);
inline const auto by_looks = iox2ps::ProcessesOptions().reap_every(20ms).spins(10);

inline iox2ps::Config<Reading> settings() { return iox2ps::Config<Reading>(7).enable_safe_overflow(false).subscriber_max_buffer_size(2); }
template <typename D> D open_by(const std::string &name, const iox2ps::ProcessesOptions &options = by_wakes) {
  return D::open_or_create(name, settings(), options).expect("a domain");
}

/* A name of this test that no other run has: with parts, and of UTF-8. */
inline std::string name_of(const char *what) { return "test_cpp." + std::to_string(getpid()) + "/" + what + "/\u00e4"; }

/* This program in another role. */
inline pid_t started(const char *role, const std::string &name) {
  pid_t child = fork_child();
  CHECK(child >= 0);
  if (child > 0) return child;
  execl("/proc/self/exe", "test", role, name.c_str(), static_cast<char *>(nullptr));
  _exit(127);
}
inline void kill_it(pid_t child) {
  CHECK(kill(child, SIGKILL) == 0);
  CHECK(was_killed(status_of(child)));
}

/* Looks ever less often, so that whoever looks on can tell that it waits for good. */
template <typename IsSo> void until(IsSo is_so) {
  for (auto pause = 1ms; !is_so(); pause = std::min(2 * pause, 200ms)) std::this_thread::sleep_for(pause);
}
/* Until another process has so many subscribers. */
template <typename D, typename P> void connect(const D &domain, P &publisher, std::size_t subscribers = 1) {
  until([&] { return publisher.update_connections().has_value() && domain.connection_count() == subscribers; });
}

template <typename P> void send_all(P &publisher) {
  for (std::uint64_t number = 1; number <= messages; number++) {
    if (number % 100 == 0) std::this_thread::sleep_for(20ms); /* so that those who wait sleep */
    CHECK(*publisher.blocking_send_copy({number, {0.5, 1.5}}).expect("a send").delivered() > 0);
  }
}
template <typename S> void receive_all(S &subscriber, std::uint64_t first, std::uint64_t last) {
  for (std::uint64_t number = first; number <= last; number++) {
    if (number % 70 == 0) std::this_thread::sleep_for(20ms); /* so that the publisher sleeps */
    auto sample = std::move(*subscriber.blocking_receive().expect("a receive"));
    CHECK(sample->number == number && sample->celsius[1] == 1.5);
  }
}

/* The roles of who sends all, and of who receives all. */
template <typename D> void sends(const std::string &name) {
  auto domain = open_by<D>(name);
  auto publisher = domain.publisher().expect("a publisher");
  send_all(publisher);
}
template <typename D> void receives(const std::string &name) {
  auto domain = open_by<D>(name);
  auto subscriber = domain.subscriber().expect("a subscriber");
  receive_all(subscriber, 1, messages);
}

struct Role {
  const char *name;
  void (*run)(const std::string &);
};

/* Whether this process was started for a role, which it has played then. */
inline bool has_played(int count, char **words, std::initializer_list<Role> roles) {
  for (const Role &role : roles) {
    if (count < 3 || std::string(words[1]) != role.name) continue;
    role.run(words[2]);
    return true;
  }
  return false;
}

#endif
