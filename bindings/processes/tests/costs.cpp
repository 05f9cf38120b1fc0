// SPDX-License-Identifier: Apache-2.0 OR MIT
/* How many instructions a message takes in C++ that a process passes to itself over a domain that processes share, from loan to release:
 * by the handles of one thread beside C, and by those that threads share beside C under the same lock. */
#include "roles.hpp"
#include "traced.h"
#include <algorithm>
#include <array>
#include <mutex>

namespace {

constexpr int warm_up = 300;
/* Of C's instructions. C tells no thread what came. */
constexpr std::uint64_t most_percent = 110;
/* At most with one of them a copy of the book-keeping comes due, which costs the same in each language. */
constexpr std::size_t counted = 9;

struct Bytes {
  std::uint64_t words[8];
};

} // namespace

template <> struct iox2ps::ZeroCopySend<Bytes> : iox2ps::Fields<&Bytes::words> {};

namespace {

/* Stops before each message and after the last. */
template <typename Pass> void pass_all(pid_t self, Pass &&pass) {
  for (int i = 0; i < warm_up; i++) pass();
  mark(self);
  for (std::size_t i = 0; i < counted; i++) {
    pass();
    mark(self);
  }
}

template <typename D> void in_cpp(const char *name, pid_t self) {
  auto domain = D::open_or_create(name, iox2ps::Config<Bytes>(7)).expect("a domain");
  auto publisher = domain.publisher().expect("a publisher");
  auto subscriber = domain.subscriber().expect("a subscriber");
  pass_all(self, [&] {
    auto loan = publisher.loan_uninit().expect("a loan");
    loan->words[0] = 42;
    CHECK(loan.send().expect("a send").delivered() == 1u);
    auto sample = subscriber.receive().expect("a receive");
    CHECK(sample && (*sample)->words[0] == 42);
  });
}

/* One thread needs none. */
struct NoLock {
  void lock() {}
  void unlock() {}
};

template <typename Lock> void in_c(const char *name, pid_t self) {
  Lock lock;
  iox2ps_domain_t domain = IOX2PS_DOMAIN_INIT;
  iox2ps_config_t config;
  iox2ps_publisher_t publisher;
  iox2ps_subscriber_t subscriber;
  iox2ps_config_defaults(&config, 7, sizeof(Bytes), alignof(Bytes));
  CHECK(iox2ps_domain_open_or_create(&domain, name, "bytes", &config, nullptr) == IOX2PS_OK);
  CHECK(iox2ps_publisher_create(&domain, &publisher) == IOX2PS_OK && iox2ps_subscriber_create(&domain, &subscriber) == IOX2PS_OK);
  pass_all(self, [&] {
    iox2ps_loan_t loan;
    iox2ps_blocked_t blocked;
    iox2ps_sample_t sample;
    void *payload;
    const void *received;
    std::size_t receivers, len;
    lock.lock();
    iox2ps_status_t lent = iox2ps_publisher_loan_uninit(&domain, &publisher, sizeof(Bytes), &loan, &payload);
    lock.unlock();
    CHECK(lent == IOX2PS_OK);
    static_cast<Bytes *>(payload)->words[0] = 42;
    lock.lock();
    iox2ps_status_t sent = iox2ps_loan_send(&domain, &loan, &receivers, &blocked);
    lock.unlock();
    CHECK(sent == IOX2PS_OK && receivers == 1);
    lock.lock();
    iox2ps_status_t got = iox2ps_subscriber_receive(&domain, &subscriber, &sample, &received, &len);
    lock.unlock();
    CHECK(got == IOX2PS_OK && static_cast<const Bytes *>(received)->words[0] == 42);
    lock.lock();
    iox2ps_status_t released = iox2ps_sample_release(&domain, &sample);
    lock.unlock();
    CHECK(released == IOX2PS_OK);
  });
  CHECK(iox2ps_domain_destroy(&domain) == IOX2PS_OK);
}

/* Instructions of most messages, with those of a mark. */
std::uint64_t cost_of(void (*run)(const char *, pid_t), const std::string &name) {
  std::array<std::uint64_t, counted> all = {};
  pid_t child = traced_child(run, name.c_str());
  CHECK(child > 0);
  for (std::uint64_t &one : all) {
    bool is_at_mark = false;
    one = run_to_mark(child, PTRACE_SINGLESTEP, UINT64_MAX, &is_at_mark);
    CHECK(is_at_mark);
  }
  CHECK(ptrace(PTRACE_CONT, child, nullptr, nullptr) == 0 && status_of(child) == 0);
  std::sort(all.begin(), all.end());
  return all[counted / 2];
}

bool is_cheap(std::uint64_t cost, std::uint64_t of_c) { return of_c > 100 && 100 * cost <= most_percent * of_c; }

} // namespace

int main() {
  auto c = cost_of(in_c<NoLock>, name_of("c")), locked = cost_of(in_c<std::mutex>, name_of("locked"));
  auto alone = cost_of(in_cpp<iox2ps::Domain<Bytes>>, name_of("alone")), shared = cost_of(in_cpp<iox2ps::SharedDomain<Bytes>>, name_of("shared"));
  std::printf("a message takes %llu instructions in C and %llu in C++; where threads share the domain, %llu in C under a lock and %llu in C++\n",
              static_cast<unsigned long long>(c), static_cast<unsigned long long>(alone), static_cast<unsigned long long>(locked),
              static_cast<unsigned long long>(shared));
  std::fflush(stdout);
  CHECK(is_cheap(alone, c) && is_cheap(shared, locked));
}
