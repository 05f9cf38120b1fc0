// SPDX-License-Identifier: Apache-2.0 OR MIT
/* Messages that are larger than the stack of the thread that lends them: each loan makes its value where the message lies. */
#include "iox2_pubsub_shared.hpp"
#include <cstdio>
#include <cstdlib>
#include <memory>
#include <pthread.h>

struct Image {
  unsigned char pixels[8u << 20];
};

/* Its values are made by a constructor. */
struct Filled {
  unsigned char first, more[8u << 20], last;
  Filled() : first(1), more(), last(2) {}
};

#define CHECK(it) check((it), #it, __LINE__)

static void check(bool is_so, const char *what, int line) {
  if (is_so) return;
  std::fprintf(stderr, "cpp/large.cpp:%d: %s\n", line, what);
  std::abort();
}

template <typename P> static iox2ps::Config<P> small_config() {
  iox2ps::Config<P> config(7);
  config.max_subscribers(1).subscriber_max_buffer_size(1).subscriber_max_borrowed_samples(1);
  return config;
}

static void lends_in_one_thread() {
  auto domain = iox2ps::Domain<Image>::create(small_config<Image>()).expect("a domain");
  auto publisher = domain.publisher().expect("a publisher");
  auto value = std::make_unique<Image>();
  value->pixels[7] = 7;
  auto written = publisher.loan(*value).expect("a loan");
  CHECK(written->pixels[7] == 7);
  written.discard();
  auto loan = publisher.loan().expect("a loan");
  CHECK(loan->pixels[7] == 0);
  CHECK(publisher.send_copy(*value).expect("a send").delivered() == std::size_t(0));
}

static void waits_for_loans() {
  auto domain = iox2ps::SharedDomain<Filled>::create(small_config<Filled>()).expect("a domain");
  auto publisher = domain.publisher().expect("a publisher");
  auto subscriber = domain.subscriber().expect("a subscriber");
  auto loan = publisher.blocking_loan().expect("a loan");
  CHECK(loan->first == 1 && loan->more[7] == 0 && loan->last == 2);
  loan.discard();
  loan = publisher.timed_loan(std::chrono::seconds(1)).expect("a loan");
  CHECK(loan.send().expect("a send").delivered() == std::size_t(1));
  CHECK((**subscriber.blocking_receive().expect("a receive")).last == 2);
}

static void *lend(void *) {
  lends_in_one_thread();
  waits_for_loans();
  return nullptr;
}

int main() {
  pthread_attr_t small_stack;
  pthread_t thread;
  CHECK(pthread_attr_init(&small_stack) == 0 && pthread_attr_setstacksize(&small_stack, 1u << 20) == 0);
  CHECK(pthread_create(&thread, &small_stack, lend, nullptr) == 0);
  CHECK(pthread_join(thread, nullptr) == 0);
  std::puts("lent in place");
}
