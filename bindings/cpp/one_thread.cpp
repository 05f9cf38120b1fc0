// SPDX-License-Identifier: Apache-2.0 OR MIT
/* Where IOX2PS_CHECK_THREADS is defined, a second thread that uses a domain for one ends the program. One that uses a domain for several
 * doesn't. */
#define IOX2PS_CHECK_THREADS
#include "iox2_pubsub_shared.hpp"
#include "endings.hpp"
#include <cstdio>
#include <thread>

static unsigned ended = 0;

/* What one thread has made. */
struct Handles {
  iox2ps::Domain<int> domain = iox2ps::Domain<int>::create(iox2ps::Config<int>(7)).expect("a domain");
  iox2ps::Publisher<int> publisher = domain.publisher().expect("a publisher");
  iox2ps::Subscriber<int> subscriber = domain.subscriber().expect("a subscriber");
  iox2ps::Loan<int> loan = publisher.loan(7).expect("a loan");
};

/* A call of a second thread ends the program, which is a child that makes all of it anew. */
template <typename Call> static void ends_there(const char *what, Call call) {
  ends(what, "a second thread uses a domain", [&] {
    Handles its;
    std::thread([&] { call(its); }).join();
  });
  ended++;
}

static void a_second_thread_ends_the_program() {
  ends_there("a send", [](Handles &its) { static_cast<void>(its.publisher.send_copy(1)); });
  ends_there("a receive", [](Handles &its) { static_cast<void>(its.subscriber.receive()); });
  ends_there("a question", [](Handles &its) { static_cast<void>(its.domain.connection_count()); });
  ends_there("a publisher that is made", [](Handles &its) { static_cast<void>(its.domain.publisher()); });
  ends_there("a publisher that goes", [](Handles &its) { its.publisher.close(); });
  ends_there("a loan that goes", [](Handles &its) { its.loan.discard(); });
}

static void each_thread_may_have_its_own() {
  std::thread([] {
    Handles its;
    its.loan.send().expect("a send").delivered();
    if (its.subscriber.receive_copy().expect("a receive") != 7) std::abort();
  }).join();
}

static void a_shared_domain_has_many() {
  auto domain = iox2ps::SharedDomain<int>::create(iox2ps::Config<int>(7)).expect("a domain");
  auto publisher = domain.publisher().expect("a publisher");
  auto subscriber = domain.subscriber().expect("a subscriber");
  std::thread([&] { publisher.send_copy(7).expect("a send").delivered(); }).join();
  if (subscriber.receive_copy().expect("a receive") != 7) std::abort();
}

int main() {
  a_second_thread_ends_the_program();
  each_thread_may_have_its_own();
  a_shared_domain_has_many();
  std::printf("%u calls of a second thread end the program\n", ended);
}
