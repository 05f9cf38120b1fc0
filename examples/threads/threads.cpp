// SPDX-License-Identifier: Apache-2.0 OR MIT
// Two threads share a domain: one sends readings, and the other prints them.
#include "iox2_pubsub_shared.hpp"
#include <cstdio>
#include <thread>

struct Reading {
  double celsius;
};

int main() {
  auto settings = iox2ps::Config<Reading>(7).enable_safe_overflow(false); // loses nothing
  auto domain = iox2ps::SharedDomain<Reading>::create(settings).expect("a domain");
  auto publisher = domain.publisher().expect("a publisher");
  auto subscriber = domain.subscriber().expect("a subscriber");
  std::thread printing([&] {
    while (auto reading = subscriber.blocking_receive().expect("a receive"))
      std::printf("%.1f °C\n", (*reading)->celsius); // read without the lock
  });
  for (int tick = 0; tick < 5; tick++) {
    auto loan = publisher.blocking_loan().expect("a loan");
    loan->celsius = 20.0 + tick; // written without the lock
    (void)loan.blocking_send().expect("a send");
  }
  domain.stop_waits(); // so that the reader ends when nothing waits any more
  printing.join();
}
