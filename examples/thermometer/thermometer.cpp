// SPDX-License-Identifier: Apache-2.0 OR MIT
// Sends readings to two subscribers, and prints what each reads.
#include "iox2_pubsub.hpp"
#include <cstdio>

struct Reading {
  unsigned number;
  double celsius;
};

int main() {
  auto domain = iox2ps::Domain<Reading>::create(iox2ps::Config<Reading>(7)).expect("a domain");
  auto publisher = domain.publisher().expect("a publisher");
  iox2ps::Subscriber<Reading> subscribers[] = {domain.subscriber().expect("a subscriber"),
                                             domain.subscriber().expect("a subscriber")};
  for (unsigned number = 1; number <= 3; number++) {
    auto loan = publisher.loan().expect("a loan");
    loan->number = number;
    loan->celsius = 20 + number / 2.0;
    auto sent = loan.send().expect("a send");
    std::printf("sent reading %u to %zu\n", number, sent.delivered().value_or(0));
    for (auto &subscriber : subscribers) {
      while (auto sample = subscriber.receive().expect("a receive")) {
        std::printf("subscriber %d read %u: %.1f °C\n", int(&subscriber - subscribers), (*sample)->number,
                    (*sample)->celsius);
      }
    }
  }
}
