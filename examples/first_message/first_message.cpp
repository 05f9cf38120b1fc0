// SPDX-License-Identifier: Apache-2.0 OR MIT
#include "iox2_pubsub.hpp"
#include <cstdio>
struct Reading { double celsius; };
int main() {
  auto domain = iox2ps::Domain<Reading>::create(iox2ps::Config<Reading>(7)).expect("a domain");
  auto publisher = domain.publisher().expect("a publisher");
  auto subscriber = domain.subscriber().expect("a subscriber");
  auto loan = publisher.loan().expect("a loan");
  loan->celsius = 21.5; // written in place
  auto receivers = loan.send().expect("a send").delivered().value_or(0);
  while (auto sample = subscriber.receive().expect("a receive"))
    std::printf("%.1f °C, read by %zu\n", (*sample)->celsius, receivers);
}
