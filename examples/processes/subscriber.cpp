// SPDX-License-Identifier: Apache-2.0 OR MIT
// subscriber [NAME]: prints five readings. It sleeps until one is there.
#include "celsius.hpp"
#include <cstdio>

int main(int count, char **words) {
  auto domain = iox2ps::SharedDomain<Celsius>::open_or_create(count > 1 ? words[1] : "thermometer", settings()).expect("a domain");
  auto subscriber = domain.subscriber().expect("a subscriber");
  for (int received = 0; received < 5; received++) {
    auto sample = subscriber.blocking_receive().expect("a receive");
    std::printf("%.1f °C\n", (*sample)->value); // read there
  }
}
