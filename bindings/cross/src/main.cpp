// SPDX-License-Identifier: Apache-2.0 OR MIT
// Twelve readings, and the last one is kept: what waits for a subscriber is the newest, since its buffer is 1.
#include "iox2_pubsub.hpp"
#include <cstdio>

#ifdef __aarch64__
#define PROCESSOR "aarch64"
#else
#define PROCESSOR "x86_64"
#endif

int main() {
  auto settings = iox2ps::Config<unsigned>(7).subscriber_max_buffer_size(1);
  auto domain = iox2ps::Domain<unsigned>::create(settings).expect("a domain");
  auto publisher = domain.publisher().expect("a publisher");
  auto subscriber = domain.subscriber().expect("a subscriber");
  for (unsigned reading = 0; reading < 12; reading++) (void)publisher.send_copy(reading).expect("a send");
  while (auto sample = subscriber.receive().expect("a receive")) std::printf(PROCESSOR ": 12 readings, the last is %u\n", **sample);
}
