// SPDX-License-Identifier: Apache-2.0 OR MIT
// A thermometer that other processes and machines hear: run it twice.
#include "iox2_pubsub_dds.hpp"

#include <cstdio>

struct Reading { double celsius; };
template <> inline constexpr bool iox2ps::dds::any_bytes<Reading> = true;

int main() {
  auto domain = iox2ps::Domain<Reading>::create(iox2ps::Config<Reading>(7)).expect("a domain");
  std::string why;
  auto gateway = iox2ps::dds::Gateway<Reading>::open(domain, {"example/thermometer"}, why);
  if (!gateway) return std::fprintf(stderr, "%s\n", why.c_str()), 1;
  auto publisher = domain.publisher().expect("a publisher");
  auto subscriber = domain.subscriber().expect("a subscriber");
  for (int second = 0; second < 5; second++) {
    (void)publisher.send_copy(Reading{20.0 + second}).expect("a send");
    auto until = std::chrono::steady_clock::now() + std::chrono::seconds(1);
    while (std::chrono::steady_clock::now() < until) {
      gateway->wait(until - std::chrono::steady_clock::now());
      while (auto sample = subscriber.receive().expect("a receive"))
        std::printf("%.1f °C from %s\n", (*sample)->celsius, gateway->origin(*sample) ? "elsewhere" : "here");
    }
  }
}
