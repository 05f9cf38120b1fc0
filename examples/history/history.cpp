// SPDX-License-Identifier: Apache-2.0 OR MIT
// A publisher keeps its last 3 messages for subscribers that come later.
#include "iox2_pubsub.hpp"
#include <cstdio>

static void show(const char *who, iox2ps::Subscriber<double> &subscriber) {
  std::printf("%s reads", who);
  while (auto metres = subscriber.receive().expect("a receive")) std::printf(" %.1f", **metres);
  std::printf("\n");
}

int main() {
  auto config = iox2ps::Config<double>(7).history_size(3).subscriber_max_buffer_size(8);
  auto domain = iox2ps::Domain<double>::create(config).expect("a domain");
  auto publisher = domain.publisher().expect("a publisher");
  for (int metres = 1; metres <= 5; metres++) (void)publisher.send_copy(metres).expect("a send");
  auto late = domain.subscriber().expect("a subscriber");
  auto short_of_room = domain.subscriber(iox2ps::SubscriberOptions().buffer_size(2)).expect("a subscriber");
  publisher.update_connections().expect("an update"); // which hands it over; so does the next send
  show("a late subscriber", late);
  show("one with a buffer of 2", short_of_room);
}
