// SPDX-License-Identifier: Apache-2.0 OR MIT
// Where nothing may be lost, a send waits for a subscriber whose buffer is full. It is retried, or given up.
#include "iox2_pubsub.hpp"
#include <cstdio>

int main() {
  auto config = iox2ps::Config<int>(7).enable_safe_overflow(false).subscriber_max_buffer_size(1);
  auto domain = iox2ps::Domain<int>::create(config).expect("a domain");
  auto publisher = domain.publisher().expect("a publisher");
  auto subscriber = domain.subscriber().expect("a subscriber");
  auto who = [&](const auto &blocked) {
    return blocked.subscriber().expect("an id") == subscriber.id() ? "the subscriber" : "another";
  };
  auto read_one = [&] { std::printf("read %d\n", subscriber.receive_copy().expect("a receive").value()); };

  std::printf("1 reached %zu\n", publisher.send_copy(1).expect("a send").delivered().value());
  auto second = publisher.send_copy(2).expect("a send");
  std::printf("2 waits for %s\n", who(*second.blocked()));
  if (!second.blocked()->retry().expect("a retry")) std::printf("2 still waits\n");
  read_one();
  std::printf("2 reached %zu\n", second.blocked()->retry().expect("a retry").value());
  auto third = publisher.send_copy(3).expect("a send");
  std::printf("3 waits for %s\n", who(*third.blocked()));
  std::printf("3 was given up, and reached %zu\n", third.blocked()->give_up().expect("an end").value());
  read_one();
}
