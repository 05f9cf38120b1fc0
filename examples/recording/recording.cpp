// SPDX-License-Identifier: Apache-2.0 OR MIT
// Records what it calls, and prints the recording, which tools/replay runs again.
#include "iox2_pubsub.hpp"
#include <cstdint>
#include <cstdio>

struct Reading {
  std::uint32_t number, millidegrees;
};

// Sends two readings. The second waits for a subscriber that is full.
static void send(iox2ps::Publisher<Reading> &publisher, iox2ps::Subscriber<Reading> &subscriber) {
  auto loan = publisher.loan().expect("a loan");
  loan->number = 1;
  loan->millidegrees = 20500;
  (void)loan.send().expect("a send");
  auto sent = publisher.send_copy({2, 21000}).expect("a send");
  auto sample = subscriber.receive().expect("a receive");
  sample->release();
  if (sent.blocked()) (void)sent.blocked()->retry().expect("a retry");
}

int main() {
  auto config = iox2ps::Config<Reading>(7).subscriber_max_buffer_size(1).enable_safe_overflow(false).record(200, sizeof(Reading));
  auto domain = iox2ps::Domain<Reading>::create(config).expect("a domain");
  auto subscriber = domain.subscriber().expect("a subscriber");
  auto publisher = domain.publisher().expect("a publisher");
  send(publisher, subscriber);
  auto late = domain.subscriber().expect("a subscriber");
  publisher.update_connections().expect("an update");
  auto recording = domain.recording().expect("a recording");
  std::fwrite(recording.text.data(), 1, recording.text.size(), stdout);
  return recording.missed != 0;
}
