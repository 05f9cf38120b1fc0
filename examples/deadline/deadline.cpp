// SPDX-License-Identifier: Apache-2.0 OR MIT
// A subscriber learns that no message came within its deadline. A message that came before it looks is in time.
#include "iox2_pubsub_wait_set.hpp"
#include <cstdio>

using namespace std::chrono_literals;
using namespace iox2ps;

struct Speed {
  unsigned rpm;
};

int main() {
  auto domain = SharedDomain<Speed>::create(Config<Speed>(7)).expect("a domain");
  auto wheel = domain.publisher().expect("a publisher");
  auto subscriber = domain.subscriber().expect("a subscriber");
  auto set = WaitSet::create().expect("a set");
  auto of_speed = set.attach_deadline(subscriber, 20ms).expect("a guard");
  (void)wheel.send_copy({12}).expect("a send");
  auto ended = set.wait_and_process([&](WaitSetAttachmentId id) {
    if (id.has_missed_deadline(of_speed)) {
      std::puts("no speed in time: stop");
      return CallbackProgression::Stop;
    }
    auto speed = *subscriber.receive_copy().expect("a receive");
    std::printf("%u rpm\n", speed.rpm);
    if (speed.rpm == 12) (void)wheel.send_copy({31}).expect("a send"); // and then none
    return CallbackProgression::Continue;
  });
  return ended.value() == WaitSetRunResult::StopRequest ? 0 : 1;
}
