// SPDX-License-Identifier: Apache-2.0 OR MIT
/** One thread waits for readings and for commands, which are two domains. It tells where no reading came in time, then ticks, and
 * ends by a command. */
#include "iox2_pubsub_wait_set.hpp"
#include <cstdio>
#include <optional>
#include <thread>

using namespace std::chrono_literals;
using namespace iox2ps;

struct Reading {
  double celsius;
};
enum class Command { Stop };

constexpr int readings = 3, ticks = 3;

static void sense(Publisher<Reading, ManyThreads> sensor) {
  for (int number = 0; number < readings; number++) {
    (void)sensor.blocking_send_copy({20 + number / 2.0}).expect("a send");
    std::this_thread::sleep_for(5ms);
  }
}

int main() {
  auto weather = SharedDomain<Reading>::create(Config<Reading>(7).enable_safe_overflow(false)).expect("a domain");
  auto control = SharedDomain<Command>::create(Config<Command>(8)).expect("a domain");
  auto thermometer = weather.subscriber().expect("a subscriber");
  auto commands = control.subscriber().expect("a subscriber");
  auto commander = control.publisher().expect("a publisher");

  auto set = WaitSet::create().expect("a set");
  auto of_thermometer = set.attach_notification(thermometer).expect("a guard");
  auto of_commands = set.attach_notification(commands).expect("a guard");
  std::optional<WaitSetGuard> of_ticks;
  int read = 0, ticked = 0;
  std::thread sensor(sense, weather.publisher().expect("a publisher"));
  auto ended = set.wait_and_process([&](WaitSetAttachmentId id) {
    if (id.has_event_from(of_thermometer)) {
      for (; auto reading = thermometer.receive().expect("a receive"); read++) std::printf("%.1f °C\n", (*reading)->celsius);
      if (read == readings) of_thermometer = set.attach_deadline(thermometer, 20ms).expect("a guard");
    } else if (id.has_missed_deadline(of_thermometer)) {
      std::puts("no reading came in time");
      of_thermometer = set.attach_notification(thermometer).expect("a guard");
      of_ticks = set.attach_interval(5ms).expect("a guard");
    } else if (of_ticks && id.has_event_from(*of_ticks)) {
      std::printf("tick %d\n", ++ticked);
      if (ticked < ticks) return CallbackProgression::Continue;
      of_ticks.reset(); // detaches it
      (void)commander.send_copy(Command::Stop).expect("a send");
    }
    return id.has_event_from(of_commands) ? CallbackProgression::Stop : CallbackProgression::Continue;
  });
  if (ended.value() == WaitSetRunResult::StopRequest) std::puts("stopped");
  sensor.join();
}
