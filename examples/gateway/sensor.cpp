// SPDX-License-Identifier: Apache-2.0 OR MIT
// sensor [TOPIC]: sends five readings by DDS to a display in another process, and ends when that has answered.
#include "station.hpp"

int main(int count, char **words) {
  Station station(count > 1 ? words[1] : "example/celsius");
  for (int number = 0; number < readings; number++) station.send(20.0 + number);
  for (int waited = 0; waited < most_seconds; waited++) {
    station.wait_a_second();
    if (auto answer = station.receive()) return std::printf("the display has %.1f °C\n", *answer), 0;
  }
  return std::fprintf(stderr, "no display has answered\n"), 1;
}
