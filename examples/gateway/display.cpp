// SPDX-License-Identifier: Apache-2.0 OR MIT
// display [TOPIC]: prints five readings that a sensor in another process sends by DDS, and answers it.
#include "station.hpp"

int main(int count, char **words) {
  Station station(count > 1 ? words[1] : "example/celsius");
  std::optional<double> celsius;
  int read_so_far = 0;
  for (int waited = 0; read_so_far < readings && waited < most_seconds; waited++) {
    station.wait_a_second();
    for (; read_so_far < readings && (celsius = station.receive()); read_so_far++) std::printf("%.1f °C\n", *celsius);
  }
  if (read_so_far < readings) return std::fprintf(stderr, "no sensor has sent all\n"), 1;
  station.send(*celsius);
  // The sensor ends when it has the answer.
  for (int waited = 0; station.has_writer() && waited < most_seconds; waited++) station.wait_a_second();
}
