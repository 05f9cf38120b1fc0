// SPDX-License-Identifier: Apache-2.0 OR MIT
/* sensor [TOPIC]: sends five readings by DDS to a display in another process, and ends when that has answered. */
#include "station.h"

int main(int count, char **words) {
  station_t station;
  open_station(&station, count > 1 ? words[1] : "example/celsius");
  double answer = 0;
  int is_answered = 0;
  for (int number = 0; number < READINGS; number++) send_celsius(&station, 20.0 + number);
  for (int waited = 0; !is_answered && waited < MOST_SECONDS; waited++) {
    wait_a_second(&station);
    is_answered = receive_celsius(&station, &answer);
  }
  if (is_answered) printf("the display has %.1f °C\n", answer);
  else fprintf(stderr, "no display has answered\n");
  close_station(&station);
  return !is_answered;
}
