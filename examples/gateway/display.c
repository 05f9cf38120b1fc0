// SPDX-License-Identifier: Apache-2.0 OR MIT
/* display [TOPIC]: prints five readings that a sensor in another process sends by DDS, and answers it. */
#include "station.h"

/* The sensor ends when it has the answer. */
static void stay_until_sensor_leaves(station_t *station) {
  iox2ps_dds_peers_t peers;
  for (int waited = 0; waited < MOST_SECONDS; waited++) {
    wait_a_second(station);
    iox2ps_dds_peers(station->gateway, &peers);
    if (peers.writers == 0) return;
  }
}

int main(int count, char **words) {
  station_t station;
  open_station(&station, count > 1 ? words[1] : "example/celsius");
  double celsius = 0;
  int read_so_far = 0;
  for (int waited = 0; read_so_far < READINGS && waited < MOST_SECONDS; waited++) {
    wait_a_second(&station);
    for (; read_so_far < READINGS && receive_celsius(&station, &celsius); read_so_far++) printf("%.1f °C\n", celsius);
  }
  if (read_so_far == READINGS) {
    send_celsius(&station, celsius);
    stay_until_sensor_leaves(&station);
  } else {
    fprintf(stderr, "no sensor has sent all\n");
  }
  close_station(&station);
  return read_so_far != READINGS;
}
