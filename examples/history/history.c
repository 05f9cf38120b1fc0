// SPDX-License-Identifier: Apache-2.0 OR MIT
/* A publisher keeps its last 3 messages for subscribers that come later. */
#include "../must.h"

static iox2ps_domain_t domain = IOX2PS_DOMAIN_INIT;

static void show(const char *who, const iox2ps_subscriber_t *subscriber) {
  iox2ps_sample_t sample;
  double metres;
  size_t len;
  printf("%s reads", who);
  while (iox2ps_subscriber_receive_copy(&domain, subscriber, &metres, sizeof metres, &len, &sample) == IOX2PS_OK)
    printf(" %.1f", metres);
  printf("\n");
}

int main(void) {
  iox2ps_config_t config;
  iox2ps_subscriber_options_t options;
  iox2ps_publisher_t publisher;
  iox2ps_subscriber_t late, short_of_room;
  iox2ps_blocked_t blocked;
  iox2ps_config_defaults(&config, 7, sizeof(double), _Alignof(double));
  config.history_size = 3;
  config.subscriber_max_buffer_size = 8;
  MUST(iox2ps_domain_create(&domain, &config));
  MUST(iox2ps_publisher_create(&domain, &publisher));
  for (double metres = 1; metres <= 5; metres++)
    MUST(iox2ps_publisher_send_copy(&domain, &publisher, &metres, sizeof metres, NULL, &blocked));
  MUST(iox2ps_subscriber_create(&domain, &late));
  iox2ps_subscriber_options_of(&config, &options);
  options.buffer_size = 2;
  MUST(iox2ps_subscriber_create_with(&domain, &options, &short_of_room));
  MUST(iox2ps_publisher_update_connections(&domain, &publisher)); /* which hands it over; so does the next send */
  show("a late subscriber", &late);
  show("one with a buffer of 2", &short_of_room);
  return iox2ps_domain_destroy(&domain) != IOX2PS_OK;
}
