// SPDX-License-Identifier: Apache-2.0 OR MIT
/* Twelve readings, and the last one is kept: what waits for a subscriber is the newest, since its buffer is 1. */
#include "iox2_pubsub.h"
#include <stdio.h>

#ifdef __aarch64__
#define PROCESSOR "aarch64"
#else
#define PROCESSOR "x86_64"
#endif

int main(void) {
  iox2ps_domain_t domain = IOX2PS_DOMAIN_INIT;
  iox2ps_config_t config;
  iox2ps_publisher_t publisher;
  iox2ps_subscriber_t subscriber;
  iox2ps_blocked_t blocked;
  iox2ps_sample_t sample;
  uint32_t last;
  size_t receivers, len;
  iox2ps_config_defaults(&config, 7, sizeof last, _Alignof(uint32_t));
  config.subscriber_max_buffer_size = 1;
  if (iox2ps_domain_create(&domain, &config) || iox2ps_publisher_create(&domain, &publisher)
      || iox2ps_subscriber_create(&domain, &subscriber)) return 1;
  for (uint32_t reading = 0; reading < 12; reading++)
    if (iox2ps_publisher_send_copy(&domain, &publisher, &reading, sizeof reading, &receivers, &blocked)) return 1;
  if (iox2ps_subscriber_receive_copy(&domain, &subscriber, &last, sizeof last, &len, &sample)) return 1;
  printf(PROCESSOR ": 12 readings, the last is %u\n", last);
  return iox2ps_domain_destroy(&domain) != IOX2PS_OK;
}
