// SPDX-License-Identifier: Apache-2.0 OR MIT
/* One program that uses this library, the stand-in for iceoryx2, and iceoryx's C binding where that is there. */
#include "iceoryx2.h"
#include "iox2_pubsub.h"
#include <stdio.h>
#include <string.h>
#ifdef ICEORYX
#include <iceoryx_binding_c/api.h>
#endif

/* Whether the six names lead to the stand-in. */
static int calls_the_stand_in(void) {
  iox2_subscriber_t one;
  iox2_publisher_t other;
  iox2_sample_t lent;
  iox2_subscriber_t *subscriber = &one;
  iox2_publisher_t *publisher = &other;
  iox2_sample_h sample = NULL;
  bool has_samples = false;
  const void *payload = NULL;
  void *header = NULL;
  size_t count = 0;
  int sum = iox2_subscriber_receive(&subscriber, &lent, &sample) + iox2_subscriber_has_samples(&subscriber, &has_samples)
          + iox2_subscriber_update_connections(&subscriber) + iox2_publisher_update_connections(&publisher);
  iox2_sample_payload(&sample, &payload, &count);
  iox2_sample_header(&sample, &lent, &header);
  return sum == 410 && has_samples && payload == &lent && count == 105 && header == &lent;
}

/* Whether the names of this library lead here. */
static int passes_a_message(void) {
  iox2ps_domain_t domain = IOX2PS_DOMAIN_INIT;
  iox2ps_config_t config;
  iox2ps_publisher_t publisher;
  iox2ps_subscriber_t subscriber;
  iox2ps_blocked_t blocked;
  iox2ps_sample_t sample;
  iox2ps_header_t header;
  uint32_t waits = 0;
  size_t receivers = 0, len = 0;
  const void *payload = NULL;
  iox2ps_config_defaults(&config, 7, 8, 1);
  return !iox2ps_domain_create(&domain, &config) && !iox2ps_publisher_create(&domain, &publisher)
      && !iox2ps_subscriber_create(&domain, &subscriber) && !iox2ps_publisher_update_connections(&domain, &publisher)
      && !iox2ps_subscriber_update_connections(&domain, &subscriber)
      && !iox2ps_publisher_send_copy(&domain, &publisher, "message", 8, &receivers, &blocked) && receivers == 1
      && !iox2ps_subscriber_has_samples(&domain, &subscriber, &waits) && waits == 1
      && !iox2ps_subscriber_receive(&domain, &subscriber, &sample, &payload, &len)
      && !iox2ps_sample_payload(&domain, &sample, &payload, &len) && len == 8 && strcmp((const char *)payload, "message") == 0
      && !iox2ps_sample_header(&domain, &sample, &header) && header.number_of_elements == 8
      && !iox2ps_sample_release(&domain, &sample) && !iox2ps_domain_destroy(&domain);
}

static int calls_iceoryx(void) {
#ifdef ICEORYX
  iox_sub_options_t options;
  iox_sub_options_init(&options);
  return iox_cfg_max_publishers() > 0 && iox_sub_options_is_initialized(&options);
#else
  return 1;
#endif
}

int main(void) {
  if (!calls_the_stand_in() || !passes_a_message() || !calls_iceoryx()) return 1;
  puts("both answer");
  return 0;
}
