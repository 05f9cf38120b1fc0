// SPDX-License-Identifier: Apache-2.0 OR MIT
/* Where nothing may be lost, a send waits for a subscriber whose buffer is full. It is retried, or given up. */
#include "../must.h"

static iox2ps_domain_t domain = IOX2PS_DOMAIN_INIT;
static iox2ps_publisher_t publisher;
static iox2ps_subscriber_t subscriber;

static iox2ps_status_t send(int number, iox2ps_blocked_t *blocked) {
  size_t receivers;
  iox2ps_status_t code = iox2ps_publisher_send_copy(&domain, &publisher, &number, sizeof number, &receivers, blocked);
  if (code == IOX2PS_OK) printf("%d reached %zu\n", number, receivers);
  return code;
}

static void say_who_is_full(int number, const iox2ps_blocked_t *blocked) {
  iox2ps_wide_t full;
  MUST(iox2ps_blocked_subscriber(&domain, blocked, &full));
  printf("%d waits for %s\n", number, full.low == subscriber.id.low ? "the subscriber" : "another");
}

static void read_one(void) {
  iox2ps_sample_t sample;
  int number;
  size_t len;
  MUST(iox2ps_subscriber_receive_copy(&domain, &subscriber, &number, sizeof number, &len, &sample));
  printf("read %d\n", number);
}

int main(void) {
  iox2ps_config_t config;
  iox2ps_blocked_t blocked;
  size_t receivers;
  iox2ps_config_defaults(&config, 7, sizeof(int), _Alignof(int));
  config.enable_safe_overflow = 0;
  config.subscriber_max_buffer_size = 1;
  MUST(iox2ps_domain_create(&domain, &config));
  MUST(iox2ps_publisher_create(&domain, &publisher));
  MUST(iox2ps_subscriber_create(&domain, &subscriber));
  MUST(send(1, &blocked));
  if (send(2, &blocked) != IOX2PS_BLOCKED) return 1;
  say_who_is_full(2, &blocked);
  if (iox2ps_blocked_retry(&domain, &blocked, 0, &receivers) == IOX2PS_BLOCKED) printf("2 still waits\n");
  read_one();
  MUST(iox2ps_blocked_retry(&domain, &blocked, 0, &receivers));
  printf("2 reached %zu\n", receivers);
  if (send(3, &blocked) != IOX2PS_BLOCKED) return 1;
  say_who_is_full(3, &blocked);
  MUST(iox2ps_blocked_give_up(&domain, &blocked, &receivers));
  printf("3 was given up, and reached %zu\n", receivers);
  read_one();
  return iox2ps_domain_destroy(&domain) != IOX2PS_OK;
}
