// SPDX-License-Identifier: Apache-2.0 OR MIT
/* Passes messages of 64 bytes to subscribers that read each at once, as bindings/rust/examples/compare.rs does:
 * `compare SUBSCRIBERS MESSAGES`. Prints the nanoseconds that a message took. */
#define _POSIX_C_SOURCE 200809L
#include "iox2_pubsub.h"
#include <inttypes.h>
#include <stdio.h>
#include <stdlib.h>
#include <string.h>
#include <time.h>

#define MOST 64

static iox2ps_domain_t domain = {NULL};
static iox2ps_publisher_t publisher;
static iox2ps_subscriber_t subscribers[MOST];

static int begin(size_t count) {
  iox2ps_config_t config;
  iox2ps_config_defaults(&config, 1, 64, 8);
  config.max_subscribers = count;
  if (iox2ps_domain_create(&domain, &config) || iox2ps_publisher_create(&domain, &publisher)) return 0;
  for (size_t i = 0; i < count; i++) {
    if (iox2ps_subscriber_create(&domain, &subscribers[i])) return 0;
  }
  return 1;
}

static int send(uint64_t number) {
  iox2ps_loan_t loan;
  iox2ps_blocked_t blocked;
  void *payload;
  size_t receivers;
  if (iox2ps_publisher_loan(&domain, &publisher, 64, &loan, &payload)) return 0;
  for (size_t i = 0; i < 8; i++) memcpy((uint8_t *)payload + 8 * i, &number, sizeof number);
  return iox2ps_loan_send(&domain, &loan, &receivers, &blocked) == IOX2PS_OK;
}

/* Adds what waits to the sum. */
static int receive_all(const iox2ps_subscriber_t *subscriber, uint64_t *sum) {
  iox2ps_sample_t sample;
  const void *payload;
  size_t len;
  iox2ps_status_t code;
  while ((code = iox2ps_subscriber_receive(&domain, subscriber, &sample, &payload, &len)) == IOX2PS_OK) {
    uint64_t number;
    memcpy(&number, payload, sizeof number);
    *sum += number;
    if (iox2ps_sample_release(&domain, &sample)) return 0;
  }
  return code == IOX2PS_NO_SAMPLE;
}

int main(int count, char **words) {
  struct timespec started, ended;
  uint64_t sum = 0;
  if (count != 3) return 2;
  size_t receivers = strtoull(words[1], NULL, 10);
  uint64_t messages = strtoull(words[2], NULL, 10);
  if (receivers > MOST || messages == 0 || !begin(receivers)) return 2;
  clock_gettime(CLOCK_MONOTONIC, &started);
  for (uint64_t number = 0; number < messages; number++) {
    if (!send(number)) return 1;
    for (size_t i = 0; i < receivers; i++) {
      if (!receive_all(&subscribers[i], &sum)) return 1;
    }
  }
  clock_gettime(CLOCK_MONOTONIC, &ended);
  if (iox2ps_domain_destroy(&domain)) return 1;
  int64_t elapsed = (int64_t)(ended.tv_sec - started.tv_sec) * 1000000000 + (ended.tv_nsec - started.tv_nsec);
  printf("%" PRId64 "\n", elapsed / (int64_t)messages);
  return sum == messages * (messages - 1) / 2 * receivers ? 0 : 1;
}
