// SPDX-License-Identifier: Apache-2.0 OR MIT
/* Passes messages from a publisher to a subscriber by the calls for C: as many as the first argument says, each of as many
   bytes as the second says, which are lent by the call that the third names. Beside each it fills and copies as many bytes
   without a domain. Its status is 0 where each arrives. */
#include "iox2_pubsub.h"
#include <stdint.h>
#include <stdlib.h>
#include <string.h>

static iox2ps_domain_t domain = IOX2PS_DOMAIN_INIT;
static iox2ps_publisher_t publisher;
static iox2ps_subscriber_t subscriber;
static unsigned char *source, *target;

/* Each of these stays a function of its own in the program, so that its instructions can be counted. */
#define COUNTED __attribute__((noinline))

COUNTED static void fill_memory(volatile size_t len) { memset(target, 0, len); }

COUNTED static void copy_memory(volatile size_t len) { memcpy(target, source, len); }

/* Sends a loan of the bytes, after it has written one. */
static int send_loan(uint32_t lent, iox2ps_loan_t *loan, unsigned char *bytes) {
  size_t receivers;
  iox2ps_blocked_t blocked;
  if (lent) return 0;
  bytes[0] = 7;
  return !iox2ps_loan_send(&domain, loan, &receivers, &blocked) && receivers == 1;
}

/* Receives a message whose first byte is 7, and gives it back. */
static int receive(size_t len) {
  iox2ps_sample_t sample;
  const void *bytes;
  size_t received;
  if (iox2ps_subscriber_receive(&domain, &subscriber, &sample, &bytes, &received) || received != len) return 0;
  if (*(const unsigned char *)bytes != 7) return 0;
  return !iox2ps_sample_release(&domain, &sample);
}

COUNTED static int pass_uninit(size_t len) {
  iox2ps_loan_t loan;
  void *bytes = NULL;
  const uint32_t lent = iox2ps_publisher_loan_uninit(&domain, &publisher, len, &loan, &bytes);
  return send_loan(lent, &loan, bytes) && receive(len);
}

COUNTED static int pass_zeros(size_t len) {
  iox2ps_loan_t loan;
  void *bytes = NULL;
  const uint32_t lent = iox2ps_publisher_loan(&domain, &publisher, len, &loan, &bytes);
  return send_loan(lent, &loan, bytes) && receive(len);
}

COUNTED static int pass_copy(size_t len) {
  size_t receivers, received;
  iox2ps_blocked_t blocked;
  iox2ps_sample_t sample;
  const void *bytes;
  if (iox2ps_publisher_send_copy(&domain, &publisher, source, len, &receivers, &blocked) || receivers != 1) return 0;
  if (iox2ps_subscriber_receive(&domain, &subscriber, &sample, &bytes, &received)) return 0;
  if (iox2ps_sample_copy(&domain, &sample, target, len, &received) || received != len || target[0] != 7) return 0;
  return !iox2ps_sample_release(&domain, &sample);
}

static int pass(const char *kind, size_t len) {
  fill_memory(len);
  copy_memory(len);
  if (!strcmp(kind, "uninit")) return pass_uninit(len);
  if (!strcmp(kind, "zeros")) return pass_zeros(len);
  return pass_copy(len);
}

int main(int count, char **words) {
  iox2ps_config_t config;
  const uint64_t messages = count == 4 ? strtoull(words[1], NULL, 10) : 0;
  const size_t len = count == 4 ? strtoull(words[2], NULL, 10) : 0;
  if (len == 0) return 2;
  source = malloc(len);
  target = malloc(len);
  if (!source || !target) return 1;
  memset(source, 7, len);
  iox2ps_config_defaults(&config, 1, len, 1);
  if (iox2ps_domain_create(&domain, &config) || iox2ps_publisher_create(&domain, &publisher)
      || iox2ps_subscriber_create(&domain, &subscriber))
    return 1;
  for (uint64_t number = 0; number < messages; number++)
    if (!pass(words[3], len)) return 1;
  free(source);
  free(target);
  return iox2ps_domain_destroy(&domain) != 0;
}
