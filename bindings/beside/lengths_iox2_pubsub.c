// SPDX-License-Identifier: Apache-2.0 OR MIT
/* lengths.h by this library: a loan whose bytes nobody chose. */
#include "iox2_pubsub.h"
#include "lengths.h"
#include <string.h>

static iox2ps_domain_t domain = IOX2PS_DOMAIN_INIT;
static iox2ps_publisher_t publisher;
static iox2ps_subscriber_t subscriber;
static size_t length;

int begin(size_t len) {
  iox2ps_config_t config;
  length = len;
  iox2ps_config_defaults(&config, 1, len, 1);
  config.subscriber_max_buffer_size = config.subscriber_max_borrowed_samples = config.publisher_max_loaned_samples = 2;
  return !iox2ps_domain_create(&domain, &config) && !iox2ps_publisher_create(&domain, &publisher)
      && !iox2ps_subscriber_create(&domain, &subscriber);
}

static int send(uint64_t word) {
  iox2ps_loan_t loan;
  iox2ps_blocked_t blocked;
  size_t receivers;
  void *bytes;
  if (iox2ps_publisher_loan_uninit(&domain, &publisher, length, &loan, &bytes)) return 0;
  memcpy(bytes, &word, sizeof word);
  return !iox2ps_loan_send(&domain, &loan, &receivers, &blocked) && receivers == 1;
}

int pass(uint64_t word) {
  iox2ps_sample_t sample;
  const void *bytes;
  size_t len;
  uint64_t read;
  if (!send(word) || iox2ps_subscriber_receive(&domain, &subscriber, &sample, &bytes, &len)) return 0;
  memcpy(&read, bytes, sizeof read);
  return read == word && len == length && !iox2ps_sample_release(&domain, &sample);
}

int end(void) { return !iox2ps_domain_destroy(&domain); }
