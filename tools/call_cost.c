// SPDX-License-Identifier: Apache-2.0 OR MIT
/* Passes messages of 8 bytes from a publisher to a subscriber by the calls for C: as many as the first argument says. With a second
   argument the domain is recorded, with each byte. Its status is 0 where each message arrives, and each call is kept. */
#include "iox2_pubsub.h"
#include <stdint.h>
#include <stdlib.h>
#include <string.h>

static int pass(iox2ps_domain_t *domain, const iox2ps_publisher_t *publisher, const iox2ps_subscriber_t *subscriber, uint64_t number) {
  iox2ps_loan_t loan;
  iox2ps_blocked_t blocked;
  iox2ps_sample_t sample;
  void *out;
  const void *in;
  size_t receivers, len;
  if (iox2ps_publisher_loan(domain, publisher, sizeof number, &loan, &out)) return 0;
  memcpy(out, &number, sizeof number);
  if (iox2ps_loan_send(domain, &loan, &receivers, &blocked) || receivers != 1) return 0;
  if (iox2ps_subscriber_receive(domain, subscriber, &sample, &in, &len) || len != sizeof number) return 0;
  if (memcmp(in, &number, sizeof number)) return 0;
  return !iox2ps_sample_release(domain, &sample);
}

/* Has room for the calls of 3,000 messages: a message is at most 8 commands that write, 8 that read, and 4 others. */
static const size_t COMMANDS = 65536;

/* Whether each call was kept, where the domain is recorded. */
static int all_kept(iox2ps_domain_t *domain) {
  size_t len;
  uint64_t missed;
  return iox2ps_domain_recording(domain, NULL, 0, &len, &missed) == IOX2PS_TOO_SMALL && missed == 0;
}

int main(int count, char **words) {
  iox2ps_domain_t domain = IOX2PS_DOMAIN_INIT;
  iox2ps_config_t config;
  iox2ps_publisher_t publisher;
  iox2ps_subscriber_t subscriber;
  const uint64_t messages = count > 1 ? strtoull(words[1], NULL, 10) : 0;
  const int is_recorded = count == 3;
  iox2ps_config_defaults(&config, 1, sizeof messages, 1);
  if (is_recorded ? iox2ps_domain_create_recorded(&domain, &config, COMMANDS, sizeof messages) : iox2ps_domain_create(&domain, &config))
    return 1;
  if (iox2ps_publisher_create(&domain, &publisher) || iox2ps_subscriber_create(&domain, &subscriber)) return 1;
  for (uint64_t number = 0; number < messages; number++)
    if (!pass(&domain, &publisher, &subscriber, number)) return 1;
  if (is_recorded && !all_kept(&domain)) return 1;
  return iox2ps_domain_destroy(&domain) != 0;
}
