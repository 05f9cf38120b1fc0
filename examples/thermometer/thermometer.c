// SPDX-License-Identifier: Apache-2.0 OR MIT
/* Sends readings to two subscribers, and prints what each reads. */
#include "iox2_pubsub.h"
#include <stdio.h>

struct reading {
  unsigned number;
  double celsius;
};

/* Ends the program's work where a call is refused. */
#define TRY(call)                                                    \
  do {                                                               \
    iox2ps_status_t returned_ = (call);                                     \
    if (returned_ != IOX2PS_OK) {                                      \
      fprintf(stderr, "%s: %s\n", #call, iox2ps_error_text(returned_)); \
      return 1;                                                      \
    }                                                                \
  } while (0)

static int send(iox2ps_domain_t *domain, const iox2ps_publisher_t *publisher, unsigned number) {
  iox2ps_loan_t loan;
  iox2ps_blocked_t blocked;
  void *payload;
  size_t receivers;
  TRY(iox2ps_publisher_loan(domain, publisher, sizeof(struct reading), &loan, &payload));
  struct reading *reading = payload;
  reading->number = number;
  reading->celsius = 20 + number / 2.0;
  TRY(iox2ps_loan_send(domain, &loan, &receivers, &blocked));
  printf("sent reading %u to %zu\n", number, receivers);
  return 0;
}

static int show(iox2ps_domain_t *domain, const iox2ps_subscriber_t *subscriber, int index) {
  iox2ps_sample_t sample;
  const void *payload;
  size_t len;
  iox2ps_status_t code;
  while ((code = iox2ps_subscriber_receive(domain, subscriber, &sample, &payload, &len)) == IOX2PS_OK) {
    const struct reading *reading = payload;
    printf("subscriber %d read %u: %.1f °C\n", index, reading->number, reading->celsius);
    TRY(iox2ps_sample_release(domain, &sample));
  }
  if (code != IOX2PS_NO_SAMPLE) TRY(code);
  return 0;
}

static int run(iox2ps_domain_t *domain) {
  iox2ps_config_t config;
  iox2ps_publisher_t publisher;
  iox2ps_subscriber_t subscribers[2];
  iox2ps_config_defaults(&config, 7, sizeof(struct reading), _Alignof(struct reading));
  TRY(iox2ps_domain_create(domain, &config));
  TRY(iox2ps_publisher_create(domain, &publisher));
  for (int i = 0; i < 2; i++) TRY(iox2ps_subscriber_create(domain, &subscribers[i]));
  for (unsigned number = 1; number <= 3; number++) {
    if (send(domain, &publisher, number)) return 1;
    for (int i = 0; i < 2; i++) {
      if (show(domain, &subscribers[i], i)) return 1;
    }
  }
  return 0;
}

int main(void) {
  iox2ps_domain_t domain = IOX2PS_DOMAIN_INIT;
  int failed = run(&domain);
  return iox2ps_domain_destroy(&domain) != IOX2PS_OK || failed;
}
