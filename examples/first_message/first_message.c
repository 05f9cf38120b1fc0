// SPDX-License-Identifier: Apache-2.0 OR MIT
#include "iox2_pubsub.h"
#include <stdio.h>

typedef struct { double celsius; } reading_t;

int main(void) {
  iox2ps_domain_t domain = IOX2PS_DOMAIN_INIT;
  iox2ps_config_t config;
  iox2ps_publisher_t publisher;
  iox2ps_subscriber_t subscriber;
  iox2ps_loan_t loan;
  iox2ps_blocked_t blocked;
  iox2ps_sample_t sample;
  void *out;
  const void *in;
  size_t receivers, len;
  iox2ps_config_defaults(&config, 7, sizeof(reading_t), _Alignof(reading_t));
  if (iox2ps_domain_create(&domain, &config)) return 1;
  if (iox2ps_publisher_create(&domain, &publisher)) return 1;
  if (iox2ps_subscriber_create(&domain, &subscriber)) return 1;
  if (iox2ps_publisher_loan(&domain, &publisher, sizeof(reading_t), &loan, &out)) return 1;
  ((reading_t *)out)->celsius = 21.5; /* written in its slot */
  if (iox2ps_loan_send(&domain, &loan, &receivers, &blocked)) return 1;
  if (iox2ps_subscriber_receive(&domain, &subscriber, &sample, &in, &len)) return 1;
  printf("%.1f °C, read by %zu\n", ((const reading_t *)in)->celsius, receivers); /* read there */
  return iox2ps_sample_release(&domain, &sample) || iox2ps_domain_destroy(&domain);
}
