// SPDX-License-Identifier: Apache-2.0 OR MIT
/* Messages of different lengths: a scan has up to 4 ranges. A publisher whose memory grows lends longer ones, too. */
#include "../must.h"

static iox2ps_domain_t domain = IOX2PS_DOMAIN_INIT;

static void scan(const iox2ps_publisher_t *publisher, size_t count) {
  iox2ps_loan_t loan;
  iox2ps_blocked_t blocked;
  void *payload;
  iox2ps_status_t code = iox2ps_publisher_loan(&domain, publisher, count * sizeof(float), &loan, &payload);
  if (code == IOX2PS_LOAN_ERROR_EXCEEDS_MAX_LOAN_SIZE) {
    printf("%zu ranges are too many\n", count);
    return;
  }
  MUST(code);
  float *ranges = payload;
  for (size_t i = 0; i < count; i++) ranges[i] = 0.5f * (float)(i + 1);
  MUST(iox2ps_loan_send(&domain, &loan, NULL, &blocked));
}

static void show(const iox2ps_subscriber_t *subscriber) {
  iox2ps_sample_t sample;
  const void *payload;
  size_t len;
  while (iox2ps_subscriber_receive(&domain, subscriber, &sample, &payload, &len) == IOX2PS_OK) {
    const float *ranges = payload;
    size_t count = len / sizeof(float); /* C counts bytes */
    printf("read %zu ranges, the last is %.1f m\n", count, ranges[count - 1]);
    MUST(iox2ps_sample_release(&domain, &sample));
  }
}

int main(void) {
  iox2ps_config_t config;
  iox2ps_publisher_options_t options;
  iox2ps_publisher_t publisher, growing;
  iox2ps_subscriber_t subscriber;
  iox2ps_config_defaults(&config, 7, 4 * sizeof(float), _Alignof(float));
  MUST(iox2ps_domain_create(&domain, &config));
  MUST(iox2ps_publisher_create(&domain, &publisher));
  MUST(iox2ps_subscriber_create(&domain, &subscriber));
  scan(&publisher, 3);
  scan(&publisher, 1);
  scan(&publisher, 1000);
  show(&subscriber);
  iox2ps_publisher_options_of(&config, &options);
  options.allocation_strategy = IOX2PS_ALLOCATION_POWER_OF_TWO;
  MUST(iox2ps_publisher_create_with(&domain, &options, &growing));
  scan(&growing, 1000);
  show(&subscriber);
  return iox2ps_domain_destroy(&domain) != IOX2PS_OK;
}
