// SPDX-License-Identifier: Apache-2.0 OR MIT
/* subscriber [NAME]: prints five readings. It sleeps until one is there. */
#include "../must.h"
#include "iox2_pubsub_processes.h"

int main(int count, char **words) {
  iox2ps_domain_t domain = IOX2PS_DOMAIN_INIT;
  iox2ps_config_t config;
  iox2ps_subscriber_t subscriber;
  iox2ps_config_defaults(&config, 7, sizeof(double), _Alignof(double));
  config.enable_safe_overflow = 0; /* all processes of a domain have the same settings */
  config.backpressure_strategy = IOX2PS_DISCARD_DATA;
  MUST(iox2ps_domain_open_or_create(&domain, count > 1 ? words[1] : "thermometer", "celsius", &config, NULL));
  MUST(iox2ps_subscriber_create(&domain, &subscriber));
  for (int received = 0; received < 5;) {
    iox2ps_sample_t sample;
    const void *celsius;
    size_t len;
    uint64_t seen;
    MUST(iox2ps_domain_brought(&domain, IOX2PS_BRINGS_MESSAGE, &seen));
    iox2ps_status_t code = iox2ps_subscriber_receive(&domain, &subscriber, &sample, &celsius, &len);
    if (code == IOX2PS_NO_SAMPLE) {
      MUST(iox2ps_domain_wait(&domain, IOX2PS_BRINGS_MESSAGE, seen, UINT64_MAX));
      continue;
    }
    MUST(code);
    printf("%.1f °C\n", *(const double *)celsius); /* read there */
    MUST(iox2ps_sample_release(&domain, &sample));
    received++;
  }
  return iox2ps_domain_destroy(&domain) != IOX2PS_OK;
}
