// SPDX-License-Identifier: Apache-2.0 OR MIT
/* publisher [NAME]: sends readings to who runs in other terminals, until it is ended. */
#include "../must.h"
#include "iox2_pubsub_processes.h"
#include <threads.h>

int main(int count, char **words) {
  iox2ps_domain_t domain = IOX2PS_DOMAIN_INIT;
  iox2ps_config_t config;
  iox2ps_publisher_t publisher;
  size_t receivers;
  iox2ps_config_defaults(&config, 7, sizeof(double), _Alignof(double));
  config.enable_safe_overflow = 0; /* loses nothing: what finds no room is sent anew */
  config.backpressure_strategy = IOX2PS_DISCARD_DATA;
  MUST(iox2ps_domain_open_or_create(&domain, count > 1 ? words[1] : "thermometer", "celsius", &config, NULL));
  MUST(iox2ps_publisher_create(&domain, &publisher));
  for (double celsius = 20.0;; celsius += receivers > 0) {
    iox2ps_loan_t loan;
    iox2ps_blocked_t blocked;
    void *payload;
    MUST(iox2ps_publisher_loan_uninit(&domain, &publisher, sizeof celsius, &loan, &payload));
    *(double *)payload = celsius; /* written in its slot, where the subscriber reads it */
    MUST(iox2ps_loan_send(&domain, &loan, &receivers, &blocked));
    thrd_sleep(&(struct timespec){.tv_nsec = 100000000}, NULL);
  }
}
