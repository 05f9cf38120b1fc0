// SPDX-License-Identifier: Apache-2.0 OR MIT
/* Domains whose messages are numbers, as processes of several tests wait in them. */
#ifndef IOX2PS_NUMBERS_H
#define IOX2PS_NUMBERS_H

#include "check_domains.h"

#define SECOND UINT64_C(1000000000)
/* Only what has failed takes so long. */
#define PATIENCE (600 * SECOND)
/* So seldom a process looks by itself that only a wake-up ends its sleep. */
enum { HOUR_MS = 3600000 };

/* Options by which a process looks for the dead so often, and mostly sleeps. */
static inline iox2ps_processes_options_t looking_every(const iox2ps_config_t *config, uint32_t reap_every_ms) {
  iox2ps_processes_options_t options;
  iox2ps_processes_options_of(config, &options);
  options.reap_every_ms = reap_every_ms, options.spins = 10;
  return options;
}
static inline iox2ps_domain_t open_numbers(const char *name, const iox2ps_config_t *config, iox2ps_processes_options_t options) {
  iox2ps_domain_t domain = IOX2PS_DOMAIN_INIT;
  CHECK(iox2ps_domain_open_or_create(&domain, name, "number", config, &options) == IOX2PS_OK);
  return domain;
}
static inline void destroy(iox2ps_domain_t *domain) { CHECK(iox2ps_domain_destroy(domain) == IOX2PS_OK); }

static inline uint64_t seen_of(iox2ps_domain_t *domain, uint32_t brings) {
  uint64_t seen;
  CHECK(iox2ps_domain_brought(domain, brings, &seen) == IOX2PS_OK);
  return seen;
}

/* Sleeps until there is one. */
static inline uint64_t receive_number(iox2ps_domain_t *domain, const iox2ps_subscriber_t *subscriber) {
  uint64_t number = 0, seen;
  size_t len;
  iox2ps_sample_t sample;
  iox2ps_status_t code;
  do {
    seen = seen_of(domain, IOX2PS_BRINGS_MESSAGE);
    code = iox2ps_subscriber_receive_copy(domain, subscriber, &number, sizeof number, &len, &sample);
  } while (code == IOX2PS_NO_SAMPLE && iox2ps_domain_wait(domain, IOX2PS_BRINGS_MESSAGE, seen, PATIENCE) == IOX2PS_OK);
  CHECK(code == IOX2PS_OK && len == sizeof number);
  return number;
}

#endif
