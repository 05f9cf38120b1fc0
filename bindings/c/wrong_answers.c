// SPDX-License-Identifier: Apache-2.0 OR MIT
/* Answers that are wrong: the tests have to see each, as the prover refuses bodies that give them. Each fault is put between the
 * archive and a test.
 *
 * It is compiled with -DFAULT=.. and linked to a test with -Wl,--wrap=.. for each of these functions. With NO_FAULT the test has to pass. */
#include "iox2_pubsub.h"

enum fault {
  NO_FAULT,
  FIRST_SUBSCRIBER_IS_NAMED, /* as the one that a blocked send waits for */
  LAST_SUBSCRIBER_IS_NAMED,
  STRUCT_OF_ANOTHER_SIZE_IS_FILLED,
  MEMORY_THAT_GROWS_MAY_BEGIN_WITH_NONE
};

iox2ps_status_t __real_iox2ps_domain_create(iox2ps_domain_t *, const iox2ps_config_t *);
iox2ps_status_t __real_iox2ps_subscriber_create(iox2ps_domain_t *, iox2ps_subscriber_t *);
iox2ps_status_t __real_iox2ps_blocked_subscriber(iox2ps_domain_t *, const iox2ps_blocked_t *, iox2ps_wide_t *);
iox2ps_status_t __real_iox2ps_domain_config_sized(iox2ps_domain_t *, iox2ps_config_t *, size_t);
iox2ps_status_t __real_iox2ps_publisher_create_with(iox2ps_domain_t *, const iox2ps_publisher_options_t *, iox2ps_publisher_t *);
iox2ps_status_t __wrap_iox2ps_domain_create(iox2ps_domain_t *, const iox2ps_config_t *);
iox2ps_status_t __wrap_iox2ps_subscriber_create(iox2ps_domain_t *, iox2ps_subscriber_t *);
iox2ps_status_t __wrap_iox2ps_blocked_subscriber(iox2ps_domain_t *, const iox2ps_blocked_t *, iox2ps_wide_t *);
iox2ps_status_t __wrap_iox2ps_domain_config_sized(iox2ps_domain_t *, iox2ps_config_t *, size_t);
iox2ps_status_t __wrap_iox2ps_publisher_create_with(iox2ps_domain_t *, const iox2ps_publisher_options_t *, iox2ps_publisher_t *);

/* The subscribers of the domain that was made last. */
static iox2ps_wide_t first, last;
static size_t count;

iox2ps_status_t __wrap_iox2ps_domain_create(iox2ps_domain_t *domain, const iox2ps_config_t *config) {
  count = 0;
  return __real_iox2ps_domain_create(domain, config);
}

iox2ps_status_t __wrap_iox2ps_subscriber_create(iox2ps_domain_t *domain, iox2ps_subscriber_t *subscriber) {
  iox2ps_status_t code = __real_iox2ps_subscriber_create(domain, subscriber);
  if (code != IOX2PS_OK) return code;
  last = subscriber->id;
  if (count++ == 0) first = last;
  return code;
}

iox2ps_status_t __wrap_iox2ps_blocked_subscriber(iox2ps_domain_t *domain, const iox2ps_blocked_t *blocked, iox2ps_wide_t *subscriber) {
  iox2ps_status_t code = __real_iox2ps_blocked_subscriber(domain, blocked, subscriber);
  if (code == IOX2PS_OK && FAULT == FIRST_SUBSCRIBER_IS_NAMED) *subscriber = first;
  if (code == IOX2PS_OK && FAULT == LAST_SUBSCRIBER_IS_NAMED) *subscriber = last;
  return code;
}

iox2ps_status_t __wrap_iox2ps_domain_config_sized(iox2ps_domain_t *domain, iox2ps_config_t *config, size_t struct_size) {
  if (FAULT == STRUCT_OF_ANOTHER_SIZE_IS_FILLED && struct_size > sizeof *config) struct_size = sizeof *config;
  return __real_iox2ps_domain_config_sized(domain, config, struct_size);
}

iox2ps_status_t __wrap_iox2ps_publisher_create_with(iox2ps_domain_t *domain, const iox2ps_publisher_options_t *options,
                                                    iox2ps_publisher_t *publisher) {
  iox2ps_publisher_options_t own = *options;
  int begins_with_none = own.initial_max_slice_len == 0 && own.allocation_strategy == IOX2PS_ALLOCATION_POWER_OF_TWO;
  if (FAULT == MEMORY_THAT_GROWS_MAY_BEGIN_WITH_NONE && begins_with_none) own.initial_max_slice_len = 16;
  return __real_iox2ps_publisher_create_with(domain, &own, publisher);
}
