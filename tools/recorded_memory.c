// SPDX-License-Identifier: Apache-2.0 OR MIT
/* Makes calls that take no memory, on a domain that is recorded and on one that isn't, and compares how many allocations each of
 * them makes; for tools/memory_of_messages.
 *
 *   recorded_memory ROOM CALLS
 *
 * The recording has room for ROOM commands. CALLS calls are made on each domain, from the ports on: more than there is room for, if
 * you like. It prints how many they are, and its status is 0 where each call succeeds and makes as many allocations on both. */
#include "../bindings/c/allocations.h"
#include "../bindings/include/iox2_pubsub.h"
#include <stdio.h>

enum { LOANS = 40, KINDS = 5 };

/* A domain, and what its calls made. */
typedef struct {
  iox2ps_domain_t domain;
  iox2ps_publisher_t publisher;
  iox2ps_subscriber_t subscriber;
  iox2ps_sample_t sample;
} side_t;

static void settings(iox2ps_config_t *config) {
  iox2ps_config_defaults(config, 1, 8, 8);
  config->publisher_max_loaned_samples = LOANS;
  config->backpressure_strategy = IOX2PS_DISCARD_DATA;
}

/* The call at this place: a port, a loan that stays out, or a message that is sent, received, asked for and released. */
static iox2ps_status_t call(side_t *on, size_t at) {
  iox2ps_loan_t loan;
  iox2ps_blocked_t blocked;
  void *lent;
  const void *received;
  size_t count;
  uint32_t waits;
  if (at == 0) return iox2ps_subscriber_create(&on->domain, &on->subscriber);
  if (at == 1) return iox2ps_publisher_create(&on->domain, &on->publisher);
  switch ((at - 2) % KINDS) {
    case 0:
      if ((at - 2) / KINDS >= LOANS - 1) return IOX2PS_OK;
      return iox2ps_publisher_loan_uninit(&on->domain, &on->publisher, 8, &loan, &lent);
    case 1: return iox2ps_publisher_send_copy(&on->domain, &on->publisher, "message", 8, &count, &blocked);
    case 2: return iox2ps_subscriber_has_samples(&on->domain, &on->subscriber, &waits);
    case 3: return iox2ps_subscriber_receive(&on->domain, &on->subscriber, &on->sample, &received, &count);
    default: return iox2ps_sample_release(&on->domain, &on->sample);
  }
}

/* How many allocations the call makes. */
static size_t allocations_of(side_t *on, size_t at) {
  const size_t before = allocations;
  const iox2ps_status_t got = call(on, at);
  if (got == IOX2PS_OK) return allocations - before;
  fprintf(stderr, "call %zu: %s\n", at, iox2ps_error_text(got));
  exit(2);
}

int main(int count, char **words) {
  static side_t recorded = {.domain = IOX2PS_DOMAIN_INIT}, plain = {.domain = IOX2PS_DOMAIN_INIT};
  iox2ps_config_t config;
  if (count != 3) {
    fputs("usage: recorded_memory ROOM CALLS\n", stderr);
    return 2;
  }
  const size_t room = strtoull(words[1], NULL, 10), calls = strtoull(words[2], NULL, 10);
  settings(&config);
  if (iox2ps_domain_create_recorded(&recorded.domain, &config, room, 8) || iox2ps_domain_create(&plain.domain, &config)) return 2;
  for (size_t at = 0; at < calls; at++) {
    const size_t of_recorded = allocations_of(&recorded, at), of_plain = allocations_of(&plain, at);
    if (of_recorded == of_plain) continue;
    fprintf(stderr, "call %zu of a domain with room for %zu: %zu allocations, where one that isn't recorded makes %zu\n", at, room,
            of_recorded, of_plain);
    return 1;
  }
  printf("%zu\n", calls);
  return iox2ps_domain_destroy(&recorded.domain) || iox2ps_domain_destroy(&plain.domain);
}
