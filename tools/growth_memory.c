// SPDX-License-Identifier: Apache-2.0 OR MIT
/* Has the memory of a publisher of slices of 8-byte elements grow, and prints how many bytes the archive has then.
 *
 *   growth_memory STRATEGY SLOTS GROWTHS LONGEST held|loan|send|update [KEPT..]
 *
 * STRATEGY is bestfit or poweroftwo. Each segment has this number of slots. The first growth is for 2 elements, each later one for
 * one more, and the last one for LONGEST. Each KEPT is the length of a message, by rising length, that a subscriber keeps. With
 * `held` the bytes are counted then. Else it lets all of them go in the end, the publisher makes this one call more, and only then
 * the bytes are counted; the loan that is sent was made before. Its status is 0 where each call succeeds.
 *
 * It is linked with -Wl,--wrap=malloc -Wl,--wrap=realloc -Wl,--wrap=free. */
#include "iox2_pubsub.h"
#include <inttypes.h>
#include <stdio.h>
#include <stdlib.h>
#include <string.h>

enum { ELEMENT = 8, MOST_KEPT = 8 };

/* How many bytes were asked for and not given back. Each allocation begins with its size. */
static size_t held;
typedef union { size_t size; max_align_t aligned; } head_t;

void *__real_malloc(size_t size);
void *__real_realloc(void *old, size_t size);
void __real_free(void *old);
void *__wrap_malloc(size_t size);
void *__wrap_realloc(void *old, size_t size);
void __wrap_free(void *old);

static void *counted(head_t *head, size_t size) {
  if (!head) return NULL;
  head->size = size;
  held += size;
  return head + 1;
}

void *__wrap_malloc(size_t size) { return counted(__real_malloc(sizeof(head_t) + size), size); }

void *__wrap_realloc(void *old, size_t size) {
  head_t *head = old ? (head_t *)old - 1 : NULL;
  size_t before = head ? head->size : 0;
  head_t *moved = __real_realloc(head, sizeof(head_t) + size);
  if (moved) held -= before;
  return counted(moved, size);
}

void __wrap_free(void *old) {
  if (!old) return;
  head_t *head = (head_t *)old - 1;
  held -= head->size;
  __real_free(head);
}

static size_t number(const char *word) { return strtoull(word, NULL, 10); }

static int lends(iox2ps_domain_t *domain, const iox2ps_publisher_t *publisher, size_t elements) {
  iox2ps_loan_t loan;
  void *payload;
  return !iox2ps_publisher_loan_uninit(domain, publisher, elements * ELEMENT, &loan, &payload)
         && !iox2ps_loan_discard(domain, &loan);
}

/* Sends a message of that length, which the subscriber keeps as this sample. */
static int is_kept(iox2ps_domain_t *domain, const iox2ps_publisher_t *publisher, const iox2ps_subscriber_t *subscriber,
                   size_t elements, iox2ps_sample_t *sample) {
  iox2ps_loan_t loan;
  iox2ps_blocked_t blocked;
  void *out;
  const void *in;
  size_t receivers, len;
  return !iox2ps_publisher_loan_uninit(domain, publisher, elements * ELEMENT, &loan, &out)
         && !iox2ps_loan_send(domain, &loan, &receivers, &blocked)
         && !iox2ps_subscriber_receive(domain, subscriber, sample, &in, &len) && len == elements * ELEMENT;
}

/* The call that this word says, of a publisher whose loan waits to be sent. */
static int makes(iox2ps_domain_t *domain, const iox2ps_publisher_t *publisher, iox2ps_loan_t *loan, const char *word) {
  iox2ps_blocked_t blocked;
  size_t receivers;
  if (!strcmp(word, "loan")) return lends(domain, publisher, 1);
  if (!strcmp(word, "send")) return !iox2ps_loan_send(domain, loan, &receivers, &blocked);
  return !strcmp(word, "update") && !iox2ps_publisher_update_connections(domain, publisher);
}

int main(int count, char **words) {
  if (count < 6 || count > 6 + MOST_KEPT) {
    fputs("usage: growth_memory STRATEGY SLOTS GROWTHS LONGEST held|loan|send|update [KEPT..]\n", stderr);
    return 2;
  }
  const size_t slots = number(words[2]), growths = number(words[3]), longest = number(words[4]);
  const int releases = strcmp(words[5], "held");
  iox2ps_sample_t samples[MOST_KEPT];
  int kept = 0;
  iox2ps_domain_t domain = IOX2PS_DOMAIN_INIT;
  iox2ps_config_t config;
  iox2ps_publisher_options_t options;
  iox2ps_publisher_t publisher;
  iox2ps_subscriber_t subscriber;
  iox2ps_config_defaults(&config, 1, ELEMENT, ELEMENT);
  config.subscriber_max_buffer_size = slots;
  config.subscriber_max_borrowed_samples = MOST_KEPT;
  if (iox2ps_domain_create(&domain, &config)) return 1;
  iox2ps_publisher_options_of(&config, &options);
  options.allocation_strategy =
      strcmp(words[1], "poweroftwo") ? IOX2PS_ALLOCATION_BEST_FIT : IOX2PS_ALLOCATION_POWER_OF_TWO;
  options.preallocated_samples = slots;
  if (iox2ps_publisher_create_with(&domain, &options, &publisher) || iox2ps_subscriber_create(&domain, &subscriber)) return 1;
  /* Both ports have their connection from here on, whatever is kept. */
  if (!is_kept(&domain, &publisher, &subscriber, 1, &samples[0]) || iox2ps_sample_release(&domain, &samples[0])) return 1;
  for (size_t growth = 1; growth < growths; growth++) {
    if (!lends(&domain, &publisher, growth + 1)) return 1;
    if (6 + kept < count && growth + 1 == number(words[6 + kept])) {
      if (!is_kept(&domain, &publisher, &subscriber, growth + 1, &samples[kept])) return 1;
      kept++;
    }
  }
  if (growths && !lends(&domain, &publisher, longest)) return 1;
  if (6 + kept != count) return 1;
  iox2ps_loan_t loan;
  void *payload;
  if (iox2ps_publisher_loan_uninit(&domain, &publisher, ELEMENT, &loan, &payload)) return 1;
  if (releases) {
    for (int each = 0; each < kept; each++)
      if (iox2ps_sample_release(&domain, &samples[each])) return 1;
    if (!makes(&domain, &publisher, &loan, words[5])) return 1;
  }
  printf("%zu\n", held);
  return iox2ps_domain_destroy(&domain) != 0 || held != 0;
}
