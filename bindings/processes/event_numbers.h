// SPDX-License-Identifier: Apache-2.0 OR MIT
/* Which events a domain has had: of each id the number of its last notification. That follows from the calls, as the domain does, and is
 * copied with it: so a process that was left behind, and takes a copy in place of the calls that it missed, misses no event. What a
 * listener has seen of them its process alone knows (events.c). */
#ifndef IOX2PS_EVENT_NUMBERS_H
#define IOX2PS_EVENT_NUMBERS_H

#include "domain_calls.h"
#include "iox2_pubsub_processes.h"

enum { EVENT_IDS = IOX2PS_EVENT_ID_MAX_VALUE + 1 };

typedef struct event_numbers_t {
  uint64_t notifications; /* so far */
  uint64_t *last;         /* of each id, in a heap; null where there is no listener */
  uint64_t created;       /* listeners so far; the id of each is how many there were with it */
  uint32_t open, open_of[CALL_PLACES]; /* listeners of all places, and of each */
} event_numbers_t;

/* Whether it is one of the calls below. */
bool event_numbers_make_it(uint64_t operation);
/* Makes LISTENER_CREATE, whose reply has the listener's id and how many notifications there were before it; LISTENER_CLOSE, of any one
 * of the place's; or NOTIFY, whose reply counts the open listeners and has the number of the notification. */
domain_reply_t event_numbers_make(event_numbers_t *it, region_heap_t *heap, uint32_t place, uint64_t operation, const uint64_t words[HANDLE_WORDS]);
/* The place has no listener any more. */
void event_numbers_end(event_numbers_t *it, region_heap_t *heap, uint32_t place);

#endif
