// SPDX-License-Identifier: Apache-2.0 OR MIT
/* Which processes a call may help that wait with a publisher, so that it wakes no other: a wake-up in vain costs two processes a call of
 * the system, and all of them a call that finds nothing. */
#ifndef IOX2PS_HELPED_PLACES_H
#define IOX2PS_HELPED_PLACES_H

#include "domain_memory.h"

/* What only publishers wait for, a sum of iox2ps_brings_e. */
enum { HELPS_PUBLISHERS = IOX2PS_BRINGS_ROOM | IOX2PS_BRINGS_FREE | IOX2PS_BRINGS_LOAN };

/* Of a receive that has found a message: whether a send waits for its place, so that room is brought. */
bool helped_places_need_room(domain_memory_t *it, const uint64_t words[HANDLE_WORDS], const domain_reply_t *reply);
/* The places that a call of this place has helped, a bit each. */
uint64_t helped_places_of(domain_memory_t *it, uint32_t place, uint64_t operation, const uint64_t words[HANDLE_WORDS], const domain_reply_t *reply);

#endif
