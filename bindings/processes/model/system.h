// SPDX-License-Identifier: Apache-2.0 OR MIT
/* What of the system a member uses, in the model: sleep, and no clock, files or places. */
#ifndef IOX2PS_MODEL_SYSTEM_H
#define IOX2PS_MODEL_SYSTEM_H

#include "../futex.h"
#include "../shared_files.h"
#include "explore.h"

void futex_sleep(_Atomic uint64_t *word, uint64_t seen, uint64_t ns) {
  (void)ns;
  explore_sleep(word, seen);
}
void futex_wake(_Atomic uint64_t *word) { explore_wake(word); }
uint64_t futex_clock(void) { return 0; }

void shared_files_ready(shared_files_t *it) { (void)it; }
void shared_files_close(shared_files_t *it) { (void)it; }
void places_take_over(const places_t *places, uint64_t number) { (void)places, (void)number; }
void places_free_dead(const places_t *places, uint32_t place, uint64_t number) { (void)places, (void)place, (void)number; }
uint64_t places_look(const places_t *places, uint64_t seen[PLACES_MAX]) {
  (void)places, (void)seen;
  return 0;
}
uint32_t places_next_dead(const places_t *places, uint64_t among, uint32_t from, uint64_t *number) {
  (void)places, (void)among, (void)from, *number = 0;
  return NO_PLACE;
}

#endif
