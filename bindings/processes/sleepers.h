// SPDX-License-Identifier: Apache-2.0 OR MIT
/* Who sleeps until others have added calls to the list, and why. Each place has a word of its own at which its process sleeps,
 * so whoever has made a call wakes those alone whom it may help, and makes no call of the system if there are none.
 *
 * Whoever is to sleep says so first, and then looks at the list once more. Whoever has made a call looks at who sleeps
 * afterwards. One of the two sees the other. A process that dies or is stopped between its call and this look wakes nobody, and
 * so does one whose call another added: nobody may sleep longer than until it looks by itself. */
#ifndef IOX2PS_SLEEPERS_H
#define IOX2PS_SLEEPERS_H

#include <stdatomic.h>
#include <stdbool.h>
#include <stdint.h>

#ifndef SLEEP_PLACES
#define SLEEP_PLACES 64
#endif
#ifndef SLEEP_REASONS
#define SLEEP_REASONS 6
#endif
#define SLEEP_ALL_PLACES UINT64_MAX

/* In shared memory. It is 0 at first. */
typedef struct sleepers_shared_t {
  _Alignas(64) _Atomic uint64_t asleep[SLEEP_REASONS]; /* the places that sleep for each reason, a bit each */
  _Atomic uint64_t by_descriptor; /* those that are to be woken by their descriptor, too */
  struct { _Alignas(64) _Atomic uint64_t count; } woken[SLEEP_PLACES];
} sleepers_shared_t;

/* Says that the process of the place is about to sleep for these reasons, a bit each. Returns what `sleepers_sleep` takes. */
uint64_t sleepers_begin(sleepers_shared_t *it, uint32_t place, uint32_t reasons);
/* Sleeps until it is woken since it began, or for so many ns. It may return sooner. */
void sleepers_sleep(sleepers_shared_t *it, uint32_t place, uint64_t begun, uint64_t ns);
/* Says that the process doesn't sleep any more. */
void sleepers_end(sleepers_shared_t *it, uint32_t place, uint32_t reasons);
/* Nobody sleeps there: of a process that enters, since one that died may have slept. */
void sleepers_forget(sleepers_shared_t *it, uint32_t place);
/* Whether one of the places sleeps, for whatever reason. After the call that may help it. */
static inline bool sleepers_are_there(const sleepers_shared_t *it, uint64_t places) {
  uint64_t asleep = 0;
  /* Sequentially consistent: sleepers.c. */
#pragma GCC unroll 8
  for (uint32_t reason = 0; reason < SLEEP_REASONS; reason++) asleep |= atomic_load_explicit(&it->asleep[reason], memory_order_seq_cst);
  return (asleep & places) != 0;
}
/* Wakes those of the places that sleep for one of the reasons, and returns them. When there are some. */
uint64_t sleepers_wake(sleepers_shared_t *it, uint32_t reasons, uint64_t places);
/* Ends the sleeps of a place that were begun, whatever they are for. */
void sleepers_wake_place(sleepers_shared_t *it, uint32_t place);

#endif
