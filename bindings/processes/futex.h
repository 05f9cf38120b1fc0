// SPDX-License-Identifier: Apache-2.0 OR MIT
/* What sleeping asks of the system. Tests and the model have their own. */
#ifndef IOX2PS_FUTEX_H
#define IOX2PS_FUTEX_H

#include <stdatomic.h>
#include <stdint.h>

/* Sleeps until it is woken, at most so many ns, and not at all unless the lower half of the word still is that of `seen`. It may
 * return sooner. */
void futex_sleep(_Atomic uint64_t *word, uint64_t seen, uint64_t ns);
/* Wakes who sleeps at the word. */
void futex_wake(_Atomic uint64_t *word);
/* ns of a clock that is never set. */
uint64_t futex_clock(void);

#endif
