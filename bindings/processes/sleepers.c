// SPDX-License-Identifier: Apache-2.0 OR MIT
#include "sleepers.h"
#include "futex.h"

/* Why one of the two sees the other: these accesses are sequentially consistent, so they have one order.
 *   Who sleeps: its bit (sleepers_begin), then a load of the word of `order` that has no call yet (call_list_step).
 *   Who calls: the swap that puts its call there (call_list_add), or a load that finds it there (call_list_step), then the bits
 *   (sleepers_are_there).
 * If the sleeper finds no call, its load comes before the caller's swap or load, and so its bit before the caller's look at the bits.
 * With any of them weaker, the model finds a process that sleeps on. */

uint64_t sleepers_begin(sleepers_shared_t *it, uint32_t place, uint32_t reasons) {
  /* Relaxed: an old number only means that the sleep ends at once. */
  uint64_t begun = atomic_load_explicit(&it->woken[place].count, memory_order_relaxed);
  for (uint32_t reason = 0; reason < SLEEP_REASONS; reason++) {
    if (!(reasons >> reason & 1)) continue;
    atomic_fetch_or_explicit(&it->asleep[reason], UINT64_C(1) << place, memory_order_seq_cst);
  }
  return begun;
}

void sleepers_sleep(sleepers_shared_t *it, uint32_t place, uint64_t begun, uint64_t ns) { futex_sleep(&it->woken[place].count, begun, ns); }

void sleepers_end(sleepers_shared_t *it, uint32_t place, uint32_t reasons) {
  /* Relaxed: a bit that is seen too long costs one call of the system. */
  for (uint32_t reason = 0; reason < SLEEP_REASONS; reason++)
    if (reasons >> reason & 1) atomic_fetch_and_explicit(&it->asleep[reason], ~(UINT64_C(1) << place), memory_order_relaxed);
}

void sleepers_forget(sleepers_shared_t *it, uint32_t place) {
  sleepers_end(it, place, (1u << SLEEP_REASONS) - 1);
  /* Relaxed: as above. */
  atomic_fetch_and_explicit(&it->by_descriptor, ~(UINT64_C(1) << place), memory_order_relaxed);
}

void sleepers_wake_place(sleepers_shared_t *it, uint32_t place) {
  /* Relaxed: the system compares it as the process falls asleep, and what the call was is seen in the list. */
  atomic_fetch_add_explicit(&it->woken[place].count, 1, memory_order_relaxed);
  futex_wake(&it->woken[place].count);
}

static uint64_t wake_for(sleepers_shared_t *it, uint32_t reason, uint64_t places) {
  /* Relaxed: each bit is taken by one process, which counts and wakes because it found it, and so not before. */
  uint64_t asleep = atomic_load_explicit(&it->asleep[reason], memory_order_relaxed) & places;
  if (asleep == 0) return 0;
  asleep &= atomic_fetch_and_explicit(&it->asleep[reason], ~asleep, memory_order_relaxed);
  for (uint32_t place = 0; place < SLEEP_PLACES; place++) {
    if (!(asleep >> place & 1)) continue;
    sleepers_wake_place(it, place);
  }
  return asleep;
}

uint64_t sleepers_wake(sleepers_shared_t *it, uint32_t reasons, uint64_t places) {
  uint64_t woken = 0;
  if (places == 0) return 0;
  for (uint32_t reason = 0; reason < SLEEP_REASONS; reason++)
    if (reasons >> reason & 1) woken |= wake_for(it, reason, places);
  return woken;
}
