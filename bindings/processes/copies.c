// SPDX-License-Identifier: Apache-2.0 OR MIT
#include "copies.h"

static size_t in_lines(size_t size) { return (size + 63) / 64 * 64; }

size_t copies_size(uint32_t places, size_t room) {
  return 64 + places * COPIES_OF_PLACE * (sizeof(copy_head_t) + in_lines(room));
}

copies_t copies_at(void *memory, uint32_t places, size_t room) {
  char *heads = (char *)memory + 64, *buffers = heads + places * COPIES_OF_PLACE * sizeof(copy_head_t);
  return (copies_t){places, in_lines(room), memory, (_Atomic uint64_t *)memory + 1, (copy_head_t *)heads, (_Atomic uint64_t *)buffers};
}

static _Atomic uint64_t *buffer_of(const copies_t *copies, uint32_t which) { return copies->buffers + which * (copies->room / COPY_UNIT); }

static const copy_sums_t NO_WORDS = {1, 2};
static void add_to(copy_sums_t *it, uint64_t word) {
  it->words += word;
  it->sums += it->words;
}
static uint64_t sum_of(copy_sums_t it, size_t size) { return (it.words ^ size) * UINT64_C(0x9e3779b97f4a7c15) ^ it.sums; }

/* The buffer of the place that isn't the newest copy, and of two such the older. Only this process makes one of them the newest,
 * so relaxed loads see it if it is. */
static uint32_t free_buffer(const copies_t *copies, uint32_t place) {
  uint32_t first = place * COPIES_OF_PLACE, second = first + 1;
  uint32_t newest = (uint32_t)atomic_load_explicit(copies->newest, memory_order_relaxed) & ((1u << COPY_BUFFER_BITS) - 1);
  if (newest == first) return second;
  if (newest == second) return first;
  uint64_t end = atomic_load_explicit(&copies->heads[first].end, memory_order_relaxed);
  return end <= atomic_load_explicit(&copies->heads[second].end, memory_order_relaxed) ? first : second;
}

copy_making_t copies_begin(const copies_t *copies, uint32_t place, uint64_t made, const void *object, size_t size) {
  uint32_t which = free_buffer(copies, place);
  atomic_store_explicit(&copies->heads[which].end, 0, memory_order_relaxed);
  /* Release: whoever reads a word of the new copy sees at its second look that `end` has changed. A release store to `end`
   * wouldn't do, since it doesn't hold back later stores. Here and in the three below, what is weaker loads torn copies. */
  atomic_thread_fence(memory_order_release);
  return (copy_making_t){.which = which, .made = made, .words = object, .count = size / COPY_UNIT, .sums = NO_WORDS};
}

/* All of its words are there. */
static void end_copy(const copies_t *copies, const copy_making_t *it) {
  copy_head_t *head = &copies->heads[it->which];
  size_t size = it->count * COPY_UNIT;
  atomic_store_explicit(&head->size, size, memory_order_relaxed);
  atomic_store_explicit(&head->sum, sum_of(it->sums, size), memory_order_relaxed);
  /* Release: whoever sees this end sees the whole copy. */
  atomic_store_explicit(&head->end, it->made + 1, memory_order_release);
  uint64_t mine = (it->made + 1) << COPY_BUFFER_BITS | it->which, newest = atomic_load_explicit(copies->newest, memory_order_relaxed);
  /* Relaxed: whoever takes the copy looks at `end`, too. */
  while (newest >> COPY_BUFFER_BITS < it->made + 1
         && !atomic_compare_exchange_weak_explicit(copies->newest, &newest, mine, memory_order_relaxed, memory_order_relaxed)) {
  }
}

bool copies_go_on(const copies_t *copies, copy_making_t *it, size_t most) {
  _Atomic uint64_t *buffer = buffer_of(copies, it->which);
  const uint64_t *words = it->words;
  copy_sums_t sums = it->sums;
  size_t end = most < it->count - it->done ? it->done + most : it->count;
#pragma GCC unroll 8
  for (size_t i = it->done; i < end; i++) {
    add_to(&sums, words[i]);
    atomic_store_explicit(&buffer[i], words[i], memory_order_relaxed);
  }
  it->done = end, it->sums = sums;
  if (end < it->count) return false;
  end_copy(copies, it);
  return true;
}

void copies_make(const copies_t *copies, uint32_t place, uint64_t made, const void *object, size_t size) {
  copy_making_t it = copies_begin(copies, place, made, object, size);
  (void)copies_go_on(copies, &it, it.count);
}

bool copies_claim(const copies_t *copies, uint64_t made, uint64_t after) {
  /* Relaxed: each has buffers of its own, so two that copy at a time only take time. */
  uint64_t claimed = atomic_load_explicit(copies->claimed, memory_order_relaxed);
  return made >= claimed + after && atomic_compare_exchange_strong_explicit(copies->claimed, &claimed, made, memory_order_relaxed, memory_order_relaxed);
}

copy_load_t copies_load(const copies_t *copies, void *object) {
  /* Relaxed: `end` publishes the copy. */
  uint64_t newest = atomic_load_explicit(copies->newest, memory_order_relaxed);
  if (newest == 0) return COPY_NONE;
  uint32_t which = (uint32_t)newest & ((1u << COPY_BUFFER_BITS) - 1);
  if (which >= copies->places * COPIES_OF_PLACE) return COPY_DAMAGED;
  const copy_head_t *head = &copies->heads[which];
  /* Acquire: the whole copy with this end is seen. */
  if (atomic_load_explicit(&head->end, memory_order_acquire) != newest >> COPY_BUFFER_BITS) return COPY_CHANGED;
  const _Atomic uint64_t *buffer = buffer_of(copies, which);
  uint64_t *words = object, size = atomic_load_explicit(&head->size, memory_order_relaxed);
  uint64_t sum = atomic_load_explicit(&head->sum, memory_order_relaxed);
  copy_sums_t sums = NO_WORDS;
  bool has_room = size <= copies->room;
  for (size_t i = 0; has_room && i < size / COPY_UNIT; i++) {
    words[i] = atomic_load_explicit(&buffer[i], memory_order_relaxed);
    add_to(&sums, words[i]);
  }
  /* Acquire: if anything that was read is newer, the second look sees that `end` has changed. */
  atomic_thread_fence(memory_order_acquire);
  if (atomic_load_explicit(&head->end, memory_order_relaxed) != newest >> COPY_BUFFER_BITS) return COPY_CHANGED;
  return has_room && sum_of(sums, size) == sum ? COPY_LOADED : COPY_DAMAGED;
}
