// SPDX-License-Identifier: Apache-2.0 OR MIT
#include "live_handles.h"

enum { FIRST_ROOM = 16 };
static const uint32_t NONE = LIVE_HANDLES_NONE;

bool live_handles_make(live_handles_t *it, region_heap_t *heap) {
  *it = (live_handles_t){.free = NONE};
  memset(it->first, 0xff, sizeof it->first);
  return live_handles_grow(it, heap);
}

static void put_in_bucket(live_handles_t *it, uint32_t which) {
  live_handle_t *handle = &it->all[which];
  uint32_t *bucket = live_handles_bucket(it, handle->kind, handle->words);
  handle->next_in_bucket = *bucket;
  *bucket = which;
}

bool live_handles_grow(live_handles_t *it, region_heap_t *heap) {
  uint32_t room = it->room == 0 ? FIRST_ROOM : 2 * it->room;
  if (room > UINT32_MAX / 4) return false;
  uint32_t *buckets = region_heap_take(heap, room * sizeof *buckets);
  if (buckets == NULL) return false;
  live_handle_t *all = it->all == NULL ? region_heap_take(heap, room * sizeof *all) : region_heap_resize(heap, it->all, room * sizeof *all);
  if (all == NULL) {
    region_heap_give(heap, buckets);
    return false;
  }
  if (it->buckets != NULL) region_heap_give(heap, it->buckets);
  it->all = all, it->buckets = buckets;
  it->free = it->room;
  for (uint32_t which = it->room; which < room; which++) all[which].next = which + 1 < room ? which + 1 : NONE;
  it->room = room;
  memset(buckets, 0xff, room * sizeof *buckets);
  for (uint32_t which = 0; which < it->free; which++) put_in_bucket(it, which);
  return true;
}

const live_handle_t *live_handles_find(const live_handles_t *it, handle_kind_t kind, const uint64_t words[HANDLE_WORDS]) {
  uint32_t which = *live_handles_link(it, kind, words);
  return which == NONE ? NULL : &it->all[which];
}

const live_handle_t *live_handles_blocked_of(const live_handles_t *it, uint64_t publisher) {
  for (uint32_t place = 0; it->blocked > 0 && place < CALL_PLACES; place++)
    for (uint32_t which = it->first[place][HANDLE_BLOCKED]; which != NONE; which = it->all[which].next)
      if (it->all[which].words[0] == publisher) return &it->all[which];
  return NULL;
}

const live_handle_t *live_handles_of(const live_handles_t *it, handle_kind_t kind, uint32_t place) {
  uint32_t which = it->first[place][kind];
  return which == NONE ? NULL : &it->all[which];
}

const live_handle_t *live_handles_next(const live_handles_t *it, const live_handle_t *handle) {
  return handle->next == NONE ? NULL : &it->all[handle->next];
}

const live_handle_t *live_handles_first(const live_handles_t *it, uint32_t place) {
  for (int kind = 0; kind < HANDLE_KINDS; kind++)
    if (it->first[place][kind] != NONE) return &it->all[it->first[place][kind]];
  return NULL;
}
