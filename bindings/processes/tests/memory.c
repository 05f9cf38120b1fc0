// SPDX-License-Identifier: Apache-2.0 OR MIT
/* The heap of a domain's book-keeping, the extents of its payloads and the list of live handles, by random calls beside what is plain. */
#include "live_handles.h"
#include "payload_extents.h"
#include <stdio.h>
#include <stdlib.h>
#include <string.h>

enum { ROOM = 1 << 20, HEAP_ROOM = 1 << 17, BLOCKS = 200, STEPS = 40000, PAYLOADS = 1 << 16, HANDLES = 300, PLACES = 3 };

#define CHECK(condition) ((condition) ? (void)0 : fail(__FILE__, __LINE__, #condition))
static _Noreturn void fail(const char *file, int line, const char *words) {
  fprintf(stderr, "%s:%d: %s\n", file, line, words);
  exit(1);
}

static uint64_t state = 1;
static size_t random_below(size_t limit) {
  state = state * UINT64_C(6364136223846793005) + 1442695040888963407;
  return (size_t)(state >> 33) % limit;
}

typedef struct owned_t { unsigned char *bytes, filled; size_t size; } owned_t;

static void fill(owned_t *it, unsigned char with) { memset(it->bytes, it->filled = with, it->size); }
static bool is_whole(const owned_t *it, size_t size) {
  for (size_t i = 0; i < size; i++) if (it->bytes[i] != it->filled) return false;
  return true;
}

static void change_block(region_heap_t *heap, owned_t *it) {
  size_t size = random_below(10) == 0 ? random_below(40000) : random_below(600);
  if (it->bytes == NULL) {
    it->bytes = region_heap_take(heap, it->size = size);
    if (it->bytes == NULL) return;
    CHECK((uintptr_t)it->bytes % REGION_ALIGNMENT == 0);
  } else if (random_below(3) == 0) {
    unsigned char *moved = region_heap_resize(heap, it->bytes, size);
    if (moved == NULL) return;
    it->bytes = moved;
    CHECK(is_whole(it, size < it->size ? size : it->size));
    it->size = size;
  } else {
    CHECK(is_whole(it, it->size));
    region_heap_give(heap, it->bytes);
    it->bytes = NULL;
    return;
  }
  fill(it, (unsigned char)random_below(256));
}

/* Blocks keep their bytes, also when the region was copied away and back; in the end all is one free region again. */
static void heap_by_random(void) {
  char *region = aligned_alloc(REGION_ALIGNMENT, HEAP_ROOM), *copy = malloc(HEAP_ROOM);
  CHECK(region != NULL && copy != NULL);
  region_heap_t heap = region_heap_at(region, HEAP_ROOM);
  owned_t blocks[BLOCKS] = {0};
  size_t taken, most = 0;
  for (int step = 0; step < STEPS; step++) {
    change_block(&heap, &blocks[random_below(BLOCKS)]);
    if (heap.used > most) most = heap.used;
    if (step % 50 != 0) continue;
    CHECK(region_heap_is_sane(&heap, &taken));
    memcpy(copy, region, heap.used);
    memset(region, 0x5a, HEAP_ROOM);
    memcpy(region, copy, heap.used);
  }
  CHECK(most > HEAP_ROOM * 9 / 10); /* it was full at times */
  for (int i = 0; i < BLOCKS; i++) if (blocks[i].bytes != NULL) region_heap_give(&heap, blocks[i].bytes);
  CHECK(region_heap_is_sane(&heap, &taken) && taken == 0 && heap.used == 0);
  CHECK(region_heap_take(&heap, SIZE_MAX) == NULL && region_heap_take(&heap, HEAP_ROOM) == NULL);
  void *all = region_heap_take(&heap, HEAP_ROOM - REGION_ALIGNMENT);
  CHECK(all != NULL && region_heap_take(&heap, 0) == NULL && region_heap_resize(&heap, all, HEAP_ROOM) == NULL);
  free(region), free(copy);
}

/* The pieces of a shorter heap: what is free again is taken first, at the lowest place. */
static void heap_in_order(void) {
  static _Alignas(REGION_ALIGNMENT) char region[4096];
  region_heap_t heap = region_heap_at(region, sizeof region);
  char *first = region_heap_take(&heap, 100), *second = region_heap_take(&heap, 100), *third = region_heap_take(&heap, 100);
  CHECK(first < second && second < third);
  region_heap_give(&heap, second), region_heap_give(&heap, first);
  CHECK(region_heap_take(&heap, 200) == first);
  size_t used = heap.used;
  region_heap_give(&heap, third);
  CHECK(heap.used < used);
}

static void extents_by_random(void) {
  static _Alignas(REGION_ALIGNMENT) char region[ROOM];
  static unsigned char owner[PAYLOADS / PAYLOAD_ALIGNMENT];
  region_heap_t heap = region_heap_at(region, sizeof region);
  char *base = (char *)0x100000;
  payload_extents_t extents;
  CHECK(payload_extents_make(&extents, &heap, base, PAYLOADS));
  struct { char *at; size_t size; } all[BLOCKS] = {0};
  for (int step = 0; step < STEPS; step++) {
    size_t which = random_below(BLOCKS), units = (all[which].size + PAYLOAD_ALIGNMENT - 1) / PAYLOAD_ALIGNMENT;
    if (all[which].at == NULL) {
      all[which].size = 1 + random_below(900);
      units = (all[which].size + PAYLOAD_ALIGNMENT - 1) / PAYLOAD_ALIGNMENT;
      all[which].at = payload_extents_take(&extents, &heap, all[which].size);
      if (all[which].at == NULL) continue;
      CHECK(payload_extents_have(&extents, all[which].at) && payload_extents_size(&extents, all[which].at) == units * PAYLOAD_ALIGNMENT);
      CHECK((uintptr_t)all[which].at % PAYLOAD_ALIGNMENT == 0);
      for (size_t i = 0; i < units; i++) CHECK(owner[(size_t)(all[which].at - base) / PAYLOAD_ALIGNMENT + i]++ == 0);
    } else {
      for (size_t i = 0; i < units; i++) owner[(size_t)(all[which].at - base) / PAYLOAD_ALIGNMENT + i]--;
      payload_extents_give(&extents, all[which].at);
      all[which].at = NULL;
    }
  }
  for (int i = 0; i < BLOCKS; i++) if (all[i].at != NULL) payload_extents_give(&extents, all[i].at);
  CHECK(extents.taken == 0 && extents.count == 1 && extents.all[0].size == PAYLOADS / PAYLOAD_ALIGNMENT);
  CHECK(payload_extents_take(&extents, &heap, PAYLOADS + 1) == NULL && payload_extents_take(&extents, &heap, PAYLOADS) == base);
  CHECK(!payload_extents_have(&extents, base + PAYLOADS) && !payload_extents_have(&extents, region));
}

static void handles_by_random(void) {
  static _Alignas(REGION_ALIGNMENT) char region[ROOM];
  region_heap_t heap = region_heap_at(region, sizeof region);
  live_handles_t handles;
  struct { bool is_there; uint32_t kind, place; uint64_t words[HANDLE_WORDS]; } all[HANDLES] = {0};
  CHECK(live_handles_make(&handles, &heap));
  CHECK(live_handles_first(&handles, 0) == NULL && live_handles_find(&handles, HANDLE_LOAN, all[0].words) == NULL);
  for (int step = 0; step < STEPS; step++) {
    size_t which = random_below(HANDLES);
    if (all[which].is_there) {
      CHECK(live_handles_find(&handles, all[which].kind, all[which].words)->place == all[which].place);
      live_handles_remove(&handles, all[which].kind, all[which].words);
      CHECK(live_handles_find(&handles, all[which].kind, all[which].words) == NULL);
    } else {
      all[which].kind = (uint32_t)random_below(HANDLE_KINDS), all[which].place = (uint32_t)random_below(PLACES);
      for (int i = 0; i < HANDLE_WORDS; i++) all[which].words[i] = which * 7 % 31 + which * 1000 * (size_t)(i < 3);
      CHECK(live_handles_reserve(&handles, &heap));
      live_handles_add(&handles, all[which].kind, all[which].place, all[which].words);
    }
    all[which].is_there = !all[which].is_there;
  }
  for (uint32_t place = 0; place < PLACES; place++) {
    uint32_t kind = 0;
    for (const live_handle_t *it; (it = live_handles_first(&handles, place)) != NULL;) {
      CHECK(it->kind >= kind && it->place == place);
      kind = it->kind;
      live_handles_remove(&handles, kind, it->words);
    }
  }
  CHECK(handles.count == 0);
}

int main(void) {
  heap_in_order();
  heap_by_random();
  extents_by_random();
  handles_by_random();
  puts("heap, extents and handles: as they are plainly");
  return 0;
}
