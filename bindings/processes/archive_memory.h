// SPDX-License-Identifier: Apache-2.0 OR MIT
/* Where the proved functions take memory from. The kit's three functions for it, of which the archive's own copy calls malloc, are
 * defined here in its place: of a thread that has said so, the memory is a region's, and else it is malloc's as before. */
#ifndef IOX2PS_ARCHIVE_MEMORY_H
#define IOX2PS_ARCHIVE_MEMORY_H

#include "../archive/slot_blocks.h"
#include "payload_extents.h"

typedef struct archive_memory_t {
  region_heap_t heap;
  payload_extents_t payloads; /* where the domains believe them to be */
  slot_blocks_t last;
  bool may_make_slots;        /* the call makes a publisher or lends, as no other does that takes memory of the extents */
} archive_memory_t;

/* What this thread takes memory of, and gives back what it took there; null is malloc's. */
extern _Thread_local archive_memory_t *archive_memory_now;
/* Where that is. Each question may be a call of the loader: so a call of a message asks once, before it has anything to keep. */
static inline archive_memory_t **archive_memory_of_thread(void) {
  archive_memory_t **now = &archive_memory_now;
  __asm__("" : "+r"(now)); /* else a compiler asks again */
  return now;
}
static inline void archive_memory_use(archive_memory_t **now, archive_memory_t *it, bool may_make_slots) {
  it->may_make_slots = may_make_slots, it->last = (slot_blocks_t){0};
  *now = it;
}
static inline void archive_memory_use_plain(void) { archive_memory_now = NULL; }
/* The archive's memset, which leaves payloads alone: who is lent one fills it where that is. */
void *archive_memory_fill(void *bytes, int with, size_t size);

/* The kit's three functions: whether there was memory, and a pointer that isn't null. */
typedef struct tried_t { uint64_t is_ok; void *block; } tried_t;
tried_t rattle_alloc(size_t size, size_t align);
tried_t rattle_realloc(void *block, size_t kept, size_t size, size_t align);
void rattle_dealloc(void *block);

#endif
