// SPDX-License-Identifier: Apache-2.0 OR MIT
#include "archive_memory.h"
#include <string.h>

_Thread_local archive_memory_t *archive_memory_now;

void *archive_memory_fill(void *bytes, int with, size_t size) {
  const archive_memory_t *now = archive_memory_now;
  return now != NULL && payload_extents_have(&now->payloads, bytes) ? bytes : memset(bytes, with, size);
}

/* The archive's own three, as this library compiles them, for all other memory. */
tried_t plain_alloc(size_t size, size_t align);
tried_t plain_realloc(void *block, size_t kept, size_t size, size_t align);
void plain_dealloc(void *block);

static tried_t tried(void *block) {
  static char nothing;
  return (tried_t){block != NULL, block != NULL ? block : &nothing};
}

static void *take(archive_memory_t *now, size_t size, size_t align) {
  if (align > REGION_ALIGNMENT) return NULL;
  bool is_payload = now->may_make_slots && slot_blocks_is_payload(&now->last, size, align);
  return is_payload ? payload_extents_take(&now->payloads, &now->heap, size) : region_heap_take(&now->heap, size);
}

tried_t rattle_alloc(size_t size, size_t align) {
  archive_memory_t *now = archive_memory_now;
  return now == NULL ? plain_alloc(size, align) : tried(take(now, size == 0 ? align : size, align));
}

void rattle_dealloc(void *block) {
  archive_memory_t *now = archive_memory_now;
  if (now == NULL) plain_dealloc(block);
  else if (payload_extents_have(&now->payloads, block)) payload_extents_give(&now->payloads, block);
  else region_heap_give(&now->heap, block);
}

tried_t rattle_realloc(void *block, size_t kept, size_t size, size_t align) {
  archive_memory_t *now = archive_memory_now;
  if (now == NULL) return plain_realloc(block, kept, size, align);
  if (size == 0) size = align;
  if (!payload_extents_have(&now->payloads, block)) return tried(region_heap_resize(&now->heap, block, size));
  /* No call comes here, which would have to copy a payload: a publisher's memory grows by new slots. */
  return tried(NULL);
}
