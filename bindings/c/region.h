// SPDX-License-Identifier: Apache-2.0 OR MIT
/* Memory of a static region, for tests of programs that bring their own: blocks lie one behind the other, and the first free one that
 * is large enough is taken. What was given back is written over, so that who reads it still is seen. */
#ifndef IOX2PS_REGION_H
#define IOX2PS_REGION_H

#include <stddef.h>
#include <stdint.h>
#include <string.h>

enum { REGION_BYTES = 1 << 20, GIVEN_BACK = 0xdd };

/* What stands before the bytes of each block. */
typedef struct block_t {
  size_t size; /* with this; 0 behind the last block */
  size_t is_taken;
} block_t;

static _Alignas(4096) unsigned char region[REGION_BYTES];
/* How many were asked for, how many are out, and which of them is refused, counted from 1. */
static size_t asked, taken, region_refuses;
/* Whether each alignment was a power of two of 16 at most, each size 1 at least, and each block that came back one of these. */
static int is_region_sane = 1;

static int is_in_region(const void *at, size_t len) {
  const unsigned char *byte = (const unsigned char *)at;
  return byte >= region && byte + len <= region + sizeof region;
}

/* Joins the free blocks behind this one with it. */
static size_t joined(block_t *block) {
  for (;;) {
    block_t *next = (block_t *)((unsigned char *)block + block->size);
    if ((unsigned char *)next >= region + sizeof region || next->is_taken) return block->size;
    if (!next->size) return block->size = (size_t)(region + sizeof region - (unsigned char *)block);
    block->size += next->size;
  }
}

static void *region_allocate(void *context, size_t size, size_t alignment) {
  (void)context;
  is_region_sane &= size > 0 && alignment > 0 && alignment <= 4096 && (alignment & (alignment - 1)) == 0;
  if (++asked == region_refuses || size > sizeof region) return NULL;
  size_t wanted = (size + sizeof(block_t) + 15) / 16 * 16;
  for (unsigned char *at = region; at < region + sizeof region;) {
    block_t *block = (block_t *)at;
    if (!block->size) block->size = (size_t)(region + sizeof region - at);
    if (!block->is_taken && joined(block) >= wanted) {
      if (block->size > wanted) *(block_t *)(at + wanted) = (block_t){block->size - wanted, 0};
      *block = (block_t){wanted, 1};
      taken++;
      return block + 1;
    }
    at += block->size;
  }
  return NULL;
}

static void region_deallocate(void *context, void *bytes) {
  (void)context;
  block_t *block = (block_t *)bytes - 1;
  is_region_sane &= is_in_region(block, sizeof *block) && block->is_taken == 1;
  block->is_taken = 0;
  memset(bytes, GIVEN_BACK, block->size - sizeof *block);
  taken--;
}

static void *region_reallocate(void *context, void *bytes, size_t kept, size_t size, size_t alignment) {
  void *other = region_allocate(context, size, alignment);
  if (!other) return NULL;
  memcpy(other, bytes, kept < size ? kept : size);
  region_deallocate(context, bytes);
  return other;
}

#endif
