// SPDX-License-Identifier: Apache-2.0 OR MIT
/* The heap of the archive, by the calls that the proved code makes of it, on each processor: the kit's and that of bindings/archive do the
 * same. */
#include "allocations.h"
#include "checks.h"
#include <stdint.h>
#include <string.h>

typedef struct {
  uint64_t is_there;
  void *block;
} result_t;

result_t rattle_alloc(size_t size, size_t alignment);
result_t rattle_realloc(void *block, size_t kept, size_t size, size_t alignment);
void rattle_dealloc(void *block);

/* Of 0 bytes there is a block too, which isn't null, and is given back as any other is. */
static void zero_bytes(void) {
  for (size_t alignment = 1; alignment <= 16; alignment *= 2) {
    result_t first = rattle_alloc(0, alignment), second = rattle_alloc(0, alignment);
    CHECK(first.is_there == 1 && second.is_there == 1);
    CHECK(first.block && second.block && first.block != second.block);
    result_t shrunk = rattle_realloc(second.block, 0, 0, alignment);
    CHECK(shrunk.is_there == 1 && shrunk.block);
    rattle_dealloc(first.block);
    rattle_dealloc(shrunk.block);
  }
}

/* Each block is aligned to 16 bytes, the most that is asked for, whatever its size. */
static void aligned(void) {
  for (size_t size = 0; size < 200; size++)
    for (size_t alignment = 1; alignment <= 16; alignment *= 2) {
      result_t made = rattle_alloc(size, alignment);
      CHECK(made.is_there == 1 && (uintptr_t)made.block % 16 == 0);
      made = rattle_realloc(made.block, size, 3 * size + 1, alignment);
      CHECK(made.is_there == 1 && (uintptr_t)made.block % 16 == 0);
      rattle_dealloc(made.block);
    }
}

/* A block that grows or shrinks keeps its bytes. */
static void keeps_bytes(void) {
  result_t made = rattle_alloc(100, 8);
  memset(made.block, 7, 100);
  made = rattle_realloc(made.block, 100, 100000, 8);
  for (int at = 0; at < 100; at++) CHECK(((unsigned char *)made.block)[at] == 7);
  made = rattle_realloc(made.block, 100, 10, 8);
  for (int at = 0; at < 10; at++) CHECK(((unsigned char *)made.block)[at] == 7);
  rattle_dealloc(made.block);
}

/* Where memory is refused, so is the call, and no pointer is null. A block that can't grow stays as it is. */
static void refused(void) {
  result_t made = rattle_alloc(100, 8);
  memset(made.block, 7, 100);
  is_refused = 1;
  result_t none = rattle_alloc(100, 8), grown = rattle_realloc(made.block, 100, 1000, 8);
  is_refused = 0;
  CHECK(none.is_there == 0 && none.block);
  CHECK(grown.is_there == 0 && grown.block && grown.block != made.block);
  for (int at = 0; at < 100; at++) CHECK(((unsigned char *)made.block)[at] == 7);
  rattle_dealloc(made.block);
}

/* More than there is: the C library itself refuses it. */
static void too_large(void) {
  CHECK(rattle_alloc(PTRDIFF_MAX, 8).is_there == 0);
  result_t made = rattle_alloc(8, 8);
  CHECK(rattle_realloc(made.block, 8, PTRDIFF_MAX, 8).is_there == 0);
  rattle_dealloc(made.block);
}

int main(void) {
  iox2ps_domain_t none = IOX2PS_DOMAIN_INIT;
  IS(iox2ps_domain_destroy(&none), IOX2PS_NO_DOMAIN);
  zero_bytes();
  aligned();
  keeps_bytes();
  refused();
  too_large();
  return checked();
}
