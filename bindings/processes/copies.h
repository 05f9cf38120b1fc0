// SPDX-License-Identifier: Apache-2.0 OR MIT
/* Copies of the object in shared memory, for processes that join, or that fell so far behind that the list has been
 * overwritten. Each place has two buffers of its own, so a process that is stopped or dies while it copies keeps nobody
 * else from it (docs/DECISIONS.md, "Room for two copies of each process"). `newest` names the copy that knows most calls; its buffer isn't written until another is newer.
 *
 * A process that has time puts the object aside as it is, and makes the copy of that in pieces, between which it makes calls: nobody loads a
 * copy before its last piece, and a death between two pieces leaves the one that was the newest before. */
#ifndef IOX2PS_COPIES_H
#define IOX2PS_COPIES_H

#include <stdatomic.h>
#include <stdbool.h>
#include <stddef.h>
#include <stdint.h>

enum { COPIES_OF_PLACE = 2, COPY_UNIT = 8, COPY_BUFFER_BITS = 7 };

/* Two sums that are made while the words go by: of the words, and of the first sum, so that their order counts. */
typedef struct copy_sums_t { uint64_t words, sums; } copy_sums_t;

/* A copy that a process makes in pieces, of an object that stays as it is meanwhile. */
typedef struct copy_making_t {
  uint32_t which; /* its buffer */
  uint64_t made;  /* how many calls it knows */
  const uint64_t *words;
  size_t count, done; /* of words */
  copy_sums_t sums;
} copy_making_t;

typedef struct copy_head_t {
  _Alignas(64) _Atomic uint64_t end; /* how many calls it knows, and 1; 0 while it is written */
  _Atomic uint64_t size, sum;
} copy_head_t;

/* Where the copies lie in the memory of this process. */
typedef struct copies_t {
  uint32_t places;
  size_t room; /* bytes of each buffer */
  _Atomic uint64_t *newest; /* how many calls the newest copy knows, and 1; and its buffer in the lowest bits */
  _Atomic uint64_t *claimed; /* how many calls were made as a process that has time began its copy, the last that did */
  copy_head_t *heads;
  _Atomic uint64_t *buffers;
} copies_t;

typedef enum copy_load_t {
  COPY_LOADED,
  COPY_CHANGED, /* it was written meanwhile: there is a newer one */
  COPY_NONE,    /* nobody has made one yet */
  COPY_DAMAGED  /* its bytes don't have its sum, or it is named by what nobody can have written */
} copy_load_t;

/* How many bytes the copies take. They are 0 at first. `room` is rounded up to whole cache lines. */
size_t copies_size(uint32_t places, size_t room);
copies_t copies_at(void *memory, uint32_t places, size_t room);

/* How many calls the newest copy knows, as far as this process has heard, and 1; 0 without one. */
static inline uint64_t copies_newest(const copies_t *copies) {
  /* Relaxed: only a number. An older one costs a copy too many. */
  return atomic_load_explicit(copies->newest, memory_order_relaxed) >> COPY_BUFFER_BITS;
}
/* Copies the object, which has made so many calls, and makes it the newest unless there is one that knows more. `size` is a
 * multiple of COPY_UNIT, and at most the room. By the process of the place alone. */
void copies_make(const copies_t *copies, uint32_t place, uint64_t made, const void *object, size_t size);
/* The same in pieces of at most so many words, until it is true: the copy is whole then. One copy of a place at a time; one that is given
 * up isn't loaded by anybody. */
copy_making_t copies_begin(const copies_t *copies, uint32_t place, uint64_t made, const void *object, size_t size);
bool copies_go_on(const copies_t *copies, copy_making_t *it, size_t most);
/* Whether a process that has time makes the next copy, so many calls behind the one that such a process began last: one of them does. It may
 * die meanwhile, or be stopped. */
bool copies_claim(const copies_t *copies, uint64_t made, uint64_t after);
/* Puts the newest copy in the object's place, which has the room of a buffer. Unless it is loaded, the object is spoilt, and
 * another has to be loaded. */
copy_load_t copies_load(const copies_t *copies, void *object);

#endif
