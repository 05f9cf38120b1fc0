// SPDX-License-Identifier: Apache-2.0 OR MIT
/* A small object for tests of the list: it counts calls, and has a number that depends on all of them. */
#ifndef IOX2PS_SHARED_OBJECT_H
#define IOX2PS_SHARED_OBJECT_H

#include "replica.h"
#include <stdio.h>
#include <stdlib.h>
#include <string.h>
#include <sys/mman.h>

enum { PLACES = 8, LENGTH = 64, LOADS = 1000 };

typedef struct shared_object_t {
  replica_memory_t memory;
  uint64_t number, calls_of[PLACES], reply_to[PLACES];
} shared_object_t;

#define CHECK(condition) ((condition) ? (void)0 : fail(__FILE__, __LINE__, #condition))

static _Noreturn void fail(const char *file, int line, const char *words) {
  fprintf(stderr, "%s:%d: %s\n", file, line, words);
  exit(1);
}

static uint64_t object_apply(void *object, uint32_t place, const uint64_t arguments[CALL_ARGUMENTS]) {
  static const uint64_t end[CALL_ARGUMENTS] = {42};
  shared_object_t *it = (shared_object_t *)((replica_memory_t *)object - 1);
  if (arguments == NULL) arguments = end, it->calls_of[place]--;
  for (int i = 0; i < CALL_ARGUMENTS; i++) it->number = (it->number ^ arguments[i]) * UINT64_C(0x9e3779b97f4a7c15) + 1;
  it->calls_of[place]++;
  return it->reply_to[place] = it->number;
}

/* Memory that child processes share. */
static void *shared_memory(size_t size) {
  void *memory = mmap(NULL, size, PROT_READ | PROT_WRITE, MAP_SHARED | MAP_ANONYMOUS, -1, 0);
  CHECK(memory != MAP_FAILED);
  return memory;
}

static size_t list_room(void) { return (call_list_size(PLACES, LENGTH) + 63) / 64 * 64; }
static size_t shared_room(void) { return list_room() + copies_size(PLACES, sizeof(shared_object_t)); }

/* The object of the process in a place, and behind it the room for what it was as a copy was begun. */
static replica_t object_of(void *shared, uint32_t place) {
  size_t room = (sizeof(shared_object_t) + 63) / 64 * 64;
  shared_object_t *object = calloc(2, room);
  CHECK(object != NULL);
  object->memory.size = sizeof *object;
  return (replica_t){
    .list = call_list_at(shared, PLACES, LENGTH), .copies = copies_at((char *)shared + list_room(), PLACES, sizeof *object), .apply = object_apply,
    .memory = &object->memory, .place = place, .loads = LOADS, .snapshot = (char *)object + room
  };
}

#endif
