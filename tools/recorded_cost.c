// SPDX-License-Identifier: Apache-2.0 OR MIT
/* Compares what each call of a recorded domain in Rattle allocates with what it does on one that isn't recorded, by the library
 * `recorded_cost`; for tools/memory_of_messages.
 *
 *   recorded_cost ROOM CALLS
 *
 * What a call allocates is the difference between a run that ends with it and one that ends before it. The recording has room for
 * ROOM calls, and CALLS are compared. It prints how many these are, and its status is 0 where each allocates as often on both, the
 * first ROOM are kept, and each message is received.
 *
 * It is linked with -Wl,--wrap=malloc -Wl,--wrap=realloc. */
#include "../bindings/c/allocations.h"
#include <stdio.h>
#include <stdlib.h>

size_t make_recorded_calls(size_t room, size_t calls);
size_t make_plain_calls(size_t calls);

/* How many messages the first calls receive, by the fourth of each round of six, behind two ports. A loan of each round stays out, and
 * the publisher may have 40: while all are out, nothing is sent. */
static size_t receives(size_t calls) {
  const size_t rounds = calls < 6 ? 0 : 1 + (calls - 6) / 6;
  return rounds < 39 ? rounds : 39;
}

/* How many allocations a run of so many calls makes on a domain with this room. */
static size_t of_recorded(size_t room, size_t calls) {
  const size_t before = allocations, kept = make_recorded_calls(room, calls);
  if (kept == (calls < room ? calls : room)) return allocations - before;
  fprintf(stderr, "%zu of %zu calls are kept, with room for %zu\n", kept, calls, room);
  exit(1);
}

/* The same on a domain that isn't recorded. */
static size_t of_plain(size_t calls) {
  const size_t before = allocations, received = make_plain_calls(calls);
  if (received == receives(calls)) return allocations - before;
  fprintf(stderr, "%zu of %zu messages are received\n", received, receives(calls));
  exit(1);
}

int main(int count, char **words) {
  if (count != 3) {
    fputs("usage: recorded_cost ROOM CALLS\n", stderr);
    return 2;
  }
  const size_t room = strtoull(words[1], NULL, 10), calls = strtoull(words[2], NULL, 10);
  size_t recorded_before = of_recorded(room, 0), plain_before = of_plain(0);
  for (size_t at = 1; at <= calls; at++) {
    const size_t recorded = of_recorded(room, at), plain = of_plain(at);
    if (recorded - recorded_before != plain - plain_before) {
      fprintf(stderr, "call %zu of a domain with room for %zu: %zd allocations, where one that isn't recorded makes %zd\n", at, room,
              (ssize_t)(recorded - recorded_before), (ssize_t)(plain - plain_before));
      return 1;
    }
    recorded_before = recorded;
    plain_before = plain;
  }
  printf("%zu\n", calls);
  return 0;
}
