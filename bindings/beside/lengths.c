// SPDX-License-Identifier: Apache-2.0 OR MIT
/* The program of lengths.h, around the library that it is linked with. */
#define _POSIX_C_SOURCE 200809L
#include "lengths.h"
#include <inttypes.h>
#include <stdio.h>
#include <stdlib.h>
#include <string.h>
#include <time.h>

/* So many messages that every slot had some, and its memory is there. */
#define FIRST 100
#define COUNTED 20
#define LEAST_NANOSECONDS 40000000

static uint64_t word;

static int pass_some(int count) {
  for (int at = 0; at < count; at++)
    if (!pass(++word)) return 0;
  return 1;
}

/* valgrind counts what this function takes, with all that it calls. */
__attribute__((noinline)) int counted(void) { return pass_some(COUNTED); }

/* Of this thread on a processor, so that what else the machine does counts little. */
static int64_t nanoseconds(void) {
  struct timespec now;
  clock_gettime(CLOCK_THREAD_CPUTIME_ID, &now);
  return (int64_t)now.tv_sec * 1000000000 + now.tv_nsec;
}

static int timed(void) {
  const int64_t started = nanoseconds();
  int64_t elapsed = 0, messages = 0;
  for (int more = 16; elapsed < LEAST_NANOSECONDS; more *= 2) {
    if (!pass_some(more)) return 0;
    messages += more;
    elapsed = nanoseconds() - started;
  }
  printf("%.1f\n", (double)elapsed / (double)messages);
  return 1;
}

int main(int count, char **words) {
  const size_t len = count == 3 ? strtoull(words[1], NULL, 10) : 0;
  if (len < sizeof word) return 2;
  if (!begin(len) || !pass_some(FIRST)) return 1;
  const int well = strcmp(words[2], "time") == 0 ? timed() : counted();
  return end() && well ? 0 : 1;
}
