// SPDX-License-Identifier: Apache-2.0 OR MIT
/* Messages of 8 bytes by this library in Rattle, as single values: what crates/message_cost passes.
 *   PROGRAM MESSAGES         passes so many
 *   PROGRAM MESSAGES time    prints how many nanoseconds each took */
#define _POSIX_C_SOURCE 200809L
#include <inttypes.h>
#include <stddef.h>
#include <stdint.h>
#include <stdio.h>
#include <stdlib.h>
#include <time.h>

/* As in tools/message_cost.c. */
struct load {
  size_t idle_publishers;
  size_t subscribers;
  size_t loans;
  size_t samples;
  size_t buffer_size;
  size_t history_size;
  size_t idle_subscribers;
};

uint64_t pass_messages(const struct load *load, uint64_t messages);

static const struct load one = {.subscribers = 1, .buffer_size = 2};

static int64_t nanoseconds(void) {
  struct timespec now;
  clock_gettime(CLOCK_THREAD_CPUTIME_ID, &now);
  return (int64_t)now.tv_sec * 1000000000 + now.tv_nsec;
}

int main(int count, char **words) {
  const uint64_t messages = count > 1 ? strtoull(words[1], NULL, 10) : 0;
  if (messages == 0) return 2;
  const int64_t started = nanoseconds();
  if (pass_messages(&one, messages) != messages) return 1;
  if (count > 2) printf("%.1f\n", (double)(nanoseconds() - started) / (double)messages);
  return 0;
}
