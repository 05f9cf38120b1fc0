// SPDX-License-Identifier: Apache-2.0 OR MIT
#define _GNU_SOURCE
#include "futex.h"
#include <limits.h>
#include <linux/futex.h>
#include <sys/syscall.h>
#include <time.h>
#include <unistd.h>

/* The system knows words of 32 bits. */
static uint32_t *lower_half(_Atomic uint64_t *word) { return (uint32_t *)word + (__BYTE_ORDER__ == __ORDER_BIG_ENDIAN__); }

void futex_sleep(_Atomic uint64_t *word, uint64_t seen, uint64_t ns) {
  struct timespec time = {(time_t)(ns / 1000000000u), (long)(ns % 1000000000u)};
  syscall(SYS_futex, lower_half(word), FUTEX_WAIT, (uint32_t)seen, &time, NULL, 0);
}

void futex_wake(_Atomic uint64_t *word) { syscall(SYS_futex, lower_half(word), FUTEX_WAKE, INT_MAX, NULL, NULL, 0); }

uint64_t futex_clock(void) {
  struct timespec now;
  clock_gettime(CLOCK_MONOTONIC, &now);
  return (uint64_t)now.tv_sec * 1000000000u + (uint64_t)now.tv_nsec;
}
