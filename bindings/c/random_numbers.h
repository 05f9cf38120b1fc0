// SPDX-License-Identifier: Apache-2.0 OR MIT
/* Random numbers, the same for each seed: random_state at the start. */
#ifndef RANDOM_NUMBERS_H
#define RANDOM_NUMBERS_H

#include <stddef.h>
#include <stdint.h>

static uint64_t random_state;

static uint64_t next(void) {
  random_state += UINT64_C(0x9e3779b97f4a7c15);
  uint64_t x = random_state;
  x = (x ^ (x >> 30)) * UINT64_C(0xbf58476d1ce4e5b9);
  x = (x ^ (x >> 27)) * UINT64_C(0x94d049bb133111eb);
  return x ^ (x >> 31);
}

static size_t below(size_t limit) { return (size_t)(next() % limit); }

static int one_in(size_t count) { return below(count) == 0; }

#endif
