// SPDX-License-Identifier: Apache-2.0 OR MIT
#ifndef IOX2PS_RANDOM_H
#define IOX2PS_RANDOM_H

#include <stdint.h>

/* The same numbers each time. */
static uint64_t next_random(uint64_t *state) {
  *state = *state * UINT64_C(6364136223846793005) + 1442695040888963407;
  return *state >> 33;
}

#endif
