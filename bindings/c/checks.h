// SPDX-License-Identifier: Apache-2.0 OR MIT
/* For the programs of checks: CHECK counts what holds and prints what doesn't; `checked` prints the counts. */
#ifndef IOX2PS_CHECKS_H
#define IOX2PS_CHECKS_H

#include "iox2_pubsub.h"
#include <stdio.h>
#include <string.h>

static int passed = 0, failed = 0;

#define CHECK(is)                                         \
  do {                                                    \
    if (is) {                                             \
      passed++;                                           \
    } else {                                              \
      failed++;                                           \
      printf("%s:%d: %s\n", __FILE__, __LINE__, #is);     \
    }                                                     \
  } while (0)

/* Whether a number has a text other than that of numbers which are no code. */
static int has_text(uint32_t code) { return strcmp(iox2ps_error_text(code), iox2ps_error_text(UINT32_MAX)) != 0; }

/* The call returns this code, which has a text. That no two codes have the same one, calls.c tests. */
#define IS(call, code)                                                                          \
  do {                                                                                          \
    iox2ps_status_t got_ = (call);                                                                     \
    if (got_ == (code) && has_text(got_)) {                                                     \
      passed++;                                                                                 \
    } else {                                                                                    \
      failed++;                                                                                 \
      printf("%s:%d: %s: %u (%s)\n", __FILE__, __LINE__, #call, (unsigned)got_, iox2ps_error_text(got_)); \
    }                                                                                           \
  } while (0)

static inline int checked(void) {
  printf("%d passed, %d failed\n", passed, failed);
  return failed != 0;
}

#endif
