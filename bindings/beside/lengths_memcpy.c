// SPDX-License-Identifier: Apache-2.0 OR MIT
/* lengths.h by one `memcpy` of the message from a place to another one, which is the least that a copy takes. */
#include "lengths.h"
#include <stdlib.h>
#include <string.h>

static unsigned char *from, *to;
static volatile size_t length; /* which the compiler doesn't know */

int begin(size_t len) {
  length = len;
  from = calloc(1, len);
  to = calloc(1, len);
  return from && to;
}

int pass(uint64_t word) {
  uint64_t read;
  memcpy(from, &word, sizeof word);
  memcpy(to, from, length);
  memcpy(&read, to, sizeof read);
  return read == word;
}

int end(void) {
  free(from);
  free(to);
  return 1;
}
