// SPDX-License-Identifier: Apache-2.0 OR MIT
// Passes messages of 8 bytes through a domain by handles, by the library `handle_cost`: fails unless all of them arrive.
#include <inttypes.h>
#include <stddef.h>
#include <stdint.h>
#include <stdio.h>
#include <stdlib.h>

uint64_t pass_by_handles(size_t bytes, uint64_t messages);

int main(int count, char **words) {
  if (count != 2) {
    fputs("usage: handle_cost MESSAGES\n", stderr);
    return 2;
  }
  uint64_t messages = strtoull(words[1], NULL, 10);
  return pass_by_handles(sizeof messages, messages) == messages ? 0 : 1;
}
