// SPDX-License-Identifier: Apache-2.0 OR MIT
// Passes slices through a domain, by the library `slice_cost`: fails unless all of them arrive.
#include <inttypes.h>
#include <stddef.h>
#include <stdint.h>
#include <stdio.h>
#include <stdlib.h>

uint64_t pass_long_messages(size_t elements, uint64_t messages);

int main(int count, char **words) {
  if (count != 3) {
    fputs("usage: slice_cost MESSAGES ELEMENTS\n", stderr);
    return 2;
  }
  uint64_t messages = strtoull(words[1], NULL, 10);
  uint64_t arrived = pass_long_messages(strtoull(words[2], NULL, 10), messages);
  printf("%" PRIu64 " of %" PRIu64 " messages arrived\n", arrived, messages);
  return arrived == messages ? 0 : 1;
}
