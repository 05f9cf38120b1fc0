// SPDX-License-Identifier: Apache-2.0 OR MIT
// Passes messages through a domain that keeps many loans and samples, by the library `kept_cost`: fails unless as many samples are
// released as there are messages.
#include <inttypes.h>
#include <stddef.h>
#include <stdint.h>
#include <stdio.h>
#include <stdlib.h>

uint64_t pass_oldest_messages(size_t loans, size_t samples, uint64_t rounds);

int main(int count, char **words) {
  if (count != 4) {
    fputs("usage: kept_cost MESSAGES LOANS SAMPLES\n", stderr);
    return 2;
  }
  uint64_t messages = strtoull(words[1], NULL, 10);
  size_t loans = strtoull(words[2], NULL, 10), samples = strtoull(words[3], NULL, 10);
  uint64_t released = pass_oldest_messages(loans, samples, messages + loans + samples);
  printf("%" PRIu64 " of %" PRIu64 " samples were released\n", released, messages);
  return released == messages ? 0 : 1;
}
