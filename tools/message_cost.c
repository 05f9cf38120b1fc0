// SPDX-License-Identifier: Apache-2.0 OR MIT
// Passes messages through a domain, by the library `message_cost`: fails unless all of them arrive.
#include <inttypes.h>
#include <stddef.h>
#include <stdint.h>
#include <stdio.h>
#include <stdlib.h>

struct load {
  size_t idle_publishers;
  size_t subscribers;
  size_t loans;
  size_t samples;
  size_t buffer_size;
  size_t history_size;
  size_t idle_subscribers;
};

uint64_t pass_messages(const struct load *load, uint64_t messages);

static size_t number(const char *word) { return strtoull(word, NULL, 10); }

int main(int count, char **words) {
  if (count != 9) {
    fputs("usage: message_cost MESSAGES SUBSCRIBERS IDLE_PUBLISHERS LOANS SAMPLES BUFFER_SIZE HISTORY_SIZE"
          " IDLE_SUBSCRIBERS\n",
          stderr);
    return 2;
  }
  struct load load = {
      .idle_publishers = number(words[3]),
      .subscribers = number(words[2]),
      .loans = number(words[4]),
      .samples = number(words[5]),
      .buffer_size = number(words[6]),
      .history_size = number(words[7]),
      .idle_subscribers = number(words[8]),
  };
  uint64_t messages = number(words[1]);
  uint64_t arrived = pass_messages(&load, messages);
  printf("%" PRIu64 " of %" PRIu64 " messages arrived\n", arrived, messages);
  return arrived == messages ? 0 : 1;
}
