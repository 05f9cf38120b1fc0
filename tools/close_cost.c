// SPDX-License-Identifier: Apache-2.0 OR MIT
// Closes the ports of a domain, by the library `message_cost`: fails unless all of them are closed.
#include <stdbool.h>
#include <stddef.h>
#include <stdio.h>
#include <stdlib.h>
#include <string.h>

struct closing {
  size_t publishers;
  size_t subscribers;
  size_t messages;
  bool is_known;
  bool publishers_first;
};

size_t close_ports(const struct closing *closing);

static size_t number(const char *word) { return strtoull(word, NULL, 10); }

int main(int count, char **words) {
  if (count != 6) {
    fputs("usage: close_cost PUBLISHERS SUBSCRIBERS MESSAGES known|unknown publishers|subscribers\n", stderr);
    return 2;
  }
  struct closing closing = {
      .publishers = number(words[1]),
      .subscribers = number(words[2]),
      .messages = number(words[3]),
      .is_known = strcmp(words[4], "known") == 0,
      .publishers_first = strcmp(words[5], "publishers") == 0,
  };
  size_t closed = close_ports(&closing);
  printf("%zu ports were closed\n", closed);
  return closed == closing.publishers + closing.subscribers ? 0 : 1;
}
