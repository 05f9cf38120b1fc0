// SPDX-License-Identifier: Apache-2.0 OR MIT
// Makes, connects, updates and closes the ports of a domain, by the library `message_cost`: fails unless all of them are closed.
#include <stdbool.h>
#include <stddef.h>
#include <stdio.h>
#include <stdlib.h>
#include <string.h>

struct connecting {
  size_t publishers;
  size_t subscribers;
  size_t history;
  bool publishers_first;
};

size_t connect_ports(const struct connecting *connecting);

static size_t number(const char *word) { return strtoull(word, NULL, 10); }

int main(int count, char **words) {
  if (count != 5) {
    fputs("usage: connect_cost PUBLISHERS SUBSCRIBERS HISTORY publishers|subscribers\n", stderr);
    return 2;
  }
  struct connecting connecting = {
      .publishers = number(words[1]),
      .subscribers = number(words[2]),
      .history = number(words[3]),
      .publishers_first = strcmp(words[4], "publishers") == 0,
  };
  size_t closed = connect_ports(&connecting);
  printf("%zu ports were closed\n", closed);
  return closed == connecting.publishers + connecting.subscribers ? 0 : 1;
}
