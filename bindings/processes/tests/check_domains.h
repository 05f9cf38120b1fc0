// SPDX-License-Identifier: Apache-2.0 OR MIT
/* Tests of domains that processes share end where something isn't so, also in a child, and say why the library refused last. */
#ifndef IOX2PS_CHECK_DOMAINS_H
#define IOX2PS_CHECK_DOMAINS_H

#include "iox2_pubsub_processes.h"
#include <stdio.h>
#include <unistd.h>

#define CHECK(condition) ((condition) ? (void)0 : fail(__FILE__, __LINE__, #condition))
static _Noreturn void fail(const char *file, int line, const char *words) {
  fprintf(stderr, "%s:%d: %s; %s\n", file, line, words, iox2ps_processes_why());
  _exit(1);
}

#endif
