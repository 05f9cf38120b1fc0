// SPDX-License-Identifier: Apache-2.0 OR MIT
/* What the programs in C do where a call is refused: they say what it says, and end. */
#ifndef EXAMPLES_MUST_H
#define EXAMPLES_MUST_H

#include "iox2_pubsub.h"
#include <stdio.h>
#include <stdlib.h>

#define MUST(call) must(call, #call)

static inline void must(iox2ps_status_t code, const char *call) {
  if (code == IOX2PS_OK) return;
  fprintf(stderr, "%s: %s\n", call, iox2ps_error_text(code));
  exit(1);
}

#endif
