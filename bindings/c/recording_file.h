// SPDX-License-Identifier: Apache-2.0 OR MIT
/* What is recorded of a domain, in a file. */
#ifndef IOX2PS_RECORDING_FILE_H
#define IOX2PS_RECORDING_FILE_H

#include "iox2_pubsub.h"
#include <stdio.h>
#include <stdlib.h>

/* Writes the recording of the domain, in which no command may be missed, and says whether that is done. */
static int write_recording(iox2ps_domain_t *domain, const char *name) {
  FILE *file = fopen(name, "w");
  size_t len, room;
  uint64_t missed;
  if (!file || iox2ps_domain_recording(domain, &len, 0, &room, &missed) != IOX2PS_TOO_SMALL) return 0;
  void *text = malloc(room);
  int is_written = iox2ps_domain_recording(domain, text, room, &len, &missed) == IOX2PS_OK && missed == 0 && fwrite(text, 1, len, file) == len;
  free(text);
  return fclose(file) == 0 && is_written;
}

#endif
