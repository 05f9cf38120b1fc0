// SPDX-License-Identifier: Apache-2.0 OR MIT
/* Included before a test of C that knows nothing of several processes: each domain that it makes is one that others could open. */
#ifndef IOX2PS_SHARED_INSTEAD_H
#define IOX2PS_SHARED_INSTEAD_H

#include "iox2_pubsub_processes.h"
#include <stdio.h>
#include <stdlib.h>
#include <unistd.h>

#ifndef BOOK_ROOM
#define BOOK_ROOM (1 << 20) /* of a test whose publishers grow as often as they may, more */
#endif

static inline iox2ps_status_t create_shared(iox2ps_domain_t *domain, const iox2ps_config_t *config) {
  static _Atomic unsigned made; /* by several threads, too */
  char name[64];
  iox2ps_processes_options_t options;
  snprintf(name, sizeof name, "instead.%d.%u", (int)getpid(), made++);
  iox2ps_processes_options_of(config, &options);
  if (options.struct_size != 0) { /* else the settings are invalid */
    const size_t least = 2 << 20, most = 64 << 20; /* publishers grow */
    options.payload_room = options.payload_room < least ? least : options.payload_room > most ? most : options.payload_room;
    options.book_room = BOOK_ROOM;
    options.reap_every_ms = 3600000; /* nobody dies, and tests count who takes a lock */
    options.max_processes = 2, options.calls = 64;                /* short, so that copies are made often */
  }
  iox2ps_status_t code = iox2ps_domain_open_or_create(domain, name, "bytes", config, options.struct_size != 0 ? &options : NULL);
  /* What no domain of several processes can be: slots without number. */
  if (code == IOX2PS_WORST_CASE_TOO_LARGE) return iox2ps_domain_create(domain, config);
  if (code >= IOX2PS_OPEN_ERROR_DOES_NOT_EXIST) fprintf(stderr, "%s: %s\n", iox2ps_error_text(code), iox2ps_processes_why()), abort();
  return code;
}
#undef iox2ps_domain_create
#define iox2ps_domain_create create_shared
/* That of the archive may be an older one's: this isn't what is tested here. */
#define iox2ps_version() IOX2PS_VERSION

#endif
