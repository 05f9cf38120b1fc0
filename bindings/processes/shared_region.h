// SPDX-License-Identifier: Apache-2.0 OR MIT
/* The memory of a process for a domain that others have, too: at an address that is the same in each of them, since a domain has
 * pointers. Behind it lie the addresses that the domain believes to be its payloads'. There is no memory: a call that touched a
 * payload would end the process. */
#ifndef IOX2PS_SHARED_REGION_H
#define IOX2PS_SHARED_REGION_H

#include <stdbool.h>
#include <stddef.h>
#include <stdint.h>

typedef struct shared_region_t {
  char *memory, *payloads; /* `memory` is null where there is none */
  char *snapshot;          /* as much again, anywhere: the memory as it was, while a copy of it is made */
  size_t room, payload_room;
} shared_region_t;

typedef enum region_status_t { REGION_OK, REGION_TAKEN, REGION_NO_MEMORY } region_status_t;

/* At this address; with 0 at one that is free, and that is likely to be free in others. Rooms are rounded up. REGION_TAKEN: this
 * process has something there already. */
region_status_t shared_region_map(shared_region_t *it, uint64_t address, size_t room, size_t payload_room);
void shared_region_unmap(shared_region_t *it);

#endif
