// SPDX-License-Identifier: Apache-2.0 OR MIT
/* Which names there are. Another process may take a name or give it up at any time, so what is said here is only what was so. */
#ifndef IOX2PS_SHARED_NAMES_H
#define IOX2PS_SHARED_NAMES_H

#include "shared_files.h"

typedef struct shared_name_t {
  char name[SHARED_NAME_MAX + 1], type_name[SHARED_TYPE_NAME_MAX + 1];
  size_t payload_size, payload_alignment;
  uint32_t places, processes; /* how many processes there may be, and how many there are */
  uint32_t domains;           /* of the first of which the type is */
} shared_name_t;

/* Whether a process has the name and others may open it. False too where this process may not read the file. */
bool shared_names_find(const char *name, shared_name_t *found);
/* Tells of each name, until `tell` says false. False if the folder can't be read. */
bool shared_names_list(bool (*tell)(void *of, const shared_name_t *name), void *of);

#endif
