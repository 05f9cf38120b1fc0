// SPDX-License-Identifier: Apache-2.0 OR MIT
/* Settings by their names. */
#ifndef IOX2_PUBSUB_SETTINGS_H
#define IOX2_PUBSUB_SETTINGS_H

#include "python.h"

/* One field of a struct of settings. */
typedef struct Field {
  const char *name;
  size_t at;
  char kind; /* n: size_t, i: uint32_t, w: iox2ps_wide_t */
} Field;

extern const Field config_fields[], publisher_fields[], subscriber_fields[];

/* Writes what a dict of names has, which may be null, into the struct. 0 with an exception where a name is none of the fields', or a
 * number doesn't fit. */
int write_fields(PyObject *names, const Field *fields, void *into);

/* A dict of all fields of the struct. */
PyObject *read_fields(const Field *fields, const void *from);

#endif
