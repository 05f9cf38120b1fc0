// SPDX-License-Identifier: Apache-2.0 OR MIT
/* Sends, and those that wait for a subscriber whose buffer is full. */
#ifndef IOX2_PUBSUB_SENDS_H
#define IOX2_PUBSUB_SENDS_H

#include "messages.h"

/* A send under way. */
typedef struct Sending {
  Port *port;
  Message *message; /* what is sent; null where bytes are */
  const void *bytes;
  size_t len;
  size_t channel, connection; /* the only ones that get it, where it is to one */
  size_t receivers;
  iox2ps_blocked_t blocked;
  char is_to_one;
} Sending;

extern PyType_Spec blocked_spec;
extern PyTypeObject *blocked_type;

/* Sends, and waits for room. How many took it: an int, or null with an exception, which has the send that waits as `blocked`. */
PyObject *send(Sending *sending, double until);

#endif
