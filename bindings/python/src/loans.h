// SPDX-License-Identifier: Apache-2.0 OR MIT
/* Messages that a publisher has lent. */
#ifndef IOX2_PUBSUB_LOANS_H
#define IOX2_PUBSUB_LOANS_H

#include "messages.h"

/* Lends a message of so many bytes, and waits for a slot. Null with an exception. */
Message *lend(Port *port, size_t len, int is_zeroed, double until);

#endif
