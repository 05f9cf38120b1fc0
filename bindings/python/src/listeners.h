// SPDX-License-Identifier: Apache-2.0 OR MIT
/* Events: notifications by a number, and who hears of them. */
#ifndef IOX2_PUBSUB_LISTENERS_H
#define IOX2_PUBSUB_LISTENERS_H

#include "ports.h"

extern PyType_Spec notifier_spec, listener_spec;

/* Under the lock: the port is a listener, and hears of nothing any more. */
iox2ps_status_t close_listener(iox2ps_domain_t *handle, const Port *port);

#endif
