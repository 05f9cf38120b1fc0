// SPDX-License-Identifier: Apache-2.0 OR MIT
/* Domains of another language of this process, under its lock. */
#ifndef IOX2_PUBSUB_JOIN_H
#define IOX2_PUBSUB_JOIN_H

#include "domain.h"

/* Calls on a domain that was joined, as made() makes them on others. */
iox2ps_status_t made_there(Domain *domain, uint32_t brings, Make make, void *what);

/* The domain stays its owner's, and this has it no longer. */
void leave(Domain *domain);

/* For the type Domain: what a capsule has, and joining it. */
PyObject *domain_shared(PyTypeObject *type, PyObject *capsule);
PyObject *domain_join(PyTypeObject *type, PyObject *args, PyObject *names);

#endif
