// SPDX-License-Identifier: Apache-2.0 OR MIT
/* Domains that processes share by a name, where the library for them is linked. */
#ifndef IOX2_PUBSUB_PROCESSES_OF_PYTHON_H
#define IOX2_PUBSUB_PROCESSES_OF_PYTHON_H

#include "domain.h"

/* A descriptor that is readable when another process has brought any of this, a sum of Brings, or of what was asked for before.
 * IS_RAISED with an exception. */
iox2ps_status_t others_fd(Domain *domain, uint32_t waits, int *fd);

/* Under the GIL: that descriptor isn't readable any more, and what others have brought since the last time is told to those who wait.
 * Of an ordinary domain it does nothing. */
void listen_to_others(Domain *domain);

/* Under the GIL: the same of what has come by a call of this process, which gave back what the dead had. */
void tell_of_others(Domain *domain);

/* Sets the exception of a domain that wasn't opened, with why in words, and returns null. */
PyObject *not_opened(iox2ps_status_t code);

/* Domain._open, and the module's own calls. */
PyObject *domain_open(PyTypeObject *type, PyObject *args, PyObject *names);
extern PyMethodDef process_calls[];

#endif
