// SPDX-License-Identifier: Apache-2.0 OR MIT
/* Refused calls as exceptions. */
#ifndef IOX2_PUBSUB_ERRORS_H
#define IOX2_PUBSUB_ERRORS_H

#include "python.h"

/* Codes that no call of the archive returns. */
#define AFTER_FORK UINT32_C(0xfffffffd)
#define IS_RAISED UINT32_C(0xfffffffc) /* an exception is set already */
#define NOBODY_DIED UINT32_C(0xfffffffb)
#define NO_EVENT UINT32_C(0xfffffffa)
#define NOT_SHARED UINT32_C(224) /* as the library for processes says it */

/* The exception of each code: a dict, which errors.py fills. */
extern PyObject *errors;

/* Sets the exception of a code, and returns null. */
PyObject *refused(iox2ps_status_t code);

#endif
