// SPDX-License-Identifier: Apache-2.0 OR MIT
/* What a domain answers. */
#ifndef IOX2_PUBSUB_QUESTIONS_H
#define IOX2_PUBSUB_QUESTIONS_H

#include "docs.h"
#include "domain.h"

PyObject *domain_config(Domain *self, void *closure);
PyObject *domain_unit(Domain *self, void *closure);
PyObject *domain_connection_count(Domain *self, void *closure);
PyObject *domain_book_count(Domain *self, void *closure);
PyObject *domain_refused_connections(Domain *self, void *closure);
PyObject *domain_warnings(Domain *self, void *closure);
PyObject *domain_recording(Domain *self, PyObject *none);
PyObject *domain_worst_case_slots(Domain *self, PyObject *args, PyObject *names);

#define DOMAIN_QUESTION_CALLS \
  METHOD("recording", domain_recording, METH_NOARGS, DOC_DOMAIN_RECORDING), \
      METHOD("worst_case_slots", domain_worst_case_slots, WITH_WORDS, DOC_DOMAIN_WORST_CASE_SLOTS)

#define DOMAIN_QUESTION_FIELDS \
  FIELD("connection_count", domain_connection_count, DOC_DOMAIN_CONNECTION_COUNT), \
      FIELD("book_count", domain_book_count, DOC_DOMAIN_BOOK_COUNT), \
      FIELD("refused_connections", domain_refused_connections, DOC_DOMAIN_REFUSED_CONNECTIONS), \
      FIELD("warnings", domain_warnings, DOC_DOMAIN_WARNINGS), \
      FIELD("_config", domain_config, "The settings by their names."), FIELD("_unit", domain_unit, "How many bytes a value has.")

#endif
