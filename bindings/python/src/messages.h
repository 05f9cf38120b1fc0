// SPDX-License-Identifier: Apache-2.0 OR MIT
/* Loans and samples: buffers over their slots. Views (memoryviews, numpy's arrays) keep their message, and so the slot: none ever
 * shows another message. */
#ifndef IOX2_PUBSUB_MESSAGES_H
#define IOX2_PUBSUB_MESSAGES_H

#include "ports.h"

typedef struct Message {
  PyObject_HEAD
  Domain *domain;
  Port *port; /* a loan's publisher; none of a sample, which keeps no subscriber open */
  void *bytes;
  size_t len;
  Py_ssize_t views;
  char is_live;    /* it has its slot */
  char is_left;    /* its `with` has ended: it takes no new view, and goes with its last one */
  char is_sending; /* a send of it waits */
  union {
    iox2ps_loan_t loan;
    iox2ps_sample_t sample;
  };
} Message;

extern PyType_Spec loan_spec, sample_spec;
extern PyTypeObject *loan_type, *sample_type;

/* One without a slot. Null with an exception. */
Message *new_message(PyTypeObject *type, Domain *domain, Port *port);

/* It has its slot from now on, and no longer. */
void begin_message(Message *message);
void end_message(Message *message);
void give_back(Message *message);

/* Whether it may be used, and has no views: else 0 with an exception. */
int is_usable(Message *self);
int has_no_views(Message *self, const char *call);

/* What both have. */
void message_dealloc(Message *self);
int message_traverse(Message *self, visitproc visit, void *arg);
int message_getbuffer(Message *self, Py_buffer *view, int flags);
void message_releasebuffer(Message *self, Py_buffer *view);
Py_ssize_t message_length(Message *self);
PyObject *message_array(Message *self, void *closure);
PyObject *message_is_live(Message *self, void *closure);
PyObject *message_end(Message *self, PyObject *none);
PyObject *message_enter(Message *self, PyObject *none);
PyObject *message_exit(Message *self, PyObject *args);

#define MESSAGE_SLOTS                                                                                                          \
  SLOT(Py_tp_dealloc, message_dealloc), SLOT(Py_tp_traverse, message_traverse), SLOT(Py_bf_getbuffer, message_getbuffer),      \
      SLOT(Py_bf_releasebuffer, message_releasebuffer), SLOT(Py_sq_length, message_length)

#endif
