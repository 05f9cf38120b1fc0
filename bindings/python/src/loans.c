// SPDX-License-Identifier: Apache-2.0 OR MIT
#include "loans.h"

#include "docs.h"
#include "errors.h"
#include "sends.h"

PyTypeObject *loan_type;

/* A loan that is asked for. */
typedef struct Lending {
  Message *message;
  size_t len;
  char is_zeroed;
} Lending;

static iox2ps_status_t lend_made(iox2ps_domain_t *handle, void *what) {
  Lending *lending = what;
  Message *message = lending->message;
  const iox2ps_publisher_t *publisher = &message->port->publisher;
  return lending->is_zeroed ? iox2ps_publisher_loan(handle, publisher, lending->len, &message->loan, &message->bytes)
                            : iox2ps_publisher_loan_uninit(handle, publisher, lending->len, &message->loan, &message->bytes);
}

Message *lend(Port *port, size_t len, int is_zeroed, double until) {
  Message *message = new_message(loan_type, port->domain, port);
  if (!message) return NULL;
  Lending lending = {message, len, (char)is_zeroed};
  const uint32_t waits = BRINGS_FREE | BRINGS_LOAN;
  iox2ps_status_t code = made_at(port, 0, lend_made, &lending);
  if (goes_on(until, waits, code)) code = made_until(until, port, waits, 0, lend_made, &lending);
  if (code == IOX2PS_OK) {
    message->len = len;
    begin_message(message);
    return message;
  }
  Py_DECREF((PyObject *)message);
  return (void *)refused(code);
}

static PyObject *loan_send(Message *self, PyObject *args, PyObject *names) {
  static char *words[] = {"timeout", NULL};
  double seconds = Py_HUGE_VAL;
  if (!PyArg_ParseTupleAndKeywords(args, names, "|O&:send", words, read_timeout, &seconds)) return NULL;
  if (!is_usable(self) || !has_no_views(self, "send")) return NULL;
  Sending sending = {.port = self->port, .message = self};
  return send(&sending, until_of(seconds));
}

static PyObject *loan_deliver(Message *self, PyObject *args, PyObject *names) {
  static char *words[] = {"channel", "connection", "timeout", NULL};
  double seconds = Py_HUGE_VAL;
  Sending sending = {.port = self->port, .message = self, .is_to_one = 1};
  if (!PyArg_ParseTupleAndKeywords(args, names, "O&O&|O&:deliver_offset_to_connection", words, read_channel, &sending.channel, read_connection,
                                   &sending.connection, read_timeout, &seconds)) {
    return NULL;
  }
  if (!is_usable(self) || !has_no_views(self, "deliver_offset_to_connection")) return NULL;
  return send(&sending, until_of(seconds));
}

static PyObject *loan_send_async(Message *self, PyObject *none) {
  (void)none;
  return made_of("send_loan_async", Py_BuildValue("(OO)", (PyObject *)self, (PyObject *)self->port));
}

static PyObject *loan_publisher(Message *self, void *closure) {
  (void)closure;
  return int_of(self->loan.publisher);
}

static PyObject *loan_number(Message *self, void *closure) {
  (void)closure;
  return int_of(self->loan.number);
}

static PyMethodDef loan_calls[] = {
    METHOD("send", loan_send, WITH_WORDS, DOC_LOAN_SEND),
    METHOD("deliver_offset_to_connection", loan_deliver, WITH_WORDS, DOC_LOAN_DELIVER),
    METHOD("send_async", loan_send_async, METH_NOARGS, DOC_LOAN_SEND_ASYNC),
    METHOD("discard", message_end, METH_NOARGS, DOC_LOAN_DISCARD),
    METHOD("__enter__", message_enter, METH_NOARGS, DOC_ENTER("loan")),
    METHOD("__exit__", message_exit, METH_VARARGS, DOC_EXIT("Gives it back unless it was sent.")),
    {NULL, NULL, 0, NULL}};

static PyGetSetDef loan_fields[] = {
    FIELD("array", message_array, DOC_LOAN_ARRAY),
    FIELD("publisher", loan_publisher, DOC_LOAN_PUBLISHER),
    FIELD("number", loan_number, DOC_NUMBER),
    FIELD("is_live", message_is_live, DOC_LOAN_IS_LIVE),
    {NULL, NULL, NULL, NULL, NULL}};

static PyType_Slot loan_slots[] = {MESSAGE_SLOTS, SLOT(Py_tp_doc, DOC_LOAN), SLOT(Py_tp_methods, loan_calls), SLOT(Py_tp_getset, loan_fields), {0, NULL}};
PyType_Spec loan_spec = {"iox2_pubsub.Loan", sizeof(Message), 0,
                         Py_TPFLAGS_DEFAULT | Py_TPFLAGS_HAVE_GC | Py_TPFLAGS_IMMUTABLETYPE | Py_TPFLAGS_DISALLOW_INSTANTIATION, loan_slots};
