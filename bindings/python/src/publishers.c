// SPDX-License-Identifier: Apache-2.0 OR MIT
#include "ports.h"

#include <string.h>

#include "channels.h"
#include "docs.h"
#include "errors.h"
#include "loans.h"
#include "sends.h"
#include "settings.h"

iox2ps_status_t update_made(iox2ps_domain_t *handle, void *what) {
  Port *port = what;
  return iox2ps_publisher_update_connections(handle, &port->publisher);
}

/* A publisher that is to be made. */
typedef struct Making {
  Port *port;
  iox2ps_publisher_options_t options;
} Making;

static iox2ps_status_t create_made(iox2ps_domain_t *handle, void *what) {
  Making *making = what;
  iox2ps_status_t code = iox2ps_publisher_create_with(handle, &making->options, &making->port->publisher);
  if (code == IOX2PS_OK) list_port(making->port);
  return code;
}

static PyObject *publisher_new(PyTypeObject *type, PyObject *args, PyObject *names) {
  static char *words[] = {"domain", "options", NULL};
  Domain *domain;
  PyObject *options;
  Making making;
  if (!PyArg_ParseTupleAndKeywords(args, names, "O!O!:Publisher", words, domain_type, &domain, &PyDict_Type, &options)) return NULL;
  iox2ps_publisher_options_of(&domain->config, &making.options);
  if (!write_fields(options, publisher_fields, &making.options)) return NULL;
  making.port = new_port(type, domain, PORT_PUBLISHER);
  if (!making.port) return NULL;
  making.port->publisher_options = making.options;
  iox2ps_status_t code = made(domain, BRINGS_MESSAGE, create_made, &making);
  if (code == IOX2PS_OK) return (PyObject *)making.port;
  Py_DECREF((PyObject *)making.port);
  return refused(code);
}

/* How many bytes so many values have: that many as the publisher's settings say by default. 0 with an exception. */
static int length_of(Port *self, PyObject *count, size_t *len) {
  Domain *domain = self->domain;
  size_t values = self->publisher.initial_max_slice_len / domain->unit;
  if (count != Py_None && !size_of(count, "count", &values)) return 0;
  if (domain->is_single && values != 1) {
    PyErr_SetString(PyExc_ValueError, "a message of this domain is one value: make the domain with max_len for more");
    return 0;
  }
  if (values > PY_SSIZE_T_MAX / domain->unit) return refused(IOX2PS_LOAN_ERROR_EXCEEDS_MAX_LOAN_SIZE), 0;
  *len = values * domain->unit;
  return 1;
}

static PyObject *loan(Port *self, PyObject *args, PyObject *names, int is_zeroed) {
  static char *words[] = {"count", "timeout", NULL};
  PyObject *count = Py_None;
  double seconds = 0;
  size_t len;
  if (!PyArg_ParseTupleAndKeywords(args, names, "|OO&:loan", words, &count, read_timeout, &seconds)) return NULL;
  return length_of(self, count, &len) ? (PyObject *)lend(self, len, is_zeroed, until_of(seconds)) : NULL;
}

static PyObject *publisher_loan(Port *self, PyObject *args, PyObject *names) { return loan(self, args, names, 1); }
static PyObject *publisher_loan_uninit(Port *self, PyObject *args, PyObject *names) { return loan(self, args, names, 0); }

/* A long copy is made without the GIL. */
static PyObject *send_long(Port *self, const Py_buffer *view, double until) {
  Message *message = lend(self, (size_t)view->len, 0, until);
  if (!message) return NULL;
  Py_BEGIN_ALLOW_THREADS;
  memcpy(message->bytes, view->buf, (size_t)view->len);
  Py_END_ALLOW_THREADS;
  Sending sending = {.port = self, .message = message};
  PyObject *receivers = send(&sending, until);
  Py_DECREF((PyObject *)message);
  return receivers;
}

static PyObject *send_view(Port *self, const Py_buffer *view, double until) {
  size_t unit = self->domain->unit, len = (size_t)view->len;
  if (len % unit != 0 || (self->domain->is_single && len != unit)) {
    return PyErr_Format(PyExc_ValueError, "%zd bytes are no message: one value of the domain has %zu", view->len, unit);
  }
  if (len > 16384) return send_long(self, view, until);
  Sending sending = {.port = self, .bytes = view->buf, .len = len};
  return send(&sending, until);
}

static PyObject *publisher_send_copy(Port *self, PyObject *args, PyObject *names) {
  static char *words[] = {"", "timeout", NULL};
  PyObject *object, *encode = self->domain->encode, *receivers = NULL;
  double seconds = Py_HUGE_VAL;
  Py_buffer view;
  if (!PyArg_ParseTupleAndKeywords(args, names, "O|O&:send_copy", words, &object, read_timeout, &seconds)) return NULL;
  object = encode == Py_None || PyBytes_Check(object) ? Py_NewRef(object) : PyObject_CallFunctionObjArgs(encode, object, NULL);
  if (!object) return NULL;
  if (PyObject_GetBuffer(object, &view, PyBUF_SIMPLE) == 0) {
    receivers = send_view(self, &view, until_of(seconds));
    PyBuffer_Release(&view);
  }
  Py_DECREF(object);
  return receivers;
}

static PyObject *publisher_update_connections(Port *self, PyObject *none) {
  (void)none;
  iox2ps_status_t code = made_at(self, BRINGS_MESSAGE | BRINGS_LOAN, update_made, self);
  if (code != IOX2PS_OK) return refused(code);
  Py_RETURN_NONE;
}

/* A publisher's answer. */
typedef struct Answer {
  const Port *port;
  uint32_t is_so;
} Answer;

static iox2ps_status_t is_blocked_made(iox2ps_domain_t *handle, void *what) {
  Answer *answer = what;
  return iox2ps_publisher_is_blocked(handle, &answer->port->publisher, &answer->is_so);
}

static PyObject *publisher_is_blocked(Port *self, void *closure) {
  (void)closure;
  Answer answer = {self, 0};
  iox2ps_status_t code = made(self->domain, 0, is_blocked_made, &answer);
  return code == IOX2PS_OK ? PyBool_FromLong((long)answer.is_so) : refused(code);
}

static PyObject *publisher_initial_max_slice_len(Port *self, void *closure) {
  (void)closure;
  return PyLong_FromSize_t(self->publisher.initial_max_slice_len / self->domain->unit);
}

static PyObject *publisher_options(Port *self, void *closure) {
  (void)closure;
  return read_fields(publisher_fields, &self->publisher_options);
}

static PyObject *publisher_backpressure_strategy(Port *self, void *closure) {
  (void)closure;
  return PyLong_FromUnsignedLong(self->publisher.backpressure_strategy);
}

static PyMethodDef publisher_calls[] = {
    PUBLISHER_CHANNEL_CALLS,
    METHOD("loan", publisher_loan, WITH_WORDS, DOC_PUBLISHER_LOAN),
    METHOD("loan_uninit", publisher_loan_uninit, WITH_WORDS, DOC_PUBLISHER_LOAN_UNINIT),
    METHOD("send_copy", publisher_send_copy, WITH_WORDS, DOC_PUBLISHER_SEND_COPY),
    METHOD("update_connections", publisher_update_connections, METH_NOARGS, DOC_PUBLISHER_UPDATE_CONNECTIONS),
    {NULL, NULL, 0, NULL}};

static PyGetSetDef publisher_gets[] = {
    FIELD("id", port_id, DOC_PORT_ID),
    FIELD("_options", publisher_options, "What it was made with, by names."),
    FIELD("is_blocked", publisher_is_blocked, DOC_PUBLISHER_IS_BLOCKED),
    FIELD("initial_max_slice_len", publisher_initial_max_slice_len, DOC_PUBLISHER_INITIAL_MAX_SLICE_LEN),
    FIELD("_backpressure_strategy", publisher_backpressure_strategy, DOC_PUBLISHER_STRATEGY),
    {NULL, NULL, NULL, NULL, NULL}};

static PyType_Slot publisher_slots[] = {SLOT(Py_tp_new, publisher_new), SLOT(Py_tp_methods, publisher_calls),
                                        SLOT(Py_tp_getset, publisher_gets), {0, NULL}};
PyType_Spec publisher_spec = {"iox2_pubsub._core.Publisher", sizeof(Port), 0,
                              Py_TPFLAGS_DEFAULT | Py_TPFLAGS_BASETYPE | Py_TPFLAGS_IMMUTABLETYPE, publisher_slots};
