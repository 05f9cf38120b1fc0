// SPDX-License-Identifier: Apache-2.0 OR MIT
#include "sends.h"

#include "docs.h"
#include "errors.h"

PyTypeObject *blocked_type;

/* What a send brings, and what the end of one that was blocked does. */
static const uint32_t sends = BRINGS_MESSAGE | BRINGS_LOAN, ends = BRINGS_MESSAGE | BRINGS_FREE | BRINGS_LOAN;

static iox2ps_status_t send_loan(iox2ps_domain_t *handle, Sending *sending) {
  const iox2ps_loan_t *loan = &sending->message->loan;
  return sending->is_to_one ? iox2ps_loan_deliver_offset_to_connection(handle, loan, sending->channel, sending->connection,
                                                                       &sending->receivers, &sending->blocked)
                            : iox2ps_loan_send(handle, loan, &sending->receivers, &sending->blocked);
}

static iox2ps_status_t send_bytes(iox2ps_domain_t *handle, Sending *sending) {
  return iox2ps_publisher_send_copy(handle, &sending->port->publisher, sending->bytes, sending->len, &sending->receivers,
                                    &sending->blocked);
}

static iox2ps_status_t send_made(iox2ps_domain_t *handle, void *what) {
  Sending *sending = what;
  return sending->message ? send_loan(handle, sending) : send_bytes(handle, sending);
}

/* Whose full buffer it waits for. */
static iox2ps_wide_t stands_at(iox2ps_domain_t *handle, const Sending *sending) {
  iox2ps_wide_t subscriber = {0, 0};
  return iox2ps_blocked_subscriber(handle, &sending->blocked, &subscriber) == IOX2PS_OK ? subscriber : (iox2ps_wide_t){0, 0};
}

/* One that is blocked where it was has reached nobody and wakes nobody, which this code says. */
static iox2ps_status_t retry_made(iox2ps_domain_t *handle, void *what) {
  Sending *sending = what;
  iox2ps_wide_t before = stands_at(handle, sending);
  iox2ps_status_t code = iox2ps_blocked_retry(handle, &sending->blocked, 0, &sending->receivers);
  if (code != IOX2PS_BLOCKED) return code;
  iox2ps_wide_t after = stands_at(handle, sending);
  return before.low == after.low && before.high == after.high ? IOX2PS_PUBLISHER_IS_BLOCKED : code;
}

/* Tries again, and waits for room. The first try is left out where one was just made. */
static iox2ps_status_t retried(Sending *sending, double until, int is_tried) {
  iox2ps_status_t code = is_tried ? IOX2PS_BLOCKED : made_at(sending->port, ends, retry_made, sending);
  int is_blocked = code == IOX2PS_BLOCKED || code == IOX2PS_PUBLISHER_IS_BLOCKED;
  if (is_blocked && until != 0) code = made_until(until, sending->port, BRINGS_ROOM, ends, retry_made, sending);
  return code == IOX2PS_PUBLISHER_IS_BLOCKED ? IOX2PS_BLOCKED : code;
}

static iox2ps_status_t give_up_made(iox2ps_domain_t *handle, void *what) {
  Sending *sending = what;
  return iox2ps_blocked_give_up(handle, &sending->blocked, &sending->receivers);
}

/* A send that was blocked has ended: its publisher is closed where its `with` has ended meanwhile. */
static void end_blocked(Port *port) {
  if (port->is_left) close_port(port);
  let_go(port->domain);
}

/* Goes past each subscriber whose buffer is full. */
static void give_up_all(Sending *sending) {
  while (made(sending->port->domain, ends, give_up_made, sending) == IOX2PS_BLOCKED) {}
  end_blocked(sending->port);
}

/* A send that waits, which is given up with this. */
typedef struct Blocked {
  PyObject_HEAD
  Port *port;
  iox2ps_blocked_t blocked;
  char is_live;
} Blocked;

/* The send as an object. Null with an exception, and the send is given up. */
static Blocked *blocked_of(Sending *sending) {
  Blocked *blocked = new_object(blocked_type);
  if (!blocked) return give_up_all(sending), NULL;
  blocked->port = (Port *)Py_NewRef((PyObject *)sending->port);
  blocked->is_live = 1, blocked->blocked = sending->blocked;
  return blocked;
}

/* Hands the send over to the exception that is set. Where there is no memory for that, a MemoryError is set in its place. */
static PyObject *keep_blocked(Sending *sending) {
  PyObject *type, *value, *trace;
  PyErr_Fetch(&type, &value, &trace);
  PyErr_NormalizeException(&type, &value, &trace);
  Blocked *blocked = blocked_of(sending);
  if (blocked && PyObject_SetAttrString(value, "blocked", (PyObject *)blocked) == 0) {
    PyErr_Restore(type, value, trace);
  } else {
    Py_XDECREF(type), Py_XDECREF(value), Py_XDECREF(trace);
  }
  Py_XDECREF((PyObject *)blocked);
  return NULL;
}

/* How many took it. */
static PyObject *sent(iox2ps_status_t code, const Sending *sending) {
  return code == IOX2PS_OK ? PyLong_FromSize_t(sending->receivers) : refused(code);
}

/* Whether a send with this code leaves its loan. */
static int stays(iox2ps_status_t code) {
  return code == IOX2PS_PUBLISHER_IS_BLOCKED || code == IOX2PS_NOT_LIVE || code == IOX2PS_NO_SUCH_CHANNEL
         || code == IOX2PS_NO_DOMAIN || code == AFTER_FORK || code == IS_RAISED;
}

/* Its message takes no view meanwhile. */
static iox2ps_status_t begin_send(Sending *sending, double until) {
  const uint32_t waits = sending->message ? BRINGS_FREE : BRINGS_FREE | BRINGS_LOAN;
  iox2ps_status_t code = made_at(sending->port, sends, send_made, sending);
  if (!goes_on(until, waits, code)) return code;
  if (sending->message) sending->message->is_sending = 1;
  code = made_until(until, sending->port, waits, sends, send_made, sending);
  if (sending->message) sending->message->is_sending = 0;
  return code;
}

PyObject *send(Sending *sending, double until) {
  Port *port = sending->port;
  iox2ps_status_t code = begin_send(sending, until);
  int is_blocked = code == IOX2PS_BLOCKED;
  if (is_blocked) hold(port->domain);
  if (sending->message && !stays(code)) end_message(sending->message);
  if (is_blocked) code = retried(sending, until, 1);
  if (!is_blocked) return sent(code, sending);
  if (code == IOX2PS_BLOCKED) refused(code);
  if (code == IOX2PS_BLOCKED || code == IS_RAISED) return keep_blocked(sending);
  end_blocked(port);
  return sent(code, sending);
}

/* Blocked. */

/* What a call of it returns: None where it waits on. */
static PyObject *blocked_result(Blocked *self, iox2ps_status_t code, const Sending *sending) {
  if (code == IOX2PS_BLOCKED) Py_RETURN_NONE;
  if (code != IS_RAISED && code != AFTER_FORK && self->is_live) {
    self->is_live = 0;
    end_blocked(self->port);
  }
  return sent(code, sending);
}

static PyObject *blocked_retry(Blocked *self, PyObject *args, PyObject *names) {
  static char *words[] = {"timeout", NULL};
  double seconds = 0;
  if (!PyArg_ParseTupleAndKeywords(args, names, "|O&:retry", words, read_timeout, &seconds)) return NULL;
  Sending sending = {.port = self->port, .blocked = self->blocked};
  return blocked_result(self, retried(&sending, until_of(seconds), 0), &sending);
}

static PyObject *blocked_retry_async(Blocked *self, PyObject *none) {
  (void)none;
  return made_of("retry_async", Py_BuildValue("(OO)", (PyObject *)self, (PyObject *)self->port));
}

static PyObject *blocked_give_up(Blocked *self, PyObject *none) {
  (void)none;
  Sending sending = {.port = self->port, .blocked = self->blocked};
  return blocked_result(self, made_at(self->port, ends, give_up_made, &sending), &sending);
}

typedef struct Named {
  const Blocked *blocked;
  iox2ps_wide_t subscriber;
} Named;

static iox2ps_status_t name_made(iox2ps_domain_t *handle, void *what) {
  Named *named = what;
  return iox2ps_blocked_subscriber(handle, &named->blocked->blocked, &named->subscriber);
}

static PyObject *blocked_subscriber(Blocked *self, void *closure) {
  (void)closure;
  Named named = {self, {0, 0}};
  iox2ps_status_t code = made(self->port->domain, 0, name_made, &named);
  return code == IOX2PS_OK ? int_of(named.subscriber) : refused(code);
}

static void blocked_dealloc(Blocked *self) {
  PyObject_GC_UnTrack(self);
  if (self->is_live && is_here(self->port->domain)) {
    Sending sending = {.port = self->port, .blocked = self->blocked};
    give_up_all(&sending);
  }
  Py_XDECREF((PyObject *)self->port);
  free_object(self);
}

static int blocked_traverse(Blocked *self, visitproc visit, void *arg) {
  Py_VISIT(Py_TYPE((PyObject *)self));
  Py_VISIT((PyObject *)self->port);
  return 0;
}

static PyMethodDef blocked_calls[] = {
    METHOD("retry", blocked_retry, WITH_WORDS, DOC_BLOCKED_RETRY),
    METHOD("retry_async", blocked_retry_async, METH_NOARGS, DOC_BLOCKED_RETRY_ASYNC),
    METHOD("give_up", blocked_give_up, METH_NOARGS, DOC_BLOCKED_GIVE_UP),
    {NULL, NULL, 0, NULL}};

static PyGetSetDef blocked_fields[] = {FIELD("subscriber", blocked_subscriber, DOC_BLOCKED_SUBSCRIBER),
                                       {NULL, NULL, NULL, NULL, NULL}};

static PyType_Slot blocked_slots[] = {SLOT(Py_tp_doc, DOC_BLOCKED), SLOT(Py_tp_dealloc, blocked_dealloc), SLOT(Py_tp_traverse, blocked_traverse),
                                      SLOT(Py_tp_methods, blocked_calls), SLOT(Py_tp_getset, blocked_fields), {0, NULL}};
PyType_Spec blocked_spec = {"iox2_pubsub.Blocked", sizeof(Blocked), 0,
                            Py_TPFLAGS_DEFAULT | Py_TPFLAGS_HAVE_GC | Py_TPFLAGS_IMMUTABLETYPE | Py_TPFLAGS_DISALLOW_INSTANTIATION,
                            blocked_slots};
