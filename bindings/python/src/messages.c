// SPDX-License-Identifier: Apache-2.0 OR MIT
#include "messages.h"

#include "errors.h"

Message *new_message(PyTypeObject *type, Domain *domain, Port *port) {
  Message *message = new_object(type);
  if (!message) return NULL;
  message->domain = (Domain *)Py_NewRef((PyObject *)domain);
  message->port = (Port *)Py_XNewRef((PyObject *)port);
  return message;
}

void begin_message(Message *message) {
  message->is_live = 1;
  hold(message->domain);
}

void end_message(Message *message) {
  message->is_live = 0;
  let_go(message->domain);
}

static iox2ps_status_t give_back_made(iox2ps_domain_t *handle, void *what) {
  Message *message = what;
  return message->port ? iox2ps_loan_discard(handle, &message->loan) : iox2ps_sample_release(handle, &message->sample);
}

void give_back(Message *message) {
  if (!message->is_live) return;
  made(message->domain, BRINGS_LOAN, give_back_made, message);
  end_message(message);
}

/* No view is there, since each keeps it. */
void message_dealloc(Message *self) {
  PyObject_GC_UnTrack(self);
  if (self->domain) give_back(self);
  Py_XDECREF((PyObject *)self->port);
  Py_XDECREF((PyObject *)self->domain);
  free_object(self);
}

int message_traverse(Message *self, visitproc visit, void *arg) {
  Py_VISIT(Py_TYPE((PyObject *)self));
  Py_VISIT((PyObject *)self->port);
  Py_VISIT((PyObject *)self->domain);
  return 0;
}

int is_usable(Message *self) {
  if (!is_here(self->domain)) return refused(AFTER_FORK), 0;
  if (self->is_live && !self->is_left && !self->is_sending) return 1;
  PyErr_SetString(PyExc_ValueError, !self->port         ? "the sample was released: receive another one"
                                    : self->is_sending ? "another thread sends the loan: it isn't to be used meanwhile"
                                                       : "the loan was sent or discarded: ask its publisher for another one");
  return 0;
}

int has_no_views(Message *self, const char *call) {
  if (self->views == 0) return 1;
  PyErr_Format(PyExc_BufferError,
               "%s: arrays or memoryviews of the message are alive (%zd): let go of them first, by del or by view.release()", call,
               self->views);
  return 0;
}

/* numpy.ndarray(buffer=..) asks so. It gives the view back at once and goes on with its bytes, of which nobody is told. */
static int is_kept(int flags) {
  if ((flags & PyBUF_ANY_CONTIGUOUS) != PyBUF_ANY_CONTIGUOUS || (flags & PyBUF_FORMAT)) return 1;
  PyErr_SetString(PyExc_BufferError, "numpy.ndarray(buffer=..) keeps no buffer: take `array` of the message, or numpy.frombuffer");
  return 0;
}

int message_getbuffer(Message *self, Py_buffer *view, int flags) {
  view->obj = NULL;
  if (!is_usable(self) || !is_kept(flags)) return -1;
  if (PyBuffer_FillInfo(view, (PyObject *)self, self->bytes, (Py_ssize_t)self->len, !self->port, flags) < 0) return -1;
  self->views++;
  return 0;
}

void message_releasebuffer(Message *self, Py_buffer *view) {
  (void)view;
  if (--self->views == 0 && self->is_left && !self->is_sending) give_back(self);
}

Py_ssize_t message_length(Message *self) { return is_usable(self) ? (Py_ssize_t)(self->len / self->domain->unit) : -1; }

PyObject *message_array(Message *self, void *closure) {
  Domain *domain = self->domain;
  (void)closure;
  if (domain->dtype == Py_None) return PyMemoryView_FromObject((PyObject *)self);
  PyObject *values = PyObject_CallFunctionObjArgs(domain->from_buffer, (PyObject *)self, domain->dtype, NULL);
  if (!values || domain->shape == Py_None) return values;
  PyObject *array = PyObject_CallMethod(values, "reshape", "(O)", domain->shape);
  Py_DECREF(values);
  return array;
}

PyObject *message_is_live(Message *self, void *closure) {
  (void)closure;
  return PyBool_FromLong(self->is_live);
}

PyObject *message_end(Message *self, PyObject *none) {
  (void)none;
  if (!self->is_live || self->is_left) Py_RETURN_NONE;
  if (!is_usable(self) || !has_no_views(self, self->port ? "discard" : "release")) return NULL;
  give_back(self);
  Py_RETURN_NONE;
}

PyObject *message_enter(Message *self, PyObject *none) {
  (void)none;
  return is_usable(self) ? Py_NewRef((PyObject *)self) : NULL;
}

/* The views that are alive keep the message; it takes no new ones. */
PyObject *message_exit(Message *self, PyObject *args) {
  (void)args;
  if (self->views == 0 && !self->is_sending) give_back(self);
  self->is_left = 1;
  Py_RETURN_NONE;
}
