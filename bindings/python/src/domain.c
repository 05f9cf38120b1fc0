// SPDX-License-Identifier: Apache-2.0 OR MIT
#include "domain.h"

#include "docs.h"
#include "errors.h"
#include "join.h"
#include "nodes.h"
#include "ports.h"
#include "processes.h"
#include "questions.h"
#include "settings.h"
#include "waits.h"

unsigned forks;
PyTypeObject *domain_type;

iox2ps_status_t made(Domain *domain, uint32_t brings, Make make, void *what) {
  if (!is_here(domain)) return AFTER_FORK;
  if (domain->is_joined) return made_there(domain, brings, make, what);
  iox2ps_status_t code = make(&domain->handle, what);
  if (domain->waiters && brings) bring(domain, iox2ps_brought_by(brings, code));
  return code;
}

static void destroy(Domain *domain) {
  if (!is_here(domain)) return;
  if (domain->handle.domain_) iox2ps_domain_destroy(&domain->handle);
  leave(domain);
}

void hold(Domain *domain) { domain->held++; }

void let_go(Domain *domain) {
  if (--domain->held == 0 && domain->is_closed) destroy(domain);
}

/* Making one. */

int take_settings(Domain *self, PyObject *names) {
  iox2ps_config_defaults(&self->config, 0, 0, 1);
  return write_fields(names, config_fields, &self->config);
}

Domain *new_domain(PyTypeObject *type, Py_ssize_t unit, int is_single, PyObject *values[4]) {
  Domain *self = new_object(type);
  if (!self) return NULL;
  self->dtype = Py_NewRef(values[0]), self->shape = Py_NewRef(values[1]);
  self->from_buffer = Py_NewRef(values[2]), self->encode = Py_NewRef(values[3]);
  self->unit = (size_t)unit, self->is_single = (char)is_single, self->forks = forks;
  return self;
}

/* The settings are as of the C header; `commands` and `bytes` say what is recorded. */
static PyObject *domain_new(PyTypeObject *type, PyObject *args, PyObject *names) {
  static char *words[] = {"unit", "is_single", "values", "settings", "recorded", NULL};
  Py_ssize_t unit, commands = -1, bytes = 0;
  PyObject *dtype, *shape, *from_buffer, *encode, *settings;
  int is_single;
  if (!PyArg_ParseTupleAndKeywords(args, names, "np(OOOO)O!|(nn)", words, &unit, &is_single, &dtype, &shape, &from_buffer, &encode,
                                   &PyDict_Type, &settings, &commands, &bytes)) {
    return NULL;
  }
  Domain *self = new_domain(type, unit, is_single, (PyObject *[]){dtype, shape, from_buffer, encode});
  if (!self) return NULL;
  iox2ps_status_t code = IS_RAISED;
  if (take_settings(self, settings)) {
    code = commands < 0 ? iox2ps_domain_create(&self->handle, &self->config)
                        : iox2ps_domain_create_recorded(&self->handle, &self->config, (size_t)commands, (size_t)bytes);
  }
  if (code == IOX2PS_OK) return (PyObject *)self;
  Py_DECREF((PyObject *)self);
  return refused(code);
}

static int domain_traverse(Domain *self, visitproc visit, void *arg) {
  Py_VISIT(Py_TYPE((PyObject *)self));
  Py_VISIT(self->dtype);
  Py_VISIT(self->shape);
  Py_VISIT(self->from_buffer);
  Py_VISIT(self->encode);
  return 0;
}

/* All that is in it keeps it, so nothing is left. */
static void domain_dealloc(Domain *self) {
  PyObject_GC_UnTrack(self);
  destroy(self);
  close_waiters(self);
  Py_XDECREF(self->dtype), Py_XDECREF(self->shape);
  Py_XDECREF(self->from_buffer), Py_XDECREF(self->encode);
  free_object(self);
}

/* Its end. */

static Port *port_to_close(Domain *self) {
  Port *port = self->ports;
  while (port && port->is_left) port = port->next;
  return port;
}

static iox2ps_status_t wake_all(iox2ps_domain_t *handle, void *what) {
  (void)handle;
  bring(what, UINT32_MAX);
  return IOX2PS_OK;
}

static PyObject *domain_close(Domain *self, PyObject *none) {
  (void)none;
  if (!is_here(self)) return refused(AFTER_FORK);
  if (self->is_closed) Py_RETURN_NONE;
  self->is_closed = 1;
  for (Port *port; (port = port_to_close(self));) {
    port->is_left = 1; /* one whose send waits is closed when that has ended */
    Py_INCREF((PyObject *)port);
    close_port(port);
    Py_DECREF((PyObject *)port);
  }
  made(self, 0, wake_all, self);
  hold(self);
  let_go(self);
  Py_RETURN_NONE;
}

static PyObject *domain_is_closed(Domain *self, void *closure) {
  (void)closure;
  return PyBool_FromLong(self->is_closed);
}

/* Waits. */

static PyObject *domain_stop_waits(Domain *self, PyObject *args, PyObject *names) {
  static char *words[] = {"stopped", NULL};
  int is_stopped = 1;
  if (!PyArg_ParseTupleAndKeywords(args, names, "|p:stop_waits", words, &is_stopped)) return NULL;
  if (!is_here(self)) return refused(AFTER_FORK);
  self->is_stopped = (char)is_stopped;
  if (self->shared) self->shared->stop_waits(self->shared, (uint32_t)is_stopped);
  else made(self, 0, wake_all, self);
  Py_RETURN_NONE;
}

static iox2ps_status_t read_stopped(iox2ps_domain_t *handle, void *what) {
  Domain *self = what;
  (void)handle;
  self->is_stopped = (char)waits_are_stopped(self);
  return IOX2PS_OK;
}

static PyObject *domain_waits_are_stopped(Domain *self, void *closure) {
  (void)closure;
  made(self, 0, read_stopped, self);
  return PyBool_FromLong(self->is_stopped);
}

static PyObject *domain_waiting(Domain *self, void *closure) {
  (void)closure;
  return PyLong_FromSize_t(self->waiting);
}

static PyObject *domain_wakes(Domain *self, void *closure) {
  (void)closure;
  return PyLong_FromUnsignedLongLong(self->wakes);
}

static PyMethodDef domain_calls[] = {
    DOMAIN_QUESTION_CALLS,
    DOMAIN_NODE_CALLS,
    METHOD("_shared", domain_shared, METH_O | METH_CLASS, "_shared($type, capsule, /)\n--\n\nWhat a message of a capsule's domain is."),
    METHOD("_join", domain_join, WITH_WORDS | METH_CLASS, "_join($type, /, capsule, unit, values)\n--\n\nJoins a capsule's domain."),
    METHOD("_open", domain_open, WITH_WORDS | METH_CLASS, "_open($type, /, how, name, type_name, unit, is_single, values, settings, options, commands=-1)\n--\n\nOpens a domain by a name."),
    METHOD("close", domain_close, METH_NOARGS, DOC_DOMAIN_CLOSE),
    METHOD("stop_waits", domain_stop_waits, WITH_WORDS, DOC_DOMAIN_STOP_WAITS),
    {NULL, NULL, 0, NULL}};

static PyGetSetDef domain_fields[] = {
    FIELD("is_closed", domain_is_closed, DOC_DOMAIN_IS_CLOSED),
    FIELD("waits_are_stopped", domain_waits_are_stopped, DOC_DOMAIN_WAITS_ARE_STOPPED),
    FIELD("waiting", domain_waiting, DOC_DOMAIN_WAITING),
    FIELD("_wakes", domain_wakes, "How often one that waits was woken."),
    DOMAIN_QUESTION_FIELDS,
    DOMAIN_NODE_FIELDS,
    {NULL, NULL, NULL, NULL, NULL}};

static PyType_Slot domain_slots[] = {SLOT(Py_tp_new, domain_new),           SLOT(Py_tp_dealloc, domain_dealloc),
                                     SLOT(Py_tp_traverse, domain_traverse), SLOT(Py_tp_methods, domain_calls),
                                     SLOT(Py_tp_getset, domain_fields),     {0, NULL}};
PyType_Spec domain_spec = {"iox2_pubsub._core.Domain", sizeof(Domain), 0,
                           Py_TPFLAGS_DEFAULT | Py_TPFLAGS_BASETYPE | Py_TPFLAGS_HAVE_GC | Py_TPFLAGS_IMMUTABLETYPE, domain_slots};
