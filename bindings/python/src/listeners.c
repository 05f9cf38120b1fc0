// SPDX-License-Identifier: Apache-2.0 OR MIT
#include "listeners.h"

#include "docs.h"
#include "errors.h"

#ifdef IOX2PS_HAS_PROCESSES
#include "iox2_pubsub_processes.h"

typedef struct Notifier {
  PyObject_HEAD
  Domain *domain;
  iox2ps_notifier_t notifier;
} Notifier;

typedef struct Listener {
  Port port;
  iox2ps_listener_t listener;
} Listener;

/* What is made in a domain. */
typedef struct Making {
  void *self;
  size_t event_id;
} Making;

static iox2ps_status_t create_notifier_made(iox2ps_domain_t *handle, void *what) {
  const Making *making = what;
  return iox2ps_notifier_create(handle, making->event_id, &((Notifier *)making->self)->notifier);
}

static PyObject *notifier_new(PyTypeObject *type, PyObject *args, PyObject *names) {
  static char *words[] = {"domain", "default_event_id", NULL};
  Domain *domain;
  PyObject *number;
  Making making;
  if (!PyArg_ParseTupleAndKeywords(args, names, "O!O:Notifier", words, domain_type, &domain, &number)) return NULL;
  if (!size_of(number, "default_event_id", &making.event_id)) return NULL;
  if (domain->is_closed) return refused(IOX2PS_NO_DOMAIN);
  Notifier *self = making.self = new_object(type);
  if (!self) return NULL;
  self->domain = (Domain *)Py_NewRef((PyObject *)domain);
  iox2ps_status_t code = made(domain, 0, create_notifier_made, &making);
  if (code == IOX2PS_OK) return (PyObject *)self;
  Py_DECREF((PyObject *)self);
  return refused(code);
}

static int notifier_traverse(Notifier *self, visitproc visit, void *arg) {
  Py_VISIT(Py_TYPE((PyObject *)self));
  Py_VISIT((PyObject *)self->domain);
  return 0;
}

static void notifier_dealloc(Notifier *self) {
  PyObject_GC_UnTrack(self);
  Py_XDECREF((PyObject *)self->domain);
  free_object(self);
}

/* A notification. */
typedef struct Notifying {
  const Notifier *notifier;
  size_t event_id, listeners;
} Notifying;

static iox2ps_status_t notify_made(iox2ps_domain_t *handle, void *what) {
  Notifying *one = what;
  return iox2ps_notifier_notify_with_custom_event_id(handle, &one->notifier->notifier, one->event_id, &one->listeners);
}

static PyObject *notifier_notify(Notifier *self, PyObject *args, PyObject *names) {
  static char *words[] = {"event_id", NULL};
  PyObject *number = Py_None;
  Notifying one = {self, self->notifier.default_event_id, 0};
  if (!PyArg_ParseTupleAndKeywords(args, names, "|O:notify", words, &number)) return NULL;
  if (number != Py_None && !size_of(number, "event_id", &one.event_id)) return NULL;
  iox2ps_status_t code = made(self->domain, BRINGS_EVENT, notify_made, &one);
  return code == IOX2PS_OK ? PyLong_FromSize_t(one.listeners) : refused(code);
}

static PyObject *notifier_default_event_id(Notifier *self, void *closure) {
  (void)closure;
  return PyLong_FromSize_t(self->notifier.default_event_id);
}

static PyObject *notifier_domain(Notifier *self, void *closure) {
  (void)closure;
  return Py_NewRef((PyObject *)self->domain);
}

/* Listeners. */

static iox2ps_status_t create_listener_made(iox2ps_domain_t *handle, void *what) {
  Listener *self = what;
  iox2ps_status_t code = iox2ps_listener_create(handle, &self->listener);
  if (code == IOX2PS_OK) list_port(&self->port);
  return code;
}

static PyObject *listener_new(PyTypeObject *type, PyObject *args, PyObject *names) {
  static char *words[] = {"domain", NULL};
  Domain *domain;
  if (!PyArg_ParseTupleAndKeywords(args, names, "O!:Listener", words, domain_type, &domain)) return NULL;
  Listener *self = (Listener *)new_port(type, domain, PORT_LISTENER);
  if (!self) return NULL;
  iox2ps_status_t code = made(domain, 0, create_listener_made, self);
  if (code == IOX2PS_OK) return (PyObject *)self;
  Py_DECREF((PyObject *)self);
  return refused(code);
}

iox2ps_status_t close_listener(iox2ps_domain_t *handle, const Port *port) {
  return iox2ps_listener_close(handle, &((const Listener *)port)->listener);
}

/* What a listener is told. */
typedef struct Hearing {
  const Listener *self;
  size_t event_id;
  iox2ps_event_ids_t event_ids;
} Hearing;

static iox2ps_status_t or_no_event(iox2ps_status_t code) { return code == IOX2PS_PROCESSES_TIMED_OUT ? NO_EVENT : code; }

static iox2ps_status_t one_made(iox2ps_domain_t *handle, void *what) {
  Hearing *hearing = what;
  return or_no_event(iox2ps_listener_try_wait_one(handle, &hearing->self->listener, &hearing->event_id));
}

static iox2ps_status_t all_made(iox2ps_domain_t *handle, void *what) {
  Hearing *hearing = what;
  return or_no_event(iox2ps_listener_try_wait_all(handle, &hearing->self->listener, &hearing->event_ids));
}

/* IS_RAISED with an exception. */
static iox2ps_status_t heard(Listener *self, PyObject *args, PyObject *names, const char *form, Make make, Hearing *hearing) {
  static char *words[] = {"timeout", NULL};
  double seconds = 0;
  if (!PyArg_ParseTupleAndKeywords(args, names, form, words, read_timeout, &seconds)) return IS_RAISED;
  hearing->self = self;
  iox2ps_status_t code = made_at(&self->port, 0, make, hearing);
  return goes_on(seconds, BRINGS_EVENT, code) ? made_until(until_of(seconds), &self->port, BRINGS_EVENT, 0, make, hearing) : code;
}

static PyObject *listener_wait_one(Listener *self, PyObject *args, PyObject *names) {
  Hearing hearing;
  iox2ps_status_t code = heard(self, args, names, "|O&:wait_one", one_made, &hearing);
  if (code == NO_EVENT) Py_RETURN_NONE;
  return code == IOX2PS_OK ? PyLong_FromSize_t(hearing.event_id) : refused(code);
}

/* Those that are among them, as a frozenset. */
static PyObject *set_of(const iox2ps_event_ids_t *event_ids) {
  PyObject *set = PyFrozenSet_New(NULL);
  for (size_t id = 0; set && id <= IOX2PS_EVENT_ID_MAX_VALUE; id++) {
    if (!iox2ps_event_ids_have(event_ids, id)) continue;
    PyObject *number = PyLong_FromSize_t(id);
    if (!number || PySet_Add(set, number) < 0) Py_CLEAR(set);
    Py_XDECREF(number);
  }
  return set;
}

static PyObject *listener_wait_all(Listener *self, PyObject *args, PyObject *names) {
  Hearing hearing = {.event_ids = {{0}}};
  iox2ps_status_t code = heard(self, args, names, "|O&:wait_all", all_made, &hearing);
  return code == IOX2PS_OK || code == NO_EVENT ? set_of(&hearing.event_ids) : refused(code);
}

static PyObject *listener_id(Listener *self, void *closure) {
  (void)closure;
  return int_of(self->listener.id);
}

static PyMethodDef notifier_calls[] = {METHOD("notify", notifier_notify, WITH_WORDS, DOC_NOTIFIER_NOTIFY), {NULL, NULL, 0, NULL}};
static PyGetSetDef notifier_fields[] = {FIELD("default_event_id", notifier_default_event_id, DOC_NOTIFIER_DEFAULT_EVENT_ID),
                                        FIELD("domain", notifier_domain, DOC_PORT_DOMAIN),
                                        {NULL, NULL, NULL, NULL, NULL}};
static PyType_Slot notifier_slots[] = {SLOT(Py_tp_doc, DOC_NOTIFIER),           SLOT(Py_tp_new, notifier_new),
                                       SLOT(Py_tp_dealloc, notifier_dealloc),   SLOT(Py_tp_traverse, notifier_traverse),
                                       SLOT(Py_tp_methods, notifier_calls),     SLOT(Py_tp_getset, notifier_fields),
                                       {0, NULL}};
PyType_Spec notifier_spec = {"iox2_pubsub.Notifier", sizeof(Notifier), 0, Py_TPFLAGS_DEFAULT | Py_TPFLAGS_HAVE_GC | Py_TPFLAGS_IMMUTABLETYPE,
                             notifier_slots};

static PyMethodDef listener_calls[] = {METHOD("wait_one", listener_wait_one, WITH_WORDS, DOC_LISTENER_WAIT_ONE),
                                       METHOD("wait_all", listener_wait_all, WITH_WORDS, DOC_LISTENER_WAIT_ALL),
                                       {NULL, NULL, 0, NULL}};
static PyGetSetDef listener_fields[] = {FIELD("id", listener_id, DOC_LISTENER_ID), {NULL, NULL, NULL, NULL, NULL}};
static PyType_Slot listener_slots[] = {SLOT(Py_tp_new, listener_new), SLOT(Py_tp_methods, listener_calls), SLOT(Py_tp_getset, listener_fields),
                                       {0, NULL}};
PyType_Spec listener_spec = {"iox2_pubsub._core.Listener", sizeof(Listener), 0,
                             Py_TPFLAGS_DEFAULT | Py_TPFLAGS_BASETYPE | Py_TPFLAGS_IMMUTABLETYPE, listener_slots};

#else
iox2ps_status_t close_listener(iox2ps_domain_t *handle, const Port *port) { return (void)handle, (void)port, IOX2PS_OK; }

static PyObject *not_shared_new(PyTypeObject *type, PyObject *args, PyObject *names) {
  return (void)type, (void)args, (void)names, refused(NOT_SHARED);
}

static PyType_Slot not_shared_slots[] = {SLOT(Py_tp_new, not_shared_new), {0, NULL}};
PyType_Spec notifier_spec = {"iox2_pubsub.Notifier", sizeof(PyObject), 0, Py_TPFLAGS_DEFAULT | Py_TPFLAGS_IMMUTABLETYPE, not_shared_slots};
PyType_Spec listener_spec = {"iox2_pubsub._core.Listener", sizeof(Port), 0,
                             Py_TPFLAGS_DEFAULT | Py_TPFLAGS_BASETYPE | Py_TPFLAGS_IMMUTABLETYPE, not_shared_slots};
#endif
