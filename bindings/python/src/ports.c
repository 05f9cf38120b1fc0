// SPDX-License-Identifier: Apache-2.0 OR MIT
#include "ports.h"

#include "docs.h"
#include "errors.h"
#include "listeners.h"

PyTypeObject *port_type;

Port *new_port(PyTypeObject *type, Domain *domain, PortKind kind) {
  if (domain->is_closed) return (void *)refused(IOX2PS_NO_DOMAIN);
  Port *self = new_object(type);
  if (!self) return NULL;
  self->kind = kind;
  self->domain = (Domain *)Py_NewRef((PyObject *)domain);
  return self;
}

void list_port(Port *self) {
  Domain *domain = self->domain;
  self->is_open = 1;
  self->before = NULL;
  self->next = domain->ports;
  if (self->next) self->next->before = self;
  domain->ports = self;
}

static void unlist_port(Port *self) {
  self->is_open = 0;
  if (self->next) self->next->before = self->before;
  if (self->before) self->before->next = self->next;
  else self->domain->ports = self->next;
}

static iox2ps_status_t close_there(iox2ps_domain_t *handle, const Port *self) {
  switch (self->kind) {
  case PORT_PUBLISHER: return iox2ps_publisher_close(handle, &self->publisher);
  case PORT_SUBSCRIBER: return iox2ps_subscriber_close(handle, &self->subscriber);
  case PORT_LISTENER: return close_listener(handle, self);
  default: return IOX2PS_OK; /* the domain knows nothing of it */
  }
}

static iox2ps_status_t close_made(iox2ps_domain_t *handle, void *what) {
  Port *self = what;
  iox2ps_status_t code = close_there(handle, self);
  if (code == IOX2PS_OK) unlist_port(self), end_waits(self->domain, self);
  return code;
}

static const uint32_t brought_by_close[] = {
    [PORT_PUBLISHER] = BRINGS_MESSAGE, [PORT_SUBSCRIBER] = BRINGS_ROOM | BRINGS_LOAN, [PORT_LISTENER] = 0, [PORT_DEAD_NODES] = 0};

iox2ps_status_t close_port(Port *self) {
  return self->is_open ? made(self->domain, brought_by_close[self->kind], close_made, self) : IOX2PS_OK;
}

static PyObject *port_close(Port *self, PyObject *none) {
  (void)none;
  iox2ps_status_t code = close_port(self);
  if (code != IOX2PS_OK) return refused(code);
  Py_RETURN_NONE;
}

/* One that waits, or whose update fails, connects at its next send. */
void connect_publishers(Domain *domain, iox2ps_domain_t *handle) {
  for (Port *port = domain->ports; port; port = port->next) {
    if (port->kind == PORT_PUBLISHER) update_made(handle, port);
  }
}

static iox2ps_status_t unlist_own(iox2ps_domain_t *handle, void *what) {
  Port *self = what;
  (void)handle;
  unlist_waiter(self->domain, self->own);
  return IOX2PS_OK;
}

/* No send of it waits, or that would keep it. */
static void port_dealloc(Port *self) {
  Domain *domain = self->domain;
  PyObject_GC_UnTrack(self);
  if (domain) {
    close_port(self);
    if (self->own && made(domain, 0, unlist_own, self) == IOX2PS_OK) give_waiter(domain, self->own);
  }
  Py_XDECREF((PyObject *)domain);
  free_object(self);
}

static int port_traverse(Port *self, visitproc visit, void *arg) {
  Py_VISIT(Py_TYPE((PyObject *)self));
  Py_VISIT((PyObject *)self->domain);
  return 0;
}

static const uint32_t waited_for[] = {
    [PORT_PUBLISHER] = BRINGS_ROOM | BRINGS_FREE | BRINGS_LOAN, [PORT_SUBSCRIBER] = BRINGS_MESSAGE, [PORT_LISTENER] = BRINGS_EVENT,
    [PORT_DEAD_NODES] = BRINGS_DEAD_NODE};

static iox2ps_status_t list_own(iox2ps_domain_t *handle, void *what) {
  Port *self = what;
  (void)handle;
  list_waiter(self->domain, self->own, waited_for[self->kind]);
  end_waits(self->domain, self); /* it is raised: something may be there already */
  return IOX2PS_OK;
}

static PyObject *port_fileno(Port *self, PyObject *none) {
  (void)none;
  if (!is_here(self->domain)) return refused(AFTER_FORK);
  if (!self->is_open) return refused(IOX2PS_NOT_LIVE);
  if (!self->own) {
    self->own = take_waiter(self, waited_for[self->kind]);
    if (!self->own) return NULL;
    made(self->domain, 0, list_own, self);
  }
  return PyLong_FromLong(self->own->fd);
}

static PyObject *port_enter(PyObject *self, PyObject *none) {
  (void)none;
  return Py_NewRef(self);
}

/* A publisher with a send that waits is closed when that ends. */
static PyObject *port_exit(Port *self, PyObject *args) {
  (void)args;
  iox2ps_status_t code = close_port(self);
  self->is_left = code == IOX2PS_PUBLISHER_IS_BLOCKED;
  if (code != IOX2PS_OK && !self->is_left) return refused(code);
  Py_RETURN_NONE;
}

PyObject *port_id(Port *self, void *closure) {
  (void)closure;
  return int_of(self->kind == PORT_SUBSCRIBER ? self->subscriber.id : self->publisher.id);
}

static PyObject *port_is_open(Port *self, void *closure) {
  (void)closure;
  return PyBool_FromLong(self->is_open);
}

static PyObject *port_domain(Port *self, void *closure) {
  (void)closure;
  return Py_NewRef((PyObject *)self->domain);
}

static PyMethodDef port_calls[] = {
    METHOD("close", port_close, METH_NOARGS, DOC_PORT_CLOSE),
    METHOD("fileno", port_fileno, METH_NOARGS, DOC_PORT_FILENO),
    METHOD("__enter__", port_enter, METH_NOARGS, DOC_ENTER("port")),
    METHOD("__exit__", port_exit, METH_VARARGS, DOC_EXIT("Closes it.")),
    {NULL, NULL, 0, NULL}};

static PyGetSetDef port_fields[] = {FIELD("is_open", port_is_open, DOC_PORT_IS_OPEN),
                                    FIELD("domain", port_domain, DOC_PORT_DOMAIN),
                                    {NULL, NULL, NULL, NULL, NULL}};

static PyType_Slot port_slots[] = {SLOT(Py_tp_dealloc, port_dealloc), SLOT(Py_tp_traverse, port_traverse),
                                   SLOT(Py_tp_methods, port_calls), SLOT(Py_tp_getset, port_fields), {0, NULL}};
PyType_Spec port_spec = {"iox2_pubsub._core.Port", sizeof(Port), 0,
                         Py_TPFLAGS_DEFAULT | Py_TPFLAGS_BASETYPE | Py_TPFLAGS_HAVE_GC | Py_TPFLAGS_IMMUTABLETYPE
                             | Py_TPFLAGS_DISALLOW_INSTANTIATION,
                         port_slots};
