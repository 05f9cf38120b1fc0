// SPDX-License-Identifier: Apache-2.0 OR MIT
#include "nodes.h"

#include <stdlib.h>
#include <string.h>

#include "errors.h"
#include "ports.h"
#include "processes.h"

#ifdef IOX2PS_HAS_PROCESSES
#include "iox2_pubsub_processes.h"

static iox2ps_status_t node_id_made(iox2ps_domain_t *handle, void *what) { return iox2ps_domain_node_id(handle, what); }
static iox2ps_status_t deaths_made(iox2ps_domain_t *handle, void *what) { return iox2ps_domain_dead_node_count(handle, what); }
static iox2ps_status_t cleanup_made(iox2ps_domain_t *handle, void *what) { return iox2ps_domain_cleanup_dead_nodes(handle, what); }

/* What a list tells of, one after the other. Python isn't called meanwhile. */
typedef struct Found {
  char *all;
  size_t count, size; /* the size of one */
  char lacks_memory;
} Found;

static int note(const void *one, void *context) {
  Found *found = context;
  char *all = realloc(found->all, (found->count + 1) * found->size);
  found->lacks_memory = !all;
  if (!all) return 1;
  memcpy(all + found->count++ * found->size, one, found->size);
  found->all = all;
  return 0;
}

static int note_node(const iox2ps_node_t *node, void *context) { return note(node, context); }
static int note_port(const iox2ps_port_t *port, void *context) { return note(port, context); }
static iox2ps_status_t nodes_made(iox2ps_domain_t *handle, void *what) { return iox2ps_domain_nodes(handle, note_node, what); }
static iox2ps_status_t ports_made(iox2ps_domain_t *handle, void *what) { return iox2ps_domain_ports(handle, note_port, what); }

static PyObject *node_of(const void *one) {
  const iox2ps_node_t *node = one;
  return made_of("Node", Py_BuildValue("(NIInnnn)", int_of(node->node_id), node->pid, node->state, (Py_ssize_t)node->number_of_publishers,
                                       (Py_ssize_t)node->number_of_subscribers, (Py_ssize_t)node->number_of_loans,
                                       (Py_ssize_t)node->number_of_samples));
}

static PyObject *port_of(const void *one) {
  const iox2ps_port_t *port = one;
  return made_of("PortInfo", Py_BuildValue("(NNI)", int_of(port->id), int_of(port->node_id), port->kind));
}

/* All of them as a list, and their end. */
static PyObject *listed(Found *found, PyObject *(*object_of)(const void *)) {
  PyObject *list = found->lacks_memory ? PyErr_NoMemory() : PyList_New(0);
  for (size_t at = 0; list && at < found->count; at++) {
    PyObject *one = object_of(found->all + at * found->size);
    if (!one || PyList_Append(list, one) < 0) Py_CLEAR(list);
    Py_XDECREF(one);
  }
  free(found->all);
  return list;
}

PyObject *domain_node_id(Domain *self, void *closure) {
  iox2ps_wide_t node_id;
  (void)closure;
  iox2ps_status_t code = made(self, 0, node_id_made, &node_id);
  return code == IOX2PS_OK ? int_of(node_id) : refused(code);
}

PyObject *domain_nodes(Domain *self, PyObject *none) {
  Found found = {.size = sizeof(iox2ps_node_t)};
  (void)none;
  iox2ps_status_t code = made(self, 0, nodes_made, &found);
  return code == IOX2PS_OK ? listed(&found, node_of) : refused(code);
}

PyObject *domain_ports(Domain *self, PyObject *none) {
  Found found = {.size = sizeof(iox2ps_port_t)};
  (void)none;
  iox2ps_status_t code = made(self, 0, ports_made, &found);
  return code == IOX2PS_OK ? listed(&found, port_of) : refused(code);
}

PyObject *domain_dead_node_count(Domain *self, void *closure) {
  uint64_t count;
  (void)closure;
  iox2ps_status_t code = made(self, 0, deaths_made, &count);
  return code == IOX2PS_OK ? PyLong_FromUnsignedLongLong(count) : refused(code);
}

/* What the dead had may be what other threads wait for. */
PyObject *domain_cleanup_dead_nodes(Domain *self, PyObject *none) {
  size_t count = 0;
  (void)none;
  iox2ps_status_t code = made(self, 0, cleanup_made, &count);
  if (code != IOX2PS_OK) return refused(code);
  tell_of_others(self);
  return PyLong_FromSize_t(count);
}

/* Who hears of the dead. */

static iox2ps_status_t create_made(iox2ps_domain_t *handle, void *what) {
  Port *self = what;
  uint64_t count;
  iox2ps_status_t code = iox2ps_domain_dead_node_count(handle, &count);
  if (code != IOX2PS_OK) return code;
  if (self->deaths > count) self->deaths = count; /* from now on */
  list_port(self);
  return IOX2PS_OK;
}

static PyObject *dead_nodes_new(PyTypeObject *type, PyObject *args, PyObject *names) {
  static char *words[] = {"domain", "since", NULL};
  Domain *domain;
  PyObject *since = Py_None;
  size_t first = SIZE_MAX;
  if (!PyArg_ParseTupleAndKeywords(args, names, "O!|O:DeadNodes", words, domain_type, &domain, &since)) return NULL;
  if (since != Py_None && !size_of(since, "since", &first)) return NULL;
  Port *self = new_port(type, domain, PORT_DEAD_NODES);
  if (!self) return NULL;
  self->deaths = first;
  iox2ps_status_t code = made(domain, 0, create_made, self);
  if (code == IOX2PS_OK) return (PyObject *)self;
  Py_DECREF((PyObject *)self);
  return refused(code);
}

/* A process that died. */
typedef struct Dead {
  Port *port;
  iox2ps_node_t node;
} Dead;

/* The next that is known. Those that the domain doesn't remember any more are passed over. */
static iox2ps_status_t next_made(iox2ps_domain_t *handle, void *what) {
  Dead *dead = what;
  uint64_t count;
  if (!dead->port->is_open) return IOX2PS_NOT_LIVE;
  iox2ps_status_t code = iox2ps_domain_dead_node_count(handle, &count);
  if (code != IOX2PS_OK) return code;
  while (dead->port->deaths < count) {
    code = iox2ps_domain_dead_node(handle, dead->port->deaths++, &dead->node);
    if (code != IOX2PS_NOT_LIVE) return code;
  }
  return NOBODY_DIED;
}

/* The same, and where there is none it looks who died. */
static iox2ps_status_t look_made(iox2ps_domain_t *handle, void *what) {
  const Dead *dead = what;
  size_t count = 0;
  iox2ps_status_t code = next_made(handle, what);
  if (code != NOBODY_DIED) return code;
  code = iox2ps_domain_cleanup_dead_nodes(handle, &count);
  if (count > 0) tell_of_others(dead->port->domain);
  return code == IOX2PS_OK ? next_made(handle, what) : code;
}

static PyObject *dead_nodes_wait_one(Port *self, PyObject *args, PyObject *names) {
  static char *words[] = {"timeout", NULL};
  double seconds = 0;
  Dead dead = {.port = self};
  if (!PyArg_ParseTupleAndKeywords(args, names, "|O&:wait_one", words, read_timeout, &seconds)) return NULL;
  iox2ps_status_t code = made_at(self, 0, look_made, &dead);
  if (code == NOBODY_DIED && seconds != 0) code = made_until(until_of(seconds), self, BRINGS_DEAD_NODE, 0, next_made, &dead);
  if (code == IOX2PS_OK) return node_of(&dead.node);
  if (code == NOBODY_DIED) Py_RETURN_NONE;
  return refused(code);
}

#else
static PyObject *is_not_shared(void) { return refused(NOT_SHARED); }

PyObject *domain_node_id(Domain *self, void *closure) { return (void)self, (void)closure, is_not_shared(); }
PyObject *domain_nodes(Domain *self, PyObject *none) { return (void)self, (void)none, is_not_shared(); }
PyObject *domain_ports(Domain *self, PyObject *none) { return (void)self, (void)none, is_not_shared(); }
PyObject *domain_dead_node_count(Domain *self, void *closure) { return (void)self, (void)closure, is_not_shared(); }
PyObject *domain_cleanup_dead_nodes(Domain *self, PyObject *none) { return (void)self, (void)none, is_not_shared(); }

static PyObject *dead_nodes_new(PyTypeObject *type, PyObject *args, PyObject *names) {
  return (void)type, (void)args, (void)names, is_not_shared();
}

static PyObject *dead_nodes_wait_one(Port *self, PyObject *args, PyObject *names) {
  return (void)self, (void)args, (void)names, is_not_shared();
}
#endif

static PyMethodDef dead_nodes_calls[] = {METHOD("wait_one", dead_nodes_wait_one, WITH_WORDS, DOC_DEAD_NODES_WAIT_ONE), {NULL, NULL, 0, NULL}};
static PyType_Slot dead_nodes_slots[] = {SLOT(Py_tp_new, dead_nodes_new), SLOT(Py_tp_methods, dead_nodes_calls), {0, NULL}};
PyType_Spec dead_nodes_spec = {"iox2_pubsub._core.DeadNodes", sizeof(Port), 0,
                               Py_TPFLAGS_DEFAULT | Py_TPFLAGS_BASETYPE | Py_TPFLAGS_IMMUTABLETYPE, dead_nodes_slots};
