// SPDX-License-Identifier: Apache-2.0 OR MIT
#include "join.h"

#include <string.h>

#include "errors.h"
#include "ports.h"
#include "waits.h"

iox2ps_status_t made_there(Domain *domain, uint32_t brings, Make make, void *what) {
  return domain->shared ? domain->shared->call(domain->shared, brings, make, what) : IOX2PS_NO_DOMAIN;
}

void leave(Domain *domain) {
  const iox2ps_shared_domain_t *shared = domain->shared;
  if (!shared) return;
  domain->shared = NULL;
  shared->leave(shared, &domain->joined);
  shared->release(shared);
}

/* What the owner calls under its lock, on any thread: without the GIL, and so it touches what is used under that lock alone. */

static Domain *of(iox2ps_joined_t *joined) { return (Domain *)((char *)joined - offsetof(Domain, joined)); }

static void wake_there(iox2ps_joined_t *joined, uint32_t brings) { bring(of(joined), brings); }

static void connect_there(iox2ps_joined_t *joined, iox2ps_domain_t *handle) { connect_publishers(of(joined), handle); }

/* A capsule's domain. Null with an exception. */
static const iox2ps_shared_domain_t *shared_of(PyObject *capsule) {
  const char *name = PyCapsule_CheckExact(capsule) ? PyCapsule_GetName(capsule) : NULL;
  if (!name || strcmp(name, IOX2PS_SHARED_DOMAIN_CAPSULE) != 0) {
    PyErr_Clear();
    PyErr_Format(PyExc_TypeError, "a capsule with the name '%s' is joined, which share() of C++ or Rust is for, not %R",
                 IOX2PS_SHARED_DOMAIN_CAPSULE, capsule);
    return NULL;
  }
  const iox2ps_shared_domain_t *shared = PyCapsule_GetPointer(capsule, name);
  if (!shared || (shared->struct_size >= sizeof *shared && shared->version == IOX2PS_VERSION)) return shared;
  PyErr_SetString(PyExc_ValueError, "the domain is of another version of iox2_pubsub: build the program and this package of one");
  return NULL;
}

PyObject *domain_shared(PyTypeObject *type, PyObject *capsule) {
  const iox2ps_shared_domain_t *shared = shared_of(capsule);
  (void)type;
  if (!shared) return NULL;
  return Py_BuildValue("(Nnn)", PyBool_FromLong(!shared->is_slice), (Py_ssize_t)shared->element_size,
                       (Py_ssize_t)shared->element_alignment);
}

static iox2ps_status_t read_config(iox2ps_domain_t *handle, void *what) { return iox2ps_domain_config(handle, what); }

static iox2ps_status_t join(Domain *self, const iox2ps_shared_domain_t *shared) {
  self->joined.struct_size = sizeof self->joined;
  self->joined.wake = wake_there, self->joined.connect = connect_there;
  iox2ps_status_t code = iox2ps_shared_domain_join(shared, &self->joined);
  if (code != IOX2PS_OK) return code;
  self->shared = shared;
  shared->keep(shared);
  return made_there(self, 0, read_config, &self->config);
}

PyObject *domain_join(PyTypeObject *type, PyObject *args, PyObject *names) {
  static char *words[] = {"capsule", "unit", "values", NULL};
  PyObject *capsule, *dtype, *shape, *from_buffer, *encode;
  Py_ssize_t unit;
  if (!PyArg_ParseTupleAndKeywords(args, names, "On(OOOO)", words, &capsule, &unit, &dtype, &shape, &from_buffer, &encode)) return NULL;
  const iox2ps_shared_domain_t *shared = shared_of(capsule);
  if (!shared) return NULL;
  Domain *self = new_domain(type, unit, !shared->is_slice, (PyObject *[]){dtype, shape, from_buffer, encode});
  if (!self) return NULL;
  self->is_joined = 1;
  iox2ps_status_t code = join(self, shared);
  if (code == IOX2PS_OK) return (PyObject *)self;
  Py_DECREF((PyObject *)self);
  return refused(code);
}
