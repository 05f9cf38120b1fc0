// SPDX-License-Identifier: Apache-2.0 OR MIT
/* Python's header by the limited API of 3.11, so that one built file serves each later version, and what all objects need. */
#ifndef IOX2_PUBSUB_PYTHON_H
#define IOX2_PUBSUB_PYTHON_H

#define PY_SSIZE_T_CLEAN
#ifndef Py_LIMITED_API
#define Py_LIMITED_API 0x030b0000
#endif
#include <Python.h>

#include "iox2_pubsub.h"

/* An object of a type, whose fields are 0. Null with an exception. */
static inline void *new_object(PyTypeObject *type) { return ((allocfunc)PyType_GetSlot(type, Py_tp_alloc))(type, 0); }

/* The end of a dealloc. */
static inline void free_object(void *self) {
  PyTypeObject *type = Py_TYPE((PyObject *)self);
  ((freefunc)PyType_GetSlot(type, Py_tp_free))(self);
  Py_DECREF((PyObject *)type);
}

/* A number of 128 bits as an int, and an int as such a number: 0 with an exception, which says its name, where it has more. */
PyObject *int_of(iox2ps_wide_t wide);
int wide_of(PyObject *number, const char *name, iox2ps_wide_t *wide);

/* An int as a size. 0 with an exception, a ValueError where it is negative or has more than 64 bits. */
int size_of(PyObject *number, const char *name, size_t *size);

/* For PyArg_Parse..: an int as the number of a channel or a connection, as a state, and as an id. */
int read_channel(PyObject *number, void *channel);
int read_connection(PyObject *number, void *connection);
int read_state(PyObject *number, void *state);
int read_id(PyObject *number, void *wide);

/* Classes and coroutines of the Python files by their names, which make a result of these arguments. They are taken. */
extern PyObject *parts;
PyObject *made_of(const char *name, PyObject *args);

#define WITH_WORDS (METH_VARARGS | METH_KEYWORDS)
#define METHOD(name, call, flags, doc) {name, (PyCFunction)(void (*)(void))(call), flags, doc}
#define FIELD(name, get, doc) {name, (getter)(get), NULL, doc, NULL}
#define SLOT(id, to) {id, (void *)(to)}

#endif
