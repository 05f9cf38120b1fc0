// SPDX-License-Identifier: Apache-2.0 OR MIT
/* Numbers as ints. */
#include "python.h"

PyObject *parts;

/* number << 64 | low, or number >> 64. */
static PyObject *shifted(PyObject *number, PyObject *(*shift)(PyObject *, PyObject *)) {
  PyObject *bits = PyLong_FromLong(64), *result = bits && number ? shift(number, bits) : NULL;
  Py_XDECREF(bits);
  return result;
}

PyObject *int_of(iox2ps_wide_t wide) {
  if (wide.high == 0) return PyLong_FromUnsignedLongLong(wide.low);
  PyObject *high = PyLong_FromUnsignedLongLong(wide.high), *low = PyLong_FromUnsignedLongLong(wide.low);
  PyObject *upper = shifted(high, PyNumber_Lshift), *all = upper && low ? PyNumber_Or(upper, low) : NULL;
  Py_XDECREF(high), Py_XDECREF(low), Py_XDECREF(upper);
  return all;
}

/* Its int, or null with an exception that says what it is for. */
static PyObject *index_of(PyObject *number, const char *name) {
  PyObject *index = PyNumber_Index(number);
  if (!index && PyErr_ExceptionMatches(PyExc_TypeError)) PyErr_Format(PyExc_TypeError, "%s is an integer, not %R", name, number);
  return index;
}

int wide_of(PyObject *number, const char *name, iox2ps_wide_t *wide) {
  PyObject *index = index_of(number, name), *high = shifted(index, PyNumber_Rshift);
  int is_read = 0;
  if (high) {
    wide->low = PyLong_AsUnsignedLongLongMask(index);
    wide->high = PyLong_AsUnsignedLongLong(high);
    is_read = !PyErr_Occurred();
    if (!is_read) PyErr_Format(PyExc_ValueError, "%s is a number from 0 to 2**128 - 1, not %R", name, number);
  }
  Py_XDECREF(index), Py_XDECREF(high);
  return is_read;
}

int size_of(PyObject *number, const char *name, size_t *size) {
  PyObject *index = index_of(number, name);
  if (!index) return 0;
  *size = PyLong_AsSize_t(index);
  Py_DECREF(index);
  if (!PyErr_Occurred()) return 1;
  if (PyErr_ExceptionMatches(PyExc_OverflowError)) {
    PyErr_Format(PyExc_ValueError, "%s is a number from 0 to 2**64 - 1, not %R", name, number);
  }
  return 0;
}

int read_channel(PyObject *number, void *channel) { return size_of(number, "a channel", channel); }
int read_connection(PyObject *number, void *connection) { return size_of(number, "a connection", connection); }

int read_state(PyObject *number, void *state) {
  size_t size;
  if (!size_of(number, "a channel's state", &size)) return 0;
  *(uint64_t *)state = size;
  return 1;
}

int read_id(PyObject *number, void *wide) { return wide_of(number, "an id", wide); }

PyObject *made_of(const char *name, PyObject *args) {
  PyObject *key = args ? PyUnicode_FromString(name) : NULL, *type = key ? PyDict_GetItemWithError(parts, key) : NULL;
  PyObject *made = type ? PyObject_CallObject(type, args) : NULL;
  if (!type && !PyErr_Occurred()) PyErr_SetString(PyExc_KeyError, name);
  Py_XDECREF(key), Py_XDECREF(args);
  return made;
}
