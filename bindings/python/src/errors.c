// SPDX-License-Identifier: Apache-2.0 OR MIT
#include "errors.h"

PyObject *errors;

PyObject *refused(iox2ps_status_t code) {
  if (code == IS_RAISED) return NULL;
  PyObject *key = PyLong_FromUnsignedLong(code), *type = key ? PyDict_GetItemWithError(errors, key) : NULL;
  Py_XDECREF(key);
  if (PyErr_Occurred()) return NULL;
  if (type) PyErr_SetNone(type); /* which has its text */
  else PyErr_SetString(PyExc_RuntimeError, iox2ps_error_text(code));
  return NULL;
}
