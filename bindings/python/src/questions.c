// SPDX-License-Identifier: Apache-2.0 OR MIT
#include "questions.h"

#include "errors.h"
#include "settings.h"

PyObject *domain_config(Domain *self, void *closure) {
  (void)closure;
  return read_fields(config_fields, &self->config);
}

PyObject *domain_unit(Domain *self, void *closure) {
  (void)closure;
  return PyLong_FromSize_t(self->unit);
}

static iox2ps_status_t connections_made(iox2ps_domain_t *handle, void *what) {
  size_t count;
  iox2ps_status_t code = iox2ps_domain_connection_count(handle, &count);
  if (code == IOX2PS_OK) *(uint64_t *)what = count;
  return code;
}

static iox2ps_status_t books_made(iox2ps_domain_t *handle, void *what) {
  size_t count;
  iox2ps_status_t code = iox2ps_domain_book_count(handle, &count);
  if (code == IOX2PS_OK) *(uint64_t *)what = count;
  return code;
}

static iox2ps_status_t refused_made(iox2ps_domain_t *handle, void *what) {
  return iox2ps_domain_refused_connections(handle, what);
}

static PyObject *counted(Domain *self, Make make) {
  uint64_t count = 0;
  iox2ps_status_t code = made(self, 0, make, &count);
  return code == IOX2PS_OK ? PyLong_FromUnsignedLongLong(count) : refused(code);
}

PyObject *domain_connection_count(Domain *self, void *closure) {
  (void)closure;
  return counted(self, connections_made);
}

PyObject *domain_book_count(Domain *self, void *closure) {
  (void)closure;
  return counted(self, books_made);
}

PyObject *domain_refused_connections(Domain *self, void *closure) {
  (void)closure;
  return counted(self, refused_made);
}

PyObject *domain_worst_case_slots(Domain *self, PyObject *args, PyObject *names) {
  static char *words[] = {"loans", NULL};
  PyObject *loans = Py_None;
  size_t count = self->config.publisher_max_loaned_samples, slots;
  if (!PyArg_ParseTupleAndKeywords(args, names, "|O:worst_case_slots", words, &loans)) return NULL;
  if (loans != Py_None && !size_of(loans, "loans", &count)) return NULL;
  iox2ps_status_t code = iox2ps_worst_case_slots(&self->config, count, &slots);
  return code == IOX2PS_OK ? PyLong_FromSize_t(slots) : refused(code);
}

/* Warnings. */

typedef struct Warnings {
  size_t count;
  iox2ps_warning_t warnings[32];
} Warnings;

static iox2ps_status_t warnings_made(iox2ps_domain_t *handle, void *what) {
  Warnings *all = what;
  iox2ps_status_t code = iox2ps_domain_warning_count(handle, &all->count);
  for (size_t at = 0; code == IOX2PS_OK && at < all->count; at++) {
    code = iox2ps_domain_warning(handle, at, &all->warnings[at]);
  }
  return code;
}

/* Those numbers that a warning doesn't have are 0: None. */
static PyObject *or_none(PyObject *number) {
  if (!number || PyObject_IsTrue(number)) return number;
  Py_DECREF(number);
  return Py_NewRef(Py_None);
}

static PyObject *warning_of(const iox2ps_warning_t *warning) {
  return made_of("Warning", Py_BuildValue("(INNN)", warning->kind, or_none(int_of(warning->publisher)),
                                          or_none(int_of(warning->subscriber)), or_none(PyLong_FromUnsignedLong(warning->failure))));
}

PyObject *domain_warnings(Domain *self, void *closure) {
  (void)closure;
  Warnings all = {.count = 0};
  iox2ps_status_t code = made(self, 0, warnings_made, &all);
  if (code != IOX2PS_OK) return refused(code);
  PyObject *list = PyList_New(0);
  for (size_t at = 0; list && at < all.count; at++) {
    PyObject *warning = warning_of(&all.warnings[at]);
    if (!warning || PyList_Append(list, warning) < 0) Py_CLEAR(list);
    Py_XDECREF(warning);
  }
  return list;
}

/* Recordings. */

typedef struct Recorded {
  char *text;
  size_t room, len;
  uint64_t missed;
} Recorded;

static iox2ps_status_t recording_made(iox2ps_domain_t *handle, void *what) {
  Recorded *recorded = what;
  return iox2ps_domain_recording(handle, recorded->text, recorded->room, &recorded->len, &recorded->missed);
}

PyObject *domain_recording(Domain *self, PyObject *none) {
  (void)none;
  char nothing;
  Recorded recorded = {&nothing, 0, 0, 0};
  PyObject *text = NULL;
  iox2ps_status_t code = made(self, 0, recording_made, &recorded);
  while (code == IOX2PS_TOO_SMALL) { /* again where it has grown meanwhile */
    Py_XDECREF(text);
    text = PyBytes_FromStringAndSize(NULL, (Py_ssize_t)recorded.len);
    if (!text) return NULL;
    recorded.text = PyBytes_AsString(text), recorded.room = recorded.len;
    code = made(self, 0, recording_made, &recorded);
  }
  PyObject *args = code == IOX2PS_OK ? Py_BuildValue("(s#K)", recorded.text, (Py_ssize_t)recorded.len, recorded.missed) : NULL;
  Py_XDECREF(text);
  return code == IOX2PS_OK ? made_of("Recording", args) : refused(code);
}
