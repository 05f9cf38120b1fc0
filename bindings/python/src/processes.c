// SPDX-License-Identifier: Apache-2.0 OR MIT
#include "processes.h"

#include <string.h>

#include "errors.h"
#include "settings.h"
#include "waits.h"

#ifdef IOX2PS_HAS_PROCESSES
#include "iox2_pubsub_processes.h"

/* What each brings is called here and there. */
static const struct Kind {
  uint32_t here, there;
} kinds[DOMAIN_KINDS] = {{BRINGS_MESSAGE, IOX2PS_BRINGS_MESSAGE},
                         {BRINGS_ROOM, IOX2PS_BRINGS_ROOM},
                         {BRINGS_FREE, IOX2PS_BRINGS_FREE},
                         {BRINGS_LOAN, IOX2PS_BRINGS_LOAN},
                         {BRINGS_EVENT, IOX2PS_BRINGS_EVENT},
                         {BRINGS_DEAD_NODE, IOX2PS_BRINGS_DEAD_NODE}};

iox2ps_status_t others_fd(Domain *domain, uint32_t waits, int *fd) {
  uint32_t brings = 0;
  for (unsigned kind = 0; kind < DOMAIN_KINDS; kind++) {
    if (waits & kinds[kind].here) brings |= kinds[kind].there;
  }
  return iox2ps_domain_get_file_descriptor(&domain->handle, brings, fd);
}

/* All of it where the domain can only be closed: whoever waits then finds out why. */
static uint32_t brought_by_others(Domain *domain) {
  uint32_t brings = 0;
  for (unsigned kind = 0; kind < DOMAIN_KINDS; kind++) {
    uint64_t count;
    if (iox2ps_domain_brought_by_others(&domain->handle, kinds[kind].there, &count) != IOX2PS_OK) return UINT32_MAX;
    if (domain->told[kind] != count) brings |= kinds[kind].here;
    domain->told[kind] = count;
  }
  return brings;
}

void tell_of_others(Domain *domain) { bring(domain, brought_by_others(domain)); }

void listen_to_others(Domain *domain) {
  if (!domain->is_named || !is_here(domain) || !domain->handle.domain_) return;
  /* Before the look: what comes after it makes the descriptor readable again. */
  if (iox2ps_domain_clear_file_descriptor(&domain->handle) != IOX2PS_OK) bring(domain, UINT32_MAX);
  else tell_of_others(domain);
}

PyObject *not_opened(iox2ps_status_t code) {
  if (code == IS_RAISED) return NULL;
  PyObject *key = PyLong_FromUnsignedLong(code), *type = key ? PyDict_GetItemWithError(errors, key) : NULL;
  Py_XDECREF(key);
  PyObject *text = type ? PyObject_GetAttrString(type, "_text") : NULL;
  if (PyErr_Occurred()) return NULL;
  if (text) PyErr_Format(type, "%U (%s)", text, iox2ps_processes_why());
  else PyErr_Format(PyExc_RuntimeError, "%s: %s", iox2ps_error_text(code), iox2ps_processes_why());
  Py_XDECREF(text);
  return NULL;
}

#define OPTION(field, kind) {#field, offsetof(iox2ps_processes_options_t, field), kind}
static const Field option_fields[] = {OPTION(max_processes, 'i'), OPTION(calls, 'i'), OPTION(book_room, 'n'), OPTION(payload_room, 'n'),
                                      OPTION(permissions, 'i'), OPTION(reap_every_ms, 'i'), OPTION(spins, 'i'), {NULL, 0, 0}};

/* How a domain is opened. */
typedef struct Opening {
  const char *how, *name, *type_name; /* how: "open", "create", or "any" of them */
  Py_ssize_t commands; /* to record; negative for none */
  iox2ps_processes_options_t options;
} Opening;

static iox2ps_status_t open_domain(Domain *self, const Opening *opening) {
  const iox2ps_processes_options_t *options = opening->options.struct_size ? &opening->options : NULL;
  const char *name = opening->name, *type_name = opening->type_name;
  if (opening->how[0] == 'c' && opening->commands >= 0) {
    return iox2ps_domain_create_named_recorded(&self->handle, name, type_name, &self->config, options, (size_t)opening->commands);
  }
  switch (opening->how[0]) {
  case 'o': return iox2ps_domain_open(&self->handle, name, type_name, &self->config, options);
  case 'c': return iox2ps_domain_create_named(&self->handle, name, type_name, &self->config, options);
  default: return iox2ps_domain_open_or_create(&self->handle, name, type_name, &self->config, options);
  }
}

/* Another process may be reaping or copying meanwhile, but no call waits for it: so this keeps the GIL. */
PyObject *domain_open(PyTypeObject *type, PyObject *args, PyObject *names) {
  static char *words[] = {"how", "name", "type_name", "unit", "is_single", "values", "settings", "options", "commands", NULL};
  PyObject *dtype, *shape, *from_buffer, *encode, *settings, *options;
  Opening opening = {.commands = -1};
  Py_ssize_t unit;
  int is_single;
  if (!PyArg_ParseTupleAndKeywords(args, names, "sssnp(OOOO)O!O!|n", words, &opening.how, &opening.name, &opening.type_name, &unit, &is_single,
                                   &dtype, &shape, &from_buffer, &encode, &PyDict_Type, &settings, &PyDict_Type, &options, &opening.commands)) {
    return NULL;
  }
  Domain *self = new_domain(type, unit, is_single, (PyObject *[]){dtype, shape, from_buffer, encode});
  if (!self) return NULL;
  iox2ps_status_t code = IS_RAISED;
  if (take_settings(self, settings)) {
    iox2ps_processes_options_of(&self->config, &opening.options);
    if (write_fields(options, option_fields, &opening.options)) code = open_domain(self, &opening);
  }
  if (code == IOX2PS_OK) {
    self->is_named = 1;
    (void)brought_by_others(self);
    return (PyObject *)self;
  }
  Py_DECREF((PyObject *)self);
  return not_opened(code);
}

static PyObject *module_exists(PyObject *module, PyObject *name) {
  uint32_t exists = 0;
  (void)module;
  Py_ssize_t len;
  if (!PyUnicode_Check(name)) return PyErr_Format(PyExc_TypeError, "a name is a text, as 'My/Service', not %R", name);
  const char *text = PyUnicode_AsUTF8AndSize(name, &len);
  if (!text) return NULL;
  if (strlen(text) != (size_t)len) return PyErr_SetString(PyExc_ValueError, "a name has no zero in it"), NULL;
  iox2ps_status_t code = iox2ps_domain_exists(text, &exists);
  return code == IOX2PS_OK ? PyBool_FromLong((long)exists) : not_opened(code);
}

static int tell_domain(const iox2ps_domain_info_t *info, void *to) {
  PyObject *one = Py_BuildValue("(ssnnII)", info->name, info->type_name, (Py_ssize_t)info->payload_size, (Py_ssize_t)info->payload_alignment,
                                info->max_processes, info->processes);
  int ends = !one || PyList_Append(to, one) != 0;
  Py_XDECREF(one);
  return ends;
}

static PyObject *module_domains(PyObject *module, PyObject *none) {
  (void)module, (void)none;
  PyObject *all = PyList_New(0);
  iox2ps_status_t code = all ? iox2ps_domain_list(tell_domain, all) : IOX2PS_OK;
  if (all && code == IOX2PS_OK && !PyErr_Occurred()) return all;
  Py_XDECREF(all);
  return PyErr_Occurred() ? NULL : not_opened(code);
}

#else
static PyObject *is_missing(void) {
  PyErr_SetString(PyExc_NotImplementedError, "this package was built without the library for processes: build it of a release that has "
                                             "lib/libiox2_pubsub_processes.a");
  return NULL;
}

iox2ps_status_t others_fd(Domain *domain, uint32_t waits, int *fd) {
  (void)domain, (void)waits, (void)fd;
  return IOX2PS_OK;
}

void tell_of_others(Domain *domain) { (void)domain; }
void listen_to_others(Domain *domain) { (void)domain; }
PyObject *not_opened(iox2ps_status_t code) { return refused(code); }

PyObject *domain_open(PyTypeObject *type, PyObject *args, PyObject *names) {
  (void)type, (void)args, (void)names;
  return is_missing();
}

static PyObject *module_exists(PyObject *module, PyObject *name) {
  (void)module, (void)name;
  return is_missing();
}

static PyObject *module_domains(PyObject *module, PyObject *none) {
  (void)module, (void)none;
  return is_missing();
}
#endif

PyMethodDef process_calls[] = {
    METHOD("exists", module_exists, METH_O, "exists($module, name, /)\n--\n\nWhether a process has a domain with this name."),
    METHOD("domains", module_domains, METH_NOARGS, "domains($module, /)\n--\n\nThe domains that processes have by a name."),
    {NULL, NULL, 0, NULL}};
