// SPDX-License-Identifier: Apache-2.0 OR MIT
/* The module _core: all types, once for the process. */
#include <pthread.h>

#include "errors.h"
#include "listeners.h"
#include "loans.h"
#include "nodes.h"
#include "processes.h"
#include "sends.h"

#define TEXT(number) #number
#define TEXT_OF(number) TEXT(number)
#define VERSION TEXT_OF(IOX2PS_VERSION_MAJOR) "." TEXT_OF(IOX2PS_VERSION_MINOR) "." TEXT_OF(IOX2PS_VERSION_PATCH)

static void count_fork(void) { forks++; }

/* A type, where it is kept, and the place of its base among those before it, or none. */
typedef struct Type {
  PyType_Spec *spec;
  PyTypeObject **kept;
  PyTypeObject **base;
} Type;

static const Type types[] = {{&domain_spec, &domain_type, NULL},
                             {&port_spec, &port_type, NULL},
                             {&publisher_spec, NULL, &port_type},
                             {&subscriber_spec, NULL, &port_type},
                             {&notifier_spec, NULL, NULL},
                             {&listener_spec, NULL, &port_type},
                             {&dead_nodes_spec, NULL, &port_type},
                             {&loan_spec, &loan_type, NULL},
                             {&sample_spec, &sample_type, NULL},
                             {&blocked_spec, &blocked_type, NULL},
                             {&wait_spec, NULL, NULL}};

static int add_types(PyObject *module) {
  for (size_t at = 0; at < sizeof types / sizeof *types; at++) {
    PyObject *base = types[at].base ? (PyObject *)*types[at].base : NULL;
    PyObject *type = PyType_FromModuleAndSpec(module, types[at].spec, base);
    if (!type || PyModule_AddType(module, (PyTypeObject *)type) < 0) return -1;
    if (types[at].kept) *types[at].kept = (PyTypeObject *)type;
  }
  return 0;
}

/* Whether the types can be made: they are of one interpreter, and made once. */
static int can_be_here(void) {
  static int is_here;
  const char *text = NULL;
  if (PyInterpreterState_GetID(PyInterpreterState_Get()) != 0) {
    text = "iox2_pubsub is for the main interpreter: import it there, and use threads or processes in place of subinterpreters";
  } else if (is_here) {
    text = "iox2_pubsub was imported before: keep that module, and don't take it out of sys.modules";
#ifdef __x86_64__
  } else if (!__builtin_cpu_supports("sse4.1")) {
    text = "iox2_pubsub needs a processor of x86-64-v2 or later";
#endif
  } else if (iox2ps_version() != IOX2PS_VERSION) {
    text = "iox2_pubsub was linked to the archive of another version than its header's: build it anew";
  }
  if (text) PyErr_SetString(PyExc_ImportError, text);
  is_here |= !text;
  return !text;
}

static int fill_module(PyObject *module) {
  if (!can_be_here()) return -1;
  errors = PyDict_New(), parts = PyDict_New();
  if (!errors || PyModule_AddObjectRef(module, "errors", errors) < 0) return -1;
  if (!parts || PyModule_AddObjectRef(module, "parts", parts) < 0) return -1;
  if (PyModule_AddStringConstant(module, "version", VERSION) < 0) return -1;
  if (pthread_atfork(NULL, NULL, count_fork) != 0) return PyErr_NoMemory(), -1;
  return add_types(module);
}

PyMODINIT_FUNC PyInit__core(void) {
  static PyModuleDef_Slot slots[] = {SLOT(Py_mod_exec, fill_module), {0, NULL}};
  static PyModuleDef definition = {.m_base = PyModuleDef_HEAD_INIT,
                                   .m_name = "iox2_pubsub._core",
                                   .m_doc = "The calls of iox2_pubsub.h.",
                                   .m_methods = process_calls,
                                   .m_slots = slots};
  return PyModuleDef_Init(&definition);
}
