// SPDX-License-Identifier: Apache-2.0 OR MIT
/* A domain, and how its calls are made. */
#ifndef IOX2_PUBSUB_DOMAIN_H
#define IOX2_PUBSUB_DOMAIN_H

#include "python.h"

#include "iox2_pubsub_shared.h"

struct Port;
struct Waiter;

enum { DOMAIN_KINDS = 6 }; /* of what other processes bring */

/* Some calls on the domain, with no other between them. Returns the code of the last. Python isn't called there. */
typedef iox2ps_status_t (*Make)(iox2ps_domain_t *domain, void *what);

typedef struct Domain {
  PyObject_HEAD
  iox2ps_domain_t handle;
  const iox2ps_shared_domain_t *shared; /* another language's, in place of the handle; null once it was left */
  iox2ps_joined_t joined;
  iox2ps_config_t config;
  struct Waiter *waiters; /* those that are told what calls bring; used under the lock */
  struct Waiter *spare;   /* those that nobody has at the moment */
  struct Port *ports;     /* those that are open; used under the lock */
  PyObject *dtype;        /* numpy's, of one value without its shape; or None */
  PyObject *shape;        /* that of a message's array: a tuple, whose first is -1 where a message has many values */
  PyObject *from_buffer;  /* numpy's function, or None */
  PyObject *encode;       /* makes bytes of what is to be sent, or None */
  size_t unit;            /* bytes of one value */
  size_t held;            /* loans, samples and blocked sends, which keep what the handle has */
  size_t waiting;         /* calls that wait */
  uint64_t wakes;         /* how often one that waits was woken; used under the lock */
  unsigned forks;         /* how often the process had been forked off when this was made */
  uint64_t told[DOMAIN_KINDS]; /* of each kind how many calls of other processes those who wait were told of; used under the lock */
  char is_single, is_stopped, is_closed, is_joined, is_named;
} Domain;

extern PyType_Spec domain_spec;
extern PyTypeObject *domain_type;

/* How often this process was forked off. A child has a copy of the memory alone: the descriptors are its parent's. */
extern unsigned forks;
static inline int is_here(const Domain *domain) { return domain->forks == forks; }

/* One without a handle, and its dtype, shape, from_buffer and encode. Null with an exception. */
Domain *new_domain(PyTypeObject *type, Py_ssize_t unit, int is_single, PyObject *values[4]);

/* Reads a dict of settings. 0 with an exception. */
int take_settings(Domain *self, PyObject *names);

/* Makes calls under the domain's lock, which is the GIL, or that of the language that it was joined from, and tells those who wait what they have brought: a sum of Brings, if the
 * code is IOX2PS_OK. Each call of the archive on a domain is made here. Returns AFTER_FORK in a child of fork. */
iox2ps_status_t made(Domain *domain, uint32_t brings, Make make, void *what);

/* A loan, a sample or a blocked send has come, and is gone. */
void hold(Domain *domain);
void let_go(Domain *domain);

#endif
