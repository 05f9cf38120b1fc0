// SPDX-License-Identifier: Apache-2.0 OR MIT
/* Publishers and subscribers, and what else of a domain is waited at. */
#ifndef IOX2_PUBSUB_PORTS_H
#define IOX2_PUBSUB_PORTS_H

#include "domain.h"
#include "waits.h"

typedef enum PortKind {
  PORT_PUBLISHER,
  PORT_SUBSCRIBER,
  PORT_LISTENER,
  PORT_DEAD_NODES /* hears of processes that died */
} PortKind;

typedef struct Port {
  PyObject_HEAD
  Domain *domain;
  struct Port *next, *before; /* in its domain, while it is open; used under the lock */
  Waiter *own;                /* for event loops, once its descriptor was asked for */
  PortKind kind;
  char is_open;
  char is_left; /* it is closed once the send has ended that waits */
  union {
    struct {
      iox2ps_publisher_t publisher;
      iox2ps_publisher_options_t publisher_options; /* which it was made with */
    };
    struct {
      iox2ps_subscriber_t subscriber;
      iox2ps_subscriber_options_t subscriber_options;
    };
    uint64_t deaths; /* how many it has heard of */
  };
} Port;

extern PyType_Spec port_spec, publisher_spec, subscriber_spec;
extern PyTypeObject *port_type; /* the base of both */

/* A port that isn't made yet, in its domain. Null with an exception. */
Port *new_port(PyTypeObject *type, Domain *domain, PortKind kind);

/* Under the lock: it was made, and is open from now on. */
void list_port(Port *port);

/* A field of publishers and subscribers. */
PyObject *port_id(Port *self, void *closure);

/* Closes it if it is open; refused where an earlier send of it waits. */
iox2ps_status_t close_port(Port *port);

/* Under the lock: a publisher connects to new subscribers, and takes back what waited for those that were closed; all of the domain's do,
 * so that a new subscriber gets their history. */
iox2ps_status_t update_made(iox2ps_domain_t *handle, void *what);
void connect_publishers(Domain *domain, iox2ps_domain_t *handle);

#endif
