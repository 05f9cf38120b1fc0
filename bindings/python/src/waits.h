// SPDX-License-Identifier: Apache-2.0 OR MIT
/* Waiting: each call that waits has a descriptor of its own, which those calls raise that may help it. Two that wait for different
 * things never share one, or the one would take the other's signal. */
#ifndef IOX2_PUBSUB_WAITS_H
#define IOX2_PUBSUB_WAITS_H

#include "domain.h"

/* What a call may bring, as a sum, and what is waited for. */
typedef enum Brings {
  BRINGS_MESSAGE = 1,    /* to those who found IOX2PS_NO_SAMPLE */
  BRINGS_ROOM = 2,       /* in a buffer: IOX2PS_BLOCKED */
  BRINGS_FREE = 4,       /* the end of a publisher's earlier send: IOX2PS_PUBLISHER_IS_BLOCKED */
  BRINGS_LOAN = 8,       /* a slot to lend: a refused loan */
  BRINGS_SUBSCRIBER = 16, /* all publishers connect to it, with their history */
  BRINGS_EVENT = 32,      /* a notification: NO_EVENT */
  BRINGS_DEAD_NODE = 64   /* a process that died, by what others bring alone: NOBODY_DIED */
} Brings;

typedef struct Waiter {
  struct Port *port;
  struct Waiter *next;
  uint32_t waits; /* a sum of Brings */
  int raised;     /* a descriptor that calls of this process raise */
  int fd;         /* the same; or one that is readable, too, when another process may have brought something */
  char is_raised, is_listed;
} Waiter;

/* Under the lock: tells those who wait for some of this, or at this port, that it came. */
void bring(Domain *domain, uint32_t brings);
void end_waits(Domain *domain, struct Port *port);

/* What a call with this code waits for: a sum of Brings, or 0. */
uint32_t waits_of(iox2ps_status_t code);

/* One with a descriptor that is to wait for this, and its end. Null with an exception. The domain is used under the GIL. */
Waiter *take_waiter(struct Port *port, uint32_t waits);
void give_waiter(Domain *domain, Waiter *waiter);
void close_waiters(Domain *domain);

/* Under the lock: it is told from now on; it is told no longer; and nothing came since now. */
void list_waiter(Domain *domain, Waiter *waiter, uint32_t waits);
void unlist_waiter(Domain *domain, Waiter *waiter);
void lower(Waiter *waiter);

/* Under the lock: whether no call waits. */
static inline int waits_are_stopped(const Domain *domain) {
  return domain->is_joined ? domain->joined.waits_are_stopped != 0 : domain->is_stopped;
}

/* A time on a clock that is never set, for a number of seconds from now; infinity is for good, and 0 not at all. */
double until_of(double seconds);

/* For PyArg_Parse..: a timeout in seconds, or None for good, which is infinity. */
int read_timeout(PyObject *object, void *seconds);

/* A call of the port, which finds that it has to wait or not. */
iox2ps_status_t made_at(struct Port *port, uint32_t brings, Make make, void *what);

/* Whether a call with this code goes on by made_until(), if it waits for some of this. */
static inline int goes_on(double until, uint32_t waits, iox2ps_status_t code) {
  return code != IOX2PS_OK && until != 0 && (waits_of(code) & waits);
}

/* As made_at(), again each time when something came that may help, until the code is none that waits for some of this, the time is up
 * or waits are stopped. Returns IS_RAISED with an exception, of a signal's handler for example. */
iox2ps_status_t made_until(double until, struct Port *port, uint32_t waits, uint32_t brings, Make make, void *what);

extern PyType_Spec wait_spec;

#endif
