// SPDX-License-Identifier: Apache-2.0 OR MIT
#include "waits.h"

#include <errno.h>
#include <math.h>
#include <poll.h>
#include <signal.h>
#include <stdlib.h>
#include <sys/epoll.h>
#include <sys/eventfd.h>
#include <time.h>
#include <unistd.h>

#include "errors.h"
#include "ports.h"
#include "processes.h"

/* Written once until it is lowered. There is always room for 1. */
static void raise_waiter(Waiter *waiter) {
  uint64_t one = 1;
  if (waiter->is_raised) return;
  waiter->is_raised = write(waiter->raised, &one, sizeof one) == sizeof one;
  waiter->port->domain->wakes++;
}

void lower(Waiter *waiter) {
  uint64_t count;
  if (waiter->is_raised) waiter->is_raised = read(waiter->raised, &count, sizeof count) < 0 && errno != EAGAIN;
  listen_to_others(waiter->port->domain);
}

void bring(Domain *domain, uint32_t brings) {
  for (Waiter *waiter = domain->waiters; waiter; waiter = waiter->next) {
    if (waiter->waits & brings) raise_waiter(waiter);
  }
}

void end_waits(Domain *domain, Port *port) {
  for (Waiter *waiter = domain->waiters; waiter; waiter = waiter->next) {
    if (waiter->port == port) raise_waiter(waiter);
  }
}

uint32_t waits_of(iox2ps_status_t code) {
  switch (code) {
  case IOX2PS_NO_SAMPLE: return BRINGS_MESSAGE;
  case IOX2PS_BLOCKED: return BRINGS_ROOM;
  case IOX2PS_PUBLISHER_IS_BLOCKED: return BRINGS_FREE;
  case IOX2PS_LOAN_ERROR_EXCEEDS_MAX_LOANS:
  case IOX2PS_LOAN_ERROR_OUT_OF_MEMORY: return BRINGS_LOAN | BRINGS_FREE;
  case NO_EVENT: return BRINGS_EVENT;
  case NOBODY_DIED: return BRINGS_DEAD_NODE;
  default: return 0;
  }
}

static void free_waiter(Waiter *waiter) {
  if (waiter->fd != waiter->raised) close(waiter->fd);
  close(waiter->raised);
  free(waiter);
}

static Waiter *new_waiter(void) {
  Waiter *waiter = calloc(1, sizeof *waiter);
  if (!waiter) return (void *)PyErr_NoMemory();
  waiter->raised = waiter->fd = eventfd(0, EFD_CLOEXEC | EFD_NONBLOCK);
  if (waiter->fd < 0) return free(waiter), (void *)PyErr_SetFromErrno(PyExc_OSError);
  return waiter;
}

/* A descriptor that is readable when one of two is. -1 with an exception. */
static int either_of(int one, int other) {
  int both = epoll_create1(EPOLL_CLOEXEC);
  struct epoll_event event = {.events = EPOLLIN};
  if (both >= 0 && epoll_ctl(both, EPOLL_CTL_ADD, one, &event) == 0 && epoll_ctl(both, EPOLL_CTL_ADD, other, &event) == 0) return both;
  PyErr_SetFromErrno(PyExc_OSError);
  if (both >= 0) close(both);
  return -1;
}

/* Other processes raise it, too. 0 with an exception. */
static int hear_others(Waiter *waiter, Domain *domain, uint32_t waits) {
  int fd;
  if (!domain->is_named || !is_here(domain)) return 1;
  if (waits & (BRINGS_LOAN | BRINGS_FREE)) waits |= BRINGS_LOAN | BRINGS_FREE; /* as waits_of() says it of a loan */
  iox2ps_status_t code = others_fd(domain, waits, &fd);
  if (code != IOX2PS_OK) return refused(code), 0;
  if (waiter->fd != waiter->raised) return 1;
  int both = either_of(waiter->raised, fd);
  if (both >= 0) waiter->fd = both;
  return both >= 0;
}

Waiter *take_waiter(Port *port, uint32_t waits) {
  Domain *domain = port->domain;
  Waiter *waiter = domain->spare;
  if (waiter) domain->spare = waiter->next;
  else waiter = new_waiter();
  if (!waiter) return NULL;
  if (!hear_others(waiter, domain, waits)) return free_waiter(waiter), NULL;
  waiter->port = port;
  return waiter;
}

void give_waiter(Domain *domain, Waiter *waiter) {
  waiter->next = domain->spare;
  domain->spare = waiter;
}

void close_waiters(Domain *domain) {
  for (Waiter *waiter; (waiter = domain->spare);) {
    domain->spare = waiter->next;
    free_waiter(waiter);
  }
}

void list_waiter(Domain *domain, Waiter *waiter, uint32_t waits) {
  waiter->waits = waits;
  if (waiter->is_listed) return;
  waiter->is_listed = 1;
  waiter->next = domain->waiters;
  domain->waiters = waiter;
}

void unlist_waiter(Domain *domain, Waiter *waiter) {
  if (!waiter->is_listed) return;
  Waiter **at = &domain->waiters;
  while (*at != waiter) at = &(*at)->next;
  *at = waiter->next;
  waiter->is_listed = 0;
}

static double now(void) {
  struct timespec time;
  clock_gettime(CLOCK_MONOTONIC, &time);
  return (double)time.tv_sec + (double)time.tv_nsec / 1e9;
}

double until_of(double seconds) { return seconds == 0 ? 0 : seconds + now(); }

int read_timeout(PyObject *object, void *seconds) {
  double read = object == Py_None ? (double)INFINITY : PyFloat_AsDouble(object);
  if (PyErr_Occurred()) {
    if (PyErr_ExceptionMatches(PyExc_TypeError)) PyErr_Format(PyExc_TypeError, "a timeout is a number of seconds, or None to wait for good, not %R", object);
    return 0;
  }
  *(double *)seconds = read;
  if (read >= 0) return 1;
  PyErr_Format(PyExc_ValueError, "a timeout is a number of seconds that isn't negative, or None to wait for good, not %R", object);
  return 0;
}

/* A call of a port, which may wait. */
typedef struct Try {
  Port *port;
  Waiter *waiter; /* null where it doesn't */
  Make make;
  void *what;
  double until;
  uint32_t waits;
  char is_over;
} Try;

/* Nothing may come between the call that finds that it has to wait and its waiter's being listed. */
static iox2ps_status_t make_try(iox2ps_domain_t *handle, void *what) {
  Try *one = what;
  Domain *domain = one->port->domain;
  if (one->waiter && domain->is_named) unlist_waiter(domain, one->waiter); /* or what others brought raises it once more */
  if (one->waiter) lower(one->waiter);
  iox2ps_status_t code = one->make(handle, one->what);
  uint32_t waits = waits_of(code);
  if (one->waits == BRINGS_ROOM && waits == BRINGS_FREE) waits = BRINGS_ROOM; /* a retry that is blocked where it was */
  if (waits && one->port->own) lower(one->port->own);
  if (!one->waiter) return code;
  one->is_over = !(waits & one->waits) || waits_are_stopped(domain) || one->until <= now();
  if (one->is_over) unlist_waiter(domain, one->waiter);
  else list_waiter(domain, one->waiter, waits);
  return code;
}

iox2ps_status_t made_at(Port *port, uint32_t brings, Make make, void *what) {
  if (!port->own) return made(port->domain, brings, make, what);
  Try one = {port, NULL, make, what, 0, 0, 1};
  return made(port->domain, brings, make_try, &one);
}

static iox2ps_status_t end_try(iox2ps_domain_t *handle, void *what) {
  Try *one = what;
  (void)handle;
  unlist_waiter(one->port->domain, one->waiter);
  return IOX2PS_OK;
}

/* Sleeps without the GIL until the waiter is raised, a signal came or the time is up. Returns -1 where a signal's handler raised. Signals
 * are held back from the first look at them until ppoll() lets them in: one that came in between would not end the sleep. On Linux
 * sigprocmask() is for the calling thread alone, as pthread_sigmask(), whose symbol would want glibc 2.32. */
static int sleep_until(const Waiter *waiter, double until) {
  struct pollfd one = {waiter->fd, POLLIN, 0};
  double left = until - now();
  struct timespec time = {0, 0};
  if (left > 0 && left < 1e9) time.tv_sec = (time_t)left, time.tv_nsec = (long)((left - floor(left)) * 1e9);
  sigset_t all, before;
  sigfillset(&all);
  sigprocmask(SIG_SETMASK, &all, &before);
  int raised = PyErr_CheckSignals();
  if (raised == 0) {
    Py_BEGIN_ALLOW_THREADS;
    ppoll(&one, 1, left < 1e9 ? &time : NULL, &before);
    Py_END_ALLOW_THREADS;
  }
  sigprocmask(SIG_SETMASK, &before, NULL);
  return raised == 0 ? PyErr_CheckSignals() : raised;
}

/* A closed subscriber's slots come back by an update of the connections alone, which a loan doesn't make. That may hand over a history:
 * so it is a call of its own, since a loan that is refused wakes nobody. */
static iox2ps_status_t try_once(Try *one, uint32_t brings) {
  Domain *domain = one->port->domain;
  iox2ps_status_t code = made(domain, brings, make_try, one);
  if (code != IOX2PS_LOAN_ERROR_OUT_OF_MEMORY) return code;
  made(domain, domain->config.history_size > 0 ? BRINGS_MESSAGE : 0, update_made, one->port);
  return made(domain, brings, make_try, one);
}

static iox2ps_status_t try_until(Try *one, uint32_t brings) {
  Domain *domain = one->port->domain;
  while (1) {
    iox2ps_status_t code = try_once(one, brings);
    if (one->is_over || code == AFTER_FORK) return code; /* a signal's handler may fork */
    if (sleep_until(one->waiter, one->until) == 0) continue;
    made(domain, 0, end_try, one);
    return IS_RAISED;
  }
}

iox2ps_status_t made_until(double until, Port *port, uint32_t waits, uint32_t brings, Make make, void *what) {
  Domain *domain = port->domain;
  Waiter *waiter = take_waiter(port, waits);
  if (!waiter) return IS_RAISED;
  Try one = {port, waiter, make, what, until, waits, 0};
  domain->waiting++;
  iox2ps_status_t code = try_until(&one, brings);
  domain->waiting--;
  if (is_here(domain)) give_waiter(domain, waiter);
  return code;
}

/* The descriptor of one task of an event loop, which waits as a call does. */
typedef struct Wait {
  PyObject_HEAD
  Port *port;
  Waiter *waiter;
} Wait;

static iox2ps_status_t begin_wait(iox2ps_domain_t *handle, void *what) {
  Wait *self = what;
  (void)handle;
  lower(self->waiter);
  list_waiter(self->port->domain, self->waiter, self->waiter->waits);
  return IOX2PS_OK;
}

static iox2ps_status_t end_wait(iox2ps_domain_t *handle, void *what) {
  Wait *self = what;
  (void)handle;
  unlist_waiter(self->port->domain, self->waiter);
  return IOX2PS_OK;
}

static PyObject *wait_new(PyTypeObject *type, PyObject *args, PyObject *names) {
  static char *words[] = {"port", "brings", NULL};
  PyObject *port;
  unsigned brings;
  if (!PyArg_ParseTupleAndKeywords(args, names, "O!I:Wait", words, port_type, &port, &brings)) return NULL;
  Wait *self = new_object(type);
  if (!self) return NULL;
  self->port = (Port *)Py_NewRef(port);
  self->waiter = take_waiter(self->port, brings);
  if (self->waiter) {
    self->waiter->waits = brings;
    self->port->domain->waiting++;
    iox2ps_status_t code = made(self->port->domain, 0, begin_wait, self);
    if (code == IOX2PS_OK) return (PyObject *)self;
    refused(code);
  }
  Py_DECREF((PyObject *)self);
  return NULL;
}

static void close_wait(Wait *self) {
  Waiter *waiter = self->waiter;
  if (!waiter) return;
  Domain *domain = self->port->domain;
  domain->waiting--;
  if (made(domain, 0, end_wait, self) == IOX2PS_OK) give_waiter(domain, waiter);
  self->waiter = NULL;
}

static void wait_dealloc(Wait *self) {
  close_wait(self);
  Py_XDECREF((PyObject *)self->port);
  free_object(self);
}

static PyObject *wait_enter(PyObject *self, PyObject *none) {
  (void)none;
  return Py_NewRef(self);
}

static PyObject *wait_exit(Wait *self, PyObject *args) {
  (void)args;
  close_wait(self);
  Py_RETURN_NONE;
}

static PyObject *wait_lower(Wait *self, PyObject *none) {
  (void)none;
  if (!self->waiter) return refused(IOX2PS_NOT_LIVE);
  iox2ps_status_t code = made(self->port->domain, 0, begin_wait, self);
  if (code != IOX2PS_OK) return refused(code);
  Py_RETURN_NONE;
}

static PyObject *wait_fileno(Wait *self, PyObject *none) {
  (void)none;
  return self->waiter ? PyLong_FromLong(self->waiter->fd) : refused(IOX2PS_NOT_LIVE);
}

static PyMethodDef wait_calls[] = {
    METHOD("lower", wait_lower, METH_NOARGS, "lower($self, /)\n--\n\nLets it be readable no longer: made before the call that looks."),
    METHOD("fileno", wait_fileno, METH_NOARGS, "fileno($self, /)\n--\n\nThe descriptor, which is readable once something came."),
    METHOD("__enter__", wait_enter, METH_NOARGS, NULL), METHOD("__exit__", wait_exit, METH_VARARGS, NULL), {NULL, NULL, 0, NULL}};
static PyType_Slot wait_slots[] = {SLOT(Py_tp_new, wait_new), SLOT(Py_tp_dealloc, wait_dealloc), SLOT(Py_tp_methods, wait_calls), {0, NULL}};
PyType_Spec wait_spec = {"iox2_pubsub._core.Wait", sizeof(Wait), 0, Py_TPFLAGS_DEFAULT | Py_TPFLAGS_IMMUTABLETYPE, wait_slots};
