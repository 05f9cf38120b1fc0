// SPDX-License-Identifier: Apache-2.0 OR MIT
#include "channels.h"

#include "errors.h"

/* A channel, and what is asked or done there. */
typedef struct Channel {
  const Port *port;
  size_t channel, connection;
  uint64_t state;
  uint32_t is_so;
  iox2ps_status_t (*ask_publisher)(iox2ps_domain_t *, const iox2ps_publisher_t *, size_t, size_t, uint64_t, uint32_t *);
  iox2ps_status_t (*ask_subscriber)(iox2ps_domain_t *, const iox2ps_subscriber_t *, size_t, uint64_t, uint32_t *);
  iox2ps_status_t (*change)(iox2ps_domain_t *, const iox2ps_subscriber_t *, size_t, uint64_t);
} Channel;

static iox2ps_status_t ask_publisher_made(iox2ps_domain_t *handle, void *what) {
  Channel *one = what;
  return one->ask_publisher(handle, &one->port->publisher, one->channel, one->connection, one->state, &one->is_so);
}

static iox2ps_status_t ask_subscriber_made(iox2ps_domain_t *handle, void *what) {
  Channel *one = what;
  return one->ask_subscriber(handle, &one->port->subscriber, one->channel, one->state, &one->is_so);
}

static iox2ps_status_t change_made(iox2ps_domain_t *handle, void *what) {
  Channel *one = what;
  return one->change(handle, &one->port->subscriber, one->channel, one->state);
}

static iox2ps_status_t close_made(iox2ps_domain_t *handle, void *what) {
  Channel *one = what;
  return iox2ps_publisher_close_channel(handle, &one->port->publisher, one->channel, one->connection, one->state);
}

static int read_of_publisher(Channel *one, PyObject *args, PyObject *names, const char *state) {
  char *words[] = {"channel", "connection", (char *)state, NULL};
  return PyArg_ParseTupleAndKeywords(args, names, "O&O&O&", words, read_channel, &one->channel, read_connection, &one->connection, read_state,
                                     &one->state);
}

static int read_of_subscriber(Channel *one, PyObject *args, PyObject *names, const char *state) {
  char *words[] = {"channel", (char *)state, NULL};
  return PyArg_ParseTupleAndKeywords(args, names, "O&O&", words, read_channel, &one->channel, read_state, &one->state);
}

/* What is made there, and its answer. */
static PyObject *answered(Channel *one, uint32_t brings, Make make) {
  iox2ps_status_t code = made(one->port->domain, brings, make, one);
  return code == IOX2PS_OK ? PyBool_FromLong((long)one->is_so) : refused(code);
}

static PyObject *done(Channel *one, uint32_t brings, Make make) {
  iox2ps_status_t code = made(one->port->domain, brings, make, one);
  return code == IOX2PS_OK ? Py_NewRef(Py_None) : refused(code);
}

PyObject *publisher_has_channel_state(Port *self, PyObject *args, PyObject *names) {
  Channel one = {.port = self, .ask_publisher = iox2ps_publisher_has_channel_state};
  return read_of_publisher(&one, args, names, "state") ? answered(&one, 0, ask_publisher_made) : NULL;
}

PyObject *publisher_has_disconnect_hint(Port *self, PyObject *args, PyObject *names) {
  Channel one = {.port = self, .ask_publisher = iox2ps_publisher_has_disconnect_hint};
  return read_of_publisher(&one, args, names, "state") ? answered(&one, 0, ask_publisher_made) : NULL;
}

/* A send that waits for a closed channel goes past it. */
PyObject *publisher_close_channel(Port *self, PyObject *args, PyObject *names) {
  Channel one = {.port = self};
  return read_of_publisher(&one, args, names, "expected") ? done(&one, BRINGS_ROOM, close_made) : NULL;
}

PyObject *subscriber_set_channel_state(Port *self, PyObject *args, PyObject *names) {
  Channel one = {.port = self, .ask_subscriber = iox2ps_subscriber_set_channel_state};
  return read_of_subscriber(&one, args, names, "state") ? answered(&one, 0, ask_subscriber_made) : NULL;
}

PyObject *subscriber_at_least_one_channel_has_state(Port *self, PyObject *args, PyObject *names) {
  Channel one = {.port = self, .ask_subscriber = iox2ps_subscriber_at_least_one_channel_has_state};
  return read_of_subscriber(&one, args, names, "state") ? answered(&one, 0, ask_subscriber_made) : NULL;
}

PyObject *subscriber_close_channel(Port *self, PyObject *args, PyObject *names) {
  Channel one = {.port = self, .change = iox2ps_subscriber_close_channel};
  return read_of_subscriber(&one, args, names, "expected") ? done(&one, BRINGS_ROOM, change_made) : NULL;
}

PyObject *subscriber_set_disconnect_hint(Port *self, PyObject *args, PyObject *names) {
  Channel one = {.port = self, .change = iox2ps_subscriber_set_disconnect_hint};
  return read_of_subscriber(&one, args, names, "expected") ? done(&one, 0, change_made) : NULL;
}

/* A connection that is looked for. */
typedef struct Connected {
  const Port *port;
  iox2ps_wide_t subscriber;
  size_t connection;
} Connected;

static iox2ps_status_t connection_made(iox2ps_domain_t *handle, void *what) {
  Connected *connected = what;
  return iox2ps_publisher_get_connection_id_of(handle, &connected->port->publisher, &connected->subscriber, &connected->connection);
}

PyObject *publisher_get_connection_id_of(Port *self, PyObject *args, PyObject *names) {
  static char *words[] = {"receiver_port_id", NULL};
  Connected connected = {.port = self};
  if (!PyArg_ParseTupleAndKeywords(args, names, "O&:get_connection_id_of", words, read_id, &connected.subscriber)) return NULL;
  iox2ps_status_t code = made(self->domain, 0, connection_made, &connected);
  if (code == IOX2PS_NO_CONNECTION) Py_RETURN_NONE;
  return code == IOX2PS_OK ? PyLong_FromSize_t(connected.connection) : refused(code);
}
