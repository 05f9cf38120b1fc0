// SPDX-License-Identifier: Apache-2.0 OR MIT
#include "channels.h"
#include "docs.h"
#include "errors.h"
#include "messages.h"
#include "settings.h"

/* A subscriber that is to be made. */
typedef struct Making {
  Port *port;
  iox2ps_subscriber_options_t options;
} Making;

/* The domain's publishers connect to it at once, so that it gets their history. */
static iox2ps_status_t create_made(iox2ps_domain_t *handle, void *what) {
  Making *making = what;
  iox2ps_status_t code = iox2ps_subscriber_create_with(handle, &making->options, &making->port->subscriber);
  if (code == IOX2PS_OK) list_port(making->port), connect_publishers(making->port->domain, handle);
  return code;
}

static PyObject *subscriber_new(PyTypeObject *type, PyObject *args, PyObject *names) {
  static char *words[] = {"domain", "options", NULL};
  Domain *domain;
  PyObject *options;
  Making making;
  if (!PyArg_ParseTupleAndKeywords(args, names, "O!O!:Subscriber", words, domain_type, &domain, &PyDict_Type, &options)) return NULL;
  iox2ps_subscriber_options_of(&domain->config, &making.options);
  if (!write_fields(options, subscriber_fields, &making.options)) return NULL;
  making.port = new_port(type, domain, PORT_SUBSCRIBER);
  if (!making.port) return NULL;
  making.port->subscriber_options = making.options;
  uint32_t brings = BRINGS_SUBSCRIBER | BRINGS_LOAN | (domain->config.history_size > 0 ? BRINGS_MESSAGE : 0);
  iox2ps_status_t code = made(domain, brings, create_made, &making);
  if (code == IOX2PS_OK) return (PyObject *)making.port;
  Py_DECREF((PyObject *)making.port);
  return refused(code);
}

/* A message that is received. */
typedef struct Receiving {
  const Port *port;
  iox2ps_sample_t sample;
  const void *bytes;
  size_t len;
} Receiving;

static iox2ps_status_t receive_made(iox2ps_domain_t *handle, void *what) {
  Receiving *receiving = what;
  return iox2ps_subscriber_receive(handle, &receiving->port->subscriber, &receiving->sample, &receiving->bytes, &receiving->len);
}

static iox2ps_status_t release_made(iox2ps_domain_t *handle, void *what) {
  Receiving *receiving = what;
  return iox2ps_sample_release(handle, &receiving->sample);
}

static PyObject *sample_of(Port *self, Receiving *receiving) {
  Message *message = new_message(sample_type, self->domain, NULL);
  if (!message) return made(self->domain, BRINGS_LOAN, release_made, receiving), NULL;
  message->sample = receiving->sample;
  message->bytes = (void *)receiving->bytes, message->len = receiving->len;
  begin_message(message);
  return (PyObject *)message;
}

static PyObject *receive(Port *self, double seconds) {
  Receiving receiving;
  receiving.port = self;
  iox2ps_status_t code = made_at(self, BRINGS_ROOM, receive_made, &receiving);
  if (code == IOX2PS_NO_SAMPLE && seconds != 0) {
    code = made_until(until_of(seconds), self, BRINGS_MESSAGE, BRINGS_ROOM, receive_made, &receiving);
  }
  if (code == IOX2PS_OK) return sample_of(self, &receiving);
  if (code == IOX2PS_NO_SAMPLE) Py_RETURN_NONE;
  return refused(code);
}

static PyObject *subscriber_receive(Port *self, PyObject *args, PyObject *names) {
  static char *words[] = {"timeout", NULL};
  double seconds = 0;
  if (!PyArg_ParseTupleAndKeywords(args, names, "|O&:receive", words, read_timeout, &seconds)) return NULL;
  return receive(self, seconds);
}

static iox2ps_status_t update_subscriber_made(iox2ps_domain_t *handle, void *what) {
  const Port *port = what;
  return iox2ps_subscriber_update_connections(handle, &port->subscriber);
}

static PyObject *subscriber_update_connections(Port *self, PyObject *none) {
  (void)none;
  iox2ps_status_t code = made(self->domain, 0, update_subscriber_made, self);
  if (code != IOX2PS_OK) return refused(code);
  Py_RETURN_NONE;
}

/* A subscriber's answer. */
typedef struct Answer {
  const Port *port;
  uint32_t is_so;
} Answer;

static iox2ps_status_t has_samples_made(iox2ps_domain_t *handle, void *what) {
  Answer *answer = what;
  return iox2ps_subscriber_has_samples(handle, &answer->port->subscriber, &answer->is_so);
}

static PyObject *subscriber_has_samples(Port *self, PyObject *none) {
  (void)none;
  Answer answer = {self, 0};
  iox2ps_status_t code = made(self->domain, 0, has_samples_made, &answer);
  return code == IOX2PS_OK ? PyBool_FromLong((long)answer.is_so) : refused(code);
}

static PyObject *subscriber_buffer_size(Port *self, void *closure) {
  (void)closure;
  return PyLong_FromSize_t(self->subscriber.buffer_size);
}

static PyObject *subscriber_options(Port *self, void *closure) {
  (void)closure;
  return read_fields(subscriber_fields, &self->subscriber_options);
}

static PyMethodDef subscriber_calls[] = {
    SUBSCRIBER_CHANNEL_CALLS,
    METHOD("receive", subscriber_receive, WITH_WORDS, DOC_SUBSCRIBER_RECEIVE),
    METHOD("has_samples", subscriber_has_samples, METH_NOARGS, DOC_SUBSCRIBER_HAS_SAMPLES),
    METHOD("update_connections", subscriber_update_connections, METH_NOARGS, DOC_SUBSCRIBER_UPDATE_CONNECTIONS),
    {NULL, NULL, 0, NULL}};

static PyGetSetDef subscriber_gets[] = {
    FIELD("id", port_id, DOC_PORT_ID), FIELD("_options", subscriber_options, "What it was made with, by names."),
    FIELD("buffer_size", subscriber_buffer_size, DOC_SUBSCRIBER_BUFFER_SIZE), {NULL, NULL, NULL, NULL, NULL}};

static PyType_Slot subscriber_slots[] = {SLOT(Py_tp_new, subscriber_new), SLOT(Py_tp_methods, subscriber_calls),
                                         SLOT(Py_tp_getset, subscriber_gets), {0, NULL}};
PyType_Spec subscriber_spec = {"iox2_pubsub._core.Subscriber", sizeof(Port), 0,
                               Py_TPFLAGS_DEFAULT | Py_TPFLAGS_BASETYPE | Py_TPFLAGS_IMMUTABLETYPE,
                               subscriber_slots};
