// SPDX-License-Identifier: Apache-2.0 OR MIT
#include "messages.h"

#include "docs.h"
#include "errors.h"

PyTypeObject *sample_type;

typedef struct Headed {
  const Message *message;
  iox2ps_header_t header;
} Headed;

static iox2ps_status_t header_made(iox2ps_domain_t *handle, void *what) {
  Headed *headed = what;
  return iox2ps_sample_header(handle, &headed->message->sample, &headed->header);
}

static PyObject *sample_header(Message *self, void *closure) {
  (void)closure;
  Headed headed = {self, {{0, 0}, {0, 0}, 0}};
  iox2ps_status_t code = made(self->domain, 0, header_made, &headed);
  if (code != IOX2PS_OK) return refused(code);
  return made_of("Header", Py_BuildValue("(NNn)", int_of(headed.header.node_id), int_of(headed.header.publisher),
                       (Py_ssize_t)(headed.header.number_of_elements / self->domain->unit)));
}

static PyObject *sample_origin(Message *self, void *closure) {
  (void)closure;
  return int_of(self->sample.origin);
}

static PyObject *sample_subscriber(Message *self, void *closure) {
  (void)closure;
  return int_of(self->sample.subscriber);
}

static PyObject *sample_number(Message *self, void *closure) {
  (void)closure;
  return int_of(self->sample.number);
}

static PyMethodDef sample_calls[] = {
    METHOD("release", message_end, METH_NOARGS, DOC_SAMPLE_RELEASE),
    METHOD("__enter__", message_enter, METH_NOARGS, DOC_ENTER("sample")),
    METHOD("__exit__", message_exit, METH_VARARGS, DOC_EXIT("Gives it back, with the last of its views.")),
    {NULL, NULL, 0, NULL}};

static PyGetSetDef sample_fields[] = {
    FIELD("array", message_array, DOC_SAMPLE_ARRAY),
    FIELD("header", sample_header, DOC_SAMPLE_HEADER),
    FIELD("origin", sample_origin, DOC_SAMPLE_ORIGIN),
    FIELD("subscriber", sample_subscriber, DOC_SAMPLE_SUBSCRIBER),
    FIELD("number", sample_number, DOC_NUMBER),
    FIELD("is_live", message_is_live, DOC_SAMPLE_IS_LIVE),
    {NULL, NULL, NULL, NULL, NULL}};

static PyType_Slot sample_slots[] = {MESSAGE_SLOTS, SLOT(Py_tp_doc, DOC_SAMPLE), SLOT(Py_tp_methods, sample_calls), SLOT(Py_tp_getset, sample_fields), {0, NULL}};
PyType_Spec sample_spec = {"iox2_pubsub.Sample", sizeof(Message), 0,
                           Py_TPFLAGS_DEFAULT | Py_TPFLAGS_HAVE_GC | Py_TPFLAGS_IMMUTABLETYPE | Py_TPFLAGS_DISALLOW_INSTANTIATION,
                           sample_slots};
