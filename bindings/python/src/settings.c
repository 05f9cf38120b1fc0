// SPDX-License-Identifier: Apache-2.0 OR MIT
#include "settings.h"

#include <stddef.h>
#include <string.h>

#define CONFIG(field, kind) {#field, offsetof(iox2ps_config_t, field), kind}
const Field config_fields[] = {CONFIG(service_id, 'w'),
                               CONFIG(node_id, 'w'),
                               CONFIG(payload_size, 'n'),
                               CONFIG(payload_alignment, 'n'),
                               CONFIG(max_publishers, 'n'),
                               CONFIG(max_subscribers, 'n'),
                               CONFIG(subscriber_max_buffer_size, 'n'),
                               CONFIG(subscriber_max_borrowed_samples, 'n'),
                               CONFIG(history_size, 'n'),
                               CONFIG(number_of_channels, 'n'),
                               CONFIG(subscriber_expired_connection_buffer, 'n'),
                               CONFIG(publisher_max_loaned_samples, 'n'),
                               CONFIG(enable_safe_overflow, 'i'),
                               CONFIG(backpressure_strategy, 'i'),
                               {NULL, 0, 0}};

#define OF_PUBLISHER(field, kind) {#field, offsetof(iox2ps_publisher_options_t, field), kind}
const Field publisher_fields[] = {OF_PUBLISHER(max_loaned_samples, 'n'),
                                  OF_PUBLISHER(initial_max_slice_len, 'n'),
                                  OF_PUBLISHER(preallocated_samples, 'n'),
                                  OF_PUBLISHER(backpressure_strategy, 'i'),
                                  OF_PUBLISHER(backpressure_handler, 'i'),
                                  OF_PUBLISHER(degradation, 'i'),
                                  OF_PUBLISHER(allocation_strategy, 'i'),
                                  {NULL, 0, 0}};

#define OF_SUBSCRIBER(field, kind) {#field, offsetof(iox2ps_subscriber_options_t, field), kind}
const Field subscriber_fields[] = {OF_SUBSCRIBER(buffer_size, 'n'), OF_SUBSCRIBER(degradation, 'i'), {NULL, 0, 0}};

static int write_field(PyObject *value, const Field *field, void *place) {
  if (field->kind == 'w') return wide_of(value, field->name, place);
  size_t number;
  if (!size_of(value, field->name, &number)) return 0;
  uint32_t small = number > UINT32_MAX ? UINT32_MAX : (uint32_t)number; /* no enum has that */
  if (field->kind == 'n') memcpy(place, &number, sizeof number);
  else memcpy(place, &small, sizeof small);
  return 1;
}

int write_fields(PyObject *names, const Field *fields, void *into) {
  PyObject *name, *value;
  Py_ssize_t at = 0;
  while (names && PyDict_Next(names, &at, &name, &value)) {
    const Field *field = fields;
    while (field->name && PyUnicode_CompareWithASCIIString(name, field->name) != 0) field++;
    if (!field->name) return PyErr_Format(PyExc_TypeError, "there is no setting %R", name), 0;
    if (!write_field(value, field, (char *)into + field->at)) return 0;
  }
  return 1;
}

static PyObject *read_field(const Field *field, const char *place) {
  if (field->kind == 'w') return int_of(*(const iox2ps_wide_t *)place);
  if (field->kind == 'n') return PyLong_FromSize_t(*(const size_t *)place);
  return PyLong_FromUnsignedLong(*(const uint32_t *)place);
}

PyObject *read_fields(const Field *fields, const void *from) {
  PyObject *all = PyDict_New();
  for (const Field *field = fields; all && field->name; field++) {
    PyObject *value = read_field(field, (const char *)from + field->at);
    if (!value || PyDict_SetItemString(all, field->name, value) < 0) Py_CLEAR(all);
    Py_XDECREF(value);
  }
  return all;
}
