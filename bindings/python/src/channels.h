// SPDX-License-Identifier: Apache-2.0 OR MIT
/* The channels of connections. */
#ifndef IOX2_PUBSUB_CHANNELS_H
#define IOX2_PUBSUB_CHANNELS_H

#include "docs.h"
#include "ports.h"

PyObject *publisher_get_connection_id_of(Port *self, PyObject *args, PyObject *names);
PyObject *publisher_has_channel_state(Port *self, PyObject *args, PyObject *names);
PyObject *publisher_has_disconnect_hint(Port *self, PyObject *args, PyObject *names);
PyObject *publisher_close_channel(Port *self, PyObject *args, PyObject *names);
PyObject *subscriber_set_channel_state(Port *self, PyObject *args, PyObject *names);
PyObject *subscriber_at_least_one_channel_has_state(Port *self, PyObject *args, PyObject *names);
PyObject *subscriber_close_channel(Port *self, PyObject *args, PyObject *names);
PyObject *subscriber_set_disconnect_hint(Port *self, PyObject *args, PyObject *names);

#define PUBLISHER_CHANNEL_CALLS \
  METHOD("get_connection_id_of", publisher_get_connection_id_of, WITH_WORDS, DOC_CONNECTION_ID_OF), \
      METHOD("has_channel_state", publisher_has_channel_state, WITH_WORDS, DOC_HAS_CHANNEL_STATE), \
      METHOD("has_disconnect_hint", publisher_has_disconnect_hint, WITH_WORDS, DOC_HAS_DISCONNECT_HINT), \
      METHOD("close_channel", publisher_close_channel, WITH_WORDS, DOC_PUBLISHER_CLOSE_CHANNEL)

#define SUBSCRIBER_CHANNEL_CALLS \
  METHOD("set_channel_state", subscriber_set_channel_state, WITH_WORDS, DOC_SET_CHANNEL_STATE), \
      METHOD("at_least_one_channel_has_state", subscriber_at_least_one_channel_has_state, WITH_WORDS, DOC_AT_LEAST_ONE), \
      METHOD("close_channel", subscriber_close_channel, WITH_WORDS, DOC_SUBSCRIBER_CLOSE_CHANNEL), \
      METHOD("set_disconnect_hint", subscriber_set_disconnect_hint, WITH_WORDS, DOC_SET_DISCONNECT_HINT)

#endif
