// SPDX-License-Identifier: Apache-2.0 OR MIT
/* Makes random calls, most of them on channels, and holds each to a small model: `random_channels SEED CALLS`. With the name of a file
 * behind that it writes the recording there, whose replay compares all of them with `run`.
 *
 * The model knows of each connection what waits and is borrowed there, and the state of its one to three
 * channels. A message may be sent to all connections, into channel 0, or into one channel of one connection.
 * It says what each call has to return; after each call all channels are read and compared with it. The
 * handle of a port that was closed stays where it was, so that many calls are made by numbers that name
 * nothing, which has to be answered by IOX2PS_NOT_LIVE. Memory is never refused here. Each message has eight
 * bytes, which are a number that no other message has. */
#include "iox2_pubsub.h"
#include "random_numbers.h"
#include "recording_file.h"
#include <inttypes.h>
#include <stdio.h>
#include <stdlib.h>
#include <string.h>

static _Noreturn void fail(const char *words) {
  fprintf(stderr, "%s\n", words);
  exit(1);
}

/* ---- the model: ports by their places, and what two ports share */

enum { PLACES = 4, NOWHERE = 99, CHANNELS = 3, CONNECTIONS = 64, SAMPLES = 256, MESSAGES = 8 };

/* Messages by their values, oldest first. */
typedef struct queue_t {
  uint64_t values[MESSAGES];
  size_t count;
} queue_t;

typedef struct publisher_t {
  iox2ps_publisher_t port;
  int is_open, is_due, retries;
  queue_t history;
  int is_blocked;
  iox2ps_blocked_t blocked;
  uint64_t message; /* that waits */
  size_t place;     /* of the subscriber that it waits for */
  size_t channel;   /* into which it goes */
  size_t end;       /* the place behind the last one to which it goes */
  size_t count;     /* how many have taken it */
  int has_loan;
  iox2ps_loan_t loan;
  uint64_t lent; /* what the loan reads */
} publisher_t;

/* A closed one is there as long as it has borrowed something. */
typedef struct subscriber_t {
  iox2ps_subscriber_t port;
  int is_there, is_open, is_due;
} subscriber_t;

enum end { NO_END, AT_PLACE, EXPIRED };

typedef struct channel_t {
  uint64_t state;
  int has_hint;
} channel_t;

/* A publisher has its end at the subscriber's place, and a subscriber at the publisher's, or among the expired ones. */
typedef struct connection_t {
  uint64_t publisher, subscriber;
  size_t sender_place, receiver_place;
  enum end receiver;
  size_t entry; /* among the expired ones */
  queue_t waiting[CHANNELS]; /* its first one is received next */
  size_t borrowed;
  channel_t channels[CHANNELS];
} connection_t;

typedef struct sample_t {
  iox2ps_sample_t handle;
  uint64_t publisher, subscriber;
} sample_t;

static iox2ps_config_t config;
static publisher_t publishers[PLACES];
static subscriber_t subscribers[PLACES];
static connection_t connections[CONNECTIONS];
static sample_t samples[SAMPLES];
static size_t connection_count, sample_count, expired_entries;
static uint64_t last_value, next_port = 1;

/* What happened: so that it is seen that it did. */
static size_t channel_calls, not_live, passed_over, histories_kept_back, waits_ended, in_other_channels, loans_lost;

static uint64_t id_of(iox2ps_wide_t wide) {
  if (wide.high) fail("an id is greater than there are ports");
  return wide.low;
}

static void push(queue_t *queue, uint64_t value, size_t limit) {
  if (limit == 0) return;
  if (queue->count == limit) memmove(queue->values, queue->values + 1, --queue->count * sizeof value);
  queue->values[queue->count++] = value;
}

static publisher_t *publisher_of(uint64_t id) {
  for (size_t at = 0; at < PLACES; at++) {
    if (publishers[at].is_open && publishers[at].port.id.low == id) return &publishers[at];
  }
  return NULL;
}

static subscriber_t *subscriber_of(uint64_t id) {
  for (size_t at = 0; at < PLACES; at++) {
    if (subscribers[at].is_there && subscribers[at].port.id.low == id) return &subscribers[at];
  }
  return NULL;
}

/* The next connection of the subscriber's, from this one on, at which it has its end. */
static connection_t *next_of(const subscriber_t *q, connection_t *from) {
  for (; from < connections + connection_count; from++) {
    if (from->subscriber == q->port.id.low && from->receiver != NO_END) return from;
  }
  return NULL;
}

#define EACH_OF(q, c) connection_t *c = next_of(q, connections); c; c = next_of(q, c + 1)

static connection_t *sender_end(const publisher_t *p, size_t place) {
  for (size_t at = 0; at < connection_count; at++) {
    connection_t *c = &connections[at];
    if (c->publisher == p->port.id.low && c->sender_place == place) return p->is_open ? c : NULL;
  }
  return NULL;
}

static connection_t *receiver_end(const subscriber_t *q, size_t place) {
  for (EACH_OF(q, c)) {
    if (c->receiver == AT_PLACE && c->receiver_place == place) return c;
  }
  return NULL;
}

/* The connection of the two, which is made where it isn't there: its channels are open and have no hint. */
static connection_t *connection(const publisher_t *p, const subscriber_t *q) {
  uint64_t publisher = p->port.id.low, subscriber = q->port.id.low;
  for (size_t at = 0; at < connection_count; at++) {
    if (connections[at].publisher == publisher && connections[at].subscriber == subscriber) return &connections[at];
  }
  if (connection_count == CONNECTIONS) fail("there are more connections than the settings allow");
  connection_t *made = &connections[connection_count++];
  memset(made, 0, sizeof *made);
  made->publisher = publisher;
  made->subscriber = subscriber;
  made->sender_place = NOWHERE;
  return made;
}

/* A connection at which no port has an end is gone, with its channels. */
static void forget_connections(void) {
  size_t kept = 0;
  for (size_t at = 0; at < connection_count; at++) {
    if (connections[at].sender_place != NOWHERE || connections[at].receiver != NO_END) connections[kept++] = connections[at];
  }
  connection_count = kept;
}

static void change_state(channel_t *c, uint64_t state) {
  if (c->state == state) return;
  c->state = state;
  c->has_hint = 0;
}

/* Whether the channel takes no messages. */
static int is_closed(const connection_t *c, size_t channel) { return c->channels[channel].state == IOX2PS_CHANNEL_STATE_CLOSED; }

/* What waits goes, in each channel. */
static void drop_waiting(connection_t *c) {
  for (size_t channel = 0; channel < CHANNELS; channel++) c->waiting[channel].count = 0;
}

/* How many messages there are in the connection. */
static size_t load_of(const connection_t *c) {
  size_t load = c->borrowed;
  for (size_t channel = 0; channel < CHANNELS; channel++) load += c->waiting[channel].count;
  return load;
}

/* ---- the model: updates */

static size_t buffer_of(const subscriber_t *q) { return q->port.buffer_size ? q->port.buffer_size : 1; }

static void connect_sender(const publisher_t *p, const subscriber_t *q, size_t place) {
  connection_t *c = connection(p, q);
  c->sender_place = place;
  if (is_closed(c, 0)) {
    histories_kept_back += p->history.count > 0;
    return;
  }
  for (size_t at = 0; at < p->history.count; at++) push(&c->waiting[0], p->history.values[at], buffer_of(q));
}

static void update_publisher(publisher_t *p) {
  for (size_t place = 0; p->is_due && place < config.max_subscribers; place++) {
    const subscriber_t *q = &subscribers[place];
    connection_t *end = sender_end(p, place);
    if (end && q->is_there && end->subscriber == q->port.id.low) {
      if (!q->is_open) drop_waiting(end);
      continue;
    }
    if (end) {
      drop_waiting(end);
      end->sender_place = NOWHERE;
    }
    if (q->is_there && q->is_open) connect_sender(p, q, place);
  }
  p->is_due = 0;
  forget_connections();
}

/* Of the expired ones that have nothing borrowed, the one that was kept first: it goes first. */
static connection_t *first_to_go(const subscriber_t *q) {
  connection_t *first = NULL;
  for (EACH_OF(q, c)) {
    if (c->receiver == EXPIRED && c->borrowed == 0 && (!first || c->entry < first->entry)) first = c;
  }
  return first;
}

/* The end at a place that a closed publisher left goes among the expired ones, as far as there is room. */
static int retire(const subscriber_t *q, connection_t *end) {
  size_t expired = 0, room = config.subscriber_expired_connection_buffer;
  if (room < config.subscriber_max_borrowed_samples) room = config.subscriber_max_borrowed_samples;
  for (EACH_OF(q, c)) expired += c->receiver == EXPIRED;
  if (expired >= room) {
    connection_t *leaves = end->borrowed ? first_to_go(q) : end;
    if (!leaves) return 0;
    drop_waiting(leaves);
    leaves->receiver = NO_END;
    if (leaves == end) return 1;
  }
  end->receiver = EXPIRED;
  end->entry = ++expired_entries;
  return 1;
}

/* Whether the subscriber has room for all closed publishers that it has messages of. */
static int update_subscriber(subscriber_t *q) {
  int has_room = 1;
  for (int connects = 1; q->is_due && connects >= 0; connects--) {
    for (size_t place = 0; place < config.max_publishers; place++) {
      const publisher_t *p = &publishers[place];
      connection_t *end = receiver_end(q, place);
      if (p->is_open != connects || (end && p->is_open && end->publisher == p->port.id.low)) continue;
      if (end && !retire(q, end)) {
        has_room = 0;
      } else if (p->is_open) {
        connection_t *c = connection(p, q);
        c->receiver = AT_PLACE;
        c->receiver_place = place;
      }
    }
  }
  q->is_due = q->is_due && !has_room;
  forget_connections();
  return has_room;
}

/* ---- the model: closes and releases */

/* It forgets each closed publisher that it has no message of. */
static void prune(const subscriber_t *q) {
  for (EACH_OF(q, c)) {
    if (!publisher_of(c->publisher) && load_of(c) == 0) c->receiver = NO_END;
  }
}

static void publishers_are_due(void) {
  for (size_t at = 0; at < PLACES; at++) publishers[at].is_due = 1;
}

static void subscribers_are_due(void) {
  for (size_t at = 0; at < PLACES; at++) subscribers[at].is_due = 1;
}

static void free_if_unused(subscriber_t *q) {
  prune(q);
  if (q->is_open) return;
  for (EACH_OF(q, c)) {
    if (c->borrowed) return;
  }
  for (EACH_OF(q, c)) c->receiver = NO_END;
  q->is_there = 0;
  publishers_are_due();
}

static void publisher_closes(publisher_t *p) {
  p->is_open = 0;
  for (size_t at = 0; at < connection_count; at++) {
    connection_t *c = &connections[at];
    if (c->publisher != p->port.id.low) continue;
    const subscriber_t *q = subscriber_of(c->subscriber);
    if (!q || !q->is_open || c->receiver == NO_END) drop_waiting(c);
    c->sender_place = NOWHERE;
  }
  for (size_t at = 0; at < PLACES; at++) prune(&subscribers[at]);
  subscribers_are_due();
  forget_connections();
}

static void subscriber_closes(subscriber_t *q) {
  q->is_open = 0;
  for (EACH_OF(q, c)) {
    if (!publisher_of(c->publisher)) drop_waiting(c);
  }
  publishers_are_due();
  free_if_unused(q);
  forget_connections();
}

/* ---- calls, each with what the model says */

static void is_code(iox2ps_status_t code, iox2ps_status_t wanted) {
  if (code == wanted) {
    not_live += code == IOX2PS_NOT_LIVE;
    return;
  }
  fprintf(stderr, "a call returns %s, and not %s\n", iox2ps_error_text(code), iox2ps_error_text(wanted));
  exit(1);
}

static void is_so(int holds, const char *otherwise) {
  if (!holds) fail(otherwise);
}

static publisher_t *any_publisher(void) { return &publishers[below(config.max_publishers)]; }
static subscriber_t *any_subscriber(void) { return &subscribers[below(config.max_subscribers)]; }

static void create_publisher(iox2ps_domain_t *domain) {
  iox2ps_publisher_options_t options;
  iox2ps_publisher_t port;
  size_t place = 0;
  while (place < config.max_publishers && publishers[place].is_open) place++;
  iox2ps_publisher_options_of(&config, &options);
  options.backpressure_strategy = one_in(2) ? IOX2PS_DISCARD_DATA : IOX2PS_RETRY_UNTIL_DELIVERED;
  iox2ps_status_t code = iox2ps_publisher_create_with(domain, &options, &port);
  if (place == config.max_publishers) {
    is_code(code, IOX2PS_PUBLISHER_CREATE_ERROR_EXCEEDS_MAX_SUPPORTED_PUBLISHERS);
    return;
  }
  is_code(code, IOX2PS_OK);
  is_so(id_of(port.id) == next_port++, "a port has another id");
  publishers[place] = (publisher_t){.port = port, .is_open = 1, .is_due = 1};
  publishers[place].retries = options.backpressure_strategy == IOX2PS_RETRY_UNTIL_DELIVERED;
  subscribers_are_due();
  update_publisher(&publishers[place]);
}

static void create_subscriber(iox2ps_domain_t *domain) {
  iox2ps_subscriber_options_t options;
  iox2ps_subscriber_t port;
  size_t place = 0;
  while (place < config.max_subscribers && subscribers[place].is_there) place++;
  iox2ps_subscriber_options_of(&config, &options);
  options.buffer_size = below(config.subscriber_max_buffer_size + 1);
  iox2ps_status_t code = iox2ps_subscriber_create_with(domain, &options, &port);
  if (place == config.max_subscribers) {
    is_code(code, IOX2PS_SUBSCRIBER_CREATE_ERROR_EXCEEDS_MAX_SUPPORTED_SUBSCRIBERS);
    return;
  }
  is_code(code, IOX2PS_OK);
  is_so(id_of(port.id) == next_port++, "a port has another id");
  subscribers[place] = (subscriber_t){port, 1, 1, 1};
  publishers_are_due();
  update_subscriber(&subscribers[place]);
}

static void close_publisher(iox2ps_domain_t *domain) {
  publisher_t *p = any_publisher();
  iox2ps_status_t code = iox2ps_publisher_close(domain, &p->port);
  is_code(code, !p->is_open ? IOX2PS_NOT_LIVE : p->is_blocked ? IOX2PS_PUBLISHER_IS_BLOCKED : IOX2PS_OK);
  if (code == IOX2PS_OK) publisher_closes(p);
}

static void close_subscriber(iox2ps_domain_t *domain) {
  subscriber_t *q = any_subscriber();
  iox2ps_status_t code = iox2ps_subscriber_close(domain, &q->port);
  is_code(code, q->is_open ? IOX2PS_OK : IOX2PS_NOT_LIVE);
  if (code == IOX2PS_OK) subscriber_closes(q);
}

/* The message comes to the subscribers from that place up to its last one, until one has no room and is waited for. */
static iox2ps_status_t deliver(publisher_t *p, size_t place) {
  p->is_blocked = 0;
  for (; place < config.max_subscribers && place < p->end; place++) {
    connection_t *c = sender_end(p, place);
    const subscriber_t *q = c ? subscriber_of(c->subscriber) : NULL;
    if (!q || !q->is_open) continue;
    if (is_closed(c, p->channel)) {
      passed_over++;
      continue;
    }
    queue_t *waiting = &c->waiting[p->channel];
    if (waiting->count == buffer_of(q) && !config.enable_safe_overflow) {
      if (!p->retries) continue;
      p->is_blocked = 1;
      p->place = place;
      return IOX2PS_BLOCKED;
    }
    in_other_channels += p->channel > 0;
    push(waiting, p->message, buffer_of(q));
    p->count++;
  }
  return IOX2PS_OK;
}

static void send_copy(iox2ps_domain_t *domain) {
  publisher_t *p = any_publisher();
  uint64_t value = ++last_value;
  size_t receivers = 99;
  iox2ps_blocked_t blocked;
  iox2ps_status_t code = iox2ps_publisher_send_copy(domain, &p->port, &value, sizeof value, &receivers, &blocked);
  if (!p->is_open || p->is_blocked) {
    is_code(code, p->is_open ? IOX2PS_PUBLISHER_IS_BLOCKED : IOX2PS_NOT_LIVE);
    return;
  }
  update_publisher(p);
  push(&p->history, value, config.history_size);
  p->message = value;
  p->channel = 0;
  p->end = config.max_subscribers;
  p->count = 0;
  is_code(code, deliver(p, 0));
  if (code == IOX2PS_BLOCKED) p->blocked = blocked;
  else is_so(receivers == p->count, "a message has another number of receivers");
}

static void end_blocked(iox2ps_domain_t *domain) {
  publisher_t *p = any_publisher();
  size_t receivers = 99, was = p->place;
  int gives_up = one_in(3), was_blocked = p->is_blocked;
  iox2ps_status_t code = gives_up ? iox2ps_blocked_give_up(domain, &p->blocked, &receivers)
                                  : iox2ps_blocked_retry(domain, &p->blocked, next(), &receivers);
  if (!was_blocked) {
    is_code(code, IOX2PS_NOT_LIVE);
    return;
  }
  const connection_t *c = sender_end(p, was);
  waits_ended += !gives_up && c && is_closed(c, p->channel);
  is_code(code, deliver(p, was + (gives_up ? 1 : 0)));
  if (code == IOX2PS_OK) is_so(receivers == p->count, "a message has another number of receivers");
}

static int may_receive(const connection_t *c, enum end from) {
  return c->receiver == from && c->waiting[0].count && c->borrowed < config.subscriber_max_borrowed_samples;
}

/* What a receive returns after its update: a message comes from an expired publisher, if it can, and else from another one. */
static iox2ps_status_t receivable(const subscriber_t *q, enum end *from) {
  size_t waiting = 0;
  for (*from = EXPIRED; *from != NO_END; *from = *from == EXPIRED ? AT_PLACE : NO_END) {
    for (EACH_OF(q, c)) {
      if (may_receive(c, *from)) return IOX2PS_OK;
      waiting += c->waiting[0].count;
    }
  }
  return waiting ? IOX2PS_RECEIVE_ERROR_EXCEEDS_MAX_BORROWS : IOX2PS_NO_SAMPLE;
}

static void is_received(const subscriber_t *q, enum end from, const iox2ps_sample_t *sample, uint64_t value) {
  for (EACH_OF(q, c)) {
    if (c->publisher != id_of(sample->origin)) continue;
    is_so(may_receive(c, from) && c->waiting[0].values[0] == value, "another message is received");
    queue_t *waiting = &c->waiting[0];
    memmove(waiting->values, waiting->values + 1, --waiting->count * sizeof value);
    c->borrowed++;
    is_so(sample_count < SAMPLES, "more is borrowed than the settings allow");
    samples[sample_count++] = (sample_t){*sample, c->publisher, c->subscriber};
    return;
  }
  fail("a message comes from nowhere");
}

static void receive(iox2ps_domain_t *domain) {
  subscriber_t *q = any_subscriber();
  iox2ps_sample_t sample;
  const void *bytes;
  size_t len;
  uint64_t value;
  enum end from;
  iox2ps_status_t code = iox2ps_subscriber_receive(domain, &q->port, &sample, &bytes, &len);
  if (!q->is_open) {
    is_code(code, IOX2PS_NOT_LIVE);
  } else if (!update_subscriber(q)) {
    is_code(code, IOX2PS_RECEIVE_ERROR_CONNECTION_EXPIRED_BUFFER_FULL);
  } else {
    is_code(code, receivable(q, &from));
    if (code != IOX2PS_OK) return;
    memcpy(&value, bytes, sizeof value);
    is_received(q, from, &sample, value);
  }
}

static void release(iox2ps_domain_t *domain) {
  if (sample_count == 0) return;
  sample_t *sample = &samples[below(sample_count)];
  is_code(iox2ps_sample_release(domain, &sample->handle), IOX2PS_OK);
  subscriber_t *q = subscriber_of(sample->subscriber);
  is_so(q != NULL, "a subscriber went before its samples");
  for (EACH_OF(q, c)) c->borrowed -= c->publisher == sample->publisher;
  *sample = samples[--sample_count];
  free_if_unused(q);
  forget_connections();
}

static void has_samples(iox2ps_domain_t *domain) {
  subscriber_t *q = any_subscriber();
  uint32_t waits = 9, wanted = 0;
  iox2ps_status_t code = iox2ps_subscriber_has_samples(domain, &q->port, &waits);
  if (!q->is_open) {
    is_code(code, IOX2PS_NOT_LIVE);
    return;
  }
  is_code(code, update_subscriber(q) ? IOX2PS_OK : IOX2PS_CONNECTION_FAILURE_EXPIRED_BUFFER_FULL);
  for (EACH_OF(q, c)) wanted |= c->waiting[0].count > 0;
  if (code == IOX2PS_OK) is_so(waits == wanted, "another answer whether a message waits");
}

static void update(iox2ps_domain_t *domain) {
  publisher_t *p = any_publisher();
  iox2ps_status_t code = iox2ps_publisher_update_connections(domain, &p->port);
  is_code(code, !p->is_open ? IOX2PS_NOT_LIVE : p->is_blocked ? IOX2PS_PUBLISHER_IS_BLOCKED : IOX2PS_OK);
  if (code == IOX2PS_OK) update_publisher(p);
  subscriber_t *q = any_subscriber();
  code = iox2ps_subscriber_update_connections(domain, &q->port);
  if (!q->is_open) is_code(code, IOX2PS_NOT_LIVE);
  else is_code(code, update_subscriber(q) ? IOX2PS_OK : IOX2PS_CONNECTION_FAILURE_EXPIRED_BUFFER_FULL);
}

/* ---- calls on channels */

static size_t channel_count(void) { return config.number_of_channels ? config.number_of_channels : 1; }
static size_t any_channel(void) { return one_in(20) ? (one_in(2) ? channel_count() : (size_t)next()) : below(channel_count()); }
static size_t any_place(void) { return one_in(20) ? (size_t)next() : below(config.max_subscribers + 1); }

/* A state that a channel has, more often than not. */
static uint64_t any_state(void) {
  const uint64_t some[] = {IOX2PS_CHANNEL_STATE_OPEN, IOX2PS_CHANNEL_STATE_CLOSED, 1, 2, IOX2PS_CHANNEL_STATE_CLOSED - 1};
  if (connection_count && one_in(2)) return connections[below(connection_count)].channels[below(channel_count())].state;
  return one_in(20) ? next() : some[below(5)];
}

/* Whether the model has an answer to a call on a channel of a port, which has to be of that opinion. */
static int is_answered(iox2ps_status_t code, int is_live, size_t channel) {
  channel_calls++;
  is_code(code, !is_live ? IOX2PS_NOT_LIVE : channel < channel_count() ? IOX2PS_OK : IOX2PS_NO_SUCH_CHANNEL);
  return code == IOX2PS_OK;
}

static void set_channel_state(iox2ps_domain_t *domain) {
  subscriber_t *q = any_subscriber();
  size_t channel = any_channel();
  uint64_t state = any_state();
  uint32_t answer = 1, were_closed = 1;
  iox2ps_status_t code = iox2ps_subscriber_set_channel_state(domain, &q->port, channel, state, &answer);
  if (!is_answered(code, q->is_open, channel)) return;
  for (EACH_OF(q, c)) {
    if (c->channels[channel].state == IOX2PS_CHANNEL_STATE_CLOSED) change_state(&c->channels[channel], state);
    else were_closed = 0;
  }
  is_so(answer == were_closed, "another answer whether all channels were closed");
}

static void close_channels(iox2ps_domain_t *domain) {
  subscriber_t *q = any_subscriber();
  size_t channel = any_channel();
  uint64_t expected = any_state();
  iox2ps_status_t code = iox2ps_subscriber_close_channel(domain, &q->port, channel, expected);
  if (!is_answered(code, q->is_open, channel)) return;
  for (EACH_OF(q, c)) {
    if (c->channels[channel].state == expected) change_state(&c->channels[channel], IOX2PS_CHANNEL_STATE_CLOSED);
  }
}

static void set_hints(iox2ps_domain_t *domain) {
  subscriber_t *q = any_subscriber();
  size_t channel = any_channel();
  uint64_t expected = any_state();
  iox2ps_status_t code = iox2ps_subscriber_set_disconnect_hint(domain, &q->port, channel, expected);
  if (!is_answered(code, q->is_open, channel)) return;
  for (EACH_OF(q, c)) {
    if (c->channels[channel].state == expected) c->channels[channel].has_hint = 1;
  }
}

static void close_channel(iox2ps_domain_t *domain) {
  publisher_t *p = any_publisher();
  size_t channel = any_channel(), place = any_place();
  uint64_t expected = any_state();
  iox2ps_status_t code = iox2ps_publisher_close_channel(domain, &p->port, channel, place, expected);
  if (!is_answered(code, p->is_open, channel)) return;
  connection_t *c = place < config.max_subscribers ? sender_end(p, place) : NULL;
  if (c && c->channels[channel].state == expected) change_state(&c->channels[channel], IOX2PS_CHANNEL_STATE_CLOSED);
}

/* Lends a message to be sent to one connection, now or later. */
static int has_loan(iox2ps_domain_t *domain, publisher_t *p) {
  void *payload;
  if (p->has_loan) return 1;
  iox2ps_status_t code = iox2ps_publisher_loan(domain, &p->port, sizeof p->lent, &p->loan, &payload);
  is_code(code, !p->is_open ? IOX2PS_NOT_LIVE : p->is_blocked ? IOX2PS_PUBLISHER_IS_BLOCKED : IOX2PS_OK);
  if (code != IOX2PS_OK) return 0;
  p->lent = ++last_value;
  memcpy(payload, &p->lent, sizeof p->lent);
  p->has_loan = 1;
  return 1;
}

static void send_to_connection(iox2ps_domain_t *domain) {
  publisher_t *p = any_publisher();
  size_t channel = any_channel(), place = any_place(), receivers = 99;
  iox2ps_blocked_t blocked;
  if (!has_loan(domain, p) || one_in(4)) return;
  iox2ps_status_t code = iox2ps_loan_deliver_offset_to_connection(domain, &p->loan, channel, place, &receivers, &blocked);
  if (!is_answered(code == IOX2PS_NO_SUCH_CHANNEL ? code : IOX2PS_OK, 1, channel)) return;
  if (!p->is_open) {
    is_code(code, IOX2PS_SEND_ERROR_CONNECTION_BROKEN_SINCE_SENDER_NO_LONGER_EXISTS);
    loans_lost++;
    p->has_loan = 0;
    return;
  }
  if (p->is_blocked) {
    is_code(code, IOX2PS_PUBLISHER_IS_BLOCKED);
    return;
  }
  p->has_loan = 0;
  p->message = p->lent;
  p->channel = channel;
  p->end = place < config.max_subscribers ? place + 1 : 0;
  p->count = 0;
  is_code(code, deliver(p, place));
  if (code == IOX2PS_BLOCKED) p->blocked = blocked;
  else is_so(receivers == p->count, "a message to one connection has another number of receivers");
}

static void some_has_state(iox2ps_domain_t *domain, const subscriber_t *q, size_t channel, uint64_t state) {
  uint32_t answer = 0, wanted = 0;
  iox2ps_status_t code = iox2ps_subscriber_at_least_one_channel_has_state(domain, &q->port, channel, state, &answer);
  if (!is_answered(code, q->is_open, channel)) return;
  for (EACH_OF(q, c)) wanted |= c->channels[channel].state == state;
  is_so(answer == wanted, "another answer whether some channel is in a state");
}

static void has_state(iox2ps_domain_t *domain, const publisher_t *p, size_t channel, size_t place, uint64_t state) {
  uint32_t is_in = 0, is_hinted = 0;
  const connection_t *c = place < config.max_subscribers ? sender_end(p, place) : NULL;
  iox2ps_status_t code = iox2ps_publisher_has_channel_state(domain, &p->port, channel, place, state, &is_in);
  if (!is_answered(code, p->is_open, channel)) return;
  is_so(is_in == (c && c->channels[channel].state == state), "another answer whether a channel is in a state");
  code = iox2ps_publisher_has_disconnect_hint(domain, &p->port, channel, place, state, &is_hinted);
  is_answered(code, p->is_open, channel);
  is_so(is_hinted == (is_in && c->channels[channel].has_hint), "another answer whether a channel has a hint");
}

static void connection_of(iox2ps_domain_t *domain, const publisher_t *p, const subscriber_t *q) {
  size_t place = NOWHERE, wanted = NOWHERE;
  for (size_t at = 0; at < config.max_subscribers; at++) {
    const connection_t *c = sender_end(p, at);
    if (c && c->subscriber == q->port.id.low) wanted = at;
  }
  iox2ps_status_t code = iox2ps_publisher_get_connection_id_of(domain, &p->port, &q->port.id, &place);
  channel_calls++;
  is_code(code, !p->is_open ? IOX2PS_NOT_LIVE : wanted == NOWHERE ? IOX2PS_NO_CONNECTION : IOX2PS_OK);
  is_so(place == wanted, "a connection has another name");
}

/* All channels are as the model says, whoever asks. */
static void look_at_all_channels(iox2ps_domain_t *domain) {
  for (size_t of = 0; of < config.max_publishers; of++) {
    for (size_t place = 0; place < config.max_subscribers; place++) {
      const connection_t *c = sender_end(&publishers[of], place);
      for (size_t channel = 0; channel < channel_count(); channel++) {
        has_state(domain, &publishers[of], channel, place, c ? c->channels[channel].state : IOX2PS_CHANNEL_STATE_OPEN);
      }
      connection_of(domain, &publishers[of], &subscribers[place]);
    }
  }
  for (size_t of = 0; of < config.max_subscribers; of++) {
    for (EACH_OF(&subscribers[of], c)) {
      for (size_t channel = 0; channel < channel_count(); channel++) {
        some_has_state(domain, &subscribers[of], channel, c->channels[channel].state);
      }
    }
  }
}

static void call(iox2ps_domain_t *domain) {
  size_t which = below(100);
  if (which < 5) create_publisher(domain);
  else if (which < 10) create_subscriber(domain);
  else if (which < 12) close_publisher(domain);
  else if (which < 14) close_subscriber(domain);
  else if (which < 22) send_copy(domain);
  else if (which < 26) send_to_connection(domain);
  else if (which < 30) end_blocked(domain);
  else if (which < 40) receive(domain);
  else if (which < 46) release(domain);
  else if (which < 48) has_samples(domain);
  else if (which < 50) update(domain);
  else if (which < 58) set_channel_state(domain);
  else if (which < 66) close_channels(domain);
  else if (which < 70) send_to_connection(domain);
  else if (which < 76) set_hints(domain);
  else if (which < 86) close_channel(domain);
  else if (which < 91) some_has_state(domain, any_subscriber(), any_channel(), any_state());
  else has_state(domain, any_publisher(), any_channel(), any_place(), any_state());
}

static void choose_settings(void) {
  iox2ps_config_defaults(&config, 1, 8, 8);
  config.max_publishers = 1 + below(3);
  config.max_subscribers = 1 + below(PLACES);
  config.subscriber_max_buffer_size = below(4);
  config.subscriber_max_borrowed_samples = 1 + below(3);
  config.history_size = below(4);
  config.number_of_channels = below(CHANNELS + 1);
  config.subscriber_expired_connection_buffer = below(4);
  config.enable_safe_overflow = (uint32_t)below(2);
}

int main(int count, char **arguments) {
  iox2ps_domain_t domain = IOX2PS_DOMAIN_INIT;
  if (count != 3 && count != 4) fail("usage: random_channels SEED CALLS [RECORDING]");
  random_state = strtoull(arguments[1], NULL, 10);
  size_t calls = strtoull(arguments[2], NULL, 10), on_channels = 0, by_nothing = 0;
  choose_settings();
  is_code(count == 4 ? iox2ps_domain_create_recorded(&domain, &config, 100 * calls, 8) : iox2ps_domain_create(&domain, &config), IOX2PS_OK);
  for (size_t i = 0; i < calls; i++) {
    channel_calls = not_live = 0;
    call(&domain);
    on_channels += channel_calls > 0;
    by_nothing += not_live > 0;
    look_at_all_channels(&domain);
  }
  if (count == 4) is_so(write_recording(&domain, arguments[3]), "the recording can't be written");
  is_code(iox2ps_domain_destroy(&domain), IOX2PS_OK);
  printf("%zu calls, %zu of them on channels, and %zu by numbers of nothing; closed channels let %zu messages pass, end %zu waits "
         "and keep %zu histories back; %zu messages go into other channels, and %zu loans are lost\n",
         calls, on_channels, by_nothing, passed_over, waits_ended, histories_kept_back, in_other_channels, loans_lost);
  return 0;
}
