// SPDX-License-Identifier: Apache-2.0 OR MIT
/* The calls of iox2_pubsub.h on channels. Of a domain of one process each is the proved function itself. */
#include "proved_calls.h"
#include "shared_domain.h"

static iox2ps_status_t call_subscriber(shared_domain_t *shared, domain_operation_t operation, const iox2ps_subscriber_t *subscriber, size_t channel, uint64_t state) {
  uint64_t arguments[CALL_ARGUMENTS], *words = arguments + 1;
  bool may_be_live = words_of_subscriber(subscriber, shared->service_id, words);
  words[SUBSCRIBER_CHANNEL] = channel, words[SUBSCRIBER_STATE] = state;
  return shared_domain_call_of(shared, operation, may_be_live, arguments);
}

iox2ps_status_t iox2ps_subscriber_set_channel_state(iox2ps_domain_t *domain, const iox2ps_subscriber_t *subscriber, size_t channel, uint64_t state, uint32_t *were_closed) {
  shared_domain_t *shared = shared_domain_of(domain);
  if (shared == NULL) return iox2ps_proved_subscriber_set_channel_state(domain, subscriber, channel, state, were_closed);
  iox2ps_status_t code = call_subscriber(shared, SUBSCRIBER_SET_CHANNEL, subscriber, channel, state);
  if (code == IOX2PS_OK) *were_closed = (uint32_t)shared_domain_reply(shared)->count;
  return code;
}

iox2ps_status_t iox2ps_subscriber_close_channel(iox2ps_domain_t *domain, const iox2ps_subscriber_t *subscriber, size_t channel, uint64_t expected) {
  shared_domain_t *shared = shared_domain_of(domain);
  if (shared == NULL) return iox2ps_proved_subscriber_close_channel(domain, subscriber, channel, expected);
  return call_subscriber(shared, SUBSCRIBER_CLOSE_CHANNEL, subscriber, channel, expected);
}

iox2ps_status_t iox2ps_subscriber_set_disconnect_hint(iox2ps_domain_t *domain, const iox2ps_subscriber_t *subscriber, size_t channel, uint64_t expected) {
  shared_domain_t *shared = shared_domain_of(domain);
  if (shared == NULL) return iox2ps_proved_subscriber_set_disconnect_hint(domain, subscriber, channel, expected);
  return call_subscriber(shared, SUBSCRIBER_SET_HINT, subscriber, channel, expected);
}

iox2ps_status_t iox2ps_publisher_close_channel(iox2ps_domain_t *domain, const iox2ps_publisher_t *publisher, size_t channel, size_t connection, uint64_t expected) {
  shared_domain_t *shared = shared_domain_of(domain);
  if (shared == NULL) return iox2ps_proved_publisher_close_channel(domain, publisher, channel, connection, expected);
  uint64_t arguments[CALL_ARGUMENTS], *words = arguments + 1;
  bool may_be_live = words_of_publisher(publisher, shared->service_id, words);
  words[PUBLISHER_CHANNEL] = channel, words[PUBLISHER_CONNECTION] = connection, words[PUBLISHER_STATE] = expected;
  return shared_domain_call_of(shared, PUBLISHER_CLOSE_CHANNEL, may_be_live, arguments);
}

iox2ps_status_t iox2ps_loan_deliver_offset_to_connection_counted(iox2ps_domain_t *domain, const iox2ps_loan_t *loan, size_t channel, size_t connection, size_t *receivers, iox2ps_blocked_t *blocked) {
  shared_domain_t *shared = shared_domain_of(domain);
  if (shared == NULL) return iox2ps_proved_loan_deliver_offset_to_connection_counted(domain, loan, channel, connection, receivers, blocked);
  uint64_t arguments[CALL_ARGUMENTS], *words = arguments + 1;
  bool may_be_live = words_of_loan(loan, shared->service_id, words);
  words[DELIVER_WORD] = deliver_word(channel, connection);
  iox2ps_status_t code = shared_domain_end(shared, LOAN_DELIVER, may_be_live, arguments);
  if (code == IOX2PS_OK) *receivers = shared_domain_reply(shared)->count;
  if (code == IOX2PS_BLOCKED) blocked_of_words(shared_domain_reply(shared)->handle, shared->service_id, blocked);
  return code;
}
