// SPDX-License-Identifier: Apache-2.0 OR MIT
/* All operations. The four of a message are inline, so that domain_memory.c compiles each with what it notes of it. */
#ifndef IOX2PS_DOMAIN_OPERATIONS_H
#define IOX2PS_DOMAIN_OPERATIONS_H

#include "domain_calls.h"
#include "proved_calls.h"

domain_make_t domain_refuse, domain_make_publisher, domain_make_publisher_with, domain_close_publisher, domain_update_publisher,
  domain_discard, domain_retry, domain_give_up, domain_make_subscriber, domain_make_subscriber_with, domain_close_subscriber,
  domain_update_subscriber, domain_has_samples, domain_deliver, domain_close_channel_of_publisher, domain_set_channel, domain_close_channel,
  domain_set_hint, domain_leave;

/* A message of no bytes lies at an address of the program, which isn't the same in each process. */
static inline char *domain_payload(const void *payload, size_t len) { return len == 0 ? NULL : (char *)(uintptr_t)payload; }

/* The four of a message begin with it behind the proved call, so that nothing has to be read again. */
ALWAYS_INLINE void domain_reply_nothing(domain_reply_t *reply) { reply->count = 0, reply->payload = NULL; }

/* The handle that one of the four is given, where another process' words say it. They are all of it that a call reads: so whoever makes
 * the call takes its program's own. */
typedef union given_handle_t {
  iox2ps_publisher_t publisher;
  iox2ps_loan_t loan;
  iox2ps_subscriber_t subscriber;
  iox2ps_sample_t sample;
} given_handle_t;

ALWAYS_INLINE void given_handle_of_words(uint64_t operation, const uint64_t *words, iox2ps_wide_t id, given_handle_t *it) {
  switch (operation) {
  case PUBLISHER_LOAN: publisher_of_words(words, id, &it->publisher); break;
  case LOAN_SEND: loan_of_words(words, id, &it->loan); break;
  case SUBSCRIBER_RECEIVE: subscriber_of_words(words, id, &it->subscriber); break;
  default: sample_of_words(words, id, &it->sample);
  }
}

/* The bytes are left as they are, since archive_memory_fill is the archive's memset: whoever has the loan clears them, if it wants to. */
ALWAYS_INLINE iox2ps_status_t domain_lend(iox2ps_domain_t *domain, iox2ps_wide_t id, const iox2ps_publisher_t *publisher, size_t len, domain_reply_t *reply) {
  iox2ps_loan_t loan;
  void *payload;
  iox2ps_status_t code = iox2ps_proved_publisher_loan(domain, publisher, len, &loan, &payload);
  if (code != IOX2PS_OK) return domain_reply_nothing(reply), code;
  (void)words_of_loan(&loan, id, reply->handle);
  reply->payload = domain_payload(payload, len), reply->count = len;
  return code;
}

static inline iox2ps_status_t domain_sent(iox2ps_status_t code, size_t receivers, const iox2ps_blocked_t *blocked, iox2ps_wide_t id, domain_reply_t *reply) {
  if (code == IOX2PS_BLOCKED) (void)words_of_blocked(blocked, id, reply->handle);
  reply->count = receivers;
  return code;
}

ALWAYS_INLINE iox2ps_status_t domain_send(iox2ps_domain_t *domain, iox2ps_wide_t id, const iox2ps_loan_t *loan, domain_reply_t *reply) {
  iox2ps_blocked_t blocked;
  size_t receivers = 0;
  iox2ps_status_t code = iox2ps_proved_loan_send_counted(domain, loan, &receivers, &blocked);
  domain_reply_nothing(reply);
  return domain_sent(code, receivers, &blocked, id, reply);
}

ALWAYS_INLINE iox2ps_status_t domain_receive(iox2ps_domain_t *domain, iox2ps_wide_t id, const iox2ps_subscriber_t *subscriber, domain_reply_t *reply) {
  iox2ps_sample_t sample;
  const void *payload;
  size_t len;
  iox2ps_status_t code = iox2ps_proved_subscriber_receive(domain, subscriber, &sample, &payload, &len);
  if (code != IOX2PS_OK) return domain_reply_nothing(reply), code;
  (void)words_of_sample(&sample, id, reply->handle);
  reply->payload = domain_payload(payload, len), reply->count = len;
  return code;
}

ALWAYS_INLINE iox2ps_status_t domain_release(iox2ps_domain_t *domain, const iox2ps_sample_t *sample, domain_reply_t *reply) {
  iox2ps_status_t code = iox2ps_proved_sample_release(domain, sample);
  domain_reply_nothing(reply);
  return code;
}

/* The four of a message aren't made by their functions here. */
static const domain_traits_t DOMAIN_TRAITS[DOMAIN_OPERATIONS] = {
  [0] = {domain_refuse, 0, HANDLE_KINDS, HANDLE_KINDS},
  [PUBLISHER_CREATE] = {domain_make_publisher, IOX2PS_BRINGS_MESSAGE, HANDLE_PUBLISHER, HANDLE_KINDS},
  [PUBLISHER_CREATE_WITH] = {domain_make_publisher_with, IOX2PS_BRINGS_MESSAGE, HANDLE_PUBLISHER, HANDLE_KINDS},
  [PUBLISHER_CLOSE] = {domain_close_publisher, IOX2PS_BRINGS_MESSAGE, HANDLE_KINDS, HANDLE_PUBLISHER},
  [PUBLISHER_UPDATE] = {domain_update_publisher, IOX2PS_BRINGS_MESSAGE, HANDLE_KINDS, HANDLE_KINDS},
  [PUBLISHER_LOAN] = {domain_refuse, 0, HANDLE_LOAN, HANDLE_KINDS},
  [LOAN_SEND] = {domain_refuse, IOX2PS_BRINGS_MESSAGE | IOX2PS_BRINGS_LOAN, HANDLE_KINDS, HANDLE_LOAN},
  [LOAN_DISCARD] = {domain_discard, IOX2PS_BRINGS_LOAN, HANDLE_KINDS, HANDLE_LOAN},
  [BLOCKED_RETRY] = {domain_retry, IOX2PS_BRINGS_MESSAGE | IOX2PS_BRINGS_FREE | IOX2PS_BRINGS_LOAN, HANDLE_KINDS, HANDLE_BLOCKED},
  [BLOCKED_GIVE_UP] = {domain_give_up, IOX2PS_BRINGS_MESSAGE | IOX2PS_BRINGS_FREE | IOX2PS_BRINGS_LOAN, HANDLE_KINDS, HANDLE_BLOCKED},
  [SUBSCRIBER_CREATE] = {domain_make_subscriber, 0, HANDLE_SUBSCRIBER, HANDLE_KINDS},
  [SUBSCRIBER_CREATE_WITH] = {domain_make_subscriber_with, 0, HANDLE_SUBSCRIBER, HANDLE_KINDS},
  [SUBSCRIBER_CLOSE] = {domain_close_subscriber, IOX2PS_BRINGS_ROOM | IOX2PS_BRINGS_LOAN, HANDLE_KINDS, HANDLE_SUBSCRIBER},
  [SUBSCRIBER_UPDATE] = {domain_update_subscriber, 0, HANDLE_KINDS, HANDLE_KINDS},
  [SUBSCRIBER_HAS_SAMPLES] = {domain_has_samples, 0, HANDLE_KINDS, HANDLE_KINDS},
  [SUBSCRIBER_RECEIVE] = {domain_refuse, IOX2PS_BRINGS_ROOM, HANDLE_SAMPLE, HANDLE_KINDS},
  [SAMPLE_RELEASE] = {domain_refuse, IOX2PS_BRINGS_LOAN, HANDLE_KINDS, HANDLE_SAMPLE},
  [LOAN_DELIVER] = {domain_deliver, IOX2PS_BRINGS_MESSAGE | IOX2PS_BRINGS_LOAN, HANDLE_KINDS, HANDLE_LOAN},
  [PUBLISHER_CLOSE_CHANNEL] = {domain_close_channel_of_publisher, IOX2PS_BRINGS_ROOM, HANDLE_KINDS, HANDLE_KINDS},
  [SUBSCRIBER_SET_CHANNEL] = {domain_set_channel, 0, HANDLE_KINDS, HANDLE_KINDS},
  [SUBSCRIBER_CLOSE_CHANNEL] = {domain_close_channel, IOX2PS_BRINGS_ROOM, HANDLE_KINDS, HANDLE_KINDS},
  [SUBSCRIBER_SET_HINT] = {domain_set_hint, 0, HANDLE_KINDS, HANDLE_KINDS},
  [DOMAIN_LEAVE] = {domain_leave, IOX2PS_BRINGS_MESSAGE | IOX2PS_BRINGS_ROOM | IOX2PS_BRINGS_FREE | IOX2PS_BRINGS_LOAN, HANDLE_KINDS, HANDLE_KINDS},
  /* Made by event_numbers.h. */
  [LISTENER_CREATE] = {domain_refuse, 0, HANDLE_KINDS, HANDLE_KINDS},
  [LISTENER_CLOSE] = {domain_refuse, 0, HANDLE_KINDS, HANDLE_KINDS},
  [NOTIFY] = {domain_refuse, 0, HANDLE_KINDS, HANDLE_KINDS}
};

/* Of any number. Of one that is no operation nothing is brought, made or ended, and it is refused as a handle that isn't live is. */
static inline const domain_traits_t *domain_traits(uint64_t operation) { return &DOMAIN_TRAITS[operation < DOMAIN_OPERATIONS ? operation : 0]; }

/* What a call returned, and what it has brought to others. */
typedef struct domain_made_t { iox2ps_status_t code; uint32_t brought; } domain_made_t;

static inline domain_made_t domain_other(iox2ps_domain_t *domain, iox2ps_wide_t service_id, uint64_t operation, const uint64_t words[HANDLE_WORDS], domain_reply_t *reply) {
  domain_reply_nothing(reply);
  reply->brought = domain_traits(operation)->brings;
  iox2ps_status_t code = domain_traits(operation)->make(domain, service_id, words, reply);
  return (domain_made_t){code, iox2ps_brought_by(reply->brought, code)};
}

/* Makes a call on a domain with this service_id. `given`: the handle, of an operation of a message. */
ALWAYS_INLINE domain_made_t domain_make_given(iox2ps_domain_t *domain, iox2ps_wide_t service_id, uint64_t operation, const void *given,
                                              const uint64_t words[HANDLE_WORDS], domain_reply_t *reply) {
  iox2ps_status_t code;
  switch (operation) {
  case PUBLISHER_LOAN: code = domain_lend(domain, service_id, given, words[LENGTH_WORD], reply); break;
  case LOAN_SEND: code = domain_send(domain, service_id, given, reply); break;
  case SUBSCRIBER_RECEIVE: code = domain_receive(domain, service_id, given, reply); break;
  case SAMPLE_RELEASE: code = domain_release(domain, given, reply); break;
  default: return domain_other(domain, service_id, operation, words, reply);
  }
  uint32_t brings = domain_traits(operation)->brings;
  return (domain_made_t){code, code == IOX2PS_OK ? brings : iox2ps_brought_by(brings, code)};
}

/* The same by words alone, with the whole reply. */
static inline void domain_make(iox2ps_domain_t *domain, iox2ps_wide_t service_id, uint64_t operation, const uint64_t words[HANDLE_WORDS], domain_reply_t *reply) {
  given_handle_t given;
  given_handle_of_words(operation, words, service_id, &given);
  domain_made_t made = domain_make_given(domain, service_id, operation, &given, words, reply);
  reply->code = made.code, reply->brought = made.brought;
}

#endif
