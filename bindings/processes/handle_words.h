// SPDX-License-Identifier: Apache-2.0 OR MIT
/* Handles as the words that an entry of the list has room for. They leave out what is the same for all that is live in a domain:
 * its service_id, and the upper half of each number, which is 0 until a domain has had 2^64 ports or messages. A handle in which
 * either is otherwise names nothing that is live. */
#ifndef IOX2PS_HANDLE_WORDS_H
#define IOX2PS_HANDLE_WORDS_H

#include "iox2_pubsub.h"
#include "live_handles.h"

static inline void handle_words_put(uint64_t words[HANDLE_WORDS], uint64_t a, uint64_t b, uint64_t c, uint64_t d, uint64_t e, uint64_t f) {
  words[0] = a, words[1] = b, words[2] = c, words[3] = d, words[4] = e, words[5] = f;
}
static inline bool handle_words_may_be_live(iox2ps_wide_t id, iox2ps_wide_t service_id, uint64_t upper_halves) {
  return ((id.low ^ service_id.low) | (id.high ^ service_id.high) | upper_halves) == 0;
}
static inline iox2ps_wide_t handle_words_wide(uint64_t low) { return (iox2ps_wide_t){.low = low}; }

/* False where the handle names nothing that can be live in the domain with this service_id. */
static inline bool words_of_publisher(const iox2ps_publisher_t *it, iox2ps_wide_t service_id, uint64_t words[HANDLE_WORDS]) {
  handle_words_put(words, it->id.low, it->place_, it->initial_max_slice_len, it->backpressure_strategy, 0, 0);
  return handle_words_may_be_live(it->service_id, service_id, it->id.high);
}

static inline bool words_of_subscriber(const iox2ps_subscriber_t *it, iox2ps_wide_t service_id, uint64_t words[HANDLE_WORDS]) {
  handle_words_put(words, it->id.low, it->place_, it->buffer_size, 0, 0, 0);
  return handle_words_may_be_live(it->service_id, service_id, it->id.high);
}

static inline bool words_of_loan(const iox2ps_loan_t *it, iox2ps_wide_t service_id, uint64_t words[HANDLE_WORDS]) {
  handle_words_put(words, it->publisher.low, it->number.low, it->place_, it->book_, it->slot_, 0);
  return handle_words_may_be_live(it->service_id, service_id, it->publisher.high | it->number.high);
}

static inline bool words_of_blocked(const iox2ps_blocked_t *it, iox2ps_wide_t service_id, uint64_t words[HANDLE_WORDS]) {
  handle_words_put(words, it->publisher.low, it->number.low, it->place_, it->book_, it->slot_, 0);
  return handle_words_may_be_live(it->service_id, service_id, it->publisher.high | it->number.high);
}

/* No call asks for the origin, so that its upper half needn't be 0. */
static inline bool words_of_sample(const iox2ps_sample_t *it, iox2ps_wide_t service_id, uint64_t words[HANDLE_WORDS]) {
  handle_words_put(words, it->origin.low, it->subscriber.low, it->number.low, it->connection_, it->book_, it->slot_);
  return handle_words_may_be_live(it->service_id, service_id, it->subscriber.high | it->number.high);
}

static inline void publisher_of_words(const uint64_t words[HANDLE_WORDS], iox2ps_wide_t service_id, iox2ps_publisher_t *it) {
  it->service_id = service_id, it->id = handle_words_wide(words[0]);
  it->place_ = words[1], it->initial_max_slice_len = words[2], it->backpressure_strategy = (uint32_t)words[3], it->reserved_ = 0;
}

static inline void subscriber_of_words(const uint64_t words[HANDLE_WORDS], iox2ps_wide_t service_id, iox2ps_subscriber_t *it) {
  it->service_id = service_id, it->id = handle_words_wide(words[0]), it->place_ = words[1], it->buffer_size = words[2];
}

static inline void loan_of_words(const uint64_t words[HANDLE_WORDS], iox2ps_wide_t service_id, iox2ps_loan_t *it) {
  it->service_id = service_id, it->publisher = handle_words_wide(words[0]), it->number = handle_words_wide(words[1]);
  it->place_ = words[2], it->book_ = words[3], it->slot_ = words[4];
}

static inline void blocked_of_words(const uint64_t words[HANDLE_WORDS], iox2ps_wide_t service_id, iox2ps_blocked_t *it) {
  it->service_id = service_id, it->publisher = handle_words_wide(words[0]), it->number = handle_words_wide(words[1]);
  it->place_ = words[2], it->book_ = words[3], it->slot_ = words[4];
}

static inline void sample_of_words(const uint64_t words[HANDLE_WORDS], iox2ps_wide_t service_id, iox2ps_sample_t *it) {
  it->service_id = service_id, it->origin = handle_words_wide(words[0]), it->subscriber = handle_words_wide(words[1]), it->number = handle_words_wide(words[2]);
  it->connection_ = words[3], it->book_ = words[4], it->slot_ = words[5];
}

#endif
