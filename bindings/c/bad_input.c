// SPDX-License-Identifier: Apache-2.0 OR MIT
/* What a caller may get wrong: numbers that are copied, used twice, kept too long, made up or of another
 * domain; no domain, or a destroyed one; lengths and settings at their limits. Each call has to return its code
 * and to leave what its pointers point to; nothing may be lost or leak. It compiles as C and as C++. */
#include "checks.h"
#include <stdlib.h>

/* Where calls write, filled with a byte that no call writes there. */
typedef struct outs_t {
  iox2ps_publisher_t publisher;
  iox2ps_subscriber_t subscriber;
  iox2ps_loan_t loan;
  iox2ps_blocked_t blocked;
  iox2ps_sample_t sample;
  iox2ps_header_t header;
  iox2ps_config_t config;
  iox2ps_publisher_options_t publisher_options;
  iox2ps_subscriber_options_t subscriber_options;
  iox2ps_warning_t warning;
  iox2ps_wide_t id;
  void *written;
  const void *read;
  size_t count, len;
  uint64_t number;
  uint32_t answer;
  uint8_t bytes[32];
} outs_t;

static outs_t outs, untouched;

static void fill(void) {
  memset(&untouched, 0xa5, sizeof untouched);
  memcpy(&outs, &untouched, sizeof outs);
}

/* The call returns this code and has written nothing. */
#define REFUSED(call, code)                                     \
  do {                                                          \
    fill();                                                     \
    IS(call, code);                                             \
    CHECK(memcmp(&outs, &untouched, sizeof outs) == 0);         \
  } while (0)

/* ---- every call on one handle */

static void publisher_is_refused(iox2ps_domain_t *domain, const iox2ps_publisher_t *publisher, iox2ps_status_t code) {
  REFUSED(iox2ps_publisher_close(domain, publisher), code);
  REFUSED(iox2ps_publisher_is_blocked(domain, publisher, &outs.answer), code);
  REFUSED(iox2ps_publisher_get_connection_id_of(domain, publisher, &untouched.subscriber.id, &outs.count), code);
  for (size_t channel = 0; channel < 2; channel++) {
    REFUSED(iox2ps_publisher_has_channel_state(domain, publisher, channel, 0, 0, &outs.answer), code);
    REFUSED(iox2ps_publisher_has_disconnect_hint(domain, publisher, channel, 0, 0, &outs.answer), code);
    REFUSED(iox2ps_publisher_close_channel(domain, publisher, channel, 0, 0), code);
  }
  REFUSED(iox2ps_publisher_update_connections(domain, publisher), code);
  REFUSED(iox2ps_publisher_loan(domain, publisher, 8, &outs.loan, &outs.written), code);
  REFUSED(iox2ps_publisher_loan(domain, publisher, SIZE_MAX, &outs.loan, &outs.written), code);
  REFUSED(iox2ps_publisher_loan_uninit(domain, publisher, 8, &outs.loan, &outs.written), code);
  REFUSED(iox2ps_publisher_send_copy(domain, publisher, untouched.bytes, 8, &outs.count, &outs.blocked), code);
}

static void subscriber_is_refused(iox2ps_domain_t *domain, const iox2ps_subscriber_t *subscriber, iox2ps_status_t code) {
  REFUSED(iox2ps_subscriber_close(domain, subscriber), code);
  REFUSED(iox2ps_subscriber_has_samples(domain, subscriber, &outs.answer), code);
  for (size_t channel = 0; channel < 2; channel++) {
    REFUSED(iox2ps_subscriber_at_least_one_channel_has_state(domain, subscriber, channel, 0, &outs.answer), code);
    REFUSED(iox2ps_subscriber_set_channel_state(domain, subscriber, channel, 0, &outs.answer), code);
    REFUSED(iox2ps_subscriber_close_channel(domain, subscriber, channel, 0), code);
    REFUSED(iox2ps_subscriber_set_disconnect_hint(domain, subscriber, channel, 0), code);
  }
  REFUSED(iox2ps_subscriber_update_connections(domain, subscriber), code);
  REFUSED(iox2ps_subscriber_receive(domain, subscriber, &outs.sample, &outs.read, &outs.len), code);
  REFUSED(iox2ps_subscriber_receive_copy(domain, subscriber, outs.bytes, sizeof outs.bytes, &outs.len, &outs.sample), code);
}

static void loan_is_refused(iox2ps_domain_t *domain, const iox2ps_loan_t *loan, iox2ps_status_t code) {
  REFUSED(iox2ps_loan_send(domain, loan, &outs.count, &outs.blocked), code);
  for (size_t channel = 0; channel < 2; channel++) {
    REFUSED(iox2ps_loan_deliver_offset_to_connection(domain, loan, channel, 0, &outs.count, &outs.blocked), code);
  }
  REFUSED(iox2ps_loan_discard(domain, loan), code);
  REFUSED(iox2ps_loan_payload(domain, loan, &outs.written, &outs.len), code);
}

static void blocked_is_refused(iox2ps_domain_t *domain, const iox2ps_blocked_t *blocked, iox2ps_status_t code) {
  REFUSED(iox2ps_blocked_subscriber(domain, blocked, &outs.id), code);
  REFUSED(iox2ps_blocked_retry(domain, blocked, 1, &outs.count), code);
  REFUSED(iox2ps_blocked_give_up(domain, blocked, &outs.count), code);
}

static void sample_is_refused(iox2ps_domain_t *domain, const iox2ps_sample_t *sample, iox2ps_status_t code) {
  REFUSED(iox2ps_sample_payload(domain, sample, &outs.read, &outs.len), code);
  REFUSED(iox2ps_sample_copy(domain, sample, outs.bytes, sizeof outs.bytes, &outs.len), code);
  REFUSED(iox2ps_sample_header(domain, sample, &outs.header), code);
  REFUSED(iox2ps_sample_release(domain, sample), code);
}

/* ---- a domain in which all kinds of handles are live: a loan is out, a message is borrowed, and a send waits */

typedef struct world_t {
  iox2ps_domain_t domain;
  iox2ps_publisher_t publisher, waiting;
  iox2ps_subscriber_t subscriber;
  iox2ps_loan_t loan;
  iox2ps_blocked_t blocked;
  iox2ps_sample_t sample;
  const void *read;
  void *written;
} world_t;

static void begin(world_t *world, uint64_t service_id) {
  iox2ps_config_t config;
  iox2ps_publisher_options_t options;
  uint64_t value = 11;
  size_t count;
  memset(world, 0, sizeof *world);
  iox2ps_config_defaults(&config, service_id, 8, 8);
  config.enable_safe_overflow = 0;
  config.subscriber_max_buffer_size = 1;
  config.max_subscribers = 2;
  IS(iox2ps_domain_create(&world->domain, &config), IOX2PS_OK);
  IS(iox2ps_publisher_create(&world->domain, &world->publisher), IOX2PS_OK);
  iox2ps_publisher_options_of(&config, &options);
  options.backpressure_strategy = IOX2PS_RETRY_UNTIL_DELIVERED;
  IS(iox2ps_publisher_create_with(&world->domain, &options, &world->waiting), IOX2PS_OK);
  IS(iox2ps_subscriber_create(&world->domain, &world->subscriber), IOX2PS_OK);
  IS(iox2ps_publisher_send_copy(&world->domain, &world->publisher, &value, 8, &count, &world->blocked), IOX2PS_OK);
  IS(iox2ps_subscriber_receive(&world->domain, &world->subscriber, &world->sample, &world->read, &count), IOX2PS_OK);
  IS(iox2ps_publisher_loan(&world->domain, &world->publisher, 8, &world->loan, &world->written), IOX2PS_OK);
  value = 12;
  IS(iox2ps_publisher_send_copy(&world->domain, &world->waiting, &value, 8, &count, &world->blocked), IOX2PS_OK);
  value = 13;
  IS(iox2ps_publisher_send_copy(&world->domain, &world->waiting, &value, 8, &count, &world->blocked), IOX2PS_BLOCKED);
}

static uint64_t value_at(const void *bytes) {
  uint64_t value;
  memcpy(&value, bytes, sizeof value);
  return value;
}

/* All that the world has is there as it was: each handle does what it is for, once. */
static void end(world_t *world) {
  iox2ps_domain_t *domain = &world->domain;
  iox2ps_sample_t sample;
  iox2ps_blocked_t blocked;
  const void *read;
  size_t count = 0, len = 0;
  uint32_t answer = 0;
  uint64_t value = 14;
  CHECK(value_at(world->read) == 11);
  IS(iox2ps_sample_payload(domain, &world->sample, &read, &len), IOX2PS_OK);
  CHECK(read == world->read && len == 8);
  IS(iox2ps_sample_release(domain, &world->sample), IOX2PS_OK);
  IS(iox2ps_publisher_is_blocked(domain, &world->waiting, &answer), IOX2PS_OK);
  CHECK(answer == 1);
  for (uint64_t wanted = 12; wanted <= 13; wanted++) {
    IS(iox2ps_subscriber_receive(domain, &world->subscriber, &sample, &read, &len), IOX2PS_OK);
    CHECK(value_at(read) == wanted && sample.origin.low == world->waiting.id.low);
    IS(iox2ps_sample_release(domain, &sample), IOX2PS_OK);
    if (wanted == 12) IS(iox2ps_blocked_retry(domain, &world->blocked, 0, &count), IOX2PS_OK);
  }
  CHECK(count == 1);
  memcpy(world->written, &value, sizeof value);
  IS(iox2ps_loan_send(domain, &world->loan, &count, &blocked), IOX2PS_OK);
  CHECK(count == 1);
  IS(iox2ps_subscriber_receive(domain, &world->subscriber, &sample, &read, &len), IOX2PS_OK);
  CHECK(value_at(read) == 14);
  IS(iox2ps_subscriber_close(domain, &world->subscriber), IOX2PS_OK);
  IS(iox2ps_publisher_close(domain, &world->publisher), IOX2PS_OK);
  IS(iox2ps_publisher_close(domain, &world->waiting), IOX2PS_OK);
  IS(iox2ps_domain_destroy(domain), IOX2PS_OK);
}

/* ---- numbers that name nothing */

/* Each handle with all bits set, with all bits clear, and with one bit of its first words turned. These have
 * its service, its ids and its number. No bit is turned in the two words from `told` on, which say the origin
 * of a sample. What comes behind are hints. */
#define MADE_UP(type, handle, words, told, refused)                               \
  do {                                                                            \
    type other;                                                                   \
    memset(&other, 0xff, sizeof other);                                           \
    refused(&world.domain, &other, IOX2PS_NOT_LIVE);                                \
    memset(&other, 0, sizeof other);                                              \
    refused(&world.domain, &other, IOX2PS_NOT_LIVE);                                \
    for (int bit = 0; bit < 64 * (words); bit += 7) {                             \
      if (bit / 128 == (told) / 2) continue;                                      \
      other = (handle);                                                           \
      ((uint8_t *)&other)[bit / 8] ^= (uint8_t)(1u << bit % 8);                   \
      refused(&world.domain, &other, IOX2PS_NOT_LIVE);                              \
    }                                                                             \
  } while (0)

static void numbers_are_made_up(void) {
  world_t world;
  begin(&world, 1);
  MADE_UP(iox2ps_subscriber_t, world.subscriber, 4, -2, subscriber_is_refused);
  MADE_UP(iox2ps_loan_t, world.loan, 6, -2, loan_is_refused);
  MADE_UP(iox2ps_blocked_t, world.blocked, 6, -2, blocked_is_refused);
  MADE_UP(iox2ps_sample_t, world.sample, 8, 2, sample_is_refused);
  iox2ps_publisher_t other = world.publisher;
  other.id.low ^= UINT64_C(1) << 40;
  publisher_is_refused(&world.domain, &other, IOX2PS_NOT_LIVE);
  other = world.publisher;
  other.id.high = 1;
  publisher_is_refused(&world.domain, &other, IOX2PS_NOT_LIVE);
  other = world.publisher;
  other.service_id.high = UINT64_MAX;
  publisher_is_refused(&world.domain, &other, IOX2PS_NOT_LIVE);
  memset(&other, 0xff, sizeof other);
  publisher_is_refused(&world.domain, &other, IOX2PS_NOT_LIVE);
  memset(&other, 0, sizeof other);
  publisher_is_refused(&world.domain, &other, IOX2PS_NOT_LIVE);
  end(&world);
}

/* A wrong hint is no wrong name. */
static void hints_are_hints(void) {
  const size_t wrong[] = {0, 1, 77, SIZE_MAX / 2, SIZE_MAX};
  world_t world;
  size_t len;
  const void *read;
  void *written;
  uint32_t answer;
  begin(&world, 1);
  for (int i = 0; i < 5; i++) {
    world.publisher.place_ = world.waiting.place_ = world.subscriber.place_ = wrong[i];
    world.loan.place_ = world.loan.book_ = world.loan.slot_ = wrong[i];
    world.blocked.place_ = world.blocked.book_ = world.blocked.slot_ = wrong[i];
    world.sample.connection_ = world.sample.book_ = world.sample.slot_ = world.sample.origin.low = wrong[i];
    IS(iox2ps_publisher_update_connections(&world.domain, &world.publisher), IOX2PS_OK);
    IS(iox2ps_subscriber_has_samples(&world.domain, &world.subscriber, &answer), IOX2PS_OK);
    IS(iox2ps_loan_payload(&world.domain, &world.loan, &written, &len), IOX2PS_OK);
    CHECK(written == world.written);
    IS(iox2ps_sample_payload(&world.domain, &world.sample, &read, &len), IOX2PS_OK);
    CHECK(read == world.read);
    world.publisher.initial_max_slice_len = world.subscriber.buffer_size = wrong[i];
    REFUSED(iox2ps_publisher_loan(&world.domain, &world.publisher, 9, &outs.loan, &outs.written),
            IOX2PS_LOAN_ERROR_EXCEEDS_MAX_LOAN_SIZE);
    IS(iox2ps_blocked_retry(&world.domain, &world.blocked, 0, &len), IOX2PS_BLOCKED);
  }
  end(&world);
}

static void numbers_are_of_another_domain(void) {
  world_t here, there;
  begin(&here, 1);
  begin(&there, 2);
  publisher_is_refused(&here.domain, &there.publisher, IOX2PS_NOT_LIVE);
  subscriber_is_refused(&here.domain, &there.subscriber, IOX2PS_NOT_LIVE);
  loan_is_refused(&here.domain, &there.loan, IOX2PS_NOT_LIVE);
  blocked_is_refused(&here.domain, &there.blocked, IOX2PS_NOT_LIVE);
  sample_is_refused(&here.domain, &there.sample, IOX2PS_NOT_LIVE);
  end(&here);
  end(&there);
}

/* A copy of a handle is the same handle, and is consumed with it. */
static void numbers_are_used_twice_and_kept_too_long(void) {
  world_t world, kept;
  iox2ps_blocked_t blocked;
  size_t count;
  begin(&world, 1);
  kept = world;
  iox2ps_domain_t *domain = &world.domain;
  IS(iox2ps_sample_release(domain, &kept.sample), IOX2PS_OK);
  sample_is_refused(domain, &world.sample, IOX2PS_NOT_LIVE);
  IS(iox2ps_blocked_give_up(domain, &kept.blocked, &count), IOX2PS_OK);
  blocked_is_refused(domain, &world.blocked, IOX2PS_NOT_LIVE);
  IS(iox2ps_loan_discard(domain, &kept.loan), IOX2PS_OK);
  loan_is_refused(domain, &world.loan, IOX2PS_NOT_LIVE);
  IS(iox2ps_publisher_loan(domain, &world.publisher, 8, &world.loan, &world.written), IOX2PS_OK);
  IS(iox2ps_subscriber_close(domain, &kept.subscriber), IOX2PS_OK);
  subscriber_is_refused(domain, &world.subscriber, IOX2PS_NOT_LIVE);
  IS(iox2ps_publisher_close(domain, &kept.publisher), IOX2PS_OK);
  publisher_is_refused(domain, &world.publisher, IOX2PS_NOT_LIVE);

  /* The loan of a closed publisher is consumed by its send, and its numbers stay invalid when others take the slots. */
  kept.loan = world.loan;
  REFUSED(iox2ps_loan_send(domain, &world.loan, &outs.count, &outs.blocked),
          IOX2PS_SEND_ERROR_CONNECTION_BROKEN_SINCE_SENDER_NO_LONGER_EXISTS);
  loan_is_refused(domain, &kept.loan, IOX2PS_NOT_LIVE);
  IS(iox2ps_publisher_create(domain, &world.publisher), IOX2PS_OK);
  IS(iox2ps_subscriber_create(domain, &world.subscriber), IOX2PS_OK);
  for (uint64_t value = 0; value < 50; value++) {
    IS(iox2ps_publisher_send_copy(domain, &world.publisher, &value, 8, &count, &blocked), IOX2PS_OK);
    IS(iox2ps_subscriber_receive(domain, &world.subscriber, &world.sample, &world.read, &count), IOX2PS_OK);
    sample_is_refused(domain, &kept.sample, IOX2PS_NOT_LIVE);
    IS(iox2ps_sample_release(domain, &world.sample), IOX2PS_OK);
    kept.sample = world.sample;
  }
  loan_is_refused(domain, &kept.loan, IOX2PS_NOT_LIVE);
  publisher_is_refused(domain, &kept.publisher, IOX2PS_NOT_LIVE);
  subscriber_is_refused(domain, &kept.subscriber, IOX2PS_NOT_LIVE);
  IS(iox2ps_domain_destroy(domain), IOX2PS_OK);
}

/* While a send of it waits, a publisher does nothing else, and nothing of it is lost. */
static void a_publisher_is_blocked(void) {
  world_t world;
  begin(&world, 1);
  iox2ps_publisher_t *waiting = &world.waiting;
  REFUSED(iox2ps_publisher_close(&world.domain, waiting), IOX2PS_PUBLISHER_IS_BLOCKED);
  REFUSED(iox2ps_publisher_update_connections(&world.domain, waiting), IOX2PS_PUBLISHER_IS_BLOCKED);
  REFUSED(iox2ps_publisher_loan(&world.domain, waiting, 8, &outs.loan, &outs.written), IOX2PS_PUBLISHER_IS_BLOCKED);
  REFUSED(iox2ps_publisher_loan_uninit(&world.domain, waiting, 8, &outs.loan, &outs.written), IOX2PS_PUBLISHER_IS_BLOCKED);
  REFUSED(iox2ps_publisher_send_copy(&world.domain, waiting, untouched.bytes, 8, &outs.count, &outs.blocked),
          IOX2PS_PUBLISHER_IS_BLOCKED);
  /* It is no loan, though its numbers are those of one. */
  iox2ps_loan_t loan;
  memcpy(&loan, &world.blocked, sizeof loan);
  loan_is_refused(&world.domain, &loan, IOX2PS_NOT_LIVE);
  iox2ps_blocked_t blocked;
  memcpy(&blocked, &world.loan, sizeof blocked);
  blocked_is_refused(&world.domain, &blocked, IOX2PS_NOT_LIVE);
  end(&world);
}

/* A connection has channel 0 alone, and a number that no connection has is no fault. */
static void channels_are_not_there(void) {
  const size_t wrong[] = {1, 2, 77, SIZE_MAX / 2, SIZE_MAX};
  world_t world;
  uint32_t answer;
  begin(&world, 1);
  const iox2ps_publisher_t *publishers[] = {&world.publisher, &world.waiting};
  for (int i = 0; i < 5; i++) {
    REFUSED(iox2ps_subscriber_at_least_one_channel_has_state(&world.domain, &world.subscriber, wrong[i], 0, &outs.answer),
            IOX2PS_NO_SUCH_CHANNEL);
    REFUSED(iox2ps_subscriber_set_channel_state(&world.domain, &world.subscriber, wrong[i], 0, &outs.answer),
            IOX2PS_NO_SUCH_CHANNEL);
    REFUSED(iox2ps_subscriber_close_channel(&world.domain, &world.subscriber, wrong[i], 0), IOX2PS_NO_SUCH_CHANNEL);
    REFUSED(iox2ps_subscriber_set_disconnect_hint(&world.domain, &world.subscriber, wrong[i], 0), IOX2PS_NO_SUCH_CHANNEL);
    for (int of = 0; of < 2; of++) {
      REFUSED(iox2ps_publisher_has_channel_state(&world.domain, publishers[of], wrong[i], 0, 0, &outs.answer),
              IOX2PS_NO_SUCH_CHANNEL);
      REFUSED(iox2ps_publisher_has_disconnect_hint(&world.domain, publishers[of], wrong[i], 0, 0, &outs.answer),
              IOX2PS_NO_SUCH_CHANNEL);
      REFUSED(iox2ps_publisher_close_channel(&world.domain, publishers[of], wrong[i], 0, 0), IOX2PS_NO_SUCH_CHANNEL);
      REFUSED(iox2ps_publisher_close_channel(&world.domain, publishers[of], 0, wrong[i], 0), IOX2PS_OK);
      IS(iox2ps_publisher_has_channel_state(&world.domain, publishers[of], 0, wrong[i], 0, &answer), IOX2PS_OK);
      CHECK(answer == 0);
      IS(iox2ps_publisher_has_channel_state(&world.domain, publishers[of], 0, 0, 0, &answer), IOX2PS_OK);
      CHECK(answer == 1);
    }
  }
  end(&world);
}

/* ---- no domain */

static void all_is_refused(iox2ps_domain_t *domain, const world_t *world, iox2ps_status_t code) {
  iox2ps_publisher_options_t publisher_options;
  iox2ps_subscriber_options_t subscriber_options;
  iox2ps_config_t config;
  iox2ps_config_defaults(&config, 1, 8, 8);
  iox2ps_publisher_options_of(&config, &publisher_options);
  iox2ps_subscriber_options_of(&config, &subscriber_options);
  publisher_is_refused(domain, &world->publisher, code);
  subscriber_is_refused(domain, &world->subscriber, code);
  loan_is_refused(domain, &world->loan, code);
  blocked_is_refused(domain, &world->blocked, code);
  sample_is_refused(domain, &world->sample, code);
  REFUSED(iox2ps_publisher_create(domain, &outs.publisher), code);
  REFUSED(iox2ps_publisher_create_with(domain, &publisher_options, &outs.publisher), code);
  REFUSED(iox2ps_subscriber_create(domain, &outs.subscriber), code);
  REFUSED(iox2ps_subscriber_create_with(domain, &subscriber_options, &outs.subscriber), code);
  REFUSED(iox2ps_domain_config(domain, &outs.config), code);
  REFUSED(iox2ps_domain_connection_count(domain, &outs.count), code);
  REFUSED(iox2ps_domain_book_count(domain, &outs.count), code);
  REFUSED(iox2ps_domain_refused_connections(domain, &outs.number), code);
  REFUSED(iox2ps_domain_warning_count(domain, &outs.count), code);
  REFUSED(iox2ps_domain_warning(domain, 0, &outs.warning), code);
  REFUSED(iox2ps_domain_recording(domain, outs.bytes, sizeof outs.bytes, &outs.count, &outs.number), code);
  REFUSED(iox2ps_domain_destroy(domain), code);
  CHECK(domain->domain_ == NULL);
}

static void there_is_no_domain(void) {
  iox2ps_domain_t zeroed;
  world_t world;
  memset(&zeroed, 0, sizeof zeroed);
  begin(&world, 1);
  all_is_refused(&zeroed, &world, IOX2PS_NO_DOMAIN);
  end(&world);
  all_is_refused(&world.domain, &world, IOX2PS_NO_DOMAIN);
}

/* A domain that is made in the place of a destroyed one takes none of its numbers, also where it has the same id:
 * the ports and messages that they name aren't there. */
static void a_domain_is_made_twice(void) {
  world_t world;
  iox2ps_config_t config;
  begin(&world, 1);
  iox2ps_config_defaults(&config, 5, 8, 8);
  void *same = world.domain.domain_;
  IS(iox2ps_domain_create(&world.domain, &config), IOX2PS_HAS_DOMAIN);
  CHECK(world.domain.domain_ == same);
  IS(iox2ps_domain_destroy(&world.domain), IOX2PS_OK);
  IS(iox2ps_domain_create(&world.domain, &config), IOX2PS_OK);
  publisher_is_refused(&world.domain, &world.publisher, IOX2PS_NOT_LIVE);
  sample_is_refused(&world.domain, &world.sample, IOX2PS_NOT_LIVE);
  IS(iox2ps_domain_destroy(&world.domain), IOX2PS_OK);
  config.service_id.low = 1;
  IS(iox2ps_domain_create(&world.domain, &config), IOX2PS_OK);
  publisher_is_refused(&world.domain, &world.publisher, IOX2PS_NOT_LIVE);
  subscriber_is_refused(&world.domain, &world.subscriber, IOX2PS_NOT_LIVE);
  loan_is_refused(&world.domain, &world.loan, IOX2PS_NOT_LIVE);
  blocked_is_refused(&world.domain, &world.blocked, IOX2PS_NOT_LIVE);
  sample_is_refused(&world.domain, &world.sample, IOX2PS_NOT_LIVE);
  IS(iox2ps_domain_destroy(&world.domain), IOX2PS_OK);
}

/* ---- lengths */

static void lengths_are_at_their_limits(void) {
  iox2ps_domain_t domain = IOX2PS_DOMAIN_INIT;
  iox2ps_config_t config;
  iox2ps_publisher_t publisher;
  iox2ps_subscriber_t subscriber;
  iox2ps_loan_t loan;
  iox2ps_blocked_t blocked;
  iox2ps_sample_t sample;
  const size_t limit = 24, too_long[] = {25, 32, SIZE_MAX / 2, SIZE_MAX - 7, SIZE_MAX};
  uint8_t bytes[24];
  void *written;
  const void *read;
  size_t receivers = 0, len = 99;
  memset(bytes, 'b', sizeof bytes);
  iox2ps_config_defaults(&config, 1, limit, 8);
  config.subscriber_max_buffer_size = 4;
  IS(iox2ps_domain_create(&domain, &config), IOX2PS_OK);
  IS(iox2ps_publisher_create(&domain, &publisher), IOX2PS_OK);
  IS(iox2ps_subscriber_create(&domain, &subscriber), IOX2PS_OK);
  for (int i = 0; i < 5; i++) {
    REFUSED(iox2ps_publisher_loan(&domain, &publisher, too_long[i], &outs.loan, &outs.written),
            IOX2PS_LOAN_ERROR_EXCEEDS_MAX_LOAN_SIZE);
    REFUSED(iox2ps_publisher_loan_uninit(&domain, &publisher, too_long[i], &outs.loan, &outs.written),
            IOX2PS_LOAN_ERROR_EXCEEDS_MAX_LOAN_SIZE);
  }
  void *longer = calloc(1, limit + 1);
  REFUSED(iox2ps_publisher_send_copy(&domain, &publisher, longer, limit + 1, &outs.count, &outs.blocked),
          IOX2PS_LOAN_ERROR_EXCEEDS_MAX_LOAN_SIZE);
  free(longer);

  IS(iox2ps_publisher_loan(&domain, &publisher, 0, &loan, &written), IOX2PS_OK);
  IS(iox2ps_loan_payload(&domain, &loan, &written, &len), IOX2PS_OK);
  CHECK(len == 0);
  IS(iox2ps_loan_send(&domain, &loan, &receivers, &blocked), IOX2PS_OK);
  CHECK(receivers == 1);
  IS(iox2ps_publisher_send_copy(&domain, &publisher, bytes, 0, &receivers, &blocked), IOX2PS_OK);
  IS(iox2ps_publisher_send_copy(&domain, &publisher, bytes, 1, &receivers, &blocked), IOX2PS_OK);
  IS(iox2ps_publisher_send_copy(&domain, &publisher, bytes, limit, &receivers, &blocked), IOX2PS_OK);

  IS(iox2ps_subscriber_receive(&domain, &subscriber, &sample, &read, &len), IOX2PS_OK);
  CHECK(len == 0);
  IS(iox2ps_sample_copy(&domain, &sample, bytes, 0, &len), IOX2PS_OK);
  IS(iox2ps_sample_release(&domain, &sample), IOX2PS_OK);
  IS(iox2ps_subscriber_receive_copy(&domain, &subscriber, bytes, 0, &len, &sample), IOX2PS_OK);
  CHECK(len == 0);

  /* Too little room: the message is handed over, whole. */
  memset(&sample, 0, sizeof sample);
  IS(iox2ps_subscriber_receive_copy(&domain, &subscriber, outs.bytes, 0, &len, &sample), IOX2PS_TOO_SMALL);
  CHECK(len == 1);
  memset(bytes, 'c', sizeof bytes);
  IS(iox2ps_sample_copy(&domain, &sample, bytes, 1, &len), IOX2PS_OK);
  CHECK(bytes[0] == 'b' && bytes[1] == 'c');
  IS(iox2ps_sample_release(&domain, &sample), IOX2PS_OK);
  fill();
  IS(iox2ps_subscriber_receive_copy(&domain, &subscriber, outs.bytes, limit - 1, &len, &sample), IOX2PS_TOO_SMALL);
  CHECK(len == limit && memcmp(outs.bytes, untouched.bytes, sizeof outs.bytes) == 0);
  IS(iox2ps_sample_copy(&domain, &sample, outs.bytes, limit - 1, &len), IOX2PS_TOO_SMALL);
  CHECK(len == limit && memcmp(outs.bytes, untouched.bytes, sizeof outs.bytes) == 0);
  IS(iox2ps_sample_copy(&domain, &sample, outs.bytes, limit, &len), IOX2PS_OK);
  CHECK(outs.bytes[0] == 'b' && outs.bytes[23] == 'b' && outs.bytes[24] == untouched.bytes[24]);
  IS(iox2ps_domain_destroy(&domain), IOX2PS_OK);
}

/* ---- settings */

/* Settings of which some have none of their values, and the code that says which one is the first. */
typedef struct wrong_t {
  size_t size, length, alignment;
  uint32_t strategy, handler, degradation, allocation, reserved;
  iox2ps_status_t code;
} wrong_t;

/* Each wrong value by itself, and then two or more wrong ones, of which the first in the order of the fields counts. */
static void settings_have_none_of_their_values(void) {
  const size_t known = sizeof(iox2ps_config_t);
  const wrong_t all[] = {
      {0, 16, 16, 0, 0, 0, 0, 0, IOX2PS_INVALID_STRUCT_SIZE},
      {known - 8, 16, 16, 0, 0, 0, 0, 0, IOX2PS_INVALID_STRUCT_SIZE},
      {known + 8, 16, 16, 0, 0, 0, 0, 0, IOX2PS_INVALID_STRUCT_SIZE},
      {known, 17, 16, 0, 0, 0, 0, 0, IOX2PS_INVALID_PAYLOAD_SIZE},
      {known, 24, 16, 0, 0, 0, 0, 0, IOX2PS_INVALID_PAYLOAD_SIZE},
      {known, SIZE_MAX, 2, 0, 0, 0, 0, 0, IOX2PS_INVALID_PAYLOAD_SIZE},
      {known, 16, 0, 0, 0, 0, 0, 0, IOX2PS_INVALID_PAYLOAD_ALIGNMENT},
      {known, 15, 3, 0, 0, 0, 0, 0, IOX2PS_INVALID_PAYLOAD_ALIGNMENT},
      {known, 16, 5, 0, 0, 0, 0, 0, IOX2PS_INVALID_PAYLOAD_ALIGNMENT},
      {known, 16, 17, 0, 0, 0, 0, 0, IOX2PS_INVALID_PAYLOAD_ALIGNMENT},
      {known, 32, 32, 0, 0, 0, 0, 0, IOX2PS_INVALID_PAYLOAD_ALIGNMENT},
      {known, 0, SIZE_MAX, 0, 0, 0, 0, 0, IOX2PS_INVALID_PAYLOAD_ALIGNMENT},
      {known, 16, 16, 2, 0, 0, 0, 0, IOX2PS_INVALID_BACKPRESSURE_STRATEGY},
      {known, 16, 16, UINT32_MAX, 0, 0, 0, 0, IOX2PS_INVALID_BACKPRESSURE_STRATEGY},
      {1, 3, 3, 2, 0, 0, 0, 0, IOX2PS_INVALID_STRUCT_SIZE},
      {known, 3, 9, 2, 0, 0, 0, 0, IOX2PS_INVALID_PAYLOAD_ALIGNMENT},
      {known, 3, 2, 2, 0, 0, 0, 0, IOX2PS_INVALID_PAYLOAD_SIZE},
  };
  for (size_t i = 0; i < sizeof all / sizeof all[0]; i++) {
    iox2ps_domain_t domain = IOX2PS_DOMAIN_INIT;
    iox2ps_config_t config;
    iox2ps_config_defaults(&config, 1, all[i].length, all[i].alignment);
    config.struct_size = all[i].size;
    config.backpressure_strategy = all[i].strategy;
    REFUSED(iox2ps_domain_create(&domain, &config), all[i].code);
    REFUSED(iox2ps_domain_create_recorded(&domain, &config, 1, 1), all[i].code);
    REFUSED(iox2ps_worst_case_slots(&config, 2, &outs.count), all[i].code);
    config.max_subscribers = SIZE_MAX;
    REFUSED(iox2ps_worst_case_slots(&config, 2, &outs.count), all[i].code);
    CHECK(domain.domain_ == NULL);
  }
  iox2ps_config_t config;
  iox2ps_config_defaults(&config, 1, 16, 16);
  config.max_subscribers = SIZE_MAX;
  REFUSED(iox2ps_worst_case_slots(&config, 2, &outs.count), IOX2PS_WORST_CASE_TOO_LARGE);
  config.max_subscribers = 1;
  REFUSED(iox2ps_worst_case_slots(&config, SIZE_MAX, &outs.count), IOX2PS_WORST_CASE_TOO_LARGE);
}

static void options_have_none_of_their_values(void) {
  const size_t known = sizeof(iox2ps_publisher_options_t), known_too = sizeof(iox2ps_subscriber_options_t);
  const wrong_t of_publishers[] = {
      {0, 16, 0, 0, 0, 0, 0, 0, IOX2PS_INVALID_STRUCT_SIZE},
      {known + 8, 16, 0, 0, 0, 0, 0, 0, IOX2PS_INVALID_STRUCT_SIZE},
      {known, 8, 0, 0, 0, 0, 0, 0, IOX2PS_INVALID_INITIAL_MAX_SLICE_LEN},
      {known, 17, 0, 0, 0, 0, 0, 0, IOX2PS_INVALID_INITIAL_MAX_SLICE_LEN},
      {known, 0, 0, 0, 0, 0, 1, 0, IOX2PS_INVALID_INITIAL_MAX_SLICE_LEN},
      {known, 0, 0, 0, 0, 0, 2, 0, IOX2PS_INVALID_INITIAL_MAX_SLICE_LEN},
      {known, 16, 0, 2, 0, 0, 0, 0, IOX2PS_INVALID_BACKPRESSURE_STRATEGY},
      {known, 16, 0, UINT32_MAX, 0, 0, 0, 0, IOX2PS_INVALID_BACKPRESSURE_STRATEGY},
      {known, 16, 0, 0, 5, 0, 0, 0, IOX2PS_INVALID_BACKPRESSURE_HANDLER},
      {known, 16, 0, 0, UINT32_MAX, 0, 0, 0, IOX2PS_INVALID_BACKPRESSURE_HANDLER},
      {known, 16, 0, 0, 0, 3, 0, 0, IOX2PS_INVALID_DEGRADATION},
      {known, 16, 0, 0, 0, UINT32_MAX, 0, 0, IOX2PS_INVALID_DEGRADATION},
      {known, 16, 0, 0, 0, 0, 3, 0, IOX2PS_INVALID_ALLOCATION_STRATEGY},
      {known, 0, 0, 0, 0, 0, UINT32_MAX, 0, IOX2PS_INVALID_ALLOCATION_STRATEGY},
      {8, 8, 0, 2, 5, 3, 3, 0, IOX2PS_INVALID_STRUCT_SIZE},
      {known, 8, 0, 2, 5, 3, 3, 0, IOX2PS_INVALID_INITIAL_MAX_SLICE_LEN},
      {known, 16, 0, 2, 5, 3, 3, 0, IOX2PS_INVALID_BACKPRESSURE_STRATEGY},
      {known, 16, 0, 0, 5, 3, 3, 0, IOX2PS_INVALID_BACKPRESSURE_HANDLER},
      {known, 16, 0, 0, 0, 3, 3, 0, IOX2PS_INVALID_DEGRADATION},
  };
  const wrong_t of_subscribers[] = {
      {known_too - 8, 0, 0, 0, 0, 0, 0, 0, IOX2PS_INVALID_STRUCT_SIZE},
      {SIZE_MAX, 0, 0, 0, 0, 0, 0, 0, IOX2PS_INVALID_STRUCT_SIZE},
      {known_too, 0, 0, 0, 0, 3, 0, 0, IOX2PS_INVALID_DEGRADATION},
      {known_too, 0, 0, 0, 0, UINT32_MAX, 0, 0, IOX2PS_INVALID_DEGRADATION},
      {known_too, 0, 0, 0, 0, 0, 0, 1, IOX2PS_INVALID_RESERVED},
      {known_too, 0, 0, 0, 0, 0, 0, UINT32_MAX, IOX2PS_INVALID_RESERVED},
      {0, 0, 0, 0, 0, 3, 0, 1, IOX2PS_INVALID_STRUCT_SIZE},
      {known_too, 0, 0, 0, 0, 3, 0, 1, IOX2PS_INVALID_DEGRADATION},
  };
  iox2ps_domain_t domain = IOX2PS_DOMAIN_INIT;
  iox2ps_config_t config;
  iox2ps_config_defaults(&config, 1, 16, 16);
  IS(iox2ps_domain_create(&domain, &config), IOX2PS_OK);
  for (size_t i = 0; i < sizeof of_publishers / sizeof of_publishers[0]; i++) {
    iox2ps_publisher_options_t options;
    iox2ps_publisher_options_of(&config, &options);
    options.struct_size = of_publishers[i].size;
    options.initial_max_slice_len = of_publishers[i].length;
    options.backpressure_strategy = of_publishers[i].strategy;
    options.backpressure_handler = of_publishers[i].handler;
    options.degradation = of_publishers[i].degradation;
    options.allocation_strategy = of_publishers[i].allocation;
    REFUSED(iox2ps_publisher_create_with(&domain, &options, &outs.publisher), of_publishers[i].code);
  }
  for (size_t i = 0; i < sizeof of_subscribers / sizeof of_subscribers[0]; i++) {
    iox2ps_subscriber_options_t options;
    iox2ps_subscriber_options_of(&config, &options);
    options.struct_size = of_subscribers[i].size;
    options.degradation = of_subscribers[i].degradation;
    options.reserved_ = of_subscribers[i].reserved;
    REFUSED(iox2ps_subscriber_create_with(&domain, &options, &outs.subscriber), of_subscribers[i].code);
  }
  IS(iox2ps_domain_destroy(&domain), IOX2PS_OK);
}

/* A program that was compiled with another header's structs: of a size that the archive doesn't know nothing is written but
 * struct_size, and what was filled so is refused. */
static void structs_have_other_sizes(void) {
  const size_t others[] = {0, 8, 120, 136, SIZE_MAX};
  iox2ps_domain_t domain = IOX2PS_DOMAIN_INIT;
  iox2ps_config_t config, other;
  iox2ps_publisher_options_t publisher_options;
  iox2ps_subscriber_options_t subscriber_options;
  iox2ps_config_defaults(&config, 1, 16, 16);
  CHECK(config.struct_size == sizeof config);
  IS(iox2ps_domain_create(&domain, &config), IOX2PS_OK);
  fill();
  IS(iox2ps_domain_config(&domain, &outs.config), IOX2PS_OK);
  CHECK(outs.config.struct_size == sizeof config && memcmp(&outs.config, &config, sizeof config) == 0);
  iox2ps_publisher_options_of(&config, &publisher_options);
  iox2ps_subscriber_options_of(&config, &subscriber_options);
  CHECK(publisher_options.struct_size == sizeof publisher_options && subscriber_options.struct_size == sizeof subscriber_options);
  for (size_t i = 0; i < sizeof others / sizeof others[0]; i++) {
    REFUSED(iox2ps_domain_config_sized(&domain, &outs.config, others[i]), IOX2PS_INVALID_STRUCT_SIZE);
    fill();
    iox2ps_config_defaults_sized(&outs.config, others[i], 1, 16, 16);
    iox2ps_publisher_options_of_sized(&config, &outs.publisher_options, others[i]);
    iox2ps_subscriber_options_of_sized(&config, &outs.subscriber_options, others[i]);
    CHECK(outs.config.struct_size == 0 && outs.publisher_options.struct_size == 0 && outs.subscriber_options.struct_size == 0);
    outs.config.struct_size = untouched.config.struct_size;
    outs.publisher_options.struct_size = outs.subscriber_options.struct_size = untouched.config.struct_size;
    CHECK(memcmp(&outs, &untouched, sizeof outs) == 0);

    other = config;
    other.struct_size = others[i];
    iox2ps_publisher_options_of(&other, &outs.publisher_options);
    iox2ps_subscriber_options_of(&other, &outs.subscriber_options);
    CHECK(outs.publisher_options.struct_size == 0 && outs.subscriber_options.struct_size == 0);
    IS(iox2ps_publisher_create_with(&domain, &outs.publisher_options, &outs.publisher), IOX2PS_INVALID_STRUCT_SIZE);
    IS(iox2ps_subscriber_create_with(&domain, &outs.subscriber_options, &outs.subscriber), IOX2PS_INVALID_STRUCT_SIZE);
  }
  IS(iox2ps_domain_destroy(&domain), IOX2PS_OK);
  REFUSED(iox2ps_domain_config_sized(&domain, &outs.config, 8), IOX2PS_NO_DOMAIN);
}

/* Numbers that no memory has room for are refused to the port or to the domain; nothing ends the program. */
static void settings_are_as_great_as_can_be(void) {
  iox2ps_domain_t domain = IOX2PS_DOMAIN_INIT;
  iox2ps_config_t config, huge;
  iox2ps_publisher_options_t options;
  iox2ps_subscriber_options_t subscriber_options;
  iox2ps_publisher_t publisher;
  iox2ps_config_defaults(&config, 1, 16, 16);
  huge = config;
  huge.payload_size = SIZE_MAX - 15;
  IS(iox2ps_domain_create(&domain, &huge), IOX2PS_OK);
  REFUSED(iox2ps_publisher_create(&domain, &outs.publisher), IOX2PS_PUBLISHER_CREATE_ERROR_UNABLE_TO_CREATE_DATA_SEGMENT);
  IS(iox2ps_domain_destroy(&domain), IOX2PS_OK);
  huge = config;
  huge.history_size = huge.subscriber_max_borrowed_samples = SIZE_MAX;
  IS(iox2ps_domain_create(&domain, &huge), IOX2PS_OK);
  REFUSED(iox2ps_publisher_create(&domain, &outs.publisher), IOX2PS_PUBLISHER_CREATE_ERROR_UNABLE_TO_CREATE_DATA_SEGMENT);
  IS(iox2ps_domain_destroy(&domain), IOX2PS_OK);

  IS(iox2ps_domain_create(&domain, &config), IOX2PS_OK);
  iox2ps_publisher_options_of(&config, &options);
  options.max_loaned_samples = SIZE_MAX;
  REFUSED(iox2ps_publisher_create_with(&domain, &options, &outs.publisher),
          IOX2PS_PUBLISHER_CREATE_ERROR_UNABLE_TO_CREATE_DATA_SEGMENT);
  iox2ps_publisher_options_of(&config, &options);
  options.initial_max_slice_len = SIZE_MAX - 15;
  REFUSED(iox2ps_publisher_create_with(&domain, &options, &outs.publisher),
          IOX2PS_PUBLISHER_CREATE_ERROR_UNABLE_TO_CREATE_DATA_SEGMENT);
  iox2ps_subscriber_options_of(&config, &subscriber_options);
  subscriber_options.buffer_size = 3;
  REFUSED(iox2ps_subscriber_create_with(&domain, &subscriber_options, &outs.subscriber),
          IOX2PS_SUBSCRIBER_CREATE_ERROR_BUFFER_SIZE_EXCEEDS_MAX);
  subscriber_options.buffer_size = SIZE_MAX;
  REFUSED(iox2ps_subscriber_create_with(&domain, &subscriber_options, &outs.subscriber),
          IOX2PS_SUBSCRIBER_CREATE_ERROR_BUFFER_SIZE_EXCEEDS_MAX);
  for (int i = 0; i < 2; i++) IS(iox2ps_publisher_create(&domain, &publisher), IOX2PS_OK);
  REFUSED(iox2ps_publisher_create(&domain, &outs.publisher),
          IOX2PS_PUBLISHER_CREATE_ERROR_EXCEEDS_MAX_SUPPORTED_PUBLISHERS);
  IS(iox2ps_domain_destroy(&domain), IOX2PS_OK);
}

int main(void) {
  numbers_are_made_up();
  hints_are_hints();
  numbers_are_of_another_domain();
  numbers_are_used_twice_and_kept_too_long();
  a_publisher_is_blocked();
  channels_are_not_there();
  there_is_no_domain();
  a_domain_is_made_twice();
  lengths_are_at_their_limits();
  settings_have_none_of_their_values();
  options_have_none_of_their_values();
  structs_have_other_sizes();
  settings_are_as_great_as_can_be();
  return checked();
}
