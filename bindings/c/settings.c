// SPDX-License-Identifier: Apache-2.0 OR MIT
/* Each setting and each answer of the header by what it changes, so that one which is dropped, or exchanged with another of
 * its type, fails a check. bindings/settings.toml names the test of each; it compiles as C and as C++. */
#include "checks.h"

/* A connection with a buffer of this length needs more memory than there are addresses. */
#define TOO_LONG ((size_t)1 << 50)

/* With the address sanitizer such memory is refused too, and doesn't end the program. */
#ifdef __cplusplus
extern "C"
#endif
const char *__asan_default_options(void);
const char *__asan_default_options(void) { return "allocator_may_return_null=1"; }

static void create(iox2ps_domain_t *domain, const iox2ps_config_t *config) {
  domain->domain_ = NULL;
  IS(iox2ps_domain_create(domain, config), IOX2PS_OK);
}

static iox2ps_publisher_t publisher_of(iox2ps_domain_t *domain) {
  iox2ps_publisher_t publisher;
  IS(iox2ps_publisher_create(domain, &publisher), IOX2PS_OK);
  return publisher;
}

static iox2ps_subscriber_t subscriber_of(iox2ps_domain_t *domain) {
  iox2ps_subscriber_t subscriber;
  IS(iox2ps_subscriber_create(domain, &subscriber), IOX2PS_OK);
  return subscriber;
}

static iox2ps_status_t send_byte(iox2ps_domain_t *domain, const iox2ps_publisher_t *publisher, uint8_t byte, size_t *receivers) {
  iox2ps_blocked_t blocked;
  return iox2ps_publisher_send_copy(domain, publisher, &byte, 1, receivers, &blocked);
}

/* The byte that is received, or 0 where none waits. */
static uint8_t received(iox2ps_domain_t *domain, const iox2ps_subscriber_t *subscriber) {
  iox2ps_sample_t sample;
  size_t len;
  uint8_t byte = 0;
  iox2ps_status_t code = iox2ps_subscriber_receive_copy(domain, subscriber, &byte, 1, &len, &sample);
  CHECK(code == IOX2PS_OK || code == IOX2PS_NO_SAMPLE);
  return byte;
}

static iox2ps_status_t borrow(iox2ps_domain_t *domain, const iox2ps_subscriber_t *subscriber) {
  iox2ps_sample_t sample;
  const void *payload;
  size_t len;
  return iox2ps_subscriber_receive(domain, subscriber, &sample, &payload, &len);
}

static iox2ps_status_t lend(iox2ps_domain_t *domain, const iox2ps_publisher_t *publisher, size_t len) {
  iox2ps_loan_t loan;
  void *payload;
  return iox2ps_publisher_loan(domain, publisher, len, &loan, &payload);
}

/* ---- a domain's settings */

/* Settings of which no two are equal. */
static iox2ps_config_t all_different(void) {
  iox2ps_config_t config;
  iox2ps_config_defaults(&config, 7, 1, 1);
  config.max_publishers = 3;
  config.max_subscribers = 4;
  config.subscriber_max_buffer_size = 5;
  config.subscriber_max_borrowed_samples = 6;
  config.history_size = 2;
  config.number_of_channels = 7;
  config.subscriber_expired_connection_buffer = 9;
  config.publisher_max_loaned_samples = 8;
  return config;
}

static void as_many_ports_as_the_settings_say(void) {
  iox2ps_domain_t domain;
  iox2ps_config_t config = all_different();
  iox2ps_publisher_t publisher;
  iox2ps_subscriber_t subscriber;
  create(&domain, &config);
  for (size_t i = 0; i < config.max_publishers; i++) publisher_of(&domain);
  IS(iox2ps_publisher_create(&domain, &publisher), IOX2PS_PUBLISHER_CREATE_ERROR_EXCEEDS_MAX_SUPPORTED_PUBLISHERS);
  for (size_t i = 0; i < config.max_subscribers; i++) subscriber_of(&domain);
  IS(iox2ps_subscriber_create(&domain, &subscriber), IOX2PS_SUBSCRIBER_CREATE_ERROR_EXCEEDS_MAX_SUPPORTED_SUBSCRIBERS);
  IS(iox2ps_domain_destroy(&domain), IOX2PS_OK);
}

static void as_many_messages_as_the_settings_say(void) {
  iox2ps_domain_t domain;
  iox2ps_config_t config = all_different();
  size_t receivers, slots;
  create(&domain, &config);
  iox2ps_publisher_t publisher = publisher_of(&domain);
  for (size_t i = 0; i < config.publisher_max_loaned_samples - 1; i++) IS(lend(&domain, &publisher, 1), IOX2PS_OK);
  for (uint8_t byte = 1; byte <= 9; byte++) IS(send_byte(&domain, &publisher, byte, &receivers), IOX2PS_OK);
  IS(lend(&domain, &publisher, 1), IOX2PS_OK);
  IS(lend(&domain, &publisher, 1), IOX2PS_LOAN_ERROR_EXCEEDS_MAX_LOANS);
  iox2ps_subscriber_t subscriber = subscriber_of(&domain);
  IS(iox2ps_publisher_update_connections(&domain, &publisher), IOX2PS_OK);
  for (size_t i = config.history_size; i > 0; i--) CHECK(received(&domain, &subscriber) == 10 - i);
  CHECK(received(&domain, &subscriber) == 0 && subscriber.buffer_size == config.subscriber_max_buffer_size);
  iox2ps_publisher_t other = publisher_of(&domain);
  for (uint8_t byte = 1; byte <= 10; byte++) IS(send_byte(&domain, &other, byte, &receivers), IOX2PS_OK);
  for (size_t i = config.subscriber_max_buffer_size; i > 0; i--) CHECK(received(&domain, &subscriber) == 11 - i);
  CHECK(received(&domain, &subscriber) == 0);
  for (size_t i = 0; i < config.subscriber_max_borrowed_samples; i++) {
    IS(send_byte(&domain, &other, 1, &receivers), IOX2PS_OK);
    IS(borrow(&domain, &subscriber), IOX2PS_OK);
  }
  IS(send_byte(&domain, &other, 1, &receivers), IOX2PS_OK);
  IS(borrow(&domain, &subscriber), IOX2PS_RECEIVE_ERROR_EXCEEDS_MAX_BORROWS);
  IS(iox2ps_worst_case_slots(&config, 8, &slots), IOX2PS_OK);
  CHECK(slots == 4 * 7 * (5 + 6) + 2 + 8);
  IS(iox2ps_domain_destroy(&domain), IOX2PS_OK);
}

static void as_many_channels_as_the_settings_say(void) {
  iox2ps_domain_t domain;
  iox2ps_config_t config = all_different();
  uint32_t is_open;
  create(&domain, &config);
  iox2ps_subscriber_t subscriber = subscriber_of(&domain);
  publisher_of(&domain);
  IS(iox2ps_subscriber_update_connections(&domain, &subscriber), IOX2PS_OK);
  for (size_t channel = 0; channel < config.number_of_channels + 2; channel++) {
    iox2ps_status_t code =
        iox2ps_subscriber_at_least_one_channel_has_state(&domain, &subscriber, channel, IOX2PS_CHANNEL_STATE_OPEN, &is_open);
    CHECK(code == (channel < config.number_of_channels ? IOX2PS_OK : IOX2PS_NO_SUCH_CHANNEL));
  }
  IS(iox2ps_domain_destroy(&domain), IOX2PS_OK);
}

/* Samples of closed publishers are kept, of one publisher more than is open at a time. */
static void as_many_closed_publishers_as_the_settings_say(void) {
  for (size_t kept = 1; kept <= 3; kept++) {
    iox2ps_domain_t domain;
    iox2ps_config_t config;
    size_t receivers;
    iox2ps_config_defaults(&config, 7, 1, 1);
    config.max_publishers = 1;
    config.subscriber_max_borrowed_samples = 1;
    config.subscriber_expired_connection_buffer = kept;
    create(&domain, &config);
    iox2ps_subscriber_t subscriber = subscriber_of(&domain);
    for (size_t closed = 1; closed <= kept + 1; closed++) {
      iox2ps_publisher_t publisher = publisher_of(&domain);
      IS(send_byte(&domain, &publisher, 1, &receivers), IOX2PS_OK);
      IS(borrow(&domain, &subscriber), IOX2PS_OK);
      IS(iox2ps_publisher_close(&domain, &publisher), IOX2PS_OK);
      iox2ps_status_t code = iox2ps_subscriber_update_connections(&domain, &subscriber);
      CHECK(code == (closed <= kept ? IOX2PS_OK : IOX2PS_CONNECTION_FAILURE_EXPIRED_BUFFER_FULL));
    }
    IS(iox2ps_domain_destroy(&domain), IOX2PS_OK);
  }
}

static void a_domain_and_its_node_have_their_numbers(void) {
  iox2ps_domain_t domain;
  iox2ps_config_t config;
  iox2ps_sample_t sample;
  iox2ps_header_t header;
  const void *payload;
  size_t receivers, len;
  iox2ps_config_defaults(&config, 7, 1, 1);
  config.service_id.high = 11;
  config.node_id.low = 12;
  config.node_id.high = 13;
  create(&domain, &config);
  iox2ps_publisher_t publisher = publisher_of(&domain);
  iox2ps_subscriber_t subscriber = subscriber_of(&domain);
  CHECK(publisher.service_id.low == 7 && publisher.service_id.high == 11 && subscriber.service_id.high == 11);
  IS(send_byte(&domain, &publisher, 1, &receivers), IOX2PS_OK);
  IS(iox2ps_subscriber_receive(&domain, &subscriber, &sample, &payload, &len), IOX2PS_OK);
  IS(iox2ps_sample_header(&domain, &sample, &header), IOX2PS_OK);
  CHECK(header.node_id.low == 12 && header.node_id.high == 13);
  IS(iox2ps_domain_destroy(&domain), IOX2PS_OK);
}

static void payloads_are_as_long_and_aligned_as_the_settings_say(void) {
  iox2ps_domain_t domain;
  iox2ps_config_t config;
  iox2ps_loan_t loan;
  void *payload;
  iox2ps_config_defaults(&config, 7, 1, 1);
  config.payload_size = 48;
  config.payload_alignment = 16;
  create(&domain, &config);
  iox2ps_publisher_t publisher = publisher_of(&domain);
  IS(lend(&domain, &publisher, 49), IOX2PS_LOAN_ERROR_EXCEEDS_MAX_LOAN_SIZE);
  for (int i = 0; i < 2; i++) {
    IS(iox2ps_publisher_loan(&domain, &publisher, 48, &loan, &payload), IOX2PS_OK);
    CHECK((uintptr_t)payload % 16 == 0);
  }
  IS(iox2ps_domain_destroy(&domain), IOX2PS_OK);
}

/* ---- full buffers */

/* What the second message returns that a publisher sends to a buffer of one. */
static iox2ps_status_t second_send(uint32_t overflows, uint32_t strategy, uint32_t handler, size_t *receivers, uint8_t *first) {
  iox2ps_domain_t domain;
  iox2ps_config_t config;
  iox2ps_publisher_options_t options;
  iox2ps_publisher_t publisher;
  iox2ps_config_defaults(&config, 7, 1, 1);
  config.enable_safe_overflow = overflows;
  config.backpressure_strategy = strategy;
  config.subscriber_max_buffer_size = 1;
  create(&domain, &config);
  iox2ps_publisher_options_of(&config, &options);
  CHECK(options.backpressure_strategy == strategy && options.backpressure_handler == IOX2PS_BACKPRESSURE_NONE);
  options.backpressure_handler = handler;
  IS(iox2ps_publisher_create_with(&domain, &options, &publisher), IOX2PS_OK);
  iox2ps_subscriber_t subscriber = subscriber_of(&domain);
  IS(send_byte(&domain, &publisher, 1, receivers), IOX2PS_OK);
  *receivers = 99;
  iox2ps_status_t code = send_byte(&domain, &publisher, 2, receivers);
  *first = received(&domain, &subscriber);
  IS(iox2ps_domain_destroy(&domain), IOX2PS_OK);
  return code;
}

static void a_full_buffer_loses_a_message_where_it_overflows(void) {
  size_t receivers;
  uint8_t first;
  IS(second_send(1, IOX2PS_RETRY_UNTIL_DELIVERED, IOX2PS_BACKPRESSURE_NONE, &receivers, &first), IOX2PS_OK);
  CHECK(receivers == 1 && first == 2);
  IS(second_send(0, IOX2PS_DISCARD_DATA, IOX2PS_BACKPRESSURE_NONE, &receivers, &first), IOX2PS_OK);
  CHECK(receivers == 0 && first == 1);
}

static void each_strategy_and_handler_answers_at_a_full_buffer(void) {
  size_t receivers;
  uint8_t first;
  IS(second_send(0, IOX2PS_RETRY_UNTIL_DELIVERED, IOX2PS_BACKPRESSURE_NONE, &receivers, &first), IOX2PS_BLOCKED);
  IS(second_send(0, IOX2PS_DISCARD_DATA, IOX2PS_BACKPRESSURE_NONE, &receivers, &first), IOX2PS_OK);
  IS(second_send(0, IOX2PS_RETRY_UNTIL_DELIVERED, IOX2PS_BACKPRESSURE_FOLLOW_STRATEGY, &receivers, &first), IOX2PS_BLOCKED);
  IS(second_send(0, IOX2PS_DISCARD_DATA, IOX2PS_BACKPRESSURE_FOLLOW_STRATEGY, &receivers, &first), IOX2PS_OK);
  CHECK(receivers == 0);
  for (uint32_t strategy = 0; strategy < 2; strategy++) {
    IS(second_send(0, strategy, IOX2PS_BACKPRESSURE_RETRY, &receivers, &first), IOX2PS_BLOCKED);
    IS(second_send(0, strategy, IOX2PS_BACKPRESSURE_DISCARD_DATA, &receivers, &first), IOX2PS_OK);
    CHECK(receivers == 0 && first == 1);
    IS(second_send(0, strategy, IOX2PS_BACKPRESSURE_DISCARD_DATA_AND_FAIL, &receivers, &first), IOX2PS_SEND_ERROR_UNABLE_TO_DELIVER);
  }
}

/* ---- ports' options */

static void a_publisher_has_what_its_options_say(void) {
  iox2ps_domain_t domain;
  iox2ps_config_t config;
  iox2ps_publisher_options_t options;
  iox2ps_publisher_t few_slots, publisher;
  size_t receivers;
  iox2ps_config_defaults(&config, 7, 1, 1);
  config.enable_safe_overflow = 0;
  config.subscriber_max_buffer_size = 1;
  create(&domain, &config);
  iox2ps_publisher_options_of(&config, &options);
  options.max_loaned_samples = 4;
  options.initial_max_slice_len = 5;
  options.preallocated_samples = 3;
  options.backpressure_strategy = IOX2PS_DISCARD_DATA;
  IS(iox2ps_publisher_create_with(&domain, &options, &few_slots), IOX2PS_OK);
  for (int i = 0; i < 3; i++) IS(lend(&domain, &few_slots, 5), IOX2PS_OK);
  IS(lend(&domain, &few_slots, 5), IOX2PS_LOAN_ERROR_OUT_OF_MEMORY);
  options.preallocated_samples = 0;
  IS(iox2ps_publisher_create_with(&domain, &options, &publisher), IOX2PS_OK);
  subscriber_of(&domain);
  IS(send_byte(&domain, &publisher, 1, &receivers), IOX2PS_OK);
  CHECK(receivers == 1);
  IS(send_byte(&domain, &publisher, 1, &receivers), IOX2PS_OK);
  CHECK(receivers == 0);
  IS(lend(&domain, &publisher, 6), IOX2PS_LOAN_ERROR_EXCEEDS_MAX_LOAN_SIZE);
  for (int i = 0; i < 4; i++) IS(lend(&domain, &publisher, 5), IOX2PS_OK);
  IS(lend(&domain, &publisher, 5), IOX2PS_LOAN_ERROR_EXCEEDS_MAX_LOANS);
  IS(iox2ps_domain_destroy(&domain), IOX2PS_OK);
}

/* How long a message is refused that is a byte longer than the one before. */
static size_t refused_length(uint32_t strategy, iox2ps_status_t refusal) {
  iox2ps_domain_t domain;
  iox2ps_config_t config;
  iox2ps_publisher_options_t options;
  iox2ps_publisher_t publisher;
  iox2ps_loan_t loan;
  void *payload;
  size_t len = 0;
  iox2ps_status_t code = IOX2PS_OK;
  iox2ps_config_defaults(&config, 7, 1, 1);
  create(&domain, &config);
  iox2ps_publisher_options_of(&config, &options);
  options.allocation_strategy = strategy;
  IS(iox2ps_publisher_create_with(&domain, &options, &publisher), IOX2PS_OK);
  while (code == IOX2PS_OK && len < 600) {
    code = iox2ps_publisher_loan(&domain, &publisher, ++len, &loan, &payload);
    if (code == IOX2PS_OK) IS(iox2ps_loan_discard(&domain, &loan), IOX2PS_OK);
  }
  IS(code, refusal);
  IS(iox2ps_domain_destroy(&domain), IOX2PS_OK);
  return len;
}

/* Memory grows 254 times at most, by BEST_FIT for each longer message, and by POWER_OF_TWO for those past a power of two. */
static void memory_grows_as_the_options_say(void) {
  CHECK(refused_length(IOX2PS_ALLOCATION_STATIC, IOX2PS_LOAN_ERROR_EXCEEDS_MAX_LOAN_SIZE) == 2);
  CHECK(refused_length(IOX2PS_ALLOCATION_BEST_FIT, IOX2PS_LOAN_ERROR_OUT_OF_MEMORY) == 256);
  CHECK(refused_length(IOX2PS_ALLOCATION_POWER_OF_TWO, IOX2PS_OK) == 600);
}

static void a_subscriber_has_the_buffer_that_its_options_say(void) {
  iox2ps_domain_t domain;
  iox2ps_config_t config;
  iox2ps_subscriber_options_t options;
  iox2ps_subscriber_t subscriber;
  size_t receivers;
  iox2ps_config_defaults(&config, 7, 1, 1);
  config.subscriber_max_buffer_size = 9;
  create(&domain, &config);
  iox2ps_subscriber_options_of(&config, &options);
  CHECK(options.buffer_size == 9 && options.degradation == IOX2PS_DEGRADATION_WARN);
  options.buffer_size = 3;
  IS(iox2ps_subscriber_create_with(&domain, &options, &subscriber), IOX2PS_OK);
  iox2ps_publisher_t publisher = publisher_of(&domain);
  for (uint8_t byte = 1; byte <= 5; byte++) IS(send_byte(&domain, &publisher, byte, &receivers), IOX2PS_OK);
  for (uint8_t byte = 3; byte <= 5; byte++) CHECK(received(&domain, &subscriber) == byte);
  CHECK(received(&domain, &subscriber) == 0);
  IS(iox2ps_domain_destroy(&domain), IOX2PS_OK);
}

/* ---- connections that aren't made, and warnings */

/* Whether the warnings of the domain are of these kinds. */
static int has_warnings(iox2ps_domain_t *domain, size_t count, uint32_t first, uint32_t second) {
  iox2ps_warning_t warning;
  size_t found = 99;
  IS(iox2ps_domain_warning_count(domain, &found), IOX2PS_OK);
  if (found != count) return 0;
  for (size_t i = 0; i < count; i++) {
    IS(iox2ps_domain_warning(domain, i, &warning), IOX2PS_OK);
    if (warning.kind != (i ? second : first)) return 0;
  }
  return 1;
}

/* Makes a port that answers this, and another that warns, whose connection is refused by each. */
static void refuse_a_connection(iox2ps_domain_t *domain, uint32_t of_publisher, uint32_t of_subscriber, int publisher_is_last) {
  iox2ps_config_t config;
  iox2ps_publisher_options_t publishing;
  iox2ps_subscriber_options_t subscribing;
  iox2ps_publisher_t publisher;
  iox2ps_subscriber_t subscriber;
  uint64_t refused;
  iox2ps_config_defaults(&config, 7, 1, 1);
  config.subscriber_max_buffer_size = TOO_LONG;
  create(domain, &config);
  iox2ps_publisher_options_of(&config, &publishing);
  iox2ps_subscriber_options_of(&config, &subscribing);
  CHECK(publishing.degradation == IOX2PS_DEGRADATION_WARN && subscribing.degradation == IOX2PS_DEGRADATION_WARN);
  publishing.preallocated_samples = 1;
  publishing.degradation = of_publisher;
  subscribing.degradation = of_subscriber;
  if (publisher_is_last) IS(iox2ps_subscriber_create_with(domain, &subscribing, &subscriber), IOX2PS_OK);
  IS(iox2ps_publisher_create_with(domain, &publishing, &publisher), IOX2PS_OK);
  if (!publisher_is_last) IS(iox2ps_subscriber_create_with(domain, &subscribing, &subscriber), IOX2PS_OK);
  IS(iox2ps_domain_refused_connections(domain, &refused), IOX2PS_OK);
  CHECK(refused == 1);
}

static void a_refused_connection_is_ignored_warned_of_or_fails_the_call(void) {
  iox2ps_domain_t domain;
  const uint32_t answers[] = {IOX2PS_DEGRADATION_IGNORE, IOX2PS_DEGRADATION_WARN, IOX2PS_DEGRADATION_FAIL};
  for (int publisher_is_last = 0; publisher_is_last < 2; publisher_is_last++) {
    uint32_t partly = publisher_is_last ? IOX2PS_WARNING_PUBLISHER_PARTLY_CONNECTED : IOX2PS_WARNING_SUBSCRIBER_PARTLY_CONNECTED;
    const uint32_t kinds[] = {0, IOX2PS_WARNING_CONNECTION_NOT_MADE, partly};
    for (int i = 0; i < 3; i++) {
      uint32_t of_publisher = publisher_is_last ? answers[i] : (uint32_t)IOX2PS_DEGRADATION_WARN;
      uint32_t of_subscriber = publisher_is_last ? (uint32_t)IOX2PS_DEGRADATION_WARN : answers[i];
      refuse_a_connection(&domain, of_publisher, of_subscriber, publisher_is_last);
      CHECK(has_warnings(&domain, i != 0, kinds[i], 0));
      IS(iox2ps_domain_destroy(&domain), IOX2PS_OK);
    }
  }
}

static void less_room_than_borrowed_samples_is_warned_of(void) {
  iox2ps_domain_t domain;
  iox2ps_config_t config;
  iox2ps_config_defaults(&config, 7, 1, 1);
  for (size_t borrowed = 3; borrowed <= 4; borrowed++) {
    config.subscriber_expired_connection_buffer = 3;
    config.subscriber_max_borrowed_samples = borrowed;
    create(&domain, &config);
    subscriber_of(&domain);
    CHECK(has_warnings(&domain, borrowed == 4, IOX2PS_WARNING_EXPIRED_BUFFER_RAISED, 0));
    IS(iox2ps_domain_destroy(&domain), IOX2PS_OK);
  }
}

/* There is room for one closed publisher, of which a sample is borrowed; what waits of a second one is lost. */
static void lost_messages_of_closed_publishers_are_warned_of(void) {
  iox2ps_domain_t domain;
  iox2ps_config_t config;
  size_t receivers;
  iox2ps_config_defaults(&config, 7, 1, 1);
  config.max_publishers = 1;
  config.subscriber_max_borrowed_samples = 1;
  config.subscriber_expired_connection_buffer = 1;
  create(&domain, &config);
  iox2ps_subscriber_t subscriber = subscriber_of(&domain);
  for (int i = 0; i < 3; i++) {
    iox2ps_publisher_t publisher = publisher_of(&domain);
    IS(iox2ps_subscriber_update_connections(&domain, &subscriber), IOX2PS_OK);
    if (i < 2) IS(send_byte(&domain, &publisher, 1, &receivers), IOX2PS_OK);
    IS(iox2ps_publisher_close(&domain, &publisher), IOX2PS_OK);
  }
  CHECK(has_warnings(&domain, 1, IOX2PS_WARNING_EXPIRED_DATA_DISCARDED, 0));
  IS(iox2ps_domain_destroy(&domain), IOX2PS_OK);
}

/* ---- a recording */

/* What is recorded of a message of four bytes, with this room: a text that ends in a zero byte, and how many commands had none. */
static uint64_t recorded(size_t commands, size_t bytes, char *text, size_t room) {
  iox2ps_domain_t domain = IOX2PS_DOMAIN_INIT;
  iox2ps_config_t config;
  iox2ps_blocked_t blocked;
  size_t receivers, len;
  uint64_t missed;
  iox2ps_config_defaults(&config, 7, 4, 1);
  IS(iox2ps_domain_create_recorded(&domain, &config, commands, bytes), IOX2PS_OK);
  iox2ps_publisher_t publisher = publisher_of(&domain);
  iox2ps_subscriber_t subscriber = subscriber_of(&domain);
  IS(iox2ps_publisher_send_copy(&domain, &publisher, "\1\2\3\4", 4, &receivers, &blocked), IOX2PS_OK);
  IS(borrow(&domain, &subscriber), IOX2PS_OK);
  IS(iox2ps_domain_recording(&domain, text, room - 1, &len, &missed), IOX2PS_OK);
  text[len] = 0;
  IS(iox2ps_domain_destroy(&domain), IOX2PS_OK);
  return missed;
}

static void as_much_is_recorded_as_the_arguments_say(void) {
  char text[1024];
  CHECK(recorded(20, 3, text, sizeof text) == 0 && strstr(text, " 2 = value 3\n") && !strstr(text, "value 4\n"));
  CHECK(recorded(20, 4, text, sizeof text) == 0 && strstr(text, " 3 = value 4\n"));
  CHECK(recorded(2, 20, text, sizeof text) > 0 && strstr(text, "\nend 2 "));
}

int main(void) {
  as_many_ports_as_the_settings_say();
  as_many_messages_as_the_settings_say();
  as_many_channels_as_the_settings_say();
  as_many_closed_publishers_as_the_settings_say();
  a_domain_and_its_node_have_their_numbers();
  payloads_are_as_long_and_aligned_as_the_settings_say();
  a_full_buffer_loses_a_message_where_it_overflows();
  each_strategy_and_handler_answers_at_a_full_buffer();
  a_publisher_has_what_its_options_say();
  memory_grows_as_the_options_say();
  a_subscriber_has_the_buffer_that_its_options_say();
  a_refused_connection_is_ignored_warned_of_or_fails_the_call();
  less_room_than_borrowed_samples_is_warned_of();
  lost_messages_of_closed_publishers_are_warned_of();
  as_much_is_recorded_as_the_arguments_say();
  return checked();
}
