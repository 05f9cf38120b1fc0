// SPDX-License-Identifier: Apache-2.0 OR MIT
/* Each function of the header where all is well: messages in place and copied, blocked sends, options,
 * warnings, texts. It compiles as C and as C++. */
#include "checks.h"

#ifdef __cplusplus
#define SAME_SIZE(type, size) static_assert(sizeof(type) == size, "the size of " #type)
#else
#define SAME_SIZE(type, size) _Static_assert(sizeof(type) == size, "the size of " #type)
#endif

/* No struct has room between its fields; the Rust crate's tests have the same numbers. */
SAME_SIZE(iox2ps_domain_t, 8);
SAME_SIZE(iox2ps_config_t, 128);
SAME_SIZE(iox2ps_publisher_options_t, 48);
SAME_SIZE(iox2ps_subscriber_options_t, 24);
SAME_SIZE(iox2ps_publisher_t, 56);
SAME_SIZE(iox2ps_subscriber_t, 48);
SAME_SIZE(iox2ps_loan_t, 72);
SAME_SIZE(iox2ps_blocked_t, 72);
SAME_SIZE(iox2ps_sample_t, 88);
SAME_SIZE(iox2ps_header_t, 40);
SAME_SIZE(iox2ps_warning_t, 40);

/* Its initialiser is a constant in both languages. */
static iox2ps_domain_t at_file_scope = IOX2PS_DOMAIN_INIT;

static int are_all(const void *bytes, size_t len, uint8_t value) {
  for (size_t i = 0; i < len; i++) {
    if (((const uint8_t *)bytes)[i] != value) return 0;
  }
  return 1;
}

static void create(iox2ps_domain_t *domain, iox2ps_config_t *config) {
  domain->domain_ = NULL;
  IS(iox2ps_domain_create(domain, config), IOX2PS_OK);
}

static void settings_are_read_back(void) {
  iox2ps_domain_t domain = IOX2PS_DOMAIN_INIT;
  iox2ps_config_t config, read;
  iox2ps_config_defaults(&config, 7, 24, 8);
  CHECK(config.service_id.low == 7 && config.service_id.high == 0);
  CHECK(config.payload_size == 24 && config.payload_alignment == 8);
  CHECK(config.max_publishers == 2 && config.publisher_max_loaned_samples == 2 && config.max_subscribers == 8);
  CHECK(config.subscriber_max_buffer_size == 2 && config.subscriber_max_borrowed_samples == 2);
  CHECK(config.history_size == 0 && config.number_of_channels == 1 && config.enable_safe_overflow);
  config.service_id.high = 9;
  config.node_id.high = 3;
  config.number_of_channels = 3;
  create(&domain, &config);
  memset(&read, 0xff, sizeof read);
  IS(iox2ps_domain_config(&domain, &read), IOX2PS_OK);
  CHECK(memcmp(&read, &config, sizeof read) == 0);
  IS(iox2ps_domain_destroy(&domain), IOX2PS_OK);
  CHECK(domain.domain_ == NULL);
}

static void a_domain_may_be_static(void) {
  static iox2ps_domain_t in_a_function = IOX2PS_DOMAIN_INIT;
  iox2ps_config_t config;
  iox2ps_config_defaults(&config, 7, 24, 8);
  CHECK(at_file_scope.domain_ == NULL && in_a_function.domain_ == NULL);
  IS(iox2ps_domain_destroy(&at_file_scope), IOX2PS_NO_DOMAIN);
  IS(iox2ps_domain_create(&at_file_scope, &config), IOX2PS_OK);
  IS(iox2ps_domain_create(&in_a_function, &config), IOX2PS_OK);
  IS(iox2ps_domain_destroy(&at_file_scope), IOX2PS_OK);
  IS(iox2ps_domain_destroy(&in_a_function), IOX2PS_OK);
}

static void a_domain_is_recorded(void) {
  iox2ps_domain_t domain = IOX2PS_DOMAIN_INIT;
  iox2ps_config_t config;
  iox2ps_publisher_t publisher;
  char text[200] = "unchanged";
  size_t len;
  uint64_t missed;
  iox2ps_config_defaults(&config, 7, 24, 8);
  create(&domain, &config);
  IS(iox2ps_domain_recording(&domain, text, sizeof text, &len, &missed), IOX2PS_OK);
  CHECK(len == 0 && missed == 0 && !strcmp(text, "unchanged"));
  IS(iox2ps_domain_create_recorded(&domain, &config, 1, 0), IOX2PS_HAS_DOMAIN);
  IS(iox2ps_domain_destroy(&domain), IOX2PS_OK);
  config.payload_alignment = 7;
  IS(iox2ps_domain_create_recorded(&domain, &config, 1, 0), IOX2PS_INVALID_PAYLOAD_ALIGNMENT);
  config.payload_alignment = 8;
  IS(iox2ps_domain_create_recorded(&domain, &config, SIZE_MAX, 0), IOX2PS_OUT_OF_MEMORY);
  IS(iox2ps_domain_create_recorded(&domain, &config, 1, 0), IOX2PS_OK);
  IS(iox2ps_publisher_create(&domain, &publisher), IOX2PS_OK);
  IS(iox2ps_publisher_update_connections(&domain, &publisher), IOX2PS_OK);
  IS(iox2ps_domain_recording(&domain, text, 10, &len, &missed), IOX2PS_TOO_SMALL);
  CHECK(len > 10 && missed == 1 && !strcmp(text, "unchanged"));
  IS(iox2ps_domain_recording(&domain, text, sizeof text, &len, &missed), IOX2PS_OK);
  text[len] = 0;
  CHECK(missed == 1 && strstr(text, "\npub 2 retry static 24 most warn none = publisher 1\nend 1 "));
  IS(iox2ps_domain_destroy(&domain), IOX2PS_OK);
}

static void the_archive_is_of_the_header_s_version(void) {
  char words[32];
  CHECK(iox2ps_version() == IOX2PS_VERSION);
  CHECK(IOX2PS_VERSION == (IOX2PS_VERSION_MAJOR << 16 | IOX2PS_VERSION_MINOR << 8 | IOX2PS_VERSION_PATCH));
  sprintf(words, "%d.%d.%d", IOX2PS_VERSION_MAJOR, IOX2PS_VERSION_MINOR, IOX2PS_VERSION_PATCH);
  CHECK(strcmp(words, IOX2PS_VERSION_TEXT) == 0);
}

static void a_message_is_written_and_read_where_it_lies(void) {
  iox2ps_domain_t domain;
  iox2ps_config_t config;
  iox2ps_publisher_t publisher;
  iox2ps_subscriber_t subscriber;
  iox2ps_loan_t loan;
  iox2ps_sample_t sample;
  iox2ps_blocked_t blocked;
  iox2ps_header_t header;
  void *written, *again;
  const void *read, *read_again;
  size_t receivers = 99, len = 99;
  uint32_t waits = 9;
  iox2ps_config_defaults(&config, 7, 24, 8);
  config.node_id.low = 12;
  create(&domain, &config);
  IS(iox2ps_publisher_create(&domain, &publisher), IOX2PS_OK);
  IS(iox2ps_subscriber_create(&domain, &subscriber), IOX2PS_OK);
  CHECK(publisher.initial_max_slice_len == 24 && subscriber.buffer_size == 2);
  CHECK(publisher.id.low != subscriber.id.low && publisher.service_id.low == 7);

  IS(iox2ps_publisher_loan(&domain, &publisher, 24, &loan, &written), IOX2PS_OK);
  CHECK((uintptr_t)written % 8 == 0 && loan.publisher.low == publisher.id.low);
  CHECK(are_all(written, 24, 0));
  IS(iox2ps_loan_payload(&domain, &loan, &again, &len), IOX2PS_OK);
  CHECK(again == written && len == 24);
  memcpy(written, "where it lies, 24 bytes", 24);
  IS(iox2ps_subscriber_has_samples(&domain, &subscriber, &waits), IOX2PS_OK);
  CHECK(waits == 0);
  IS(iox2ps_loan_send(&domain, &loan, &receivers, &blocked), IOX2PS_OK);
  CHECK(receivers == 1);
  IS(iox2ps_subscriber_has_samples(&domain, &subscriber, &waits), IOX2PS_OK);
  CHECK(waits == 1);

  IS(iox2ps_subscriber_receive(&domain, &subscriber, &sample, &read, &len), IOX2PS_OK);
  CHECK(read == written && len == 24 && memcmp(read, "where it lies, 24 bytes", 24) == 0);
  CHECK(sample.origin.low == publisher.id.low && sample.subscriber.low == subscriber.id.low);
  CHECK(sample.number.low == loan.number.low && sample.number.high == loan.number.high);
  IS(iox2ps_sample_payload(&domain, &sample, &read_again, &len), IOX2PS_OK);
  CHECK(read_again == read && len == 24);
  IS(iox2ps_sample_header(&domain, &sample, &header), IOX2PS_OK);
  CHECK(header.node_id.low == 12 && header.publisher.low == publisher.id.low && header.number_of_elements == 24);
  IS(iox2ps_sample_release(&domain, &sample), IOX2PS_OK);
  IS(iox2ps_subscriber_receive(&domain, &subscriber, &sample, &read, &len), IOX2PS_NO_SAMPLE);
  IS(iox2ps_domain_destroy(&domain), IOX2PS_OK);
}

static void a_loan_may_have_unspecified_bytes(void) {
  iox2ps_domain_t domain;
  iox2ps_config_t config;
  iox2ps_publisher_t publisher;
  iox2ps_subscriber_t subscriber;
  iox2ps_loan_t loan;
  iox2ps_sample_t sample;
  iox2ps_blocked_t blocked;
  void *written, *again;
  const void *read;
  size_t receivers = 99, len = 99;
  iox2ps_config_defaults(&config, 7, 24, 8);
  create(&domain, &config);
  IS(iox2ps_publisher_create(&domain, &publisher), IOX2PS_OK);
  IS(iox2ps_subscriber_create(&domain, &subscriber), IOX2PS_OK);

  IS(iox2ps_publisher_loan_uninit(&domain, &publisher, 16, &loan, &written), IOX2PS_OK);
  CHECK((uintptr_t)written % 8 == 0 && loan.publisher.low == publisher.id.low);
  IS(iox2ps_loan_payload(&domain, &loan, &again, &len), IOX2PS_OK);
  CHECK(again == written && len == 16);
  memcpy(written, "these 16 bytes.", 16);
  IS(iox2ps_loan_discard(&domain, &loan), IOX2PS_OK);
  IS(iox2ps_publisher_loan_uninit(&domain, &publisher, 24, &loan, &again), IOX2PS_OK);
  CHECK(again == written && memcmp(again, "these 16 bytes.\0\0\0\0\0\0\0\0", 24) == 0);
  memset(again, 3, 24);
  IS(iox2ps_loan_send(&domain, &loan, &receivers, &blocked), IOX2PS_OK);
  IS(iox2ps_subscriber_receive(&domain, &subscriber, &sample, &read, &len), IOX2PS_OK);
  CHECK(receivers == 1 && read == written && len == 24 && are_all(read, 24, 3));
  IS(iox2ps_sample_release(&domain, &sample), IOX2PS_OK);
  IS(iox2ps_domain_destroy(&domain), IOX2PS_OK);
}

static void a_message_is_copied(void) {
  iox2ps_domain_t domain;
  iox2ps_config_t config;
  iox2ps_publisher_t publisher;
  iox2ps_subscriber_t subscriber;
  iox2ps_sample_t sample;
  iox2ps_blocked_t blocked;
  uint8_t bytes[16];
  const void *read;
  size_t receivers = 99, len = 99;
  iox2ps_config_defaults(&config, 7, 16, 1);
  create(&domain, &config);
  IS(iox2ps_publisher_create(&domain, &publisher), IOX2PS_OK);
  IS(iox2ps_subscriber_create(&domain, &subscriber), IOX2PS_OK);
  IS(iox2ps_publisher_send_copy(&domain, &publisher, "hello", 5, &receivers, &blocked), IOX2PS_OK);
  CHECK(receivers == 1);
  IS(iox2ps_publisher_send_copy(&domain, &publisher, "sixteen bytes ..", 16, &receivers, &blocked), IOX2PS_OK);
  memset(bytes, 'x', sizeof bytes);
  IS(iox2ps_subscriber_receive_copy(&domain, &subscriber, bytes, sizeof bytes, &len, &sample), IOX2PS_OK);
  CHECK(len == 5 && memcmp(bytes, "helloxxx", 8) == 0);
  IS(iox2ps_subscriber_receive(&domain, &subscriber, &sample, &read, &len), IOX2PS_OK);
  CHECK(len == 16 && memcmp(read, "sixteen bytes ..", 16) == 0);
  memset(bytes, 'x', sizeof bytes);
  IS(iox2ps_sample_copy(&domain, &sample, bytes, sizeof bytes, &len), IOX2PS_OK);
  CHECK(len == 16 && memcmp(bytes, "sixteen bytes ..", 16) == 0);
  IS(iox2ps_sample_release(&domain, &sample), IOX2PS_OK);
  IS(iox2ps_subscriber_receive_copy(&domain, &subscriber, bytes, sizeof bytes, &len, &sample), IOX2PS_NO_SAMPLE);
  IS(iox2ps_domain_destroy(&domain), IOX2PS_OK);
}

/* The bytes of a sample and of a loan stay while messages, samples, ports and loans come and go. */
static void bytes_stay_where_they_are(void) {
  iox2ps_domain_t domain;
  iox2ps_config_t config;
  iox2ps_publisher_t publisher, other;
  iox2ps_subscriber_t subscriber, late;
  iox2ps_sample_t kept, sample;
  iox2ps_loan_t loan;
  iox2ps_blocked_t blocked;
  uint8_t noise[32];
  void *written;
  const void *at, *read;
  size_t receivers, len;
  iox2ps_config_defaults(&config, 7, 32, 16);
  config.subscriber_max_borrowed_samples = 2;
  create(&domain, &config);
  IS(iox2ps_publisher_create(&domain, &publisher), IOX2PS_OK);
  IS(iox2ps_subscriber_create(&domain, &subscriber), IOX2PS_OK);
  memset(noise, 'n', sizeof noise);
  IS(iox2ps_publisher_send_copy(&domain, &publisher, "kept", 4, &receivers, &blocked), IOX2PS_OK);
  IS(iox2ps_subscriber_receive(&domain, &subscriber, &kept, &at, &len), IOX2PS_OK);
  IS(iox2ps_publisher_loan(&domain, &publisher, 32, &loan, &written), IOX2PS_OK);
  memset(written, 'w', 32);
  for (int round = 0; round < 100; round++) {
    IS(iox2ps_publisher_create(&domain, &other), IOX2PS_OK);
    IS(iox2ps_subscriber_create(&domain, &late), IOX2PS_OK);
    IS(iox2ps_publisher_send_copy(&domain, &publisher, noise, 32, &receivers, &blocked), IOX2PS_OK);
    IS(iox2ps_publisher_send_copy(&domain, &other, noise, 32, &receivers, &blocked), IOX2PS_OK);
    IS(iox2ps_subscriber_receive(&domain, &subscriber, &sample, &read, &len), IOX2PS_OK);
    IS(iox2ps_sample_release(&domain, &sample), IOX2PS_OK);
    IS(iox2ps_publisher_close(&domain, &other), IOX2PS_OK);
    IS(iox2ps_subscriber_close(&domain, &late), IOX2PS_OK);
  }
  CHECK(len == 32 && memcmp(at, "kept", 4) == 0);
  CHECK(are_all(written, 32, 'w'));
  IS(iox2ps_loan_send(&domain, &loan, &receivers, &blocked), IOX2PS_OK);
  IS(iox2ps_publisher_close(&domain, &publisher), IOX2PS_OK);
  IS(iox2ps_subscriber_close(&domain, &subscriber), IOX2PS_OK);
  CHECK(memcmp(at, "kept", 4) == 0);
  IS(iox2ps_sample_payload(&domain, &kept, &read, &len), IOX2PS_OK);
  CHECK(read == at && len == 4);
  IS(iox2ps_domain_destroy(&domain), IOX2PS_OK);
}

/* Of four messages that are out, or borrowed, at a time, each leads to bytes of its own: what is written to one is read
 * there alone. Later rounds use slots again. */
static void each_message_has_bytes_of_its_own(void) {
  enum { MESSAGES = 4, LEN = 24 };
  iox2ps_domain_t domain;
  iox2ps_config_t config;
  iox2ps_publisher_t publishers[2];
  iox2ps_subscriber_t subscriber;
  iox2ps_loan_t loans[MESSAGES];
  iox2ps_sample_t samples[MESSAGES];
  iox2ps_blocked_t blocked;
  void *written[MESSAGES], *again;
  const void *read[MESSAGES], *read_again;
  size_t receivers, len;
  iox2ps_config_defaults(&config, 7, LEN, 8);
  create(&domain, &config);
  for (int i = 0; i < 2; i++) IS(iox2ps_publisher_create(&domain, &publishers[i]), IOX2PS_OK);
  IS(iox2ps_subscriber_create(&domain, &subscriber), IOX2PS_OK);
  for (int letter = 'a'; letter < 'a' + 3 * MESSAGES; letter += MESSAGES) {
    for (int i = 0; i < MESSAGES; i++) IS(iox2ps_publisher_loan(&domain, &publishers[i % 2], LEN, &loans[i], &written[i]), IOX2PS_OK);
    for (int i = 0; i < MESSAGES; i++) memset(written[i], letter + i, LEN);
    for (int i = 0; i < MESSAGES; i++) {
      CHECK(are_all(written[i], LEN, (uint8_t)(letter + i)));
      IS(iox2ps_loan_payload(&domain, &loans[i], &again, &len), IOX2PS_OK);
      CHECK(again == written[i] && len == LEN);
    }
    for (int i = 0; i < MESSAGES; i++) IS(iox2ps_loan_send(&domain, &loans[i], &receivers, &blocked), IOX2PS_OK);
    for (int i = 0; i < MESSAGES; i++) IS(iox2ps_subscriber_receive(&domain, &subscriber, &samples[i], &read[i], &len), IOX2PS_OK);
    for (int i = 0; i < MESSAGES; i++) {
      int of = 0;
      while (of < MESSAGES - 1 && loans[of].number.low != samples[i].number.low) of++;
      CHECK(loans[of].number.low == samples[i].number.low && loans[of].publisher.low == samples[i].origin.low);
      CHECK(read[i] == written[of] && are_all(read[i], LEN, (uint8_t)(letter + of)));
      IS(iox2ps_sample_payload(&domain, &samples[i], &read_again, &len), IOX2PS_OK);
      CHECK(read_again == read[i] && len == LEN);
    }
    for (int i = 0; i < MESSAGES; i++) IS(iox2ps_sample_release(&domain, &samples[i]), IOX2PS_OK);
  }
  IS(iox2ps_domain_destroy(&domain), IOX2PS_OK);
}

/* Whatever else is lent, however short it is, and also where slots are used again. */
static void payloads_are_aligned_as_the_settings_say(void) {
  for (size_t alignment = 1; alignment <= 16; alignment *= 2) {
    iox2ps_domain_t domain;
    iox2ps_config_t config;
    iox2ps_publisher_t publisher;
    iox2ps_subscriber_t subscriber;
    iox2ps_loan_t loans[2];
    iox2ps_sample_t sample;
    iox2ps_blocked_t blocked;
    void *written[2];
    const void *read;
    size_t receivers, len;
    iox2ps_config_defaults(&config, 7, 3 * alignment, alignment);
    create(&domain, &config);
    IS(iox2ps_publisher_create(&domain, &publisher), IOX2PS_OK);
    IS(iox2ps_subscriber_create(&domain, &subscriber), IOX2PS_OK);
    for (int round = 0; round < 50; round++) {
      for (int i = 0; i < 2; i++) {
        IS(iox2ps_publisher_loan(&domain, &publisher, i ? 3 * alignment : 1, &loans[i], &written[i]), IOX2PS_OK);
        CHECK((uintptr_t)written[i] % alignment == 0);
      }
      for (int i = 0; i < 2; i++) {
        IS(iox2ps_loan_send(&domain, &loans[i], &receivers, &blocked), IOX2PS_OK);
        IS(iox2ps_subscriber_receive(&domain, &subscriber, &sample, &read, &len), IOX2PS_OK);
        CHECK((uintptr_t)read % alignment == 0);
        IS(iox2ps_sample_release(&domain, &sample), IOX2PS_OK);
      }
    }
    IS(iox2ps_domain_destroy(&domain), IOX2PS_OK);
  }
}

static void a_blocked_send_is_tried_again_and_given_up(void) {
  iox2ps_domain_t domain;
  iox2ps_config_t config;
  iox2ps_publisher_t publisher;
  iox2ps_subscriber_t subscriber;
  iox2ps_sample_t sample;
  iox2ps_loan_t loan;
  iox2ps_blocked_t blocked;
  uint8_t byte = 1;
  void *written;
  size_t receivers, len;
  uint32_t is_blocked;
  iox2ps_config_defaults(&config, 7, 1, 1);
  config.enable_safe_overflow = 0;
  config.subscriber_max_buffer_size = 1;
  create(&domain, &config);
  IS(iox2ps_publisher_create(&domain, &publisher), IOX2PS_OK);
  IS(iox2ps_subscriber_create(&domain, &subscriber), IOX2PS_OK);
  CHECK(publisher.backpressure_strategy == IOX2PS_RETRY_UNTIL_DELIVERED);
  IS(iox2ps_publisher_send_copy(&domain, &publisher, &byte, 1, &receivers, &blocked), IOX2PS_OK);
  IS(iox2ps_publisher_is_blocked(&domain, &publisher, &is_blocked), IOX2PS_OK);
  CHECK(is_blocked == 0);
  IS(iox2ps_publisher_loan(&domain, &publisher, 1, &loan, &written), IOX2PS_OK);
  memset(written, 2, 1);
  IS(iox2ps_loan_send(&domain, &loan, &receivers, &blocked), IOX2PS_BLOCKED);
  CHECK(blocked.publisher.low == publisher.id.low);
  IS(iox2ps_publisher_is_blocked(&domain, &publisher, &is_blocked), IOX2PS_OK);
  CHECK(is_blocked == 1);
  IS(iox2ps_blocked_retry(&domain, &blocked, 1000, &receivers), IOX2PS_BLOCKED);
  IS(iox2ps_subscriber_receive_copy(&domain, &subscriber, &byte, 1, &len, &sample), IOX2PS_OK);
  CHECK(byte == 1);
  IS(iox2ps_blocked_retry(&domain, &blocked, UINT64_MAX, &receivers), IOX2PS_OK);
  CHECK(receivers == 1);
  IS(iox2ps_blocked_retry(&domain, &blocked, 0, &receivers), IOX2PS_NOT_LIVE);
  byte = 3;
  IS(iox2ps_publisher_send_copy(&domain, &publisher, &byte, 1, &receivers, &blocked), IOX2PS_BLOCKED);
  IS(iox2ps_blocked_give_up(&domain, &blocked, &receivers), IOX2PS_OK);
  CHECK(receivers == 0);
  IS(iox2ps_blocked_give_up(&domain, &blocked, &receivers), IOX2PS_NOT_LIVE);
  IS(iox2ps_subscriber_receive_copy(&domain, &subscriber, &byte, 1, &len, &sample), IOX2PS_OK);
  CHECK(byte == 2);
  IS(iox2ps_subscriber_receive_copy(&domain, &subscriber, &byte, 1, &len, &sample), IOX2PS_NO_SAMPLE);
  IS(iox2ps_domain_destroy(&domain), IOX2PS_OK);
}

/* A program that doesn't ask how many took a message passes no place for the number. */
static void receivers_may_be_null(void) {
  iox2ps_domain_t domain;
  iox2ps_config_t config;
  iox2ps_publisher_t publisher;
  iox2ps_subscriber_t subscriber;
  iox2ps_sample_t sample;
  iox2ps_loan_t loan;
  iox2ps_blocked_t blocked;
  uint8_t byte = 1;
  void *written;
  size_t len;
  iox2ps_config_defaults(&config, 7, 1, 1);
  config.enable_safe_overflow = 0;
  config.subscriber_max_buffer_size = 1;
  create(&domain, &config);
  IS(iox2ps_subscriber_create(&domain, &subscriber), IOX2PS_OK);
  IS(iox2ps_publisher_create(&domain, &publisher), IOX2PS_OK);
  for (uint8_t wanted = 1; wanted <= 2; wanted++) {
    IS(iox2ps_publisher_loan(&domain, &publisher, 1, &loan, &written), IOX2PS_OK);
    memset(written, wanted, 1);
    if (wanted == 1) IS(iox2ps_loan_send(&domain, &loan, NULL, &blocked), IOX2PS_OK);
    else IS(iox2ps_loan_deliver_offset_to_connection(&domain, &loan, 0, 0, NULL, &blocked), IOX2PS_OK);
    IS(iox2ps_publisher_send_copy(&domain, &publisher, &byte, 1, NULL, &blocked), IOX2PS_BLOCKED);
    IS(iox2ps_blocked_retry(&domain, &blocked, 0, NULL), IOX2PS_BLOCKED);
    IS(iox2ps_blocked_give_up(&domain, &blocked, NULL), IOX2PS_OK);
    IS(iox2ps_subscriber_receive_copy(&domain, &subscriber, &byte, 1, &len, &sample), IOX2PS_OK);
    CHECK(byte == wanted);
  }
  IS(iox2ps_domain_destroy(&domain), IOX2PS_OK);
}

/* Whom the send waits for; 0 where that isn't said. */
static uint64_t waits_for(iox2ps_domain_t *domain, const iox2ps_blocked_t *blocked) {
  iox2ps_wide_t subscriber = {0, 1};
  IS(iox2ps_blocked_subscriber(domain, blocked, &subscriber), IOX2PS_OK);
  CHECK(subscriber.high == 0);
  return subscriber.low;
}

/* Three subscribers with a buffer for one message: the send waits for the first that is full, also once it is closed, and
 * then for the next. */
static void a_blocked_send_says_who_blocks_it(void) {
  iox2ps_domain_t domain;
  iox2ps_config_t config;
  iox2ps_publisher_t publisher;
  iox2ps_subscriber_t subscribers[3];
  iox2ps_sample_t sample;
  iox2ps_blocked_t blocked;
  iox2ps_wide_t unchanged = {5, 6};
  uint8_t byte = 1;
  size_t receivers = 99, len;
  uint32_t is_blocked = 9;
  iox2ps_config_defaults(&config, 7, 1, 1);
  config.enable_safe_overflow = 0;
  config.subscriber_max_buffer_size = 1;
  create(&domain, &config);
  for (int i = 0; i < 3; i++) IS(iox2ps_subscriber_create(&domain, &subscribers[i]), IOX2PS_OK);
  IS(iox2ps_publisher_create(&domain, &publisher), IOX2PS_OK);
  IS(iox2ps_publisher_send_copy(&domain, &publisher, &byte, 1, &receivers, &blocked), IOX2PS_OK);
  CHECK(receivers == 3);
  IS(iox2ps_subscriber_receive_copy(&domain, &subscribers[0], &byte, 1, &len, &sample), IOX2PS_OK);
  IS(iox2ps_publisher_send_copy(&domain, &publisher, &byte, 1, &receivers, &blocked), IOX2PS_BLOCKED);
  CHECK(waits_for(&domain, &blocked) == subscribers[1].id.low);
  IS(iox2ps_blocked_retry(&domain, &blocked, 0, &receivers), IOX2PS_BLOCKED);
  CHECK(waits_for(&domain, &blocked) == subscribers[1].id.low);
  IS(iox2ps_publisher_is_blocked(&domain, &publisher, &is_blocked), IOX2PS_OK);
  CHECK(is_blocked == 1);
  IS(iox2ps_subscriber_close(&domain, &subscribers[1]), IOX2PS_OK);
  CHECK(waits_for(&domain, &blocked) == subscribers[1].id.low);
  IS(iox2ps_blocked_retry(&domain, &blocked, 0, &receivers), IOX2PS_BLOCKED);
  CHECK(waits_for(&domain, &blocked) == subscribers[2].id.low);
  IS(iox2ps_subscriber_receive_copy(&domain, &subscribers[2], &byte, 1, &len, &sample), IOX2PS_OK);
  IS(iox2ps_blocked_retry(&domain, &blocked, 0, &receivers), IOX2PS_OK);
  CHECK(receivers == 2);
  IS(iox2ps_blocked_subscriber(&domain, &blocked, &unchanged), IOX2PS_NOT_LIVE);
  CHECK(unchanged.low == 5 && unchanged.high == 6);
  IS(iox2ps_domain_destroy(&domain), IOX2PS_OK);
}

/* Where a cleanup has nobody to tell, the code of a call that gives back is dropped without a warning, as the tests of warnings
 * compile this. */
static void what_gives_back_may_be_dropped(void) {
  iox2ps_domain_t domain;
  iox2ps_config_t config;
  iox2ps_publisher_t publisher;
  iox2ps_subscriber_t subscriber;
  iox2ps_sample_t sample;
  iox2ps_loan_t loan;
  iox2ps_blocked_t blocked;
  void *written;
  const void *read;
  size_t len;
  iox2ps_config_defaults(&config, 7, 1, 1);
  create(&domain, &config);
  IS(iox2ps_publisher_create(&domain, &publisher), IOX2PS_OK);
  IS(iox2ps_subscriber_create(&domain, &subscriber), IOX2PS_OK);
  IS(iox2ps_publisher_send_copy(&domain, &publisher, "x", 1, NULL, &blocked), IOX2PS_OK);
  IS(iox2ps_subscriber_receive(&domain, &subscriber, &sample, &read, &len), IOX2PS_OK);
  (void)iox2ps_sample_release(&domain, &sample);
  IS(iox2ps_sample_payload(&domain, &sample, &read, &len), IOX2PS_NOT_LIVE);
  IS(iox2ps_publisher_loan(&domain, &publisher, 1, &loan, &written), IOX2PS_OK);
  (void)iox2ps_loan_discard(&domain, &loan);
  IS(iox2ps_loan_payload(&domain, &loan, &written, &len), IOX2PS_NOT_LIVE);
  (void)iox2ps_publisher_close(&domain, &publisher);
  (void)iox2ps_subscriber_close(&domain, &subscriber);
  IS(iox2ps_publisher_update_connections(&domain, &publisher), IOX2PS_NOT_LIVE);
  IS(iox2ps_subscriber_update_connections(&domain, &subscriber), IOX2PS_NOT_LIVE);
  (void)iox2ps_domain_destroy(&domain);
  CHECK(domain.domain_ == NULL);
}

static void ports_are_made_with_options(void) {
  iox2ps_domain_t domain;
  iox2ps_config_t config;
  iox2ps_publisher_options_t publisher_options;
  iox2ps_subscriber_options_t subscriber_options;
  iox2ps_publisher_t discards, fails;
  iox2ps_subscriber_t subscriber;
  iox2ps_loan_t loan;
  iox2ps_blocked_t blocked;
  uint8_t byte = 1;
  void *written;
  size_t receivers, count;
  iox2ps_config_defaults(&config, 7, 4, 4);
  config.enable_safe_overflow = 0;
  create(&domain, &config);
  iox2ps_publisher_options_of(&config, &publisher_options);
  CHECK(publisher_options.max_loaned_samples == 2 && publisher_options.initial_max_slice_len == 4);
  CHECK(publisher_options.backpressure_strategy == IOX2PS_RETRY_UNTIL_DELIVERED);
  CHECK(publisher_options.backpressure_handler == IOX2PS_BACKPRESSURE_NONE);
  publisher_options.max_loaned_samples = 1;
  publisher_options.initial_max_slice_len = 8;
  publisher_options.backpressure_strategy = IOX2PS_DISCARD_DATA;
  IS(iox2ps_publisher_create_with(&domain, &publisher_options, &discards), IOX2PS_OK);
  CHECK(discards.initial_max_slice_len == 8 && discards.backpressure_strategy == IOX2PS_DISCARD_DATA);
  publisher_options.backpressure_handler = IOX2PS_BACKPRESSURE_DISCARD_DATA_AND_FAIL;
  IS(iox2ps_publisher_create_with(&domain, &publisher_options, &fails), IOX2PS_OK);
  iox2ps_subscriber_options_of(&config, &subscriber_options);
  CHECK(subscriber_options.buffer_size == 2);
  subscriber_options.buffer_size = 1;
  IS(iox2ps_subscriber_create_with(&domain, &subscriber_options, &subscriber), IOX2PS_OK);
  CHECK(subscriber.buffer_size == 1);
  IS(iox2ps_publisher_update_connections(&domain, &discards), IOX2PS_OK);
  IS(iox2ps_subscriber_update_connections(&domain, &subscriber), IOX2PS_OK);
  IS(iox2ps_domain_connection_count(&domain, &count), IOX2PS_OK);
  CHECK(count >= 1 && count <= 2);
  IS(iox2ps_domain_book_count(&domain, &count), IOX2PS_OK);
  CHECK(count == 2);

  IS(iox2ps_publisher_loan(&domain, &discards, 8, &loan, &written), IOX2PS_OK);
  CHECK((uintptr_t)written % 4 == 0);
  IS(iox2ps_publisher_send_copy(&domain, &discards, &byte, 1, &receivers, &blocked), IOX2PS_LOAN_ERROR_EXCEEDS_MAX_LOANS);
  IS(iox2ps_loan_send(&domain, &loan, &receivers, &blocked), IOX2PS_OK);
  CHECK(receivers == 1);
  IS(iox2ps_publisher_send_copy(&domain, &discards, &byte, 1, &receivers, &blocked), IOX2PS_OK);
  CHECK(receivers == 0);
  IS(iox2ps_publisher_send_copy(&domain, &fails, &byte, 1, &receivers, &blocked), IOX2PS_OK);
  IS(iox2ps_publisher_send_copy(&domain, &fails, &byte, 1, &receivers, &blocked), IOX2PS_SEND_ERROR_UNABLE_TO_DELIVER);
  IS(iox2ps_domain_destroy(&domain), IOX2PS_OK);
}

static void a_publisher_asks_for_fewer_slots(void) {
  iox2ps_domain_t domain;
  iox2ps_config_t config;
  iox2ps_publisher_options_t options;
  iox2ps_publisher_t one_slot, worst_case;
  iox2ps_loan_t first, second, third;
  void *written;
  iox2ps_config_defaults(&config, 7, 1, 1);
  create(&domain, &config);
  iox2ps_publisher_options_of(&config, &options);
  CHECK(options.preallocated_samples == 0 && options.max_loaned_samples == 2);
  options.preallocated_samples = 1;
  IS(iox2ps_publisher_create_with(&domain, &options, &one_slot), IOX2PS_OK);
  IS(iox2ps_publisher_loan(&domain, &one_slot, 1, &first, &written), IOX2PS_OK);
  IS(iox2ps_publisher_loan(&domain, &one_slot, 1, &second, &written), IOX2PS_LOAN_ERROR_OUT_OF_MEMORY);
  IS(iox2ps_loan_discard(&domain, &first), IOX2PS_OK);
  IS(iox2ps_publisher_loan(&domain, &one_slot, 1, &second, &written), IOX2PS_OK);
  options.preallocated_samples = SIZE_MAX;
  IS(iox2ps_publisher_create_with(&domain, &options, &worst_case), IOX2PS_OK);
  IS(iox2ps_publisher_loan(&domain, &worst_case, 1, &first, &written), IOX2PS_OK);
  IS(iox2ps_publisher_loan(&domain, &worst_case, 1, &second, &written), IOX2PS_OK);
  IS(iox2ps_publisher_loan(&domain, &worst_case, 1, &third, &written), IOX2PS_LOAN_ERROR_EXCEEDS_MAX_LOANS);
  IS(iox2ps_domain_destroy(&domain), IOX2PS_OK);
}

/* A growing publisher lends what is longer or beyond its slots; what was lent and received before stays where it is. */
static void a_publisher_grows(void) {
  iox2ps_domain_t domain;
  iox2ps_config_t config;
  iox2ps_publisher_options_t options;
  iox2ps_publisher_t publisher;
  iox2ps_subscriber_t subscriber;
  iox2ps_loan_t loans[6];
  iox2ps_sample_t sample;
  iox2ps_blocked_t blocked;
  uint8_t *bytes[6];
  const void *read;
  void *written;
  size_t len, receivers;
  iox2ps_config_defaults(&config, 7, 16, 16);
  create(&domain, &config);
  iox2ps_publisher_options_of(&config, &options);
  CHECK(options.allocation_strategy == IOX2PS_ALLOCATION_STATIC);
  options.allocation_strategy = IOX2PS_ALLOCATION_BEST_FIT;
  options.max_loaned_samples = 6;
  options.preallocated_samples = 1;
  IS(iox2ps_subscriber_create(&domain, &subscriber), IOX2PS_OK);
  IS(iox2ps_publisher_create_with(&domain, &options, &publisher), IOX2PS_OK);
  IS(iox2ps_publisher_send_copy(&domain, &publisher, "0123456789abcdef", 16, &receivers, &blocked), IOX2PS_OK);
  IS(iox2ps_subscriber_receive(&domain, &subscriber, &sample, &read, &len), IOX2PS_OK);
  for (size_t i = 0; i < 6; i++) {
    IS(iox2ps_publisher_loan(&domain, &publisher, 16 + 5 * i, &loans[i], &written), IOX2PS_OK);
    CHECK((uintptr_t)written % 16 == 0);
    bytes[i] = (uint8_t *)written;
    memset(bytes[i], (int)i + 1, 16 + 5 * i);
  }
  IS(iox2ps_publisher_loan(&domain, &publisher, 16, &loans[0], &written), IOX2PS_LOAN_ERROR_EXCEEDS_MAX_LOANS);
  CHECK(len == 16 && memcmp(read, "0123456789abcdef", 16) == 0);
  for (size_t i = 0; i < 6; i++) {
    IS(iox2ps_loan_payload(&domain, &loans[i], &written, &len), IOX2PS_OK);
    CHECK(written == bytes[i] && len == 16 + 5 * i);
    for (size_t at = 0; at < len; at++) CHECK(bytes[i][at] == i + 1);
    IS(iox2ps_loan_discard(&domain, &loans[i]), IOX2PS_OK);
  }
  IS(iox2ps_publisher_loan(&domain, &publisher, SIZE_MAX, &loans[0], &written), IOX2PS_LOAN_ERROR_INTERNAL_FAILURE);
  IS(iox2ps_publisher_loan(&domain, &publisher, 41, &loans[0], &written), IOX2PS_OK);
  CHECK(memcmp(read, "0123456789abcdef", 16) == 0);
  IS(iox2ps_sample_release(&domain, &sample), IOX2PS_OK);
  IS(iox2ps_domain_destroy(&domain), IOX2PS_OK);
}

static void a_late_subscriber_gets_the_history(void) {
  iox2ps_domain_t domain;
  iox2ps_config_t config;
  iox2ps_publisher_t publisher;
  iox2ps_subscriber_t subscriber;
  iox2ps_sample_t sample;
  iox2ps_blocked_t blocked;
  uint8_t byte;
  size_t receivers, len;
  iox2ps_config_defaults(&config, 7, 1, 1);
  config.history_size = 2;
  create(&domain, &config);
  IS(iox2ps_publisher_create(&domain, &publisher), IOX2PS_OK);
  for (byte = 1; byte <= 3; byte++) IS(iox2ps_publisher_send_copy(&domain, &publisher, &byte, 1, &receivers, &blocked), IOX2PS_OK);
  IS(iox2ps_subscriber_create(&domain, &subscriber), IOX2PS_OK);
  IS(iox2ps_publisher_update_connections(&domain, &publisher), IOX2PS_OK);
  for (uint8_t wanted = 2; wanted <= 3; wanted++) {
    IS(iox2ps_subscriber_receive_copy(&domain, &subscriber, &byte, 1, &len, &sample), IOX2PS_OK);
    CHECK(byte == wanted && len == 1);
  }
  IS(iox2ps_subscriber_receive_copy(&domain, &subscriber, &byte, 1, &len, &sample), IOX2PS_NO_SAMPLE);
  IS(iox2ps_domain_destroy(&domain), IOX2PS_OK);
}

static void warnings_are_read(void) {
  iox2ps_domain_t domain;
  iox2ps_config_t config;
  iox2ps_subscriber_t subscriber;
  iox2ps_warning_t warning;
  size_t count = 99;
  uint64_t refused = 99;
  iox2ps_config_defaults(&config, 7, 1, 1);
  create(&domain, &config);
  IS(iox2ps_domain_warning_count(&domain, &count), IOX2PS_OK);
  CHECK(count == 0);
  IS(iox2ps_domain_warning(&domain, 0, &warning), IOX2PS_NOT_LIVE);
  IS(iox2ps_domain_refused_connections(&domain, &refused), IOX2PS_OK);
  CHECK(refused == 0);
  IS(iox2ps_domain_destroy(&domain), IOX2PS_OK);

  config.subscriber_expired_connection_buffer = 1;
  create(&domain, &config);
  IS(iox2ps_subscriber_create(&domain, &subscriber), IOX2PS_OK);
  IS(iox2ps_domain_warning_count(&domain, &count), IOX2PS_OK);
  CHECK(count == 1);
  IS(iox2ps_domain_warning(&domain, 0, &warning), IOX2PS_OK);
  CHECK(warning.kind == IOX2PS_WARNING_EXPIRED_BUFFER_RAISED && warning.subscriber.low == subscriber.id.low);
  CHECK(warning.publisher.low == 0 && warning.failure == 0);
  CHECK(strstr(iox2ps_error_text(warning.kind), "ExpiredBufferRaised") != NULL);
  IS(iox2ps_domain_warning(&domain, 1, &warning), IOX2PS_NOT_LIVE);
  IS(iox2ps_domain_destroy(&domain), IOX2PS_OK);
}

/* A port has its connections after its own update alone, which its creation makes too. */
static void channels_are_asked_about(void) {
  iox2ps_domain_t domain;
  iox2ps_config_t config;
  iox2ps_publisher_t publisher;
  iox2ps_subscriber_t subscriber, alone;
  iox2ps_wide_t nobody = {77, 0};
  size_t connection = 99;
  uint32_t answer = 9;
  iox2ps_config_defaults(&config, 7, 1, 1);
  create(&domain, &config);
  IS(iox2ps_subscriber_create(&domain, &alone), IOX2PS_OK);
  IS(iox2ps_subscriber_at_least_one_channel_has_state(&domain, &alone, 0, IOX2PS_CHANNEL_STATE_OPEN, &answer), IOX2PS_OK);
  CHECK(answer == 0);
  IS(iox2ps_publisher_create(&domain, &publisher), IOX2PS_OK);
  IS(iox2ps_subscriber_create(&domain, &subscriber), IOX2PS_OK);
  IS(iox2ps_subscriber_at_least_one_channel_has_state(&domain, &subscriber, 0, IOX2PS_CHANNEL_STATE_OPEN, &answer), IOX2PS_OK);
  CHECK(answer == 1);
  IS(iox2ps_subscriber_at_least_one_channel_has_state(&domain, &subscriber, 0, IOX2PS_CHANNEL_STATE_CLOSED, &answer), IOX2PS_OK);
  CHECK(answer == 0);

  IS(iox2ps_publisher_get_connection_id_of(&domain, &publisher, &alone.id, &connection), IOX2PS_OK);
  CHECK(connection == 0);
  IS(iox2ps_publisher_get_connection_id_of(&domain, &publisher, &subscriber.id, &connection), IOX2PS_NO_CONNECTION);
  IS(iox2ps_publisher_has_channel_state(&domain, &publisher, 0, 1, IOX2PS_CHANNEL_STATE_OPEN, &answer), IOX2PS_OK);
  CHECK(connection == 0 && answer == 0);
  IS(iox2ps_publisher_update_connections(&domain, &publisher), IOX2PS_OK);
  IS(iox2ps_publisher_get_connection_id_of(&domain, &publisher, &subscriber.id, &connection), IOX2PS_OK);
  CHECK(connection == 1);
  IS(iox2ps_publisher_get_connection_id_of(&domain, &publisher, &nobody, &connection), IOX2PS_NO_CONNECTION);
  CHECK(connection == 1);
  IS(iox2ps_publisher_has_channel_state(&domain, &publisher, 0, connection, IOX2PS_CHANNEL_STATE_OPEN, &answer), IOX2PS_OK);
  CHECK(answer == 1);
  IS(iox2ps_publisher_has_channel_state(&domain, &publisher, 0, connection, 3, &answer), IOX2PS_OK);
  CHECK(answer == 0);
  answer = 9;
  IS(iox2ps_publisher_has_disconnect_hint(&domain, &publisher, 0, connection, IOX2PS_CHANNEL_STATE_OPEN, &answer), IOX2PS_OK);
  CHECK(answer == 0);
  IS(iox2ps_domain_destroy(&domain), IOX2PS_OK);
}

/* How many subscribers take this byte, of a publisher that no send of waits. */
static size_t taken_by(iox2ps_domain_t *domain, const iox2ps_publisher_t *publisher, uint8_t byte) {
  iox2ps_blocked_t blocked;
  size_t receivers = 99;
  IS(iox2ps_publisher_send_copy(domain, publisher, &byte, 1, &receivers, &blocked), IOX2PS_OK);
  return receivers;
}

/* How many took a message that was sent into a channel of one connection. */
static size_t taken_at(iox2ps_domain_t *domain, const iox2ps_publisher_t *publisher, uint8_t byte, size_t channel,
                       size_t connection) {
  iox2ps_loan_t loan;
  iox2ps_blocked_t blocked;
  void *payload;
  size_t receivers = 99;
  IS(iox2ps_publisher_loan(domain, publisher, 1, &loan, &payload), IOX2PS_OK);
  memcpy(payload, &byte, 1);
  IS(iox2ps_loan_deliver_offset_to_connection(domain, &loan, channel, connection, &receivers, &blocked), IOX2PS_OK);
  IS(iox2ps_loan_discard(domain, &loan), IOX2PS_NOT_LIVE);
  return receivers;
}

static void channels_are_closed_opened_and_hinted(void) {
  iox2ps_domain_t domain;
  iox2ps_config_t config;
  iox2ps_publisher_t publisher;
  iox2ps_subscriber_t subscriber;
  iox2ps_sample_t sample;
  size_t connection = 99, len;
  uint8_t byte = 0;
  uint32_t answer = 9;
  iox2ps_config_defaults(&config, 1, 1, 1);
  config.max_subscribers = 1;
  config.subscriber_max_buffer_size = config.subscriber_max_borrowed_samples = 1;
  config.number_of_channels = 2;
  config.enable_safe_overflow = 0;
  config.backpressure_strategy = IOX2PS_DISCARD_DATA;
  create(&domain, &config);
  IS(iox2ps_subscriber_create(&domain, &subscriber), IOX2PS_OK);
  IS(iox2ps_publisher_create(&domain, &publisher), IOX2PS_OK);
  IS(iox2ps_subscriber_set_channel_state(&domain, &subscriber, 0, 9, &answer), IOX2PS_OK);
  CHECK(answer == 1);
  IS(iox2ps_subscriber_at_least_one_channel_has_state(&domain, &subscriber, 0, 0, &answer), IOX2PS_OK);
  CHECK(answer == 0);
  IS(iox2ps_subscriber_update_connections(&domain, &subscriber), IOX2PS_OK);
  IS(iox2ps_publisher_get_connection_id_of(&domain, &publisher, &subscriber.id, &connection), IOX2PS_OK);
  CHECK(connection == 0);
  IS(iox2ps_subscriber_at_least_one_channel_has_state(&domain, &subscriber, 1, 0, &answer), IOX2PS_OK);
  CHECK(answer == 1);

  /* A closed channel takes no message until it is opened. */
  IS(iox2ps_subscriber_close_channel(&domain, &subscriber, 0, 5), IOX2PS_OK);
  IS(iox2ps_publisher_has_channel_state(&domain, &publisher, 0, 0, IOX2PS_CHANNEL_STATE_OPEN, &answer), IOX2PS_OK);
  CHECK(answer == 1);
  IS(iox2ps_subscriber_close_channel(&domain, &subscriber, 0, IOX2PS_CHANNEL_STATE_OPEN), IOX2PS_OK);
  IS(iox2ps_publisher_has_channel_state(&domain, &publisher, 0, 0, IOX2PS_CHANNEL_STATE_CLOSED, &answer), IOX2PS_OK);
  CHECK(answer == 1 && taken_by(&domain, &publisher, 1) == 0);
  IS(iox2ps_subscriber_receive_copy(&domain, &subscriber, &byte, 1, &len, &sample), IOX2PS_NO_SAMPLE);
  IS(iox2ps_subscriber_set_channel_state(&domain, &subscriber, 0, 7, &answer), IOX2PS_OK);
  CHECK(answer == 1 && taken_by(&domain, &publisher, 2) == 1);

  /* A hint is set in one state alone, and goes with it. */
  IS(iox2ps_subscriber_set_disconnect_hint(&domain, &subscriber, 0, IOX2PS_CHANNEL_STATE_OPEN), IOX2PS_OK);
  IS(iox2ps_publisher_has_disconnect_hint(&domain, &publisher, 0, 0, 7, &answer), IOX2PS_OK);
  CHECK(answer == 0);
  IS(iox2ps_subscriber_set_disconnect_hint(&domain, &subscriber, 0, 7), IOX2PS_OK);
  IS(iox2ps_publisher_has_disconnect_hint(&domain, &publisher, 0, 0, 7, &answer), IOX2PS_OK);
  CHECK(answer == 1);
  IS(iox2ps_subscriber_set_channel_state(&domain, &subscriber, 0, 3, &answer), IOX2PS_OK);
  CHECK(answer == 0);
  IS(iox2ps_publisher_close_channel(&domain, &publisher, 0, 1, 7), IOX2PS_OK);
  IS(iox2ps_publisher_has_disconnect_hint(&domain, &publisher, 0, 0, 7, &answer), IOX2PS_OK);
  CHECK(answer == 1);
  IS(iox2ps_publisher_close_channel(&domain, &publisher, 0, 0, 7), IOX2PS_OK);
  IS(iox2ps_publisher_has_disconnect_hint(&domain, &publisher, 0, 0, IOX2PS_CHANNEL_STATE_CLOSED, &answer), IOX2PS_OK);
  CHECK(answer == 0 && taken_by(&domain, &publisher, 3) == 0);
  IS(iox2ps_subscriber_receive_copy(&domain, &subscriber, &byte, 1, &len, &sample), IOX2PS_OK);
  CHECK(byte == 2);

  /* Of one connection the other channel takes one message, and a connection that isn't there takes none. */
  CHECK(taken_at(&domain, &publisher, 3, 1, 0) == 1 && taken_at(&domain, &publisher, 4, 1, 0) == 0);
  CHECK(taken_at(&domain, &publisher, 5, 1, 5) == 0);
  IS(iox2ps_subscriber_has_samples(&domain, &subscriber, &answer), IOX2PS_OK);
  CHECK(answer == 0);
  IS(iox2ps_subscriber_receive_copy(&domain, &subscriber, &byte, 1, &len, &sample), IOX2PS_NO_SAMPLE);
  IS(iox2ps_domain_destroy(&domain), IOX2PS_OK);
}

/* A message to one connection waits for its subscriber alone, and the loan stays where nothing is done. */
static void a_message_goes_to_one_connection(void) {
  iox2ps_domain_t domain;
  iox2ps_config_t config;
  iox2ps_publisher_t publisher;
  iox2ps_subscriber_t first, second;
  iox2ps_loan_t loan;
  iox2ps_blocked_t blocked;
  iox2ps_sample_t sample;
  uint8_t byte = 0;
  void *payload;
  size_t receivers = 99, len;
  iox2ps_config_defaults(&config, 1, 1, 1);
  config.subscriber_max_buffer_size = 1;
  config.enable_safe_overflow = 0;
  create(&domain, &config);
  IS(iox2ps_subscriber_create(&domain, &first), IOX2PS_OK);
  IS(iox2ps_subscriber_create(&domain, &second), IOX2PS_OK);
  IS(iox2ps_publisher_create(&domain, &publisher), IOX2PS_OK);
  CHECK(taken_at(&domain, &publisher, 1, 0, 1) == 1);
  IS(iox2ps_publisher_loan(&domain, &publisher, 1, &loan, &payload), IOX2PS_OK);
  memset(payload, 2, 1);
  IS(iox2ps_loan_deliver_offset_to_connection(&domain, &loan, 1, 1, &receivers, &blocked), IOX2PS_NO_SUCH_CHANNEL);
  IS(iox2ps_loan_deliver_offset_to_connection(&domain, &loan, 0, 1, &receivers, &blocked), IOX2PS_BLOCKED);
  IS(iox2ps_loan_deliver_offset_to_connection(&domain, &loan, 0, 1, &receivers, &blocked), IOX2PS_NOT_LIVE);
  IS(iox2ps_blocked_retry(&domain, &blocked, 0, &receivers), IOX2PS_BLOCKED);
  IS(iox2ps_subscriber_receive_copy(&domain, &second, &byte, 1, &len, &sample), IOX2PS_OK);
  CHECK(byte == 1);
  IS(iox2ps_blocked_retry(&domain, &blocked, 0, &receivers), IOX2PS_OK);
  CHECK(receivers == 1);
  IS(iox2ps_publisher_loan(&domain, &publisher, 1, &loan, &payload), IOX2PS_OK);
  IS(iox2ps_loan_deliver_offset_to_connection(&domain, &loan, 0, 1, &receivers, &blocked), IOX2PS_BLOCKED);
  IS(iox2ps_blocked_give_up(&domain, &blocked, &receivers), IOX2PS_OK);
  CHECK(receivers == 0);
  IS(iox2ps_subscriber_receive_copy(&domain, &second, &byte, 1, &len, &sample), IOX2PS_OK);
  CHECK(byte == 2);
  IS(iox2ps_subscriber_receive_copy(&domain, &second, &byte, 1, &len, &sample), IOX2PS_NO_SAMPLE);
  IS(iox2ps_subscriber_receive_copy(&domain, &first, &byte, 1, &len, &sample), IOX2PS_NO_SAMPLE);
  IS(iox2ps_publisher_loan(&domain, &publisher, 1, &loan, &payload), IOX2PS_OK);
  IS(iox2ps_publisher_close(&domain, &publisher), IOX2PS_OK);
  IS(iox2ps_loan_deliver_offset_to_connection(&domain, &loan, 0, 0, &receivers, &blocked),
     IOX2PS_SEND_ERROR_CONNECTION_BROKEN_SINCE_SENDER_NO_LONGER_EXISTS);
  IS(iox2ps_domain_destroy(&domain), IOX2PS_OK);
}

/* Messages go to channel 0 alone, and no call on one channel changes another. */
static void further_channels_have_states_of_their_own(void) {
  const uint64_t open = IOX2PS_CHANNEL_STATE_OPEN, closed = IOX2PS_CHANNEL_STATE_CLOSED;
  iox2ps_domain_t domain;
  iox2ps_config_t config;
  iox2ps_publisher_t publisher;
  iox2ps_subscriber_t subscriber;
  uint32_t answer = 9;
  iox2ps_config_defaults(&config, 1, 1, 1);
  config.number_of_channels = 3;
  create(&domain, &config);
  IS(iox2ps_subscriber_create(&domain, &subscriber), IOX2PS_OK);
  IS(iox2ps_publisher_create(&domain, &publisher), IOX2PS_OK);
  IS(iox2ps_subscriber_update_connections(&domain, &subscriber), IOX2PS_OK);
  IS(iox2ps_subscriber_close_channel(&domain, &subscriber, 2, open), IOX2PS_OK);
  for (size_t channel = 0; channel < 3; channel++) {
    IS(iox2ps_publisher_has_channel_state(&domain, &publisher, channel, 0, channel == 2 ? closed : open, &answer), IOX2PS_OK);
    CHECK(answer == 1);
  }
  CHECK(taken_by(&domain, &publisher, 1) == 1);
  IS(iox2ps_subscriber_set_disconnect_hint(&domain, &subscriber, 1, open), IOX2PS_OK);
  for (size_t channel = 0; channel < 2; channel++) {
    IS(iox2ps_publisher_has_disconnect_hint(&domain, &publisher, channel, 0, open, &answer), IOX2PS_OK);
    CHECK(answer == channel);
  }
  IS(iox2ps_publisher_close_channel(&domain, &publisher, 1, 0, open), IOX2PS_OK);
  IS(iox2ps_subscriber_at_least_one_channel_has_state(&domain, &subscriber, 0, closed, &answer), IOX2PS_OK);
  CHECK(answer == 0 && taken_by(&domain, &publisher, 2) == 1);
  IS(iox2ps_subscriber_set_channel_state(&domain, &subscriber, 2, 5, &answer), IOX2PS_OK);
  CHECK(answer == 1);
  IS(iox2ps_subscriber_set_channel_state(&domain, &subscriber, 0, 5, &answer), IOX2PS_OK);
  CHECK(answer == 0);
  IS(iox2ps_subscriber_at_least_one_channel_has_state(&domain, &subscriber, 3, open, &answer), IOX2PS_NO_SUCH_CHANNEL);
  IS(iox2ps_subscriber_close_channel(&domain, &subscriber, 0, open), IOX2PS_OK);
  CHECK(taken_by(&domain, &publisher, 3) == 0);
  IS(iox2ps_domain_destroy(&domain), IOX2PS_OK);
}

/* A send that waits for a channel goes past it when it is closed, and a subscriber that closed it gets no history. */
static void closed_channels_end_waits_and_get_no_history(void) {
  iox2ps_domain_t domain;
  iox2ps_config_t config;
  iox2ps_publisher_t publisher;
  iox2ps_subscriber_t full, late;
  iox2ps_blocked_t blocked;
  uint8_t byte = 2;
  size_t receivers = 99;
  uint32_t answer;
  iox2ps_config_defaults(&config, 1, 1, 1);
  config.history_size = config.subscriber_max_buffer_size = 1;
  config.enable_safe_overflow = 0;
  create(&domain, &config);
  IS(iox2ps_publisher_create(&domain, &publisher), IOX2PS_OK);
  IS(iox2ps_subscriber_create(&domain, &full), IOX2PS_OK);
  CHECK(taken_by(&domain, &publisher, 1) == 1);
  IS(iox2ps_publisher_send_copy(&domain, &publisher, &byte, 1, &receivers, &blocked), IOX2PS_BLOCKED);
  IS(iox2ps_publisher_close_channel(&domain, &publisher, 0, 0, IOX2PS_CHANNEL_STATE_OPEN), IOX2PS_OK);
  IS(iox2ps_blocked_retry(&domain, &blocked, 0, &receivers), IOX2PS_OK);
  CHECK(receivers == 0);
  IS(iox2ps_subscriber_create(&domain, &late), IOX2PS_OK);
  IS(iox2ps_subscriber_close_channel(&domain, &late, 0, IOX2PS_CHANNEL_STATE_OPEN), IOX2PS_OK);
  IS(iox2ps_publisher_update_connections(&domain, &publisher), IOX2PS_OK);
  IS(iox2ps_subscriber_has_samples(&domain, &late, &answer), IOX2PS_OK);
  CHECK(answer == 0);
  IS(iox2ps_domain_destroy(&domain), IOX2PS_OK);
}

/* All codes, and the kinds of warnings. */
static const uint32_t codes[] = {
    IOX2PS_OK, IOX2PS_NO_DOMAIN, IOX2PS_NOT_LIVE, IOX2PS_NO_SAMPLE, IOX2PS_OUT_OF_MEMORY, IOX2PS_HAS_DOMAIN, IOX2PS_BLOCKED,
    IOX2PS_PUBLISHER_IS_BLOCKED, IOX2PS_TOO_SMALL, IOX2PS_LOAN_ERROR_OUT_OF_MEMORY,
    IOX2PS_LOAN_ERROR_EXCEEDS_MAX_LOANS, IOX2PS_LOAN_ERROR_EXCEEDS_MAX_LOAN_SIZE, IOX2PS_LOAN_ERROR_INTERNAL_FAILURE,
    IOX2PS_SEND_ERROR_CONNECTION_BROKEN_SINCE_SENDER_NO_LONGER_EXISTS, IOX2PS_SEND_ERROR_CONNECTION_CORRUPTED,
    IOX2PS_SEND_ERROR_UNABLE_TO_DELIVER, IOX2PS_SEND_ERROR_INTERNAL_ERROR,
    IOX2PS_SEND_ERROR_CONNECTION_INCOMPATIBLE_BUFFER_SIZE, IOX2PS_SEND_ERROR_CONNECTION_OUT_OF_MEMORY,
    IOX2PS_SEND_ERROR_CONNECTION_EXPIRED_BUFFER_FULL, IOX2PS_SEND_ERROR_CONNECTION_UNABLE_TO_MAP,
    IOX2PS_RECEIVE_ERROR_EXCEEDS_MAX_BORROWS, IOX2PS_RECEIVE_ERROR_CONNECTION_INCOMPATIBLE_BUFFER_SIZE,
    IOX2PS_RECEIVE_ERROR_CONNECTION_OUT_OF_MEMORY, IOX2PS_RECEIVE_ERROR_CONNECTION_EXPIRED_BUFFER_FULL,
    IOX2PS_RECEIVE_ERROR_CONNECTION_UNABLE_TO_MAP, IOX2PS_CONNECTION_FAILURE_INCOMPATIBLE_BUFFER_SIZE,
    IOX2PS_CONNECTION_FAILURE_OUT_OF_MEMORY, IOX2PS_CONNECTION_FAILURE_EXPIRED_BUFFER_FULL,
    IOX2PS_CONNECTION_FAILURE_UNABLE_TO_MAP, IOX2PS_PUBLISHER_CREATE_ERROR_EXCEEDS_MAX_SUPPORTED_PUBLISHERS,
    IOX2PS_PUBLISHER_CREATE_ERROR_UNABLE_TO_CREATE_DATA_SEGMENT,
    IOX2PS_PUBLISHER_CREATE_ERROR_FAILED_TO_DEPLOY_THREADSAFETY_POLICY,
    IOX2PS_PUBLISHER_CREATE_ERROR_UNABLE_TO_CREATE_PORT_TAG,
    IOX2PS_SUBSCRIBER_CREATE_ERROR_EXCEEDS_MAX_SUPPORTED_SUBSCRIBERS,
    IOX2PS_SUBSCRIBER_CREATE_ERROR_BUFFER_SIZE_EXCEEDS_MAX,
    IOX2PS_SUBSCRIBER_CREATE_ERROR_FAILED_TO_DEPLOY_THREADSAFETY_POLICY,
    IOX2PS_SUBSCRIBER_CREATE_ERROR_UNABLE_TO_CREATE_PORT_TAG, IOX2PS_NO_SUCH_CHANNEL, IOX2PS_NO_CONNECTION,
    IOX2PS_INVALID_STRUCT_SIZE, IOX2PS_INVALID_PAYLOAD_SIZE, IOX2PS_INVALID_PAYLOAD_ALIGNMENT,
    IOX2PS_INVALID_BACKPRESSURE_STRATEGY, IOX2PS_INVALID_BACKPRESSURE_HANDLER, IOX2PS_INVALID_DEGRADATION,
    IOX2PS_INVALID_ALLOCATION_STRATEGY, IOX2PS_INVALID_INITIAL_MAX_SLICE_LEN, IOX2PS_INVALID_RESERVED,
    IOX2PS_WORST_CASE_TOO_LARGE, IOX2PS_WARNING_EXPIRED_BUFFER_RAISED,
    IOX2PS_WARNING_PUBLISHER_PARTLY_CONNECTED, IOX2PS_WARNING_SUBSCRIBER_PARTLY_CONNECTED,
    IOX2PS_WARNING_CONNECTION_NOT_MADE, IOX2PS_WARNING_EXPIRED_DATA_DISCARDED};

enum { CODES = sizeof codes / sizeof codes[0] };

static void each_code_has_a_text_that_no_other_has(void) {
  uint32_t with_text = 0;
  for (size_t i = 0; i < CODES; i++) {
    CHECK(has_text(codes[i]));
    for (size_t j = 0; j < i; j++) CHECK(strcmp(iox2ps_error_text(codes[i]), iox2ps_error_text(codes[j])) != 0);
  }
  for (uint32_t number = 0; number < 200; number++) with_text += has_text(number) ? 1 : 0;
  CHECK(with_text == CODES);
}

/* These codes alone say that a call has brought something to others, of all that it may bring. */
static void codes_say_what_was_brought(void) {
  const struct {
    uint32_t code, brought;
  } some[] = {
      {IOX2PS_OK, 15},
      {IOX2PS_BLOCKED, IOX2PS_BRINGS_MESSAGE},
      {IOX2PS_TOO_SMALL, IOX2PS_BRINGS_ROOM},
      {IOX2PS_SEND_ERROR_CONNECTION_BROKEN_SINCE_SENDER_NO_LONGER_EXISTS, IOX2PS_BRINGS_LOAN},
      {IOX2PS_SEND_ERROR_UNABLE_TO_DELIVER, 15},
      {IOX2PS_SEND_ERROR_CONNECTION_OUT_OF_MEMORY, 15},
      {IOX2PS_CONNECTION_FAILURE_OUT_OF_MEMORY, 15},
      {IOX2PS_CONNECTION_FAILURE_EXPIRED_BUFFER_FULL, 15},
  };
  size_t bring = 0;
  for (size_t i = 0; i < CODES; i++) bring += iox2ps_brought_by(15, codes[i]) != 0 ? 1 : 0;
  CHECK(bring == sizeof some / sizeof some[0]);
  for (size_t i = 0; i < sizeof some / sizeof some[0]; i++) {
    CHECK(iox2ps_brought_by(15, some[i].code) == some[i].brought);
    CHECK(iox2ps_brought_by(IOX2PS_BRINGS_FREE, some[i].code) == (some[i].brought & IOX2PS_BRINGS_FREE));
  }
}

static void texts_are_iceoryx2s(void) {
  const char *text;
  size_t len;
  CHECK(strcmp(iox2ps_error_text(IOX2PS_LOAN_ERROR_EXCEEDS_MAX_LOANS), "LoanError::ExceedsMaxLoans") == 0);
  CHECK(strcmp(iox2ps_error_text(IOX2PS_RECEIVE_ERROR_EXCEEDS_MAX_BORROWS), "ReceiveError::ExceedsMaxBorrows") == 0);
  CHECK(strcmp(iox2ps_error_text(IOX2PS_SEND_ERROR_UNABLE_TO_DELIVER), "SendError::UnableToDeliver") == 0);
  for (uint32_t code = 0; code < 200; code++) {
    iox2ps_error_text_at(code, &text, &len);
    CHECK(len > 0 && text[len] == 0 && strlen(text) == len);
  }
  CHECK(iox2ps_error_text(UINT32_MAX)[0] != 0);
}

/* The text of a setting's code names the field and says what it has to be. */
static void a_text_names_the_setting(void) {
  const struct {
    uint32_t code;
    const char *field, *rule;
  } texts[] = {
      {IOX2PS_INVALID_STRUCT_SIZE, "struct_size", "header"},
      {IOX2PS_INVALID_PAYLOAD_SIZE, "payload_size", "multiple of payload_alignment"},
      {IOX2PS_INVALID_PAYLOAD_ALIGNMENT, "payload_alignment", "1, 2, 4, 8 or 16"},
      {IOX2PS_INVALID_BACKPRESSURE_STRATEGY, "backpressure_strategy", "iox2ps_backpressure_strategy_e"},
      {IOX2PS_INVALID_BACKPRESSURE_HANDLER, "backpressure_handler", "iox2ps_backpressure_handler_e"},
      {IOX2PS_INVALID_DEGRADATION, "degradation", "iox2ps_degradation_e"},
      {IOX2PS_INVALID_ALLOCATION_STRATEGY, "allocation_strategy", "iox2ps_allocation_strategy_e"},
      {IOX2PS_INVALID_INITIAL_MAX_SLICE_LEN, "initial_max_slice_len", "multiple of payload_alignment"},
      {IOX2PS_INVALID_RESERVED, "reserved_", "0"},
      {IOX2PS_WORST_CASE_TOO_LARGE, "worst case", "lower"},
  };
  for (size_t i = 0; i < sizeof texts / sizeof texts[0]; i++) {
    CHECK(strstr(iox2ps_error_text(texts[i].code), texts[i].field) != NULL);
    CHECK(strstr(iox2ps_error_text(texts[i].code), texts[i].rule) != NULL);
  }
}

static void slots_are_counted(void) {
  iox2ps_config_t config;
  size_t slots = 99;
  iox2ps_config_defaults(&config, 7, 1, 1);
  config.max_subscribers = 2;
  config.subscriber_max_buffer_size = 3;
  config.subscriber_max_borrowed_samples = 4;
  config.history_size = 5;
  IS(iox2ps_worst_case_slots(&config, 6, &slots), IOX2PS_OK);
  CHECK(slots == 2 * (3 + 4) + 5 + 6);
  config.max_subscribers = SIZE_MAX;
  IS(iox2ps_worst_case_slots(&config, 6, &slots), IOX2PS_WORST_CASE_TOO_LARGE);
  CHECK(slots == 2 * (3 + 4) + 5 + 6);
}

int main(void) {
  settings_are_read_back();
  a_domain_may_be_static();
  a_domain_is_recorded();
  the_archive_is_of_the_header_s_version();
  a_message_is_written_and_read_where_it_lies();
  a_loan_may_have_unspecified_bytes();
  a_message_is_copied();
  bytes_stay_where_they_are();
  each_message_has_bytes_of_its_own();
  payloads_are_aligned_as_the_settings_say();
  a_blocked_send_is_tried_again_and_given_up();
  receivers_may_be_null();
  a_blocked_send_says_who_blocks_it();
  what_gives_back_may_be_dropped();
  ports_are_made_with_options();
  a_publisher_asks_for_fewer_slots();
  a_publisher_grows();
  a_late_subscriber_gets_the_history();
  warnings_are_read();
  channels_are_asked_about();
  channels_are_closed_opened_and_hinted();
  further_channels_have_states_of_their_own();
  a_message_goes_to_one_connection();
  closed_channels_end_waits_and_get_no_history();
  texts_are_iceoryx2s();
  a_text_names_the_setting();
  each_code_has_a_text_that_no_other_has();
  codes_say_what_was_brought();
  slots_are_counted();
  return checked();
}
