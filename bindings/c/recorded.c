// SPDX-License-Identifier: Apache-2.0 OR MIT
/* Records what it calls, and prints the recording, which tools/replay runs again. Its status is 0 where each call returns what it is to
   return. With an argument there is room for only that many commands, which are too few. */
#include "checks.h"
#include <stdlib.h>

static iox2ps_domain_t domain = IOX2PS_DOMAIN_INIT;
static iox2ps_publisher_t publisher;
static iox2ps_subscriber_t first, second;

static void make(size_t commands) {
  iox2ps_config_t config;
  iox2ps_publisher_options_t options;
  iox2ps_config_defaults(&config, 7, 8, 8);
  config.max_subscribers = 2;
  config.subscriber_max_buffer_size = 2;
  config.subscriber_max_borrowed_samples = 1;
  config.enable_safe_overflow = 0;
  IS(iox2ps_domain_create_recorded(&domain, &config, commands, 8), IOX2PS_OK);
  iox2ps_publisher_options_of(&config, &options);
  options.allocation_strategy = IOX2PS_ALLOCATION_BEST_FIT;
  options.preallocated_samples = 5;
  IS(iox2ps_publisher_create_with(&domain, &options, &publisher), IOX2PS_OK);
  options.backpressure_strategy = 7;
  IS(iox2ps_publisher_create_with(&domain, &options, &publisher), IOX2PS_INVALID_BACKPRESSURE_STRATEGY);
  IS(iox2ps_subscriber_create(&domain, &first), IOX2PS_OK);
  IS(iox2ps_subscriber_create(&domain, &second), IOX2PS_OK);
  IS(iox2ps_subscriber_create(&domain, &second), IOX2PS_SUBSCRIBER_CREATE_ERROR_EXCEEDS_MAX_SUPPORTED_SUBSCRIBERS);
}

/* A loan that is written by its pointer, one of unspecified bytes, one that is given back, and one that is refused. */
static void lend(void) {
  iox2ps_loan_t loan, other, third;
  iox2ps_blocked_t blocked;
  void *payload;
  size_t count;
  IS(iox2ps_publisher_loan(&domain, &publisher, 8, &loan, &payload), IOX2PS_OK);
  memcpy(payload, "reading", 8);
  IS(iox2ps_publisher_loan_uninit(&domain, &publisher, 20, &other, &payload), IOX2PS_OK);
  memset(payload, 7, 20);
  IS(iox2ps_publisher_loan(&domain, &publisher, 1, &third, &payload), IOX2PS_LOAN_ERROR_EXCEEDS_MAX_LOANS);
  IS(iox2ps_loan_send(&domain, &loan, &count, &blocked), IOX2PS_OK);
  IS(iox2ps_loan_send(&domain, &loan, &count, &blocked), IOX2PS_NOT_LIVE);
  IS(iox2ps_loan_discard(&domain, &other), IOX2PS_OK);
}

/* A send that is blocked twice, and given up at last; another loan is sent meanwhile, in vain. */
static void block(void) {
  iox2ps_loan_t loan;
  iox2ps_blocked_t blocked, unused;
  void *payload;
  uint32_t waits;
  size_t count;
  IS(iox2ps_publisher_send_copy(&domain, &publisher, "second", 7, &count, &blocked), IOX2PS_OK);
  IS(iox2ps_publisher_loan(&domain, &publisher, 3, &loan, &payload), IOX2PS_OK);
  IS(iox2ps_publisher_send_copy(&domain, &publisher, "third", 6, &count, &blocked), IOX2PS_BLOCKED);
  memcpy(payload, "abc", 3);
  IS(iox2ps_loan_send(&domain, &loan, &count, &unused), IOX2PS_PUBLISHER_IS_BLOCKED);
  IS(iox2ps_publisher_update_connections(&domain, &publisher), IOX2PS_PUBLISHER_IS_BLOCKED);
  IS(iox2ps_blocked_retry(&domain, &blocked, 1500000000, &count), IOX2PS_BLOCKED);
  IS(iox2ps_subscriber_has_samples(&domain, &first, &waits), IOX2PS_OK);
  CHECK(waits == 1);
  IS(iox2ps_blocked_give_up(&domain, &blocked, &count), IOX2PS_BLOCKED);
  IS(iox2ps_blocked_give_up(&domain, &blocked, &count), IOX2PS_OK);
  IS(iox2ps_blocked_retry(&domain, &blocked, 0, &count), IOX2PS_NOT_LIVE);
  memcpy(payload, "xyz", 3);
  IS(iox2ps_loan_send(&domain, &loan, &count, &blocked), IOX2PS_BLOCKED);
}

/* Messages that are received, copied, too long for the room, and released twice. */
static void receive(void) {
  iox2ps_sample_t sample, left;
  const void *payload;
  char bytes[8];
  size_t len;
  IS(iox2ps_subscriber_receive(&domain, &first, &sample, &payload, &len), IOX2PS_OK);
  CHECK(len == 8 && !memcmp(payload, "reading", 8));
  IS(iox2ps_subscriber_receive(&domain, &first, &left, &payload, &len), IOX2PS_RECEIVE_ERROR_EXCEEDS_MAX_BORROWS);
  IS(iox2ps_sample_release(&domain, &sample), IOX2PS_OK);
  IS(iox2ps_sample_release(&domain, &sample), IOX2PS_NOT_LIVE);
  IS(iox2ps_subscriber_receive_copy(&domain, &first, bytes, sizeof bytes, &len, &left), IOX2PS_OK);
  IS(iox2ps_subscriber_receive_copy(&domain, &first, bytes, sizeof bytes, &len, &left), IOX2PS_NO_SAMPLE);
  IS(iox2ps_subscriber_receive_copy(&domain, &second, bytes, 2, &len, &left), IOX2PS_TOO_SMALL);
  IS(iox2ps_sample_release(&domain, &left), IOX2PS_OK);
}

static void close_ports(void) {
  IS(iox2ps_subscriber_close(&domain, &first), IOX2PS_OK);
  IS(iox2ps_subscriber_close(&domain, &first), IOX2PS_NOT_LIVE);
  IS(iox2ps_subscriber_update_connections(&domain, &second), IOX2PS_OK);
}

static void print(int shows_missed) {
  char *text;
  size_t len, room;
  uint64_t missed;
  IS(iox2ps_domain_recording(&domain, &len, 0, &room, &missed), IOX2PS_TOO_SMALL);
  text = malloc(room);
  IS(iox2ps_domain_recording(&domain, text, room - 1, &len, &missed), IOX2PS_TOO_SMALL);
  IS(iox2ps_domain_recording(&domain, text, room, &len, &missed), IOX2PS_OK);
  CHECK(len == room && (missed != 0) == shows_missed);
  fwrite(text, 1, len, stdout);
  free(text);
}

int main(int count, char **words) {
  make(count == 2 ? strtoull(words[1], NULL, 10) : 200);
  lend();
  block();
  receive();
  close_ports();
  print(count == 2);
  IS(iox2ps_domain_destroy(&domain), IOX2PS_OK);
  return failed != 0;
}
