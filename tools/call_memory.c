// SPDX-License-Identifier: Apache-2.0 OR MIT
/* Makes the calls of iox2_c that take no memory, in as many rounds as its argument says, and then closes its ports, or with -1 does
 * neither; for tools/memory_of_messages, which counts the allocations. A call with another result than it must have ends the
 * program. */
#include "../bindings/include/iox2_pubsub.h"
#include <stdio.h>
#include <stdlib.h>

/* The call returns this code. */
static void must(iox2ps_status_t got, iox2ps_status_t code, int line) {
  if (got == code) return;
  fprintf(stderr, "call_memory.c:%d: %s\n", line, iox2ps_error_text(got));
  exit(2);
}

/* The call gave this answer. */
static void must_be(uint32_t got, uint32_t answer, int line) {
  if (got == answer) return;
  fprintf(stderr, "call_memory.c:%d: %u\n", line, (unsigned)got);
  exit(2);
}

#define IS(call, code) must(call, code, __LINE__)
#define OK(call) IS(call, IOX2PS_OK)

/* What is asked and read of a domain. */
static void ask(iox2ps_domain_t *domain, const iox2ps_publisher_t *publisher, const iox2ps_subscriber_t *subscriber) {
  iox2ps_config_t config;
  size_t count;
  uint64_t refused;
  uint32_t answer;
  OK(iox2ps_domain_config(domain, &config));
  OK(iox2ps_worst_case_slots(&config, 2, &count));
  OK(iox2ps_domain_connection_count(domain, &count));
  OK(iox2ps_domain_book_count(domain, &count));
  OK(iox2ps_domain_warning_count(domain, &count));
  OK(iox2ps_domain_refused_connections(domain, &refused));
  OK(iox2ps_publisher_is_blocked(domain, publisher, &answer));
  OK(iox2ps_subscriber_has_samples(domain, subscriber, &answer));
}

/* Ports with settings of their own are refused at a limit, before anything is made for them. */
static void are_refused(iox2ps_domain_t *domain, const iox2ps_config_t *config) {
  iox2ps_publisher_options_t publishing;
  iox2ps_subscriber_options_t subscribing;
  iox2ps_publisher_t publisher;
  iox2ps_subscriber_t subscriber;
  iox2ps_publisher_options_of(config, &publishing);
  publishing.max_loaned_samples = 3;
  publishing.initial_max_slice_len = 16;
  publishing.preallocated_samples = 2;
  publishing.backpressure_strategy = IOX2PS_DISCARD_DATA;
  publishing.backpressure_handler = IOX2PS_BACKPRESSURE_RETRY;
  publishing.degradation = IOX2PS_DEGRADATION_FAIL;
  publishing.allocation_strategy = IOX2PS_ALLOCATION_BEST_FIT;
  IS(iox2ps_publisher_create_with(domain, &publishing, &publisher), IOX2PS_PUBLISHER_CREATE_ERROR_EXCEEDS_MAX_SUPPORTED_PUBLISHERS);
  iox2ps_subscriber_options_of(config, &subscribing);
  subscribing.degradation = IOX2PS_DEGRADATION_FAIL;
  IS(iox2ps_subscriber_create_with(domain, &subscribing, &subscriber),
     IOX2PS_SUBSCRIBER_CREATE_ERROR_EXCEEDS_MAX_SUPPORTED_SUBSCRIBERS);
}

/* A sample is received, read and released. */
static void receive(iox2ps_domain_t *domain, const iox2ps_subscriber_t *subscriber) {
  iox2ps_sample_t sample;
  iox2ps_header_t header;
  const void *payload;
  size_t len;
  char bytes[8];
  OK(iox2ps_subscriber_receive(domain, subscriber, &sample, &payload, &len));
  OK(iox2ps_sample_payload(domain, &sample, &payload, &len));
  OK(iox2ps_sample_copy(domain, &sample, bytes, sizeof bytes, &len));
  OK(iox2ps_sample_header(domain, &sample, &header));
  OK(iox2ps_sample_release(domain, &sample));
}

/* A channel is asked about, closed by the publisher and by the subscriber, and opened again each time. */
static void turn_channel(iox2ps_domain_t *domain, const iox2ps_publisher_t *publisher, const iox2ps_subscriber_t *subscriber) {
  const uint64_t open = IOX2PS_CHANNEL_STATE_OPEN;
  size_t connection;
  uint32_t is_open, has_hint, were_closed;
  OK(iox2ps_publisher_get_connection_id_of(domain, publisher, &subscriber->id, &connection));
  OK(iox2ps_publisher_close_channel(domain, publisher, 0, connection, open));
  OK(iox2ps_publisher_has_channel_state(domain, publisher, 0, connection, open, &is_open));
  must_be(is_open, 0, __LINE__);
  OK(iox2ps_subscriber_set_channel_state(domain, subscriber, 0, open, &were_closed));
  must_be(were_closed, 1, __LINE__);
  OK(iox2ps_subscriber_set_disconnect_hint(domain, subscriber, 0, open));
  OK(iox2ps_publisher_has_disconnect_hint(domain, publisher, 0, connection, open, &has_hint));
  must_be(has_hint, 1, __LINE__);
  OK(iox2ps_subscriber_close_channel(domain, subscriber, 0, open));
  OK(iox2ps_subscriber_at_least_one_channel_has_state(domain, subscriber, 0, open, &is_open));
  must_be(is_open, 0, __LINE__);
  OK(iox2ps_subscriber_set_channel_state(domain, subscriber, 0, open, &were_closed));
  must_be(were_closed, 1, __LINE__);
}

/* Sends a loan into a channel of the connection with the subscriber. */
static iox2ps_status_t send_to(iox2ps_domain_t *domain, const iox2ps_publisher_t *publisher, const iox2ps_subscriber_t *subscriber,
                               size_t channel, iox2ps_blocked_t *blocked) {
  iox2ps_loan_t loan;
  void *payload;
  size_t connection, receivers;
  OK(iox2ps_publisher_get_connection_id_of(domain, publisher, &subscriber->id, &connection));
  OK(iox2ps_publisher_loan_uninit(domain, publisher, 8, &loan, &payload));
  return iox2ps_loan_deliver_offset_to_connection(domain, &loan, channel, connection, &receivers, blocked);
}

/* Messages are sent to one connection. One is received, one waits for that and is given up. One goes into a channel from which
 * nothing is received; from the second round on it finds no room there. */
static void send_to_one(iox2ps_domain_t *domain, const iox2ps_publisher_t *publisher, const iox2ps_subscriber_t *subscriber) {
  iox2ps_blocked_t blocked;
  size_t receivers;
  iox2ps_status_t sent;
  OK(send_to(domain, publisher, subscriber, 0, &blocked));
  IS(send_to(domain, publisher, subscriber, 0, &blocked), IOX2PS_BLOCKED);
  OK(iox2ps_blocked_give_up(domain, &blocked, &receivers));
  receive(domain, subscriber);
  sent = send_to(domain, publisher, subscriber, 1, &blocked);
  if (sent == IOX2PS_BLOCKED) sent = iox2ps_blocked_give_up(domain, &blocked, &receivers);
  OK(sent);
}

/* A channel is turned, loans are discarded, and messages sent; one waits twice and is given up. All are received, except what goes
 * into the further channel. */
static void round_of_calls(iox2ps_domain_t *domain, const iox2ps_publisher_t *publisher, const iox2ps_subscriber_t *subscriber) {
  iox2ps_loan_t loan;
  iox2ps_blocked_t blocked;
  void *payload;
  size_t len, receivers;
  OK(iox2ps_publisher_update_connections(domain, publisher));
  OK(iox2ps_subscriber_update_connections(domain, subscriber));
  turn_channel(domain, publisher, subscriber);
  send_to_one(domain, publisher, subscriber);
  OK(iox2ps_publisher_loan(domain, publisher, 8, &loan, &payload));
  OK(iox2ps_loan_payload(domain, &loan, &payload, &len));
  OK(iox2ps_loan_discard(domain, &loan));
  OK(iox2ps_publisher_loan_uninit(domain, publisher, 8, &loan, &payload));
  OK(iox2ps_loan_send(domain, &loan, &receivers, &blocked));
  IS(iox2ps_publisher_send_copy(domain, publisher, "message", 8, &receivers, &blocked), IOX2PS_BLOCKED);
  IS(iox2ps_blocked_retry(domain, &blocked, 1, &receivers), IOX2PS_BLOCKED);
  ask(domain, publisher, subscriber);
  receive(domain, subscriber);
  OK(iox2ps_blocked_retry(domain, &blocked, 2, &receivers));
  IS(iox2ps_publisher_send_copy(domain, publisher, "message", 8, &receivers, &blocked), IOX2PS_BLOCKED);
  OK(iox2ps_blocked_give_up(domain, &blocked, &receivers));
  receive(domain, subscriber);
  ask(domain, publisher, subscriber);
}

int main(int argc, char **argv) {
  int rounds = argc == 2 ? atoi(argv[1]) : 1;
  iox2ps_domain_t domain = IOX2PS_DOMAIN_INIT;
  iox2ps_config_t config;
  iox2ps_publisher_t publisher;
  iox2ps_subscriber_t subscriber;
  iox2ps_config_defaults(&config, 7, 8, 8);
  config.subscriber_max_buffer_size = 1;
  config.max_publishers = config.max_subscribers = 1;
  config.enable_safe_overflow = 0;
  config.number_of_channels = 2;
  OK(iox2ps_domain_create(&domain, &config));
  OK(iox2ps_subscriber_create(&domain, &subscriber));
  OK(iox2ps_publisher_create(&domain, &publisher));
  /* The subscriber learns of the publisher. */
  OK(iox2ps_subscriber_update_connections(&domain, &subscriber));
  for (int i = 0; i < rounds; i++) {
    round_of_calls(&domain, &publisher, &subscriber);
    are_refused(&domain, &config);
  }
  if (rounds >= 0) {
    OK(iox2ps_publisher_close(&domain, &publisher));
    OK(iox2ps_subscriber_close(&domain, &subscriber));
  }
  OK(iox2ps_domain_destroy(&domain));
  return 0;
}
