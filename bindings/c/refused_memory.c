// SPDX-License-Identifier: Apache-2.0 OR MIT
/* Refuses the first allocation of the archive, then the second, and so on, each in a run of its own: ports are made,
 * messages go from two publishers to a subscriber, the memory of a third one grows, and all is closed. Each call returns
 * what it says of an allocation that fails, and a second try succeeds. With the ports made no call on a message takes memory but
 * where that grows. */
#include "allocations.h"
#include "checks.h"

/* Whether memory was refused since the last call of this. */
static size_t looked_at;
static int was_refused(void) {
  int was = looked_at < refused_at && refused_at <= allocations;
  looked_at = allocations;
  return was;
}

static void make_publisher(iox2ps_domain_t *domain, const iox2ps_publisher_options_t *options, iox2ps_publisher_t *publisher) {
  iox2ps_status_t code = iox2ps_publisher_create_with(domain, options, publisher);
  if (code == IOX2PS_OK) return;
  CHECK(was_refused());
  CHECK(code == IOX2PS_PUBLISHER_CREATE_ERROR_UNABLE_TO_CREATE_DATA_SEGMENT
        || code == IOX2PS_PUBLISHER_CREATE_ERROR_FAILED_TO_DEPLOY_THREADSAFETY_POLICY);
  IS(iox2ps_publisher_create_with(domain, options, publisher), IOX2PS_OK);
}

static void make_subscriber(iox2ps_domain_t *domain, iox2ps_subscriber_t *subscriber) {
  iox2ps_status_t code = iox2ps_subscriber_create(domain, subscriber);
  if (code == IOX2PS_OK) return;
  CHECK(was_refused());
  CHECK(code == IOX2PS_SUBSCRIBER_CREATE_ERROR_FAILED_TO_DEPLOY_THREADSAFETY_POLICY);
  IS(iox2ps_subscriber_create(domain, subscriber), IOX2PS_OK);
}

/* A port whose connection was refused tries again when another port has come. */
static void have_ports_updated(iox2ps_domain_t *domain) {
  iox2ps_subscriber_t other;
  IS(iox2ps_subscriber_create(domain, &other), IOX2PS_OK);
  IS(iox2ps_subscriber_close(domain, &other), IOX2PS_OK);
}

/* Sends a message by each publisher, and receives what came. */
static size_t pass(iox2ps_domain_t *domain, const iox2ps_publisher_t *publishers, const iox2ps_subscriber_t *subscriber) {
  iox2ps_loan_t loan;
  iox2ps_blocked_t blocked;
  iox2ps_sample_t sample;
  void *written;
  const void *read;
  size_t receivers, len, received = 0;
  for (uint64_t i = 0; i < 2; i++) {
    IS(iox2ps_publisher_loan(domain, &publishers[i], 8, &loan, &written), IOX2PS_OK);
    memcpy(written, &i, sizeof i);
    IS(iox2ps_loan_send(domain, &loan, &receivers, &blocked), IOX2PS_OK);
  }
  while (iox2ps_subscriber_receive(domain, subscriber, &sample, &read, &len) == IOX2PS_OK) {
    received++;
    IS(iox2ps_sample_release(domain, &sample), IOX2PS_OK);
  }
  return received;
}

/* Lends a message that the publisher's memory has to grow for. Where that is refused, what has room is lent all the same,
 * and a second try succeeds. */
static void lend_longer(iox2ps_domain_t *domain, const iox2ps_publisher_t *publisher, size_t len) {
  iox2ps_loan_t loan;
  void *payload;
  uint32_t code = iox2ps_publisher_loan(domain, publisher, len, &loan, &payload);
  if (code != IOX2PS_OK) {
    CHECK(was_refused() && code == IOX2PS_LOAN_ERROR_INTERNAL_FAILURE);
    IS(iox2ps_publisher_loan(domain, publisher, 8, &loan, &payload), IOX2PS_OK);
    IS(iox2ps_loan_discard(domain, &loan), IOX2PS_OK);
    IS(iox2ps_publisher_loan(domain, publisher, len, &loan, &payload), IOX2PS_OK);
  }
  memset(payload, 7, len);
  IS(iox2ps_loan_discard(domain, &loan), IOX2PS_OK);
}

/* The memory of a publisher grows twice. */
static void grow(iox2ps_domain_t *domain, const iox2ps_publisher_options_t *options) {
  iox2ps_publisher_options_t growing = *options;
  iox2ps_publisher_t publisher;
  growing.allocation_strategy = IOX2PS_ALLOCATION_BEST_FIT;
  make_publisher(domain, &growing, &publisher);
  lend_longer(domain, &publisher, 24);
  lend_longer(domain, &publisher, 72);
  IS(iox2ps_publisher_close(domain, &publisher), IOX2PS_OK);
}

/* Returns whether memory was refused. */
static int run(size_t at) {
  iox2ps_domain_t domain = IOX2PS_DOMAIN_INIT;
  iox2ps_config_t config;
  iox2ps_publisher_options_t options;
  iox2ps_publisher_t publishers[2];
  iox2ps_subscriber_t subscriber;
  uint64_t connections = 0;
  allocations = looked_at = 0;
  refused_at = at;
  iox2ps_config_defaults(&config, 7, 8, 8);
  config.max_publishers = 3;
  iox2ps_publisher_options_of(&config, &options);
  iox2ps_status_t code = iox2ps_domain_create(&domain, &config);
  if (code != IOX2PS_OK) {
    CHECK(code == IOX2PS_OUT_OF_MEMORY && domain.domain_ == NULL && was_refused());
    IS(iox2ps_domain_create(&domain, &config), IOX2PS_OK);
  }
  make_publisher(&domain, &options, &publishers[0]);
  make_subscriber(&domain, &subscriber);
  make_publisher(&domain, &options, &publishers[1]);
  size_t first = pass(&domain, publishers, &subscriber);
  IS(iox2ps_domain_refused_connections(&domain, &connections), IOX2PS_OK);
  CHECK(first == 2 || (first == 1 && connections == 1));
  if (connections) have_ports_updated(&domain);
  if (connections) CHECK(pass(&domain, publishers, &subscriber) == 2);
  size_t before = allocations;
  CHECK(pass(&domain, publishers, &subscriber) == 2 && allocations == before);
  grow(&domain, &options);
  for (int i = 0; i < 2; i++) IS(iox2ps_publisher_close(&domain, &publishers[i]), IOX2PS_OK);
  IS(iox2ps_subscriber_close(&domain, &subscriber), IOX2PS_OK);
  IS(iox2ps_domain_destroy(&domain), IOX2PS_OK);
  return allocations >= refused_at;
}

int main(void) {
  size_t at = 1;
  while (run(at)) at++;
  CHECK(at > 10);
  return checked();
}
