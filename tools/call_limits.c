// SPDX-License-Identifier: Apache-2.0 OR MIT
/* Makes one call from C in a state in which it has much to do, and prints how many bytes of stack it took.
 *   call_limits                          names the calls
 *   call_limits CALL PORTS DEPTH         makes the call with so many ports of the other side; DEPTH messages wait in each buffer, or
 *                                        are borrowed, lent or kept as a history
 *   call_limits CALL PORTS DEPTH count   the same on the program's own stack: valgrind counts what `measured` takes, in which the
 *                                        call stands alone */
#define _GNU_SOURCE
#include "iox2_pubsub.h"
#include <stdint.h>
#include <stdio.h>
#include <stdlib.h>
#include <string.h>
#include <ucontext.h>

#define MOST 256
#define STACK (1 << 20)
#define PAINT 0xa5

static iox2ps_domain_t domain = IOX2PS_DOMAIN_INIT;
static iox2ps_config_t config;
static iox2ps_publisher_t publishers[MOST], another_publisher;
static iox2ps_subscriber_t subscribers[MOST], another_subscriber;
static iox2ps_loan_t loans[MOST];
static iox2ps_blocked_t blocked;
static iox2ps_sample_t samples[MOST], last;
static size_t ports, depth, receivers, length;
static uint64_t word;
static void *room;
static const void *bytes;

/* A call that has to succeed while a state is made. */
static void want(iox2ps_status_t code) {
  if (code == IOX2PS_OK) return;
  fprintf(stderr, "refused: %s\n", iox2ps_error_text(code));
  exit(1);
}

/* ---- the parts of states */

static void make_domain(uint32_t overflows, uint32_t strategy) {
  iox2ps_config_defaults(&config, 1, sizeof word, 8);
  config.max_publishers = config.max_subscribers = ports + 1;
  config.subscriber_max_buffer_size = config.subscriber_max_borrowed_samples = depth;
  config.history_size = overflows ? depth : 0;
  config.publisher_max_loaned_samples = depth;
  config.subscriber_expired_connection_buffer = ports;
  config.enable_safe_overflow = overflows;
  config.backpressure_strategy = strategy;
  want(iox2ps_domain_create(&domain, &config));
}

static void make_publishers(size_t count) {
  for (size_t at = 0; at < count; at++) want(iox2ps_publisher_create(&domain, &publishers[at]));
}

static void make_subscribers(size_t count) {
  for (size_t at = 0; at < count; at++) want(iox2ps_subscriber_create(&domain, &subscribers[at]));
}

static void send(const iox2ps_publisher_t *publisher) {
  word++;
  want(iox2ps_publisher_send_copy(&domain, publisher, &word, sizeof word, &receivers, &blocked));
}

/* Each publisher sends DEPTH messages. */
static void fill(size_t count) {
  for (size_t at = 0; at < count; at++)
    for (size_t message = 0; message < depth; message++) send(&publishers[at]);
}

static void borrow(const iox2ps_subscriber_t *subscriber) {
  for (size_t at = 0; at < depth; at++) want(iox2ps_subscriber_receive(&domain, subscriber, &samples[at], &bytes, &length));
}

static void lend(size_t count) {
  for (size_t at = 0; at < count; at++) want(iox2ps_publisher_loan_uninit(&domain, &publishers[0], sizeof word, &loans[at], &room));
}

/* ---- the states */

static void nothing(void) {}
static void plain(void) { make_domain(1, IOX2PS_DISCARD_DATA); }

static void to_subscribers(void) {
  plain();
  make_subscribers(ports);
}

static void to_publishers(void) {
  plain();
  make_publishers(ports);
}

/* One publisher, whose messages fill all buffers. */
static void full_buffers(void) {
  to_subscribers();
  make_publishers(1);
  fill(1);
}

static void full_and_lent(void) {
  full_buffers();
  lend(1);
}

/* All subscribers have given everything back, so that a loan reclaims it. */
static void returned(void) {
  full_buffers();
  for (size_t at = 0; at < ports; at++) {
    borrow(&subscribers[at]);
    for (size_t message = 0; message < depth; message++) want(iox2ps_sample_release(&domain, &samples[message]));
  }
}

/* One publisher with a history, and subscribers that come later. */
static void new_subscribers(void) {
  plain();
  make_publishers(1);
  fill(1);
  make_subscribers(ports);
}

static void new_and_lent(void) {
  plain();
  make_publishers(1);
  fill(1);
  lend(1);
  make_subscribers(ports);
}

/* One subscriber, and publishers that come later. */
static void new_publishers(void) {
  plain();
  make_subscribers(1);
  make_publishers(ports);
}

/* One subscriber, which the last of many publishers sends to. */
static void last_of_many(void) {
  new_publishers();
  want(iox2ps_subscriber_update_connections(&domain, &subscribers[0]));
  send(&publishers[ports - 1]);
}

static void none_waits(void) {
  new_publishers();
  want(iox2ps_subscriber_update_connections(&domain, &subscribers[0]));
}

/* One subscriber, for which messages of many publishers wait. */
static void full_of_many(void) {
  new_publishers();
  fill(ports);
}

/* The same, of publishers that are closed. */
static void closed_publishers(void) {
  full_of_many();
  want(iox2ps_subscriber_update_connections(&domain, &subscribers[0]));
  for (size_t at = 0; at < ports; at++) want(iox2ps_publisher_close(&domain, &publishers[at]));
}

static void borrowed(void) {
  full_of_many();
  borrow(&subscribers[0]);
}

/* The last message of a publisher that is closed is borrowed. */
static void last_of_closed(void) {
  plain();
  make_subscribers(1);
  make_publishers(1);
  fill(1);
  borrow(&subscribers[0]);
  want(iox2ps_publisher_close(&domain, &publishers[0]));
  for (size_t at = 1; at < depth; at++) want(iox2ps_sample_release(&domain, &samples[at]));
}

static void lent(void) {
  to_subscribers();
  make_publishers(1);
  lend(depth);
}

/* A send is blocked at the first of many subscribers; the others have room for it, and the first now too. */
static void blocked_send(void) {
  make_domain(0, IOX2PS_RETRY_UNTIL_DELIVERED);
  make_subscribers(1);
  make_publishers(1);
  fill(1);
  for (size_t at = 1; at < ports; at++) want(iox2ps_subscriber_create(&domain, &subscribers[at]));
  word++;
  if (iox2ps_publisher_send_copy(&domain, &publishers[0], &word, sizeof word, &receivers, &blocked) != IOX2PS_BLOCKED) exit(1);
}

static void room_again(void) {
  blocked_send();
  want(iox2ps_subscriber_receive(&domain, &subscribers[0], &last, &bytes, &length));
}

static void everything(void) {
  to_subscribers();
  make_publishers(ports);
  fill(ports);
  borrow(&subscribers[0]);
  lend(1);
}

/* ---- the calls */

static iox2ps_status_t none(void) { return IOX2PS_OK; }
static iox2ps_status_t domain_create(void) {
  iox2ps_config_defaults(&config, 1, sizeof word, 8);
  return iox2ps_domain_create(&domain, &config);
}
static iox2ps_status_t domain_destroy(void) { return iox2ps_domain_destroy(&domain); }
static iox2ps_status_t domain_config(void) { return iox2ps_domain_config(&domain, &config); }
static iox2ps_status_t publisher_create(void) { return iox2ps_publisher_create(&domain, &another_publisher); }
static iox2ps_status_t subscriber_create(void) { return iox2ps_subscriber_create(&domain, &another_subscriber); }
static iox2ps_status_t publisher_update(void) { return iox2ps_publisher_update_connections(&domain, &publishers[0]); }
static iox2ps_status_t subscriber_update(void) { return iox2ps_subscriber_update_connections(&domain, &subscribers[0]); }
static iox2ps_status_t loan(void) { return iox2ps_publisher_loan(&domain, &publishers[0], sizeof word, &loans[0], &room); }
static iox2ps_status_t loan_uninit(void) { return iox2ps_publisher_loan_uninit(&domain, &publishers[0], sizeof word, &loans[0], &room); }
static iox2ps_status_t loan_payload(void) { return iox2ps_loan_payload(&domain, &loans[0], &room, &length); }
static iox2ps_status_t loan_send(void) { return iox2ps_loan_send(&domain, &loans[0], &receivers, &blocked); }
static iox2ps_status_t loan_discard(void) { return iox2ps_loan_discard(&domain, &loans[0]); }
static iox2ps_status_t send_copy(void) { return iox2ps_publisher_send_copy(&domain, &publishers[0], &word, sizeof word, &receivers, &blocked); }
static iox2ps_status_t retry(void) { return iox2ps_blocked_retry(&domain, &blocked, 0, &receivers); }
static iox2ps_status_t give_up(void) { return iox2ps_blocked_give_up(&domain, &blocked, &receivers); }
static iox2ps_status_t receive(void) { return iox2ps_subscriber_receive(&domain, &subscribers[0], &last, &bytes, &length); }
static iox2ps_status_t receive_none(void) { return receive() == IOX2PS_NO_SAMPLE ? IOX2PS_OK : IOX2PS_NOT_LIVE; }
static iox2ps_status_t receive_copy(void) { return iox2ps_subscriber_receive_copy(&domain, &subscribers[0], &word, sizeof word, &length, &last); }
static iox2ps_status_t has_samples(void) {
  uint32_t answer;
  return iox2ps_subscriber_has_samples(&domain, &subscribers[0], &answer);
}
static iox2ps_status_t sample_payload(void) { return iox2ps_sample_payload(&domain, &samples[0], &bytes, &length); }
static iox2ps_status_t sample_header(void) {
  iox2ps_header_t header;
  return iox2ps_sample_header(&domain, &samples[0], &header);
}
static iox2ps_status_t release_oldest(void) { return iox2ps_sample_release(&domain, &samples[0]); }
static iox2ps_status_t release_newest(void) { return iox2ps_sample_release(&domain, &samples[depth - 1]); }
static iox2ps_status_t publisher_close(void) { return iox2ps_publisher_close(&domain, &publishers[0]); }
static iox2ps_status_t subscriber_close(void) { return iox2ps_subscriber_close(&domain, &subscribers[0]); }

static const struct {
  const char *name, *state;
  void (*make)(void);
  iox2ps_status_t (*call)(void);
} calls[] = {
    {"no call", "", nothing, none},
    {"iox2ps_domain_create", "", nothing, domain_create},
    {"iox2ps_domain_config", "", plain, domain_config},
    {"iox2ps_domain_destroy", "all ports of both kinds, full buffers", everything, domain_destroy},
    {"iox2ps_publisher_create", "subscribers", to_subscribers, publisher_create},
    {"iox2ps_publisher_update_connections", "new subscribers, a history", new_subscribers, publisher_update},
    {"iox2ps_publisher_loan", "subscribers, all returned", returned, loan},
    {"iox2ps_publisher_loan_uninit", "subscribers, all returned", returned, loan_uninit},
    {"iox2ps_publisher_send_copy", "subscribers, full buffers", full_buffers, send_copy},
    {"iox2ps_publisher_close", "subscribers, full buffers", full_buffers, publisher_close},
    {"iox2ps_loan_send", "subscribers, full buffers", full_and_lent, loan_send},
    {"iox2ps_loan_send", "new subscribers, a history", new_and_lent, loan_send},
    {"iox2ps_loan_payload", "the oldest loan", lent, loan_payload},
    {"iox2ps_loan_discard", "the oldest loan", lent, loan_discard},
    {"iox2ps_blocked_retry", "subscribers with room", room_again, retry},
    {"iox2ps_blocked_give_up", "subscribers with room", blocked_send, give_up},
    {"iox2ps_subscriber_create", "publishers", to_publishers, subscriber_create},
    {"iox2ps_subscriber_update_connections", "new publishers", new_publishers, subscriber_update},
    {"iox2ps_subscriber_update_connections", "closed publishers", closed_publishers, subscriber_update},
    {"iox2ps_subscriber_receive", "the last of the publishers sent", last_of_many, receive},
    {"iox2ps_subscriber_receive", "publishers, nothing waits", none_waits, receive_none},
    {"iox2ps_subscriber_receive", "closed publishers", closed_publishers, receive},
    {"iox2ps_subscriber_receive_copy", "the last of the publishers sent", last_of_many, receive_copy},
    {"iox2ps_subscriber_has_samples", "publishers, nothing waits", none_waits, has_samples},
    {"iox2ps_subscriber_close", "publishers, full buffers", full_of_many, subscriber_close},
    {"iox2ps_sample_payload", "the oldest sample", borrowed, sample_payload},
    {"iox2ps_sample_header", "the oldest sample", borrowed, sample_header},
    {"iox2ps_sample_release", "the newest sample", borrowed, release_newest},
    {"iox2ps_sample_release", "the oldest sample", borrowed, release_oldest},
    {"iox2ps_sample_release", "the last of a closed publisher", last_of_closed, release_oldest},
};

#define COUNT (sizeof calls / sizeof *calls)

/* ---- the measured call, on a stack of its own */

static ucontext_t home, beside;
static unsigned char stack[STACK] __attribute__((aligned(64)));
static size_t chosen, used;
static iox2ps_status_t code;

__attribute__((noinline)) void measured(void) { code = calls[chosen].call(); }

/* Makes the call, and looks at once how far below this frame the stack was written. */
static void look(void) {
  const unsigned char *top = __builtin_frame_address(0), *at = stack;
  measured();
  while (at < top && *at == PAINT) at++;
  used = (size_t)(top - at);
}

static void look_on_its_stack(void) {
  memset(stack, PAINT, sizeof stack);
  getcontext(&beside);
  beside.uc_stack.ss_sp = stack;
  beside.uc_stack.ss_size = STACK;
  beside.uc_link = &home;
  makecontext(&beside, look, 0);
  swapcontext(&home, &beside);
}

int main(int count, char **words) {
  if (count == 1) {
    for (size_t at = 0; at < COUNT; at++) printf("%s\t%s\n", calls[at].name, calls[at].state);
    return 0;
  }
  if (count < 4 || count > 5) return 2;
  chosen = strtoul(words[1], NULL, 10), ports = strtoul(words[2], NULL, 10), depth = strtoul(words[3], NULL, 10);
  if (chosen >= COUNT || ports == 0 || ports > MOST || depth == 0 || depth > MOST) return 2;
  calls[chosen].make();
  if (count == 5) measured();
  else look_on_its_stack();
  printf("%zu\n", used);
  if (code != IOX2PS_OK) fprintf(stderr, "%s: %s\n", calls[chosen].name, iox2ps_error_text(code));
  return code == IOX2PS_OK ? 0 : 1;
}
