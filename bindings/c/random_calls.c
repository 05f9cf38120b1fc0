// SPDX-License-Identifier: Apache-2.0 OR MIT
/* Makes random calls with random numbers, a fifth of them on channels: `random_calls SEED CALLS SCRIPT REPLIES`.
 *
 * Most numbers are of things that are live, some of things that are spent, of another kind or domain, or with
 * bits turned; and hints are turned too. The program keeps a list of what is live. A call whose numbers name
 * nothing in it has to return IOX2PS_NOT_LIVE. Each other call is a line of SCRIPT, with what it returned as a
 * line of REPLIES: `pubsub_script` has to print the same for the script. So it is seen too that refused calls
 * change nothing.
 *
 * Each message has eight bytes, which are a number that no other message has. It is read where it lies as soon as it
 * is received, which is a line of SCRIPT too. */
#include "iox2_pubsub.h"
#include "random_numbers.h"
#include "recording_file.h"
#include <inttypes.h>
#include <stdio.h>
#include <stdlib.h>
#include <string.h>

/* ---- things: what the calls have made */

enum kind { PUBLISHER, SUBSCRIBER, LOAN, BLOCKED, SAMPLE, KINDS };

/* The numbers of a thing. Each struct begins with its names, and has its hints behind them. */
typedef union numbers_t {
  uint64_t words[11];
  iox2ps_publisher_t publisher;
  iox2ps_subscriber_t subscriber;
  iox2ps_loan_t loan;
  iox2ps_blocked_t blocked;
  iox2ps_sample_t sample;
} numbers_t;

/* How many words of a thing are its names, and how many it has. Among those of a sample is its origin, which
 * names nothing. */
static const size_t names[KINDS] = {4, 4, 6, 6, 8};
static const size_t words[KINDS] = {7, 6, 9, 9, 11};

static int are_same(enum kind kind, const numbers_t *one, const numbers_t *other) {
  for (size_t i = 0; i < names[kind]; i++) {
    if (kind == SAMPLE && i / 2 == 1) continue;
    if (one->words[i] != other->words[i]) return 0;
  }
  return 1;
}

typedef struct thing_t {
  numbers_t numbers;
  size_t command;       /* that made it */
  const void *bytes;    /* of a loan or a sample */
  uint64_t value;       /* of the message there */
} thing_t;

#define ROOM 1024
static thing_t live[KINDS][ROOM], spent[KINDS][ROOM], foreign[KINDS];
static size_t live_count[KINDS], spent_count[KINDS];

static _Noreturn void fail(const char *words_) {
  fprintf(stderr, "%s\n", words_);
  exit(1);
}

static void add(enum kind kind, numbers_t numbers, size_t command, const void *bytes, uint64_t value) {
  if (live_count[kind] == ROOM) fail("more is live than the settings allow");
  live[kind][live_count[kind]++] = (thing_t){numbers, command, bytes, value};
}

static void spend(enum kind kind, thing_t *thing) {
  spent[kind][spent_count[kind]++ % ROOM] = *thing;
  *thing = live[kind][--live_count[kind]];
}

/* The live thing that these numbers name. */
static thing_t *named(enum kind kind, const numbers_t *numbers) {
  for (size_t i = 0; i < live_count[kind]; i++) {
    if (are_same(kind, &live[kind][i].numbers, numbers)) return &live[kind][i];
  }
  return NULL;
}

/* ---- the script */

static FILE *script, *replies;
static size_t command, wrong_numbers;
static uint64_t value;

static size_t spent_kept(enum kind kind) { return spent_count[kind] < ROOM ? spent_count[kind] : ROOM; }

/* Numbers to call with: of a live thing of the kind, more often than not. */
static numbers_t choose(enum kind kind) {
  enum kind any = (enum kind)below(KINDS);
  numbers_t numbers = {{0}};
  size_t how = below(20);
  if (how < 2 && spent_kept(kind)) numbers = spent[kind][below(spent_kept(kind))].numbers;
  else if (how == 2) numbers = foreign[kind].numbers;
  else if (how == 3 && live_count[any]) numbers = live[any][below(live_count[any])].numbers;
  else if (live_count[kind]) numbers = live[kind][below(live_count[kind])].numbers;
  if (one_in(20)) numbers.words[below(names[kind])] ^= one_in(2) ? UINT64_C(1) << below(64) : next();
  if (one_in(10)) numbers.words[names[kind] + below(words[kind] - names[kind])] = one_in(2) ? UINT64_MAX : next();
  return numbers;
}

/* The next line of the script, and of the replies. */
static void reply(const char *text) {
  command++;
  fprintf(replies, "%s\n", text);
}

static void reply_error(iox2ps_status_t code) {
  command++;
  fprintf(replies, "err %s\n", iox2ps_error_text(code));
}

static void reply_number(uint64_t number) {
  command++;
  fprintf(replies, "ok %" PRIu64 "\n", number);
}

/* Whether the numbers name a live thing; the call has to say the same. */
static int is_live(const thing_t *thing, iox2ps_status_t code) {
  if ((thing == NULL) != (code == IOX2PS_NOT_LIVE)) fail("a call takes spent numbers, or refuses live ones");
  wrong_numbers += thing == NULL;
  return thing != NULL;
}

static uint64_t number_at(const void *bytes) {
  uint64_t number;
  memcpy(&number, bytes, sizeof number);
  return number;
}

/* ---- the calls */

static void create_publisher(iox2ps_domain_t *domain, const iox2ps_config_t *config) {
  iox2ps_publisher_options_t options;
  numbers_t numbers = {{0}};
  iox2ps_publisher_options_of(config, &options);
  options.max_loaned_samples = below(4);
  options.backpressure_strategy = one_in(2) ? IOX2PS_DISCARD_DATA : IOX2PS_RETRY_UNTIL_DELIVERED;
  iox2ps_status_t code = iox2ps_publisher_create_with(domain, &options, &numbers.publisher);
  fprintf(script, "pub %zu %s\n", options.max_loaned_samples,
          options.backpressure_strategy == IOX2PS_DISCARD_DATA ? "discard" : "retry");
  if (code != IOX2PS_OK) {
    reply_error(code);
    return;
  }
  reply("ok");
  add(PUBLISHER, numbers, command, NULL, 0);
}

static void create_subscriber(iox2ps_domain_t *domain, const iox2ps_config_t *config) {
  iox2ps_subscriber_options_t options;
  numbers_t numbers = {{0}};
  iox2ps_subscriber_options_of(config, &options);
  options.buffer_size = below(config->subscriber_max_buffer_size + 2);
  iox2ps_status_t code = iox2ps_subscriber_create_with(domain, &options, &numbers.subscriber);
  fprintf(script, "sub %zu\n", options.buffer_size);
  if (code != IOX2PS_OK) {
    reply_error(code);
    return;
  }
  reply("ok");
  add(SUBSCRIBER, numbers, command, NULL, 0);
}

static void lend(iox2ps_domain_t *domain) {
  numbers_t of = choose(PUBLISHER), numbers = {{0}};
  thing_t *publisher = named(PUBLISHER, &of);
  void *bytes;
  size_t len = one_in(20) ? 9 + below(SIZE_MAX - 9) : 8;
  iox2ps_status_t code = iox2ps_publisher_loan(domain, &of.publisher, len, &numbers.loan, &bytes);
  if (!is_live(publisher, code)) return;
  if (code == IOX2PS_LOAN_ERROR_EXCEEDS_MAX_LOAN_SIZE && len > 8) return;
  fprintf(script, "loan %zu\n", publisher->command);
  if (code == IOX2PS_PUBLISHER_IS_BLOCKED) {
    reply("skipped");
  } else if (code != IOX2PS_OK) {
    reply_error(code);
  } else {
    if (number_at(bytes) != 0) fail("a loan isn't zero");
    value++;
    memcpy(bytes, &value, sizeof value);
    reply("ok");
    add(LOAN, numbers, command, bytes, value);
    fprintf(script, "write %zu %" PRIu64 "\n", command, value);
    reply("ok");
  }
}

/* The reply of a send, and what it has made where it waits. */
static void sent(iox2ps_status_t code, size_t receivers, numbers_t blocked) {
  if (code == IOX2PS_OK) {
    reply_number(receivers);
  } else if (code == IOX2PS_PUBLISHER_IS_BLOCKED) {
    reply("skipped");
  } else if (code == IOX2PS_BLOCKED) {
    reply("blocked");
    add(BLOCKED, blocked, command, NULL, 0);
  } else if (code >= IOX2PS_LOAN_ERROR_OUT_OF_MEMORY && code <= IOX2PS_LOAN_ERROR_INTERNAL_FAILURE) {
    command++;
    fprintf(replies, "err SendError::LoanError(%s)\n", iox2ps_error_text(code) + strlen("LoanError::"));
  } else {
    reply_error(code);
  }
}

static void send_loan(iox2ps_domain_t *domain) {
  numbers_t of = choose(LOAN), blocked = {{0}};
  thing_t *loan = named(LOAN, &of);
  size_t receivers = 0;
  iox2ps_status_t code = iox2ps_loan_send(domain, &of.loan, &receivers, &blocked.blocked);
  if (!is_live(loan, code)) return;
  fprintf(script, "send %zu\n", loan->command);
  if (code != IOX2PS_PUBLISHER_IS_BLOCKED) spend(LOAN, loan);
  sent(code, receivers, blocked);
}

static void send_copy(iox2ps_domain_t *domain) {
  numbers_t of = choose(PUBLISHER), blocked = {{0}};
  thing_t *publisher = named(PUBLISHER, &of);
  size_t receivers = 0;
  value++;
  iox2ps_status_t code = iox2ps_publisher_send_copy(domain, &of.publisher, &value, 8, &receivers, &blocked.blocked);
  if (!is_live(publisher, code)) return;
  fprintf(script, "copy %zu %" PRIu64 "\n", publisher->command, value);
  sent(code, receivers, blocked);
}

static void discard(iox2ps_domain_t *domain) {
  numbers_t of = choose(LOAN);
  thing_t *loan = named(LOAN, &of);
  iox2ps_status_t code = iox2ps_loan_discard(domain, &of.loan);
  if (!is_live(loan, code)) return;
  if (code != IOX2PS_OK) fail("a loan isn't discarded");
  fprintf(script, "discard %zu\n", loan->command);
  reply("ok");
  spend(LOAN, loan);
}

static void end_blocked(iox2ps_domain_t *domain) {
  numbers_t of = choose(BLOCKED);
  thing_t *blocked = named(BLOCKED, &of);
  size_t receivers = 0;
  int retries = one_in(2);
  iox2ps_status_t code = retries ? iox2ps_blocked_retry(domain, &of.blocked, next(), &receivers)
                                 : iox2ps_blocked_give_up(domain, &of.blocked, &receivers);
  if (!is_live(blocked, code)) return;
  fprintf(script, "%s %zu\n", retries ? "retry" : "giveup", blocked->command);
  if (code == IOX2PS_BLOCKED) {
    reply("blocked");
  } else {
    spend(BLOCKED, blocked);
    sent(code, receivers, of);
  }
}

static void receive(iox2ps_domain_t *domain) {
  numbers_t of = choose(SUBSCRIBER), numbers = {{0}};
  thing_t *subscriber = named(SUBSCRIBER, &of);
  const void *bytes;
  size_t len;
  iox2ps_status_t code = iox2ps_subscriber_receive(domain, &of.subscriber, &numbers.sample, &bytes, &len);
  if (!is_live(subscriber, code)) return;
  fprintf(script, "recv %zu\n", subscriber->command);
  if (code == IOX2PS_NO_SAMPLE) {
    reply("none");
  } else if (code != IOX2PS_OK) {
    reply_error(code);
  } else {
    if (len != 8) fail("a message has another length");
    reply("sample");
    add(SAMPLE, numbers, command, bytes, number_at(bytes));
    fprintf(script, "read %zu\n", command);
    reply_number(number_at(bytes));
  }
}

static void has_samples(iox2ps_domain_t *domain) {
  numbers_t of = choose(SUBSCRIBER);
  thing_t *subscriber = named(SUBSCRIBER, &of);
  uint32_t waits = 2, code = iox2ps_subscriber_has_samples(domain, &of.subscriber, &waits);
  if (!is_live(subscriber, code)) return;
  fprintf(script, "has %zu\n", subscriber->command);
  if (code != IOX2PS_OK) reply_error(code);
  else reply(waits ? "true" : "false");
}

static void update(iox2ps_domain_t *domain) {
  enum kind kind = one_in(2) ? PUBLISHER : SUBSCRIBER;
  numbers_t of = choose(kind);
  thing_t *port = named(kind, &of);
  iox2ps_status_t code = kind == PUBLISHER ? iox2ps_publisher_update_connections(domain, &of.publisher)
                                           : iox2ps_subscriber_update_connections(domain, &of.subscriber);
  if (!is_live(port, code)) return;
  fprintf(script, "update %zu\n", port->command);
  if (code == IOX2PS_OK) reply("ok");
  else if (code == IOX2PS_PUBLISHER_IS_BLOCKED) reply("skipped");
  else reply_error(code);
}

/* It is still where it was when it was received or written. */
static void read_message(iox2ps_domain_t *domain) {
  enum kind kind = one_in(3) ? LOAN : SAMPLE;
  numbers_t of = choose(kind);
  thing_t *thing = named(kind, &of);
  void *lent = NULL;
  const void *received = NULL;
  size_t len = 0;
  iox2ps_status_t code = kind == LOAN ? iox2ps_loan_payload(domain, &of.loan, &lent, &len)
                                      : iox2ps_sample_payload(domain, &of.sample, &received, &len);
  if (!is_live(thing, code)) return;
  if (code != IOX2PS_OK || len != 8 || (kind == LOAN ? lent : received) != thing->bytes) fail("a message has moved");
  fprintf(script, "read %zu\n", thing->command);
  reply_number(number_at(thing->bytes));
}

static void release(iox2ps_domain_t *domain) {
  numbers_t of = choose(SAMPLE);
  thing_t *sample = named(SAMPLE, &of);
  iox2ps_status_t code = iox2ps_sample_release(domain, &of.sample);
  if (!is_live(sample, code)) return;
  if (code != IOX2PS_OK) fail("a sample isn't released");
  fprintf(script, "release %zu\n", sample->command);
  reply("ok");
  spend(SAMPLE, sample);
}

static void close_port(iox2ps_domain_t *domain) {
  enum kind kind = one_in(2) ? PUBLISHER : SUBSCRIBER;
  numbers_t of = choose(kind);
  thing_t *port = named(kind, &of);
  iox2ps_status_t code = kind == PUBLISHER ? iox2ps_publisher_close(domain, &of.publisher)
                                           : iox2ps_subscriber_close(domain, &of.subscriber);
  if (!is_live(port, code)) return;
  fprintf(script, "close %zu\n", port->command);
  if (code == IOX2PS_PUBLISHER_IS_BLOCKED) {
    reply("skipped");
    return;
  }
  if (code != IOX2PS_OK) fail("a port isn't closed");
  reply("ok");
  spend(kind, port);
}

/* ---- calls on channels, of which a connection may have none, as the publisher may have no connection */

static size_t any_channel(const iox2ps_config_t *config) {
  return one_in(20) ? (one_in(2) ? config->number_of_channels : (size_t)next()) : below(config->number_of_channels);
}

static size_t any_place(const iox2ps_config_t *config) { return one_in(20) ? (size_t)next() : below(config->max_subscribers + 1); }

static uint64_t any_state(void) {
  static const uint64_t some[] = {IOX2PS_CHANNEL_STATE_OPEN, IOX2PS_CHANNEL_STATE_OPEN, 1, IOX2PS_CHANNEL_STATE_CLOSED};
  return one_in(20) ? next() : some[below(4)];
}

/* The reply of a call that was made, or of one on a channel that isn't there. */
static void reply_of(iox2ps_status_t code, const char *text) {
  if (code != IOX2PS_OK && code != IOX2PS_NO_SUCH_CHANNEL) fail("a call on a channel is refused otherwise");
  reply(code == IOX2PS_OK ? text : "skipped");
}

static void deliver(iox2ps_domain_t *domain, const iox2ps_config_t *config) {
  numbers_t of = choose(LOAN), blocked = {{0}};
  thing_t *loan = named(LOAN, &of);
  size_t channel = any_channel(config), place = any_place(config), receivers = 0;
  iox2ps_status_t code = iox2ps_loan_deliver_offset_to_connection(domain, &of.loan, channel, place, &receivers, &blocked.blocked);
  if (!is_live(loan, code)) return;
  fprintf(script, "deliver %zu %zu %zu\n", loan->command, channel, place);
  if (code == IOX2PS_NO_SUCH_CHANNEL) {
    reply("skipped");
    return;
  }
  if (code != IOX2PS_PUBLISHER_IS_BLOCKED) spend(LOAN, loan);
  sent(code, receivers, blocked);
}

static void connection_of(iox2ps_domain_t *domain) {
  numbers_t of = choose(PUBLISHER);
  thing_t *publisher = named(PUBLISHER, &of);
  iox2ps_wide_t receiver = {.low = below(20)};
  size_t place = 0;
  iox2ps_status_t code = iox2ps_publisher_get_connection_id_of(domain, &of.publisher, &receiver, &place);
  if (!is_live(publisher, code)) return;
  if (code != IOX2PS_OK && code != IOX2PS_NO_CONNECTION) fail("a connection is neither there nor not");
  fprintf(script, "connection %zu %" PRIu64 "\n", publisher->command, receiver.low);
  if (code == IOX2PS_OK) reply_number(place);
  else reply("none");
}

static void publisher_channel(iox2ps_domain_t *domain, const iox2ps_config_t *config) {
  static const char *const words_of[] = {"state", "hinted", "shut"};
  numbers_t of = choose(PUBLISHER);
  thing_t *publisher = named(PUBLISHER, &of);
  size_t channel = any_channel(config), place = any_place(config), which = below(3);
  uint64_t state = any_state();
  uint32_t answer = 0;
  iox2ps_status_t code = which == 0   ? iox2ps_publisher_has_channel_state(domain, &of.publisher, channel, place, state, &answer)
                         : which == 1 ? iox2ps_publisher_has_disconnect_hint(domain, &of.publisher, channel, place, state, &answer)
                                      : iox2ps_publisher_close_channel(domain, &of.publisher, channel, place, state);
  if (!is_live(publisher, code)) return;
  fprintf(script, "%s %zu %zu %zu %" PRIu64 "\n", words_of[which], publisher->command, channel, place, state);
  reply_of(code, which == 2 ? "ok" : answer ? "true" : "false");
}

static void subscriber_channel(iox2ps_domain_t *domain, const iox2ps_config_t *config) {
  static const char *const words_of[] = {"shut", "hint", "state", "open", "open"};
  numbers_t of = choose(SUBSCRIBER);
  thing_t *subscriber = named(SUBSCRIBER, &of);
  size_t channel = any_channel(config), which = below(5);
  uint64_t state = any_state();
  uint32_t answer = 0;
  iox2ps_status_t code = which == 0   ? iox2ps_subscriber_close_channel(domain, &of.subscriber, channel, state)
                         : which == 1 ? iox2ps_subscriber_set_disconnect_hint(domain, &of.subscriber, channel, state)
                         : which == 2 ? iox2ps_subscriber_at_least_one_channel_has_state(domain, &of.subscriber, channel, state, &answer)
                                      : iox2ps_subscriber_set_channel_state(domain, &of.subscriber, channel, state, &answer);
  if (!is_live(subscriber, code)) return;
  fprintf(script, "%s %zu %zu %" PRIu64 "\n", words_of[which], subscriber->command, channel, state);
  reply_of(code, which < 2 ? "ok" : answer ? "true" : "false");
}

/* What is in each live loan and sample stays, whatever else is called. */
static void look_at_all_messages(void) {
  for (size_t i = 0; i < live_count[LOAN]; i++) {
    if (number_at(live[LOAN][i].bytes) != live[LOAN][i].value) fail("a loan has changed");
  }
  for (size_t i = 0; i < live_count[SAMPLE]; i++) {
    if (number_at(live[SAMPLE][i].bytes) != live[SAMPLE][i].value) fail("a sample has changed");
  }
}

static void call(iox2ps_domain_t *domain, const iox2ps_config_t *config) {
  size_t which = below(125);
  if (which < 4) create_publisher(domain, config);
  else if (which < 8) create_subscriber(domain, config);
  else if (which < 20) lend(domain);
  else if (which < 32) send_loan(domain);
  else if (which < 42) send_copy(domain);
  else if (which < 45) discard(domain);
  else if (which < 53) end_blocked(domain);
  else if (which < 73) receive(domain);
  else if (which < 76) has_samples(domain);
  else if (which < 79) update(domain);
  else if (which < 84) read_message(domain);
  else if (which < 97) release(domain);
  else if (which < 100) close_port(domain);
  else if (which < 105) deliver(domain, config);
  else if (which < 107) connection_of(domain);
  else if (which < 114) publisher_channel(domain, config);
  else subscriber_channel(domain, config);
}

/* ---- another domain, whose numbers are tried here; nothing of it may change */

static void make_foreign(iox2ps_domain_t *domain) {
  iox2ps_config_t config;
  uint8_t bytes[8] = {1};
  void *lent;
  const void *received;
  size_t count;
  iox2ps_config_defaults(&config, 2, 8, 8);
  config.enable_safe_overflow = 0;
  config.subscriber_max_buffer_size = 1;
  iox2ps_publisher_t *publisher = &foreign[PUBLISHER].numbers.publisher;
  iox2ps_subscriber_t *subscriber = &foreign[SUBSCRIBER].numbers.subscriber;
  iox2ps_blocked_t *blocked = &foreign[BLOCKED].numbers.blocked;
  if (iox2ps_domain_create(domain, &config) || iox2ps_publisher_create(domain, publisher)
      || iox2ps_subscriber_create(domain, subscriber)
      || iox2ps_publisher_send_copy(domain, publisher, bytes, 8, &count, blocked)
      || iox2ps_subscriber_receive(domain, subscriber, &foreign[SAMPLE].numbers.sample, &received, &count)
      || iox2ps_publisher_loan(domain, publisher, 8, &foreign[LOAN].numbers.loan, &lent)
      || iox2ps_publisher_send_copy(domain, publisher, bytes, 8, &count, blocked)
      || iox2ps_publisher_send_copy(domain, publisher, bytes, 8, &count, blocked) != IOX2PS_BLOCKED) {
    fail("the other domain isn't made");
  }
}

static void end_foreign(iox2ps_domain_t *domain) {
  size_t count;
  if (iox2ps_sample_release(domain, &foreign[SAMPLE].numbers.sample)
      || iox2ps_blocked_give_up(domain, &foreign[BLOCKED].numbers.blocked, &count)
      || iox2ps_loan_discard(domain, &foreign[LOAN].numbers.loan)
      || iox2ps_subscriber_close(domain, &foreign[SUBSCRIBER].numbers.subscriber)
      || iox2ps_publisher_close(domain, &foreign[PUBLISHER].numbers.publisher) || iox2ps_domain_destroy(domain)) {
    fail("the other domain has changed");
  }
}

int main(int count, char **arguments) {
  iox2ps_domain_t domain = IOX2PS_DOMAIN_INIT, other = IOX2PS_DOMAIN_INIT;
  iox2ps_config_t config;
  if (count != 5 && count != 6) fail("usage: random_calls SEED CALLS SCRIPT REPLIES [RECORDING]");
  random_state = strtoull(arguments[1], NULL, 10);
  size_t calls = strtoull(arguments[2], NULL, 10);
  script = fopen(arguments[3], "w");
  replies = fopen(arguments[4], "w");
  if (!script || !replies) fail("the files can't be written");

  iox2ps_config_defaults(&config, 1, 8, 8);
  config.max_publishers = 1 + below(3);
  config.max_subscribers = 1 + below(4);
  config.subscriber_max_buffer_size = below(4);
  config.subscriber_max_borrowed_samples = 1 + below(3);
  config.history_size = below(4);
  config.subscriber_expired_connection_buffer = below(4);
  config.enable_safe_overflow = (uint32_t)below(2);
  config.number_of_channels = 1 + below(3);
  fprintf(script, "domain %zu %zu %zu %zu %zu %zu %s channels %zu\n", config.max_publishers, config.max_subscribers,
          config.subscriber_max_buffer_size, config.subscriber_max_borrowed_samples, config.history_size,
          config.subscriber_expired_connection_buffer, config.enable_safe_overflow ? "overflow" : "keep", config.number_of_channels);
  if (count == 6 ? iox2ps_domain_create_recorded(&domain, &config, 100 * calls, 8) : iox2ps_domain_create(&domain, &config)) {
    fail("the domain isn't made");
  }
  make_foreign(&other);
  for (size_t i = 0; i < calls; i++) {
    call(&domain, &config);
    look_at_all_messages();
  }
  end_foreign(&other);
  if (count == 6 && !write_recording(&domain, arguments[5])) fail("the recording can't be written");
  if (iox2ps_domain_destroy(&domain)) fail("the domain isn't destroyed");
  if (fclose(script) || fclose(replies)) fail("the files can't be written");
  printf("%zu calls, %zu of them refused for their numbers, %zu lines of script\n", calls, wrong_numbers, command);
  return 0;
}
