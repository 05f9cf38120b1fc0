// SPDX-License-Identifier: Apache-2.0 OR MIT
/* Stands between a program and the archive (-Wl,--wrap=..), and writes down each call on the domain in the order in
 * which the calls are made, as a script of `pubsub_script`, and what each returned as the replies. So what several
 * threads got by whatever lock becomes one list of calls, which `run` can be asked about.
 *
 * It has no lock, on purpose: its variables are plain, so that a race detector sees two calls that the lock of the
 * program leaves unordered. A loan's bytes are written here, and those of a sample read, as the archive may do: the
 * detectors don't see into it. With -DNO_ACCESS, under valgrind and with one thread, the bytes of all live loans
 * and samples are forbidden to each call.
 *
 * Messages have 64 bytes: eight times one number, which no other message has. */
#include "iox2_pubsub.h"
#include <inttypes.h>
#include <stdarg.h>
#include <stdio.h>
#include <stdlib.h>
#include <string.h>
#ifdef NO_ACCESS
#include <valgrind/memcheck.h>
#endif

#define WORDS 8
#define BYTES (WORDS * 8)

static void fail(const char *words) {
  fprintf(stderr, "lock_order: %s\n", words);
  abort();
}

/* ---- what is written down */

typedef struct { char *start; size_t len, room; } text_t;
static text_t script, replies;
static size_t command, calls;
static char path[2][512];

static void put(text_t *text, const char *format, ...) {
  va_list words;
  if (text->room - text->len < 256) fail("no room for the script");
  va_start(words, format);
  text->len += (size_t)vsnprintf(text->start + text->len, 256, format, words);
  va_end(words);
}

static void line(const char *word, size_t of) { put(&script, "%s %zu\n", word, of); }
static void reply(const char *words) { command++; put(&replies, "%s\n", words); }
static void reply_number(uint64_t number) { command++; put(&replies, "ok %" PRIu64 "\n", number); }
static void reply_error(uint32_t code) { command++; put(&replies, "err %s\n", iox2ps_error_text(code)); }

/* ---- what is live */

enum kind { PUBLISHER, SUBSCRIBER, LOAN, BLOCKED, SAMPLE, KINDS };
typedef struct { uint64_t of, number; size_t command; uint64_t *bytes; int is_written; } thing_t;
#define ROOM 4096
static thing_t live[KINDS][ROOM];
static size_t count[KINDS];

static void add(enum kind kind, uint64_t of, uint64_t number, void *bytes) {
  if (count[kind] == ROOM) fail("too much is live");
  live[kind][count[kind]++] = (thing_t){of, number, command, bytes, 0};
}
static thing_t *find(enum kind kind, uint64_t of, uint64_t number) {
  for (size_t i = 0; i < count[kind]; i++) {
    if (live[kind][i].of == of && live[kind][i].number == number) return &live[kind][i];
  }
  fail("a handle is used that isn't live");
  return NULL;
}
static void spend(enum kind kind, thing_t *thing) { *thing = live[kind][--count[kind]]; }

static uint64_t number_at(const uint64_t *bytes) {
  for (int i = 1; i < WORDS; i++) if (bytes[i] != bytes[0]) fail("a message is torn");
  return bytes[0];
}

/* ---- one call at a time */

static int inside;
static __thread char me;
static char *last;
static size_t switches;

/* A call that copies a message reads its bytes, which other subscribers may have as samples. So it is forbidden the loans
 * alone. */
static int reads_a_message;

static void allow(int allowed) {
#ifdef NO_ACCESS
  for (int kind = LOAN; kind <= SAMPLE; kind += SAMPLE - LOAN) {
    if (kind == SAMPLE && reads_a_message) continue;
    for (size_t i = 0; i < count[kind]; i++) {
      if (allowed) VALGRIND_MAKE_MEM_DEFINED(live[kind][i].bytes, BYTES);
      else VALGRIND_MAKE_MEM_NOACCESS(live[kind][i].bytes, BYTES);
    }
  }
#else
  (void)allowed;
#endif
}

static void enter(void) {
  /* Relaxed, so that it orders nothing for the race detectors. */
  if (__atomic_fetch_add(&inside, 1, __ATOMIC_RELAXED) != 0) fail("two calls at a time");
  calls++;
  switches += last != &me;
  last = &me;
  allow(0);
}
static void leave(void) {
  allow(1);
  if (__atomic_fetch_sub(&inside, 1, __ATOMIC_RELAXED) != 1) fail("two calls at a time");
}
#define CALL(real) (enter(), code = (real), leave())

/* ---- begin and end, which the program calls while it has one thread */

void lock_order_begin(const char *script_path, const char *replies_path) {
  text_t *texts[2] = {&script, &replies};
  for (int i = 0; i < 2; i++) {
    texts[i]->room = (size_t)1 << 26;
    texts[i]->len = 0;
    texts[i]->start = malloc(texts[i]->room);
    if (!texts[i]->start) fail("no memory");
  }
  snprintf(path[0], sizeof path[0], "%s", script_path);
  snprintf(path[1], sizeof path[1], "%s", replies_path);
}

size_t lock_order_calls(void) { return calls; }

void lock_order_end(void) {
  text_t *texts[2] = {&script, &replies};
  for (int i = 0; i < 2; i++) {
    FILE *file = fopen(path[i], "w");
    if (!file || fwrite(texts[i]->start, 1, texts[i]->len, file) != texts[i]->len || fclose(file)) fail("no file");
    free(texts[i]->start);
  }
  for (int kind = 0; kind < KINDS; kind++) if (count[kind]) fail("something is live in the end");
  fprintf(stderr, "lock_order: %zu calls, %zu of them by another thread than the one before, %zu lines\n", calls, switches, command);
}

/* ---- domains */

#define REAL(result, name, ...) result __real_##name(__VA_ARGS__); result __wrap_##name(__VA_ARGS__)

REAL(uint32_t, iox2ps_domain_create, iox2ps_domain_t *domain, const iox2ps_config_t *config) {
  put(&script, "domain %zu %zu %zu %zu %zu %zu %s channels %zu\n", config->max_publishers, config->max_subscribers,
      config->subscriber_max_buffer_size, config->subscriber_max_borrowed_samples, config->history_size,
      config->subscriber_expired_connection_buffer, config->enable_safe_overflow ? "overflow" : "keep", config->number_of_channels);
  return __real_iox2ps_domain_create(domain, config);
}
REAL(uint32_t, iox2ps_domain_config_sized, iox2ps_domain_t *domain, iox2ps_config_t *config, size_t struct_size) {
  uint32_t code;
  CALL(__real_iox2ps_domain_config_sized(domain, config, struct_size));
  return code;
}
REAL(uint32_t, iox2ps_publisher_is_blocked, iox2ps_domain_t *domain, const iox2ps_publisher_t *it, uint32_t *is) {
  uint32_t code;
  CALL(__real_iox2ps_publisher_is_blocked(domain, it, is));
  return code;
}
REAL(uint32_t, iox2ps_sample_header, iox2ps_domain_t *domain, const iox2ps_sample_t *it, iox2ps_header_t *header) {
  uint32_t code;
  CALL(__real_iox2ps_sample_header(domain, it, header));
  return code;
}

/* ---- ports */

REAL(uint32_t, iox2ps_publisher_create_with, iox2ps_domain_t *domain, const iox2ps_publisher_options_t *options, iox2ps_publisher_t *out) {
  uint32_t code;
  CALL(__real_iox2ps_publisher_create_with(domain, options, out));
  put(&script, "pub %zu %s\n", options->max_loaned_samples, options->backpressure_strategy == IOX2PS_DISCARD_DATA ? "discard" : "retry");
  if (code) reply_error(code);
  else { reply("ok"); add(PUBLISHER, 0, out->id.low, NULL); }
  return code;
}
REAL(uint32_t, iox2ps_subscriber_create_with, iox2ps_domain_t *domain, const iox2ps_subscriber_options_t *options, iox2ps_subscriber_t *out) {
  uint32_t code;
  CALL(__real_iox2ps_subscriber_create_with(domain, options, out));
  put(&script, "sub %zu\n", options->buffer_size);
  if (code) reply_error(code);
  else { reply("ok"); add(SUBSCRIBER, 0, out->id.low, NULL); }
  return code;
}
static void ended(enum kind kind, const char *word, thing_t *thing, uint32_t code) {
  line(word, thing->command);
  if (code == IOX2PS_PUBLISHER_IS_BLOCKED) { reply("skipped"); return; }
  if (code) reply_error(code);
  else { reply("ok"); spend(kind, thing); }
}
REAL(uint32_t, iox2ps_publisher_close, iox2ps_domain_t *domain, const iox2ps_publisher_t *it) {
  uint32_t code;
  thing_t *thing = find(PUBLISHER, 0, it->id.low);
  CALL(__real_iox2ps_publisher_close(domain, it));
  ended(PUBLISHER, "close", thing, code);
  return code;
}
REAL(uint32_t, iox2ps_subscriber_close, iox2ps_domain_t *domain, const iox2ps_subscriber_t *it) {
  uint32_t code;
  thing_t *thing = find(SUBSCRIBER, 0, it->id.low);
  CALL(__real_iox2ps_subscriber_close(domain, it));
  ended(SUBSCRIBER, "close", thing, code);
  return code;
}
static void updated(size_t of, uint32_t code) {
  line("update", of);
  if (code == IOX2PS_PUBLISHER_IS_BLOCKED) reply("skipped");
  else if (code) reply_error(code);
  else reply("ok");
}
REAL(uint32_t, iox2ps_publisher_update_connections, iox2ps_domain_t *domain, const iox2ps_publisher_t *it) {
  uint32_t code;
  CALL(__real_iox2ps_publisher_update_connections(domain, it));
  updated(find(PUBLISHER, 0, it->id.low)->command, code);
  return code;
}
REAL(uint32_t, iox2ps_subscriber_update_connections, iox2ps_domain_t *domain, const iox2ps_subscriber_t *it) {
  uint32_t code;
  CALL(__real_iox2ps_subscriber_update_connections(domain, it));
  updated(find(SUBSCRIBER, 0, it->id.low)->command, code);
  return code;
}
REAL(uint32_t, iox2ps_subscriber_has_samples, iox2ps_domain_t *domain, const iox2ps_subscriber_t *it, uint32_t *waits) {
  uint32_t code;
  CALL(__real_iox2ps_subscriber_has_samples(domain, it, waits));
  line("has", find(SUBSCRIBER, 0, it->id.low)->command);
  if (code) reply_error(code);
  else reply(*waits ? "true" : "false");
  return code;
}

/* ---- loans and sends */

REAL(uint32_t, iox2ps_publisher_loan_uninit, iox2ps_domain_t *domain, const iox2ps_publisher_t *it, size_t len, iox2ps_loan_t *loan, void **payload) {
  uint32_t code;
  size_t of = find(PUBLISHER, 0, it->id.low)->command;
  if (len != BYTES) fail("a message has another length");
  CALL(__real_iox2ps_publisher_loan_uninit(domain, it, len, loan, payload));
  line("loan", of);
  if (code == IOX2PS_PUBLISHER_IS_BLOCKED) { reply("skipped"); return code; }
  if (code) { reply_error(code); return code; }
  memset(*payload, 0, BYTES);
  reply("ok");
  add(LOAN, 0, loan->number.low, *payload);
  return code;
}
/* What a send returned, which began as the loan or the blocked send `of`. */
static void sent(uint32_t code, uint64_t number, size_t receivers) {
  if (code == IOX2PS_OK) reply_number(receivers);
  else if (code == IOX2PS_BLOCKED) { reply("blocked"); add(BLOCKED, 0, number, NULL); }
  else reply_error(code);
}
/* A loan that is sent, whose write comes before. */
static thing_t *written(const iox2ps_loan_t *it) {
  thing_t *loan = find(LOAN, 0, it->number.low);
  if (!loan->is_written) {
    put(&script, "write %zu %" PRIu64 "\n", loan->command, number_at(loan->bytes));
    reply("ok");
    loan->is_written = 1;
  }
  return loan;
}
/* What its send returned, which may have left it as it was. */
static void sent_loan(uint32_t code, thing_t *loan, uint64_t number, size_t receivers) {
  if (code == IOX2PS_PUBLISHER_IS_BLOCKED || code == IOX2PS_NO_SUCH_CHANNEL) { reply("skipped"); return; }
  spend(LOAN, loan);
  sent(code, number, receivers);
}
REAL(uint32_t, iox2ps_loan_send_counted, iox2ps_domain_t *domain, const iox2ps_loan_t *it, size_t *receivers, iox2ps_blocked_t *blocked) {
  uint32_t code;
  thing_t *loan = written(it);
  CALL(__real_iox2ps_loan_send_counted(domain, it, receivers, blocked));
  line("send", loan->command);
  sent_loan(code, loan, it->number.low, *receivers);
  return code;
}
REAL(uint32_t, iox2ps_loan_deliver_offset_to_connection_counted, iox2ps_domain_t *domain, const iox2ps_loan_t *it, size_t channel, size_t connection, size_t *receivers, iox2ps_blocked_t *blocked) {
  uint32_t code;
  thing_t *loan = written(it);
  CALL(__real_iox2ps_loan_deliver_offset_to_connection_counted(domain, it, channel, connection, receivers, blocked));
  put(&script, "deliver %zu %zu %zu\n", loan->command, channel, connection);
  sent_loan(code, loan, it->number.low, *receivers);
  return code;
}
REAL(uint32_t, iox2ps_publisher_send_copy_counted, iox2ps_domain_t *domain, const iox2ps_publisher_t *it, const void *bytes, size_t len, size_t *receivers, iox2ps_blocked_t *blocked) {
  uint32_t code;
  size_t of = find(PUBLISHER, 0, it->id.low)->command;
  if (len != BYTES) fail("a message has another length");
  CALL(__real_iox2ps_publisher_send_copy_counted(domain, it, bytes, len, receivers, blocked));
  put(&script, "copy %zu %" PRIu64 "\n", of, number_at(bytes));
  if (code == IOX2PS_PUBLISHER_IS_BLOCKED) reply("skipped");
  else if (code >= IOX2PS_LOAN_ERROR_OUT_OF_MEMORY && code <= IOX2PS_LOAN_ERROR_INTERNAL_FAILURE) {
    command++;
    put(&replies, "err SendError::LoanError(%s)\n", iox2ps_error_text(code) + strlen("LoanError::"));
  } else sent(code, code == IOX2PS_BLOCKED ? blocked->number.low : 0, *receivers);
  return code;
}
REAL(uint32_t, iox2ps_loan_discard, iox2ps_domain_t *domain, const iox2ps_loan_t *it) {
  uint32_t code;
  thing_t *loan = find(LOAN, 0, it->number.low);
  CALL(__real_iox2ps_loan_discard(domain, it));
  ended(LOAN, "discard", loan, code);
  return code;
}
static void went_on(const char *word, thing_t *thing, uint32_t code, size_t receivers) {
  line(word, thing->command);
  if (code == IOX2PS_BLOCKED) { reply("blocked"); return; }
  spend(BLOCKED, thing);
  sent(code, 0, receivers);
}
REAL(uint32_t, iox2ps_blocked_retry_counted, iox2ps_domain_t *domain, const iox2ps_blocked_t *it, uint64_t elapsed, size_t *receivers) {
  uint32_t code;
  thing_t *thing = find(BLOCKED, 0, it->number.low);
  CALL(__real_iox2ps_blocked_retry_counted(domain, it, elapsed, receivers));
  went_on("retry", thing, code, *receivers);
  return code;
}
REAL(uint32_t, iox2ps_blocked_give_up_counted, iox2ps_domain_t *domain, const iox2ps_blocked_t *it, size_t *receivers) {
  uint32_t code;
  thing_t *thing = find(BLOCKED, 0, it->number.low);
  CALL(__real_iox2ps_blocked_give_up_counted(domain, it, receivers));
  went_on("giveup", thing, code, *receivers);
  return code;
}

/* ---- channels */

static void at_channel(uint32_t code, const char *words) { reply(code == IOX2PS_NO_SUCH_CHANNEL ? "skipped" : words); }
static void answered(uint32_t code, uint32_t is_so) { at_channel(code, code == IOX2PS_OK && is_so ? "true" : "false"); }

/* The line of a subscriber's call, and of one of a publisher at a connection. */
static void of_subscriber(const char *word, const iox2ps_subscriber_t *it, size_t channel, uint64_t state) {
  put(&script, "%s %zu %zu %" PRIu64 "\n", word, find(SUBSCRIBER, 0, it->id.low)->command, channel, state);
}
static void of_publisher(const char *word, const iox2ps_publisher_t *it, size_t channel, size_t connection, uint64_t state) {
  put(&script, "%s %zu %zu %zu %" PRIu64 "\n", word, find(PUBLISHER, 0, it->id.low)->command, channel, connection, state);
}
REAL(uint32_t, iox2ps_subscriber_set_channel_state, iox2ps_domain_t *domain, const iox2ps_subscriber_t *it, size_t channel, uint64_t state, uint32_t *were_closed) {
  uint32_t code;
  CALL(__real_iox2ps_subscriber_set_channel_state(domain, it, channel, state, were_closed));
  of_subscriber("open", it, channel, state);
  answered(code, *were_closed);
  return code;
}
REAL(uint32_t, iox2ps_subscriber_at_least_one_channel_has_state, iox2ps_domain_t *domain, const iox2ps_subscriber_t *it, size_t channel, uint64_t state, uint32_t *has) {
  uint32_t code;
  CALL(__real_iox2ps_subscriber_at_least_one_channel_has_state(domain, it, channel, state, has));
  of_subscriber("state", it, channel, state);
  answered(code, *has);
  return code;
}
REAL(uint32_t, iox2ps_subscriber_close_channel, iox2ps_domain_t *domain, const iox2ps_subscriber_t *it, size_t channel, uint64_t expected) {
  uint32_t code;
  CALL(__real_iox2ps_subscriber_close_channel(domain, it, channel, expected));
  of_subscriber("shut", it, channel, expected);
  at_channel(code, "ok");
  return code;
}
REAL(uint32_t, iox2ps_subscriber_set_disconnect_hint, iox2ps_domain_t *domain, const iox2ps_subscriber_t *it, size_t channel, uint64_t expected) {
  uint32_t code;
  CALL(__real_iox2ps_subscriber_set_disconnect_hint(domain, it, channel, expected));
  of_subscriber("hint", it, channel, expected);
  at_channel(code, "ok");
  return code;
}
REAL(uint32_t, iox2ps_publisher_close_channel, iox2ps_domain_t *domain, const iox2ps_publisher_t *it, size_t channel, size_t connection, uint64_t expected) {
  uint32_t code;
  CALL(__real_iox2ps_publisher_close_channel(domain, it, channel, connection, expected));
  of_publisher("shut", it, channel, connection, expected);
  at_channel(code, "ok");
  return code;
}
REAL(uint32_t, iox2ps_publisher_has_channel_state, iox2ps_domain_t *domain, const iox2ps_publisher_t *it, size_t channel, size_t connection, uint64_t state, uint32_t *has) {
  uint32_t code;
  CALL(__real_iox2ps_publisher_has_channel_state(domain, it, channel, connection, state, has));
  of_publisher("state", it, channel, connection, state);
  answered(code, *has);
  return code;
}
REAL(uint32_t, iox2ps_publisher_has_disconnect_hint, iox2ps_domain_t *domain, const iox2ps_publisher_t *it, size_t channel, size_t connection, uint64_t state, uint32_t *has) {
  uint32_t code;
  CALL(__real_iox2ps_publisher_has_disconnect_hint(domain, it, channel, connection, state, has));
  of_publisher("hinted", it, channel, connection, state);
  answered(code, *has);
  return code;
}
REAL(uint32_t, iox2ps_publisher_get_connection_id_of, iox2ps_domain_t *domain, const iox2ps_publisher_t *it, const iox2ps_wide_t *subscriber, size_t *connection) {
  uint32_t code;
  CALL(__real_iox2ps_publisher_get_connection_id_of(domain, it, subscriber, connection));
  put(&script, "connection %zu %" PRIu64 "\n", find(PUBLISHER, 0, it->id.low)->command, subscriber->low);
  if (code == IOX2PS_NO_CONNECTION) reply("none");
  else reply_number(*connection);
  return code;
}

/* ---- receives and samples */

REAL(uint32_t, iox2ps_subscriber_receive, iox2ps_domain_t *domain, const iox2ps_subscriber_t *it, iox2ps_sample_t *sample, const void **payload, size_t *len) {
  uint32_t code;
  CALL(__real_iox2ps_subscriber_receive(domain, it, sample, payload, len));
  line("recv", find(SUBSCRIBER, 0, it->id.low)->command);
  if (code == IOX2PS_NO_SAMPLE) { reply("none"); return code; }
  if (code) { reply_error(code); return code; }
  if (*len != BYTES) fail("a message has another length");
  reply("sample");
  add(SAMPLE, sample->subscriber.low, sample->number.low, (void *)*payload);
  line("read", command);
  reply_number(number_at(*payload));
  return code;
}
REAL(uint32_t, iox2ps_subscriber_receive_copy, iox2ps_domain_t *domain, const iox2ps_subscriber_t *it, void *bytes, size_t room, size_t *len, iox2ps_sample_t *sample) {
  uint32_t code;
  reads_a_message = 1;
  CALL(__real_iox2ps_subscriber_receive_copy(domain, it, bytes, room, len, sample));
  reads_a_message = 0;
  line("recv", find(SUBSCRIBER, 0, it->id.low)->command);
  if (code == IOX2PS_NO_SAMPLE) { reply("none"); return code; }
  if (code) { reply_error(code); return code; }
  reply("sample");
  size_t made = command;
  line("read", made);
  reply_number(number_at(bytes));
  line("release", made);
  reply("ok");
  return code;
}
REAL(uint32_t, iox2ps_sample_release, iox2ps_domain_t *domain, const iox2ps_sample_t *it) {
  uint32_t code;
  thing_t *sample = find(SAMPLE, it->subscriber.low, it->number.low);
  line("read", sample->command);
  reply_number(number_at(sample->bytes));
  CALL(__real_iox2ps_sample_release(domain, it));
  ended(SAMPLE, "release", sample, code);
  return code;
}
