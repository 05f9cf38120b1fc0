// SPDX-License-Identifier: Apache-2.0 OR MIT
/* What a recorded domain keeps of its calls, and what they take. A call is kept whole or not at all, whatever room there is; a loan's
 * bytes are written once in the recording, also if a send of it is refused before; and no call takes memory that it doesn't take in a
 * domain without a recording. */
#include "allocations.h"
#include "checks.h"

/* A domain, and what was made in it last. */
typedef struct run_t {
  iox2ps_domain_t domain;
  iox2ps_publisher_t publisher;
  iox2ps_subscriber_t first, second;
  iox2ps_loan_t loan, other;
  iox2ps_blocked_t blocked;
  iox2ps_sample_t sample;
  void *written;
} run_t;

/* ---- the recording */

static char text[1 << 16], whole[1 << 16];

/* Reads the recording into `text`, and says how many commands it has. */
static size_t read_recording(iox2ps_domain_t *domain, uint64_t *missed) {
  size_t len;
  IS(iox2ps_domain_recording(domain, text, sizeof text - 1, &len, missed), IOX2PS_OK);
  text[len] = 0;
  return strtoull(strstr(text, "\nend ") + 5, NULL, 10);
}

/* ---- calls of each kind, of one command and of several */

static void make_publisher(run_t *run) { IS(iox2ps_publisher_create(&run->domain, &run->publisher), IOX2PS_OK); }

static void make_first(run_t *run) { IS(iox2ps_subscriber_create(&run->domain, &run->first), IOX2PS_OK); }

static void make_second(run_t *run) { IS(iox2ps_subscriber_create(&run->domain, &run->second), IOX2PS_OK); }

static void make_third(run_t *run) {
  iox2ps_subscriber_t third;
  IS(iox2ps_subscriber_create(&run->domain, &third), IOX2PS_SUBSCRIBER_CREATE_ERROR_EXCEEDS_MAX_SUPPORTED_SUBSCRIBERS);
}

static void send_copy_as(run_t *run, const char *bytes, size_t len, iox2ps_status_t code) {
  size_t receivers;
  IS(iox2ps_publisher_send_copy(&run->domain, &run->publisher, bytes, len, &receivers, &run->blocked), code);
}

static void copy_first(run_t *run) { send_copy_as(run, "aabaaba", 7, IOX2PS_OK); }

static void copy_blocked(run_t *run) { send_copy_as(run, "blocked", 8, IOX2PS_BLOCKED); }

static void copy_refused(run_t *run) { send_copy_as(run, "refused", 8, IOX2PS_PUBLISHER_IS_BLOCKED); }

static void copy_too_long(run_t *run) { send_copy_as(run, "0123456789abcdefg", 17, IOX2PS_LOAN_ERROR_EXCEEDS_MAX_LOAN_SIZE); }

static void lend(run_t *run) {
  IS(iox2ps_publisher_loan(&run->domain, &run->publisher, 8, &run->loan, &run->written), IOX2PS_OK);
  memcpy(run->written, "written", 8);
}

static void lend_other(run_t *run) {
  IS(iox2ps_publisher_loan_uninit(&run->domain, &run->publisher, 16, &run->other, &run->written), IOX2PS_OK);
  memset(run->written, 7, 16);
}

static void send_as(run_t *run, iox2ps_loan_t *loan, iox2ps_status_t code) {
  size_t receivers;
  IS(iox2ps_loan_send(&run->domain, loan, &receivers, &run->blocked), code);
}

static void send(run_t *run) { send_as(run, &run->loan, IOX2PS_OK); }

static void send_again(run_t *run) { send_as(run, &run->loan, IOX2PS_NOT_LIVE); }

static void send_refused(run_t *run) { send_as(run, &run->other, IOX2PS_PUBLISHER_IS_BLOCKED); }

static void send_blocked(run_t *run) { send_as(run, &run->other, IOX2PS_BLOCKED); }

static void discard(run_t *run) { IS(iox2ps_loan_discard(&run->domain, &run->loan), IOX2PS_OK); }

static void retry_as(run_t *run, iox2ps_status_t code) {
  size_t receivers;
  IS(iox2ps_blocked_retry(&run->domain, &run->blocked, 1500000000, &receivers), code);
}

static void retry_blocked(run_t *run) { retry_as(run, IOX2PS_BLOCKED); }

static void retry(run_t *run) { retry_as(run, IOX2PS_OK); }

static void give_up(run_t *run) {
  size_t receivers;
  IS(iox2ps_blocked_give_up(&run->domain, &run->blocked, &receivers), IOX2PS_OK);
}

static void receive(run_t *run) {
  const void *payload;
  size_t len;
  IS(iox2ps_subscriber_receive(&run->domain, &run->first, &run->sample, &payload, &len), IOX2PS_OK);
  CHECK(len == 7 && !memcmp(payload, "aabaaba", 7));
}

static void release(run_t *run) { IS(iox2ps_sample_release(&run->domain, &run->sample), IOX2PS_OK); }

static void receive_copy_as(run_t *run, iox2ps_subscriber_t *subscriber, size_t room, iox2ps_status_t code) {
  char bytes[16];
  size_t len;
  IS(iox2ps_subscriber_receive_copy(&run->domain, subscriber, bytes, room, &len, &run->sample), code);
}

static void receive_copy(run_t *run) { receive_copy_as(run, &run->first, 16, IOX2PS_OK); }

static void receive_nothing(run_t *run) { receive_copy_as(run, &run->first, 16, IOX2PS_NO_SAMPLE); }

static void receive_without_room(run_t *run) { receive_copy_as(run, &run->second, 3, IOX2PS_TOO_SMALL); }

static void ask(run_t *run) {
  uint32_t waits;
  IS(iox2ps_subscriber_has_samples(&run->domain, &run->second, &waits), IOX2PS_OK);
  CHECK(waits == 1);
}

static void shut_channel(run_t *run) { IS(iox2ps_subscriber_close_channel(&run->domain, &run->first, 0, 0), IOX2PS_OK); }

static void open_channel(run_t *run) {
  uint32_t were_closed;
  IS(iox2ps_subscriber_set_channel_state(&run->domain, &run->first, 0, 0, &were_closed), IOX2PS_OK);
  CHECK(were_closed == 1);
}

static void hint(run_t *run) { IS(iox2ps_subscriber_set_disconnect_hint(&run->domain, &run->first, 0, 0), IOX2PS_OK); }

static void shut_nothing(run_t *run) { IS(iox2ps_publisher_close_channel(&run->domain, &run->publisher, 0, 9, 0), IOX2PS_OK); }

static void shut_no_channel(run_t *run) { IS(iox2ps_publisher_close_channel(&run->domain, &run->publisher, 1, 0, 0), IOX2PS_NO_SUCH_CHANNEL); }

static void deliver_as(run_t *run, size_t channel, iox2ps_status_t code) {
  IS(iox2ps_loan_deliver_offset_to_connection(&run->domain, &run->loan, channel, 9, NULL, &run->blocked), code);
}

static void deliver_elsewhere(run_t *run) { deliver_as(run, 1, IOX2PS_NO_SUCH_CHANNEL); }

static void deliver(run_t *run) { deliver_as(run, 0, IOX2PS_OK); }

static void deliver_again(run_t *run) { deliver_as(run, 0, IOX2PS_NOT_LIVE); }

static void ask_subscribers(run_t *run) {
  uint32_t answer;
  IS(iox2ps_subscriber_at_least_one_channel_has_state(&run->domain, &run->second, 0, 0, &answer), IOX2PS_OK);
}

static void ask_of_nothing(run_t *run) {
  uint32_t answer;
  IS(iox2ps_publisher_has_channel_state(&run->domain, &run->publisher, 0, 9, 0, &answer), IOX2PS_OK);
}

static void ask_of_no_channel(run_t *run) {
  uint32_t answer;
  IS(iox2ps_publisher_has_disconnect_hint(&run->domain, &run->publisher, 1, 0, 0, &answer), IOX2PS_NO_SUCH_CHANNEL);
}

static void ask_for_nobody(run_t *run) {
  const iox2ps_wide_t nobody = {.low = 99};
  size_t place;
  IS(iox2ps_publisher_get_connection_id_of(&run->domain, &run->publisher, &nobody, &place), IOX2PS_NO_CONNECTION);
}

static void update(run_t *run) { IS(iox2ps_publisher_update_connections(&run->domain, &run->publisher), IOX2PS_OK); }

static void close_first(run_t *run) { IS(iox2ps_subscriber_close(&run->domain, &run->first), IOX2PS_OK); }

static void close_again(run_t *run) { IS(iox2ps_subscriber_close(&run->domain, &run->first), IOX2PS_NOT_LIVE); }

static void (*const calls[])(run_t *) = {
    make_publisher, make_first, make_second, make_third, copy_first, lend, send, send_again, copy_too_long, lend, lend_other, copy_blocked,
    copy_refused, send_refused, retry_blocked, receive, release, receive_copy, receive_nothing, receive_without_room, ask, retry, release,
    send_blocked, give_up, discard, shut_channel, open_channel, hint, shut_nothing, shut_no_channel, lend, deliver_elsewhere, deliver,
    deliver_again, update, close_first, close_again, ask_subscribers, ask_of_nothing, ask_of_no_channel, ask_for_nobody,
};

/* Of which the last only ask, which isn't recorded where no bytes are. */
enum { CALLS = sizeof calls / sizeof calls[0], QUESTIONS = 4 };

static size_t recorded_calls(size_t bytes) { return bytes == 0 ? CALLS - QUESTIONS : CALLS; }

static iox2ps_config_t config_of(size_t loans, size_t buffer) {
  iox2ps_config_t config;
  iox2ps_config_defaults(&config, 7, 16, 1);
  config.max_publishers = 1;
  config.max_subscribers = 2;
  config.publisher_max_loaned_samples = loans;
  config.subscriber_max_buffer_size = buffer;
  config.subscriber_max_borrowed_samples = buffer;
  config.enable_safe_overflow = 0;
  return config;
}

/* ---- whole calls */

/* Whether the recording in `text` is the beginning of the whole one: the service, the settings, and the commands that it has. */
static int begins_the_whole(void) { return !strncmp(text, whole, (size_t)(strstr(text, "\nend ") - text) + 1); }

/* Makes all calls in a domain with that much room. Where `ends` isn't given, tells how many commands there are behind each call. Where it
 * is, the recording has behind each call the calls for which there was room, and counts the commands of the others as missed. */
static void run_calls(size_t room, size_t bytes, size_t *told, const size_t *ends) {
  run_t run = {.domain = IOX2PS_DOMAIN_INIT};
  iox2ps_config_t config = config_of(3, 2);
  size_t kept = 0;
  IS(iox2ps_domain_create_recorded(&run.domain, &config, room, bytes), IOX2PS_OK);
  for (size_t i = 0; i < recorded_calls(bytes); i++) {
    uint64_t missed;
    calls[i](&run);
    size_t count = read_recording(&run.domain, &missed);
    if (ends) {
      if (ends[i] <= room) kept = ends[i];
      CHECK(count == kept && missed == ends[i] - kept && begins_the_whole());
    } else {
      CHECK(missed == 0 && count > kept);
      kept = told[i] = count;
    }
  }
  IS(iox2ps_domain_destroy(&run.domain), IOX2PS_OK);
}

/* In as much room as all calls need, and in each that is less. */
static void a_call_is_kept_whole_or_not_at_all(size_t bytes) {
  size_t ends[CALLS];
  run_calls(1000, bytes, ends, NULL);
  memcpy(whole, text, sizeof text);
  for (size_t room = 0; room <= ends[recorded_calls(bytes) - 1]; room++) run_calls(room, bytes, NULL, ends);
}

/* ---- a send that was refused */

/* The loan isn't sent while a send waits, so that it is written in the recording when it is sent: a value for all, and what differs. */
static void a_refused_send_writes_nothing(void) {
  run_t run = {.domain = IOX2PS_DOMAIN_INIT};
  iox2ps_config_t config = config_of(3, 1);
  uint64_t missed;
  IS(iox2ps_domain_create_recorded(&run.domain, &config, 100, 16), IOX2PS_OK);
  make_publisher(&run);
  make_first(&run);
  lend_other(&run);
  copy_first(&run);
  copy_blocked(&run);
  for (char value = 1; value < 4; value++) {
    memset((char *)run.written + value, value, 2);
    send_refused(&run);
  }
  receive(&run);
  release(&run);
  retry(&run);
  receive_copy(&run);
  send_as(&run, &run.other, IOX2PS_OK);
  receive_copy(&run);
  read_recording(&run.domain, &missed);
  CHECK(missed == 0 && strstr(text, "\nsend 3 = skipped\nsend 3 = skipped\nsend 3 = skipped\nrecv 2 = sample 1\n") != NULL);
  CHECK(strstr(text, "\nwrite 3 7 = done\nset 3 1 1 = done\nset 3 2 2 = done\nset 3 3 3 = done\nset 3 4 3 = done\nsend 3 = delivered 1\n")
        != NULL);
  IS(iox2ps_domain_destroy(&run.domain), IOX2PS_OK);
}

/* ---- channels */

typedef struct channels_t {
  iox2ps_domain_t domain;
  iox2ps_publisher_t publisher;
  iox2ps_subscriber_t other, subscriber; /* at the places 0 and 1 */
} channels_t;

static void change_channels(channels_t *of) {
  uint32_t answer;
  IS(iox2ps_subscriber_close_channel(&of->domain, &of->subscriber, 4, 0), IOX2PS_NO_SUCH_CHANNEL);
  IS(iox2ps_subscriber_close_channel(&of->domain, &of->subscriber, 3, 0), IOX2PS_OK);
  IS(iox2ps_subscriber_set_channel_state(&of->domain, &of->subscriber, 3, 7, &answer), IOX2PS_OK);
  IS(iox2ps_subscriber_set_channel_state(&of->domain, &of->subscriber, 3, 8, &answer), IOX2PS_OK);
  IS(iox2ps_subscriber_set_disconnect_hint(&of->domain, &of->subscriber, 3, 7), IOX2PS_OK);
  IS(iox2ps_publisher_has_disconnect_hint(&of->domain, &of->publisher, 3, 1, 7, &answer), IOX2PS_OK);
  IS(iox2ps_publisher_close_channel(&of->domain, &of->publisher, 3, 1, 7), IOX2PS_OK);
}

static const char changes[] = "\nupdate 1 = done\nshut 3 4 0 = skipped\nshut 3 3 0 = done\nopen 3 3 7 = all were closed\n"
                              "open 3 3 8 = not all were closed\nhint 3 3 7 = done\nhinted 1 3 1 7 = true\nshut 1 3 1 7 = done\n";

static void ask_about_channels(channels_t *of) {
  const iox2ps_wide_t nobody = {.low = UINT64_MAX, .high = UINT64_MAX};
  size_t place;
  uint32_t answer;
  IS(iox2ps_subscriber_at_least_one_channel_has_state(&of->domain, &of->subscriber, 2, 0, &answer), IOX2PS_OK);
  IS(iox2ps_subscriber_at_least_one_channel_has_state(&of->domain, &of->subscriber, 4, 0, &answer), IOX2PS_NO_SUCH_CHANNEL);
  IS(iox2ps_publisher_has_channel_state(&of->domain, &of->publisher, 3, 1, 7, &answer), IOX2PS_OK);
  IS(iox2ps_publisher_has_disconnect_hint(&of->domain, &of->publisher, 4, 1, 7, &answer), IOX2PS_NO_SUCH_CHANNEL);
  IS(iox2ps_publisher_get_connection_id_of(&of->domain, &of->publisher, &of->subscriber.id, &place), IOX2PS_OK);
  IS(iox2ps_publisher_get_connection_id_of(&of->domain, &of->publisher, &nobody, &place), IOX2PS_NO_CONNECTION);
}

static const char questions[] = "\nshut 1 3 1 7 = done\nstate 3 2 0 = true\nstate 3 4 0 = skipped\nstate 1 3 1 7 = false\nhinted 1 4 1 7 = skipped\n"
                                "connection 1 3 = place 1\nconnection 1 340282366920938463463374607431768211455 = no place\nslice 1 1 = loaned\n";

static void send_into_channels(channels_t *of) {
  iox2ps_loan_t loan;
  iox2ps_blocked_t blocked;
  void *payload;
  for (uint8_t i = 0; i < 2; i++) {
    IS(iox2ps_publisher_loan(&of->domain, &of->publisher, 1, &loan, &payload), IOX2PS_OK);
    *(uint8_t *)payload = (uint8_t)(9 + i);
    IS(iox2ps_loan_deliver_offset_to_connection(&of->domain, &loan, 4, 1, NULL, &blocked), IOX2PS_NO_SUCH_CHANNEL);
    IS(iox2ps_loan_deliver_offset_to_connection(&of->domain, &loan, 2, 1, NULL, &blocked), IOX2PS_OK);
  }
}

static const char sends[] = "\nslice 1 1 = loaned\ndeliver 18 4 1 = skipped\nwrite 18 9 = done\ndeliver 18 2 1 = delivered 1\n"
                            "slice 1 1 = loaned\ndeliver 22 4 1 = skipped\nwrite 22 10 = done\ndeliver 22 2 1 = delivered 1\n";

/* Reads the recording of all these calls, of which the last two name a publisher that is closed. */
static void record_channels(size_t bytes) {
  channels_t of = {.domain = IOX2PS_DOMAIN_INIT};
  iox2ps_config_t config;
  uint64_t missed;
  uint32_t answer;
  iox2ps_config_defaults(&config, 7, 1, 1);
  config.number_of_channels = 4;
  IS(iox2ps_domain_create_recorded(&of.domain, &config, 50, bytes), IOX2PS_OK);
  IS(iox2ps_publisher_create(&of.domain, &of.publisher), IOX2PS_OK);
  IS(iox2ps_subscriber_create(&of.domain, &of.other), IOX2PS_OK);
  IS(iox2ps_subscriber_create(&of.domain, &of.subscriber), IOX2PS_OK);
  IS(iox2ps_publisher_update_connections(&of.domain, &of.publisher), IOX2PS_OK);
  change_channels(&of);
  ask_about_channels(&of);
  send_into_channels(&of);
  IS(iox2ps_publisher_close(&of.domain, &of.publisher), IOX2PS_OK);
  IS(iox2ps_publisher_close_channel(&of.domain, &of.publisher, 3, 1, 7), IOX2PS_NOT_LIVE);
  IS(iox2ps_publisher_has_channel_state(&of.domain, &of.publisher, 3, 1, 7, &answer), IOX2PS_NOT_LIVE);
  read_recording(&of.domain, &missed);
  CHECK(missed == 0);
  IS(iox2ps_domain_destroy(&of.domain), IOX2PS_OK);
}

/* As any other call, also where it is refused for the channel. */
static void calls_on_channels_are_recorded(void) {
  record_channels(1);
  CHECK(strstr(text, changes) != NULL && strstr(text, questions) != NULL && strstr(text, sends) != NULL);
  CHECK(strstr(text, "\nclose 1 = done\nshut 0 3 1 7 = skipped\nstate 0 3 1 7 = skipped\nend ") != NULL);
}

/* What asks isn't recorded where no bytes are. */
static void a_recording_of_no_bytes_has_changes_alone(void) {
  record_channels(0);
  CHECK(strstr(text, "\nhint 3 3 7 = done\nshut 1 3 1 7 = done\nslice 1 1 = loaned\n") != NULL);
  CHECK(strstr(text, "\nclose 1 = done\nshut 0 3 1 7 = skipped\nend ") != NULL);
  CHECK(strstr(text, "\nstate ") == NULL && strstr(text, "\nhinted ") == NULL && strstr(text, "\nconnection ") == NULL);
}

/* ---- memory */

/* Two domains with the same settings, the second of which is recorded. */
static run_t runs[2];

/* Makes a call on each of both: it takes as much memory where it is recorded. */
#define BOTH(call)                                          \
  do {                                                      \
    size_t taken_[2];                                       \
    for (int i_ = 0; i_ < 2; i_++) {                        \
      run_t *run = &runs[i_];                               \
      size_t before_ = allocations;                         \
      call;                                                 \
      taken_[i_] = allocations - before_;                   \
    }                                                       \
    CHECK(taken_[0] == taken_[1]);                          \
  } while (0)

static iox2ps_loan_t loans[2][100];
static iox2ps_sample_t samples[2][100];

static void lend_at(run_t *run, size_t place) {
  size_t before = allocations;
  IS(iox2ps_publisher_loan(&run->domain, &run->publisher, place % 17, &loans[run - runs][place], &run->written), IOX2PS_OK);
  CHECK(allocations == before);
}

static void send_at(run_t *run, size_t place) { send_as(run, &loans[run - runs][place], IOX2PS_OK); }

static void receive_at(run_t *run, size_t place) {
  const void *payload;
  size_t len;
  IS(iox2ps_subscriber_receive(&run->domain, &run->first, &samples[run - runs][place], &payload, &len), IOX2PS_OK);
  CHECK(len == place % 17);
}

static void release_at(run_t *run, size_t place) {
  IS(iox2ps_sample_release(&run->domain, &samples[run - runs][place]), IOX2PS_OK);
}

/* All loans of a publisher are out at a time, and so are as many samples. */
static void all_are_out(size_t count) {
  for (size_t i = 0; i < count; i++) BOTH(lend_at(run, i));
  for (size_t i = 0; i < count; i++) BOTH(send_at(run, i));
  for (size_t i = 0; i < count; i++) BOTH(receive_at(run, i));
  for (size_t i = 0; i < count; i++) BOTH(release_at(run, i));
}

static void a_recorded_call_takes_no_more_memory(size_t count, size_t bytes) {
  iox2ps_config_t config = config_of(count, count);
  memset(runs, 0, sizeof runs);
  IS(iox2ps_domain_create(&runs[0].domain, &config), IOX2PS_OK);
  IS(iox2ps_domain_create_recorded(&runs[1].domain, &config, 50 * count, bytes), IOX2PS_OK);
  BOTH(make_publisher(run));
  BOTH(make_first(run));
  all_are_out(count);
  BOTH(make_second(run));
  BOTH(make_third(run));
  BOTH(copy_first(run));
  BOTH(receive(run));
  BOTH(release(run));
  BOTH(ask(run));
  BOTH(update(run));
  BOTH(shut_channel(run));
  BOTH(open_channel(run));
  BOTH(hint(run));
  BOTH(shut_nothing(run));
  BOTH(ask_subscribers(run));
  BOTH(ask_of_nothing(run));
  BOTH(ask_of_no_channel(run));
  BOTH(ask_for_nobody(run));
  BOTH(lend(run));
  BOTH(deliver(run));
  BOTH(close_first(run));
  BOTH(close_again(run));
  uint64_t missed;
  CHECK(read_recording(&runs[1].domain, &missed) > 4 * count && missed == 0);
  for (int i = 0; i < 2; i++) IS(iox2ps_domain_destroy(&runs[i].domain), IOX2PS_OK);
}

int main(void) {
  a_call_is_kept_whole_or_not_at_all(0);
  a_call_is_kept_whole_or_not_at_all(3);
  a_call_is_kept_whole_or_not_at_all(16);
  a_refused_send_writes_nothing();
  calls_on_channels_are_recorded();
  a_recording_of_no_bytes_has_changes_alone();
  a_recorded_call_takes_no_more_memory(40, 0);
  a_recorded_call_takes_no_more_memory(67, 5);
  return checked();
}
