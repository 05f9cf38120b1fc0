// SPDX-License-Identifier: Apache-2.0 OR MIT
#define _GNU_SOURCE
/* Three publishers and three subscribers come, pass messages of all lengths without losing any, and leave, again and again, while others
 * of their domain are killed and they themselves are stopped for a while. Each message is accounted for: each subscriber has received all
 * of each publisher, in order and whole.
 *
 *   soak [SECONDS]     2 by default; says the counts every ten seconds */
#include "check_domains.h"
#include "children.h"
#include "iox2_pubsub_processes.h"
#include <stdbool.h>
#include <stdint.h>
#include <stdio.h>
#include <stdlib.h>
#include <string.h>
#include <sys/mman.h>
#include <sys/wait.h>
#include <time.h>
#include <unistd.h>

enum { PUBLISHERS = 3, SUBSCRIBERS = 3, MEMBERS = PUBLISHERS + SUBSCRIBERS, VICTIM = PUBLISHERS, WORDS = 512, HEAD = 3, SAY_EVERY = 10 };
/* How long a round lasts at least, and how often someone is killed or stopped in it. */
enum { ROUND_MS = 1000, EVENTS = 8 };

/* Of all processes, for one round. */
typedef struct common_t {
  _Atomic uint64_t ready, over, done; /* subscribers that are there; whether publishers are to end; subscribers that have all */
  _Atomic uint64_t sent[PUBLISHERS], received[SUBSCRIBERS][PUBLISHERS], of_victims;
} common_t;

static char name[64];
static iox2ps_config_t config;
static common_t *common;

static uint64_t below(uint64_t limit) {
  static uint64_t state;
  if (state == 0) state = (uint64_t)getpid();
  state = state * UINT64_C(6364136223846793005) + 1442695040888963407;
  return (state >> 33) % limit;
}

static void pause_for(uint64_t ns) { nanosleep(&(struct timespec){(time_t)(ns / 1000000000), (long)(ns % 1000000000)}, NULL); }

static uint64_t now_ms(void) {
  struct timespec now;
  clock_gettime(CLOCK_MONOTONIC, &now);
  return (uint64_t)now.tv_sec * 1000 + (uint64_t)now.tv_nsec / 1000000;
}

static iox2ps_domain_t opened(void) {
  iox2ps_domain_t domain = IOX2PS_DOMAIN_INIT;
  CHECK(iox2ps_domain_open_or_create(&domain, name, "words", &config, NULL) == IOX2PS_OK);
  return domain;
}

static uint64_t brought(iox2ps_domain_t *domain, uint32_t brings) {
  uint64_t count;
  CHECK(iox2ps_domain_brought(domain, brings, &count) == IOX2PS_OK);
  return count;
}

/* A message says who sent it, its number and whether it is the last one; all its other words are its number. */
static void send_one(iox2ps_domain_t *domain, const iox2ps_publisher_t *publisher, uint64_t who, uint64_t number, bool is_last) {
  iox2ps_loan_t loan;
  iox2ps_blocked_t blocked;
  void *payload;
  size_t receivers, count = HEAD + below(below(4) == 0 ? WORDS - HEAD : 8);
  CHECK(iox2ps_publisher_loan_uninit(domain, publisher, count * sizeof(uint64_t), &loan, &payload) == IOX2PS_OK);
  uint64_t *words = payload, seen = brought(domain, IOX2PS_BRINGS_ROOM);
  words[0] = who, words[1] = number, words[2] = is_last;
  for (size_t i = HEAD; i < count; i++) words[i] = number;
  iox2ps_status_t code = iox2ps_loan_send(domain, &loan, &receivers, &blocked);
  while (code == IOX2PS_BLOCKED) {
    CHECK(iox2ps_domain_wait(domain, IOX2PS_BRINGS_ROOM, seen, UINT64_MAX) == IOX2PS_OK);
    seen = brought(domain, IOX2PS_BRINGS_ROOM);
    code = iox2ps_blocked_retry(domain, &blocked, 0, &receivers);
  }
  CHECK(code == IOX2PS_OK);
}

static void publish(uint64_t who) {
  iox2ps_domain_t domain = opened();
  iox2ps_publisher_t publisher;
  CHECK(iox2ps_publisher_create(&domain, &publisher) == IOX2PS_OK);
  while (common->ready < SUBSCRIBERS) pause_for(100000);
  for (bool is_last = false; !is_last; common->sent[who]++) {
    is_last = common->over;
    send_one(&domain, &publisher, who, common->sent[who] + 1, is_last);
    if (below(100) == 0) pause_for(below(2000000));
  }
  /* What a publisher sent that closes is lost to who hasn't looked for it yet. */
  while (common->done < SUBSCRIBERS) pause_for(100000);
  CHECK(iox2ps_domain_destroy(&domain) == IOX2PS_OK);
}

/* Whether it is a publisher's last one. */
static bool note(uint64_t who, const uint64_t *words, size_t len) {
  static uint64_t of_victims[64]; /* of those that were there lately */
  size_t count = len / sizeof *words;
  CHECK(len % sizeof *words == 0 && count >= HEAD && words[0] <= VICTIM);
  for (size_t i = HEAD; i < count; i++) CHECK(words[i] == words[1]);
  if (words[0] == VICTIM) {
    uint64_t *before = &of_victims[(words[1] >> 32) % 64];
    CHECK(words[1] > *before); /* those that it had not sent yet, or nobody had looked for, are lost */
    *before = words[1], common->of_victims++;
    return false;
  }
  CHECK(words[1] == common->received[who][words[0]] + 1);
  common->received[who][words[0]] = words[1];
  return words[2];
}

static void subscribe(uint64_t who) {
  iox2ps_domain_t domain = opened();
  iox2ps_subscriber_t subscriber;
  iox2ps_sample_t sample;
  const void *payload;
  size_t len;
  CHECK(iox2ps_subscriber_create(&domain, &subscriber) == IOX2PS_OK);
  common->ready++;
  for (int left = PUBLISHERS; left > 0;) {
    uint64_t seen = brought(&domain, IOX2PS_BRINGS_MESSAGE);
    iox2ps_status_t code = iox2ps_subscriber_receive(&domain, &subscriber, &sample, &payload, &len);
    if (code == IOX2PS_NO_SAMPLE) {
      code = iox2ps_domain_wait(&domain, IOX2PS_BRINGS_MESSAGE, seen, UINT64_MAX);
    } else if (code == IOX2PS_OK) {
      left -= note(who, payload, len);
      code = iox2ps_sample_release(&domain, &sample);
    }
    CHECK(code == IOX2PS_OK);
    if (below(200) == 0) pause_for(below(2000000));
  }
  common->done++;
  CHECK(iox2ps_domain_destroy(&domain) == IOX2PS_OK);
}

/* Sends and receives until it is killed, if there is room for it; a buffer of its own that is full holds the others back until then. */
static void be_victim(uint64_t number) {
  iox2ps_domain_t domain = opened();
  iox2ps_publisher_t publisher;
  iox2ps_subscriber_t subscriber;
  iox2ps_sample_t sample;
  const void *payload;
  size_t len;
  if (iox2ps_subscriber_create(&domain, &subscriber) != IOX2PS_OK || iox2ps_publisher_create(&domain, &publisher) != IOX2PS_OK) pause();
  for (uint64_t i = 0; i < UINT32_MAX; i++) {
    if (below(2) == 0) send_one(&domain, &publisher, VICTIM, number << 32 | i, false);
    if (below(3) == 0 && iox2ps_subscriber_receive(&domain, &subscriber, &sample, &payload, &len) == IOX2PS_OK && below(2) == 0)
      CHECK(iox2ps_sample_release(&domain, &sample) == IOX2PS_OK);
    pause_for(below(1000000));
  }
}

static pid_t start(void (*runs)(uint64_t), uint64_t who) {
  pid_t child = fork_child();
  CHECK(child >= 0);
  if (child > 0) return child;
  runs(who);
  _exit(0);
}

static void check_ended_well(pid_t child) {
  int status;
  CHECK(waitpid(child, &status, 0) == child && status == 0);
}

static struct { uint64_t rounds, sent, received, of_victims, kills, stops; } total;

static void say(uint64_t begun) {
  printf("%llu s: %llu rounds, %llu messages sent, %llu received, %llu of %llu processes that were killed; %llu stopped for a while\n",
         (unsigned long long)(now_ms() - begun) / 1000, (unsigned long long)total.rounds, (unsigned long long)total.sent, (unsigned long long)total.received,
         (unsigned long long)total.of_victims, (unsigned long long)total.kills, (unsigned long long)total.stops);
  fflush(stdout);
}

/* Somebody is killed, and a member is stopped meanwhile. */
static void disturb(const pid_t members[MEMBERS]) {
  pid_t victim = start(be_victim, ++total.kills), stopped = members[below(MEMBERS)];
  int status;
  pause_for(below(2 * ROUND_MS * UINT64_C(1000000) / EVENTS));
  CHECK(kill(stopped, SIGSTOP) == 0);
  total.stops++;
  CHECK(kill(victim, SIGKILL) == 0 && waitpid(victim, &status, 0) == victim && was_killed(status));
  pause_for(below(20000000));
  CHECK(kill(stopped, SIGCONT) == 0);
}

static void account(void) {
  for (int who = 0; who < PUBLISHERS; who++) {
    CHECK(common->sent[who] > 0);
    total.sent += common->sent[who];
    for (int reader = 0; reader < SUBSCRIBERS; reader++) {
      CHECK(common->received[reader][who] == common->sent[who]);
      total.received += common->received[reader][who];
    }
  }
  total.of_victims += common->of_victims, total.rounds++;
}

/* Looks for the dead as it enters, and finds nothing of anybody. */
static void check_nothing_is_left(void) {
  iox2ps_domain_t domain = opened();
  size_t connections, books;
  CHECK(iox2ps_domain_connection_count(&domain, &connections) == IOX2PS_OK && iox2ps_domain_book_count(&domain, &books) == IOX2PS_OK);
  CHECK(connections == 0 && books == 0 && iox2ps_domain_destroy(&domain) == IOX2PS_OK);
}

static void run_round(void) {
  pid_t members[MEMBERS];
  memset((void *)common, 0, sizeof *common);
  for (uint64_t i = 0; i < MEMBERS; i++) members[i] = i < PUBLISHERS ? start(publish, i) : start(subscribe, i - PUBLISHERS);
  for (int i = 0; i < EVENTS; i++) disturb(members);
  common->over = 1;
  for (int i = 0; i < MEMBERS; i++) check_ended_well(members[i]);
  account();
  check_nothing_is_left();
}

int main(int count, char **words) {
  uint64_t seconds = count > 1 ? strtoull(words[1], NULL, 10) : 2, begun = now_ms(), said = begun;
  snprintf(name, sizeof name, "test_soak.%d", (int)getpid());
  common = mmap(NULL, sizeof *common, PROT_READ | PROT_WRITE, MAP_SHARED | MAP_ANONYMOUS, -1, 0);
  CHECK(common != MAP_FAILED);
  iox2ps_config_defaults(&config, 7, WORDS * sizeof(uint64_t), _Alignof(uint64_t));
  config.max_publishers = PUBLISHERS + 2, config.max_subscribers = SUBSCRIBERS + 2, config.subscriber_max_buffer_size = 4, config.enable_safe_overflow = 0;
  config.subscriber_max_borrowed_samples = 4;
  do {
    run_round();
    if (now_ms() - said >= SAY_EVERY * 1000) say(begun), said = now_ms();
  } while (now_ms() - begun < seconds * 1000);
  say(begun);
  return 0;
}
