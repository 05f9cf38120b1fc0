// SPDX-License-Identifier: Apache-2.0 OR MIT
#define _GNU_SOURCE
/* Processes that sleep until a call of another brings a message, room or a loan; or until the time is over; or until one dies. Where
 * it isn't said otherwise none looks by itself for an hour, so that only a wake-up ends a sleep. */
#include "children.h"
#include "iox2_pubsub_processes.h"
#include "numbers.h"
#include <pthread.h>
#include <stdbool.h>
#include <stdio.h>
#include <sys/wait.h>
#include <time.h>

enum { MESSAGES = 300 };

static char name[64];
static iox2ps_config_t config;

static iox2ps_domain_t opened(uint32_t reap_every_ms) { return open_numbers(name, &config, looking_every(&config, reap_every_ms)); }

static uint64_t now(void) {
  struct timespec it;
  clock_gettime(CLOCK_MONOTONIC, &it);
  return (uint64_t)it.tv_sec * SECOND + (uint64_t)it.tv_nsec;
}

/* Waits for room where a buffer is full. */
static void send_number(iox2ps_domain_t *domain, const iox2ps_publisher_t *publisher, uint64_t number) {
  iox2ps_blocked_t blocked;
  size_t receivers;
  uint64_t seen = seen_of(domain, IOX2PS_BRINGS_ROOM);
  iox2ps_status_t code = iox2ps_publisher_send_copy(domain, publisher, &number, sizeof number, &receivers, &blocked);
  while (code == IOX2PS_BLOCKED) {
    CHECK(iox2ps_domain_wait(domain, IOX2PS_BRINGS_ROOM, seen, PATIENCE) == IOX2PS_OK);
    seen = seen_of(domain, IOX2PS_BRINGS_ROOM);
    code = iox2ps_blocked_retry(domain, &blocked, 0, &receivers);
  }
  CHECK(code == IOX2PS_OK && receivers == 1);
}

/* Who found nothing finds what comes then. */
static void nothing_at_first(void) {
  iox2ps_domain_t domain = opened(HOUR_MS);
  iox2ps_subscriber_t subscriber;
  iox2ps_publisher_t publisher;
  iox2ps_sample_t sample;
  uint64_t number;
  uint32_t waits;
  size_t len;
  CHECK(iox2ps_subscriber_create(&domain, &subscriber) == IOX2PS_OK && iox2ps_publisher_create(&domain, &publisher) == IOX2PS_OK);
  for (uint64_t turn = 1; turn <= 3; turn++) {
    for (int i = 0; i < 2; i++) {
      CHECK(iox2ps_subscriber_has_samples(&domain, &subscriber, &waits) == IOX2PS_OK && waits == 0);
      CHECK(iox2ps_subscriber_receive_copy(&domain, &subscriber, &number, sizeof number, &len, &sample) == IOX2PS_NO_SAMPLE);
    }
    send_number(&domain, &publisher, turn);
    CHECK(iox2ps_subscriber_has_samples(&domain, &subscriber, &waits) == IOX2PS_OK && waits == 1);
    CHECK(iox2ps_subscriber_receive_copy(&domain, &subscriber, &number, sizeof number, &len, &sample) == IOX2PS_OK && number == turn);
  }
  destroy(&domain);
}

/* Each of two waits for the other by turns: none is lost, in order. */
static void by_turns(void) {
  iox2ps_domain_t domain = opened(HOUR_MS);
  iox2ps_subscriber_t subscriber;
  CHECK(iox2ps_subscriber_create(&domain, &subscriber) == IOX2PS_OK);
  pid_t child = fork_child();
  if (child == 0) {
    destroy(&domain);
    domain = opened(HOUR_MS);
    iox2ps_publisher_t publisher;
    CHECK(iox2ps_publisher_create(&domain, &publisher) == IOX2PS_OK);
    for (uint64_t number = 1; number <= MESSAGES; number++) {
      if (number % 50 == 0) usleep(20000); /* so that the other one sleeps */
      send_number(&domain, &publisher, number);
    }
    destroy(&domain);
    _exit(0);
  }
  for (uint64_t number = 1; number <= MESSAGES; number++) {
    if (number % 70 == 0) usleep(20000);
    CHECK(receive_number(&domain, &subscriber) == number);
  }
  int status;
  CHECK(waitpid(child, &status, 0) == child && status == 0);
  destroy(&domain);
}

/* A loan comes free when the reader of another process releases its message. */
static void for_a_loan(void) {
  iox2ps_domain_t domain = opened(HOUR_MS);
  iox2ps_publisher_t publisher;
  iox2ps_publisher_options_t options;
  iox2ps_loan_t loan;
  iox2ps_blocked_t blocked;
  void *payload;
  size_t receivers;
  iox2ps_publisher_options_of(&config, &options);
  options.preallocated_samples = 1;
  CHECK(iox2ps_publisher_create_with(&domain, &options, &publisher) == IOX2PS_OK);
  pid_t child = fork_child();
  if (child == 0) {
    destroy(&domain);
    domain = opened(HOUR_MS);
    iox2ps_subscriber_t subscriber;
    CHECK(iox2ps_subscriber_create(&domain, &subscriber) == IOX2PS_OK);
    CHECK(receive_number(&domain, &subscriber) == 42);
    destroy(&domain);
    _exit(0);
  }
  for (size_t connections = 0; connections == 0; usleep(1000)) {
    CHECK(iox2ps_publisher_update_connections(&domain, &publisher) == IOX2PS_OK && iox2ps_domain_connection_count(&domain, &connections) == IOX2PS_OK);
  }
  CHECK(iox2ps_publisher_loan(&domain, &publisher, sizeof(uint64_t), &loan, &payload) == IOX2PS_OK);
  *(uint64_t *)payload = 42;
  uint64_t seen = seen_of(&domain, IOX2PS_BRINGS_LOAN);
  CHECK(iox2ps_loan_send(&domain, &loan, &receivers, &blocked) == IOX2PS_OK && receivers == 1);
  while (iox2ps_publisher_loan(&domain, &publisher, sizeof(uint64_t), &loan, &payload) == IOX2PS_LOAN_ERROR_OUT_OF_MEMORY) {
    CHECK(iox2ps_domain_wait(&domain, IOX2PS_BRINGS_LOAN, seen, PATIENCE) == IOX2PS_OK);
    seen = seen_of(&domain, IOX2PS_BRINGS_LOAN);
  }
  int status;
  CHECK(waitpid(child, &status, 0) == child && status == 0);
  destroy(&domain);
}

/* An empty message is the same call in each process, also in one whose program lies elsewhere in memory. */
static _Noreturn void send_nothing(void) {
  iox2ps_domain_t domain = opened(HOUR_MS);
  iox2ps_publisher_t publisher;
  iox2ps_loan_t loan;
  iox2ps_blocked_t blocked;
  void *payload = NULL;
  size_t receivers;
  CHECK(iox2ps_publisher_create(&domain, &publisher) == IOX2PS_OK);
  CHECK(iox2ps_publisher_loan(&domain, &publisher, 0, &loan, &payload) == IOX2PS_OK && payload != NULL);
  CHECK(iox2ps_loan_send(&domain, &loan, &receivers, &blocked) == IOX2PS_OK && receivers == 1);
  send_number(&domain, &publisher, 1);
  while (true) pause();
}

static void nothing_in_it(void) {
  iox2ps_domain_t domain = opened(HOUR_MS);
  iox2ps_subscriber_t subscriber;
  CHECK(iox2ps_subscriber_create(&domain, &subscriber) == IOX2PS_OK);
  pid_t child = fork_child();
  if (child == 0) {
    execl("/proc/self/exe", "waits", name, (char *)NULL);
    _exit(1);
  }
  iox2ps_sample_t sample;
  const void *payload = NULL;
  size_t len = 1;
  iox2ps_status_t code;
  while ((code = iox2ps_subscriber_receive(&domain, &subscriber, &sample, &payload, &len)) == IOX2PS_NO_SAMPLE) usleep(1000);
  CHECK(code == IOX2PS_OK && len == 0 && payload != NULL && iox2ps_sample_release(&domain, &sample) == IOX2PS_OK);
  CHECK(receive_number(&domain, &subscriber) == 1);
  CHECK(kill(child, SIGKILL) == 0 && waitpid(child, NULL, 0) == child);
  destroy(&domain);
}

static void time_is_over(void) {
  iox2ps_domain_t domain = opened(HOUR_MS), ordinary = IOX2PS_DOMAIN_INIT;
  uint64_t begun = now(), seen = seen_of(&domain, IOX2PS_BRINGS_MESSAGE | IOX2PS_BRINGS_ROOM);
  CHECK(iox2ps_domain_wait(&domain, IOX2PS_BRINGS_MESSAGE | IOX2PS_BRINGS_ROOM, seen, SECOND / 20) == IOX2PS_PROCESSES_TIMED_OUT);
  CHECK(now() - begun >= SECOND / 20);
  CHECK(iox2ps_domain_wait(&domain, IOX2PS_BRINGS_MESSAGE, seen, 0) == IOX2PS_PROCESSES_TIMED_OUT);
  CHECK(iox2ps_domain_wait(&domain, IOX2PS_BRINGS_MESSAGE, seen + 1, UINT64_MAX) == IOX2PS_OK);
  CHECK(iox2ps_domain_wait(&domain, 0, seen, 0) == IOX2PS_OPEN_ERROR_INVALID_ARGUMENT && iox2ps_domain_wait(&domain, 64, seen, 0) == IOX2PS_OPEN_ERROR_INVALID_ARGUMENT);
  CHECK(iox2ps_domain_wait(&ordinary, 1, 0, 0) == IOX2PS_NO_DOMAIN && iox2ps_domain_create(&ordinary, &config) == IOX2PS_OK);
  CHECK(iox2ps_domain_wait(&ordinary, 1, 0, 0) == IOX2PS_PROCESSES_NOT_SHARED && iox2ps_domain_brought(&ordinary, 1, &seen) == IOX2PS_PROCESSES_NOT_SHARED);
  destroy(&ordinary), destroy(&domain);
}

/* Whoever sleeps finds out that a process died, and what it had is free. */
static void a_death(void) {
  iox2ps_domain_t domain = opened(20);
  size_t books = 1;
  pid_t child = fork_child();
  if (child == 0) {
    destroy(&domain);
    domain = opened(HOUR_MS);
    CHECK(iox2ps_publisher_create(&domain, &(iox2ps_publisher_t){0}) == IOX2PS_OK);
    pause();
  }
  while (iox2ps_domain_book_count(&domain, &books) == IOX2PS_OK && books == 0) usleep(1000);
  uint64_t seen = seen_of(&domain, IOX2PS_BRINGS_MESSAGE);
  CHECK(books == 1 && kill(child, SIGKILL) == 0 && waitpid(child, NULL, 0) == child);
  CHECK(iox2ps_domain_wait(&domain, IOX2PS_BRINGS_MESSAGE, seen, PATIENCE) == IOX2PS_OK);
  CHECK(iox2ps_domain_book_count(&domain, &books) == IOX2PS_OK && books == 0);
  destroy(&domain);
}

/* A thread sleeps for others, which share its domain under a lock: calls of another process end its sleep, and so does a word of its own
 * process. Nothing that comes between a look and the sleep is lost. */
typedef struct sleeper_t {
  iox2ps_domain_t domain;
  pthread_mutex_t lock;
  uint64_t messages;
  bool is_over;
} sleeper_t;

static void *sleep_for_others(void *of) {
  sleeper_t *it = of;
  for (bool is_over = false; !is_over;) {
    uint64_t begun;
    pthread_mutex_lock(&it->lock);
    CHECK(iox2ps_domain_sleep_begin(&it->domain, IOX2PS_BRINGS_MESSAGE, &begun) == IOX2PS_OK);
    CHECK(iox2ps_domain_brought_by_others(&it->domain, IOX2PS_BRINGS_MESSAGE, &it->messages) == IOX2PS_OK);
    is_over = it->is_over;
    pthread_mutex_unlock(&it->lock);
    if (!is_over) CHECK(iox2ps_domain_sleep(&it->domain, begun, UINT64_MAX) == IOX2PS_OK);
  }
  return NULL;
}

static void a_thread_for_others(void) {
  sleeper_t it = {.domain = opened(HOUR_MS), .lock = PTHREAD_MUTEX_INITIALIZER};
  iox2ps_subscriber_t subscriber;
  pthread_t thread;
  CHECK(iox2ps_subscriber_create(&it.domain, &subscriber) == IOX2PS_OK);
  uint64_t seen = 0, wanted = seen_of(&it.domain, IOX2PS_BRINGS_MESSAGE) + MESSAGES;
  pid_t child = fork_child();
  if (child == 0) {
    destroy(&it.domain);
    iox2ps_domain_t domain = opened(HOUR_MS);
    iox2ps_publisher_t publisher;
    CHECK(iox2ps_publisher_create(&domain, &publisher) == IOX2PS_OK);
    for (uint64_t number = 1; number <= MESSAGES; number++) send_number(&domain, &publisher, number);
    destroy(&domain);
    _exit(0);
  }
  CHECK(pthread_create(&thread, NULL, sleep_for_others, &it) == 0);
  for (uint64_t number = 1; number <= MESSAGES;) {
    uint64_t received = 0;
    size_t len;
    iox2ps_sample_t sample;
    pthread_mutex_lock(&it.lock);
    bool has_come = it.messages != seen; /* only the other thread says so */
    seen = it.messages;
    while (has_come && iox2ps_subscriber_receive_copy(&it.domain, &subscriber, &received, sizeof received, &len, &sample) == IOX2PS_OK) CHECK(received == number++);
    pthread_mutex_unlock(&it.lock);
    if (!has_come) usleep(1000);
  }
  pthread_mutex_lock(&it.lock);
  it.is_over = true;
  CHECK(seen_of(&it.domain, IOX2PS_BRINGS_MESSAGE) >= wanted && iox2ps_domain_sleep_end(&it.domain) == IOX2PS_OK);
  pthread_mutex_unlock(&it.lock);
  int status;
  CHECK(pthread_join(thread, NULL) == 0 && waitpid(child, &status, 0) == child && status == 0);
  destroy(&it.domain);
}

/* A call of its own process leaves such a sleep alone, which the system would tell each time; what isn't a sum is refused. */
static void what_ends_no_sleep(void) {
  iox2ps_domain_t domain = opened(HOUR_MS), ordinary = IOX2PS_DOMAIN_INIT;
  iox2ps_publisher_t publisher;
  iox2ps_blocked_t blocked;
  uint64_t begun, again, others = 1;
  size_t receivers;
  CHECK(iox2ps_publisher_create(&domain, &publisher) == IOX2PS_OK);
  uint64_t seen = seen_of(&domain, IOX2PS_BRINGS_MESSAGE);
  CHECK(iox2ps_domain_sleep_begin(&domain, IOX2PS_BRINGS_MESSAGE, &begun) == IOX2PS_OK);
  CHECK(iox2ps_publisher_send_copy(&domain, &publisher, &begun, sizeof begun, &receivers, &blocked) == IOX2PS_OK);
  CHECK(iox2ps_domain_sleep_begin(&domain, 0, &again) == IOX2PS_OK && again == begun);
  CHECK(seen_of(&domain, IOX2PS_BRINGS_MESSAGE) == seen + 1);
  CHECK(iox2ps_domain_brought_by_others(&domain, IOX2PS_BRINGS_MESSAGE, &others) == IOX2PS_OK && others == 0);
  CHECK(iox2ps_domain_sleep(&domain, begun, 1000) == IOX2PS_OK && iox2ps_domain_sleep_end(&domain) == IOX2PS_OK);
  CHECK(iox2ps_domain_sleep(&domain, begun, UINT64_MAX) == IOX2PS_OK); /* it has ended already */
  CHECK(iox2ps_domain_sleep_begin(&domain, 0, &again) == IOX2PS_OK && again == begun + 1);
  CHECK(iox2ps_domain_sleep_begin(&domain, 64, &again) == IOX2PS_OPEN_ERROR_INVALID_ARGUMENT);
  CHECK(iox2ps_domain_sleep_begin(&ordinary, 1, &again) == IOX2PS_NO_DOMAIN && iox2ps_domain_create(&ordinary, &config) == IOX2PS_OK);
  CHECK(iox2ps_domain_sleep_begin(&ordinary, 1, &again) == IOX2PS_PROCESSES_NOT_SHARED);
  CHECK(iox2ps_domain_sleep(&ordinary, 0, 1) == IOX2PS_PROCESSES_NOT_SHARED && iox2ps_domain_sleep_end(&ordinary) == IOX2PS_PROCESSES_NOT_SHARED);
  destroy(&ordinary), destroy(&domain);
}

int main(int count, char **words) {
  if (count > 1) snprintf(name, sizeof name, "%s", words[1]);
  else snprintf(name, sizeof name, "test_waits.%d", (int)getpid());
  iox2ps_config_defaults(&config, 7, sizeof(uint64_t), _Alignof(uint64_t));
  config.enable_safe_overflow = 0;
  if (count > 1) send_nothing();
  nothing_at_first();
  by_turns();
  for_a_loan();
  nothing_in_it();
  time_is_over();
  a_death();
  a_thread_for_others();
  what_ends_no_sleep();
  puts("waits: each is ended by what it waits for");
  return 0;
}
