// SPDX-License-Identifier: Apache-2.0 OR MIT
/* Two threads send by one publisher, which has one loan at a time, and two receive, under a lock that this program brings: what
 * iox2_pubsub.h says of threads, in the smallest form. Messages are written and read without the lock. Nothing is lost,
 * since a send waits where a buffer is full, and a loan while there is none: at a condition variable. */
#include "iox2_pubsub.h"
#include <pthread.h>
#include <stdio.h>
#include <stdlib.h>
#include <sys/wait.h>
#include <unistd.h>

typedef struct { uint64_t producer, number; double values[6]; } reading_t;

enum { MESSAGES = 1000, PRODUCERS = 2, CONSUMERS = 2 };

static pthread_mutex_t lock = PTHREAD_MUTEX_INITIALIZER;
static pthread_cond_t changed = PTHREAD_COND_INITIALIZER; /* a message came, or there is room, or a loan */
static iox2ps_domain_t domain;
static iox2ps_publisher_t publisher;

static void check(int is_so, const char *words) {
  if (is_so) return;
  fprintf(stderr, "%s\n", words);
  exit(1);
}

/* Each call of the domain is made between these two. A thread says so when it has done what others may wait
 * for. */
static void begin(void) { check(pthread_mutex_lock(&lock) == 0, "no lock"); }
static void end(int may_help) {
  check(pthread_mutex_unlock(&lock) == 0, "no lock");
  if (may_help) check(pthread_cond_broadcast(&changed) == 0, "no signal");
}
static void wait_for_change(void) { check(pthread_cond_wait(&changed, &lock) == 0, "no wait"); }

static int waits_for_loan(iox2ps_status_t code) {
  return code == IOX2PS_LOAN_ERROR_EXCEEDS_MAX_LOANS || code == IOX2PS_PUBLISHER_IS_BLOCKED;
}

static void *produce(void *given) {
  uint64_t producer = *(const uint64_t *)given;
  for (uint64_t number = 0; number < MESSAGES; number++) {
    iox2ps_loan_t loan;
    iox2ps_blocked_t blocked;
    void *payload;
    size_t receivers = 0;

    begin();
    iox2ps_status_t code = iox2ps_publisher_loan(&domain, &publisher, sizeof(reading_t), &loan, &payload);
    while (waits_for_loan(code)) {
      wait_for_change();
      code = iox2ps_publisher_loan(&domain, &publisher, sizeof(reading_t), &loan, &payload);
    }
    end(0);
    check(code == IOX2PS_OK, iox2ps_error_text(code));

    *(reading_t *)payload = (reading_t){producer, number, {0.5}}; /* without the lock */

    begin();
    code = iox2ps_loan_send(&domain, &loan, &receivers, &blocked);
    while (code == IOX2PS_BLOCKED) {
      pthread_cond_broadcast(&changed); /* it may have reached others */
      wait_for_change();
      code = iox2ps_blocked_retry(&domain, &blocked, 0, &receivers);
    }
    end(1);
    check(code == IOX2PS_OK && receivers == CONSUMERS, "a message doesn't reach everybody");
  }
  return NULL;
}

static void *consume(void *given) {
  const iox2ps_subscriber_t *subscriber = given;
  uint64_t next[PRODUCERS] = {0};
  for (int message = 0; message < PRODUCERS * MESSAGES; message++) {
    iox2ps_sample_t sample;
    const void *payload;
    size_t len;

    begin();
    iox2ps_status_t code = iox2ps_subscriber_receive(&domain, subscriber, &sample, &payload, &len);
    while (code == IOX2PS_NO_SAMPLE) {
      wait_for_change();
      code = iox2ps_subscriber_receive(&domain, subscriber, &sample, &payload, &len);
    }
    end(1);
    check(code == IOX2PS_OK, iox2ps_error_text(code));

    const reading_t *reading = payload; /* without the lock */
    check(reading->number == next[reading->producer]++, "a message isn't the next");

    begin();
    code = iox2ps_sample_release(&domain, &sample);
    end(0);
    check(code == IOX2PS_OK, iox2ps_error_text(code));
  }
  return NULL;
}

/* Of a domain that processes share a child has no copy. */
#ifdef IOX2PS_SHARED_INSTEAD_H
enum { CHILD_HAS_A_COPY = 0 };
#else
enum { CHILD_HAS_A_COPY = 1 };
#endif

/* A child of the process has a domain of its own: what it sends and destroys is there for its parent. No thread is in a call. */
static void a_child_has_a_copy(const iox2ps_subscriber_t *subscriber) {
  iox2ps_loan_t loan;
  iox2ps_blocked_t blocked;
  iox2ps_sample_t sample;
  void *written;
  const void *read;
  size_t count = 0, len;
  int status = 1;
  check(iox2ps_publisher_loan(&domain, &publisher, sizeof(reading_t), &loan, &written) == IOX2PS_OK, "no loan");
  pid_t child = fork();
  if (child == 0) {
    int is_sent = iox2ps_loan_send(&domain, &loan, &count, &blocked) == IOX2PS_OK && count == CONSUMERS;
    _exit(is_sent && iox2ps_domain_destroy(&domain) == IOX2PS_OK ? 0 : 1);
  }
  check(child > 0 && waitpid(child, &status, 0) == child && status == 0, "the child failed");
  check(iox2ps_subscriber_receive(&domain, subscriber, &sample, &read, &len) == IOX2PS_NO_SAMPLE, "a message of the child's came");
  check(iox2ps_loan_send(&domain, &loan, &count, &blocked) == IOX2PS_OK && count == CONSUMERS, "the loan isn't there any more");
  check(iox2ps_subscriber_receive(&domain, subscriber, &sample, &read, &len) == IOX2PS_OK, "no message came");
  check(iox2ps_sample_release(&domain, &sample) == IOX2PS_OK, "no sample");
}

int main(void) {
  iox2ps_config_t config;
  iox2ps_subscriber_t subscribers[CONSUMERS];
  uint64_t names[PRODUCERS];
  pthread_t producers[PRODUCERS], consumers[CONSUMERS];
  iox2ps_config_defaults(&config, 1, sizeof(reading_t), _Alignof(reading_t));
  config.enable_safe_overflow = 0;
  config.publisher_max_loaned_samples = 1;
  check(iox2ps_domain_create(&domain, &config) == IOX2PS_OK, "no domain");
  check(iox2ps_publisher_create(&domain, &publisher) == IOX2PS_OK, "no publisher");
  for (int i = 0; i < CONSUMERS; i++) {
    check(iox2ps_subscriber_create(&domain, &subscribers[i]) == IOX2PS_OK, "no subscriber");
  }
  for (int i = 0; i < CONSUMERS; i++) check(pthread_create(&consumers[i], NULL, consume, &subscribers[i]) == 0, "no thread");
  for (int i = 0; i < PRODUCERS; i++) {
    names[i] = (uint64_t)i;
    check(pthread_create(&producers[i], NULL, produce, &names[i]) == 0, "no thread");
  }
  for (int i = 0; i < PRODUCERS; i++) pthread_join(producers[i], NULL);
  for (int i = 0; i < CONSUMERS; i++) pthread_join(consumers[i], NULL);
  if (CHILD_HAS_A_COPY) a_child_has_a_copy(&subscribers[0]);
  check(iox2ps_domain_destroy(&domain) == IOX2PS_OK, "no domain"); /* all threads have ended */
  printf("%d messages reached %d threads\n", PRODUCERS * MESSAGES, CONSUMERS);
  return 0;
}
