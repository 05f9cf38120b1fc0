// SPDX-License-Identifier: Apache-2.0 OR MIT
#define _GNU_SOURCE
/* Processes of a domain are killed one after the other, in the middle of what they do, and disturb nobody:
 *  - ten publishers while they send, in a domain that has room for two: a subscriber goes on, and the eleventh has a place;
 *  - creators, before others may open the domain or afterwards: the next one opens it or makes it anew.
 *
 *   domain_deaths          ten publishers, ten creators
 *   domain_deaths whole    a thousand of either */
#include "check_domains.h"
#include "children.h"
#include "iox2_pubsub_processes.h"
#include <stdbool.h>
#include <stdio.h>
#include <string.h>
#include <sys/mman.h>
#include <sys/wait.h>
#include <time.h>
#include <unistd.h>

enum { SHORT = 10, WHOLE = 1000, WORDS = 8 };

static char name[64];
static iox2ps_config_t config;
static _Atomic uint64_t *step; /* of the child that is to be killed: how far it is */

static iox2ps_domain_t opened(void) {
  iox2ps_domain_t domain = IOX2PS_DOMAIN_INIT;
  CHECK(iox2ps_domain_open_or_create(&domain, name, "words", &config, NULL) == IOX2PS_OK);
  return domain;
}

/* Sends until it is killed. Each message has the publisher's number and its own, over and over. */
static void send_for_ever(uint64_t publisher_number) {
  iox2ps_domain_t domain = opened();
  iox2ps_publisher_t publisher;
  CHECK(iox2ps_publisher_create(&domain, &publisher) == IOX2PS_OK);
  for (uint64_t number = 1;; number++) {
    iox2ps_loan_t loan;
    iox2ps_blocked_t blocked;
    void *payload;
    size_t receivers;
    CHECK(iox2ps_publisher_loan_uninit(&domain, &publisher, WORDS * sizeof(uint64_t), &loan, &payload) == IOX2PS_OK);
    for (int i = 0; i < WORDS; i++) ((volatile uint64_t *)payload)[i] = publisher_number << 32 | number;
    CHECK(iox2ps_loan_send(&domain, &loan, &receivers, &blocked) == IOX2PS_OK);
    (*step)++;
  }
}

/* Each message is whole, of the publisher that sends now or of one before, and none of either comes twice or out of order. */
static uint64_t receive_all(iox2ps_domain_t *domain, const iox2ps_subscriber_t *subscriber, uint64_t publisher_number) {
  static uint64_t before[WHOLE + 1];
  uint64_t received = 0, words[WORDS];
  size_t len;
  iox2ps_sample_t sample;
  iox2ps_status_t code;
  while ((code = iox2ps_subscriber_receive_copy(domain, subscriber, words, sizeof words, &len, &sample)) == IOX2PS_OK) {
    uint64_t of = words[0] >> 32;
    CHECK(len == sizeof words && of > 0 && of <= publisher_number && words[0] > before[of]);
    for (int i = 1; i < WORDS; i++) CHECK(words[i] == words[0]);
    before[of] = words[0];
    received++;
  }
  CHECK(code == IOX2PS_NO_SAMPLE);
  return received;
}

static void kill_and_wait(pid_t child) {
  int status;
  CHECK(kill(child, SIGKILL) == 0 && waitpid(child, &status, 0) == child && was_killed(status));
}

static size_t books_of(iox2ps_domain_t *domain) {
  size_t books;
  CHECK(iox2ps_domain_book_count(domain, &books) == IOX2PS_OK);
  return books;
}

static void pause_shortly(void) { nanosleep(&(struct timespec){.tv_nsec = 20000}, NULL); }

/* Nobody waits, so nobody but whoever wants room looks for the dead. */
static uint64_t kill_publishers(uint64_t publishers) {
  iox2ps_domain_t domain = opened();
  iox2ps_subscriber_t subscriber;
  uint64_t received = 0;
  CHECK(iox2ps_subscriber_create(&domain, &subscriber) == IOX2PS_OK);
  for (uint64_t which = 1; which <= publishers; which++) {
    *step = 0;
    pid_t child = fork_child();
    CHECK(child >= 0);
    if (child == 0) {
      CHECK(iox2ps_domain_destroy(&domain) == IOX2PS_OK);
      send_for_ever(which);
    }
    uint64_t of_this = 0;
    while (*step < 5 + which % 7 || of_this == 0) {
      of_this += receive_all(&domain, &subscriber, which);
      CHECK(waitpid(child, NULL, WNOHANG) == 0); /* it goes on */
      pause_shortly();
    }
    kill_and_wait(child);
    received += of_this + receive_all(&domain, &subscriber, which);
  }
  iox2ps_publisher_t publisher;
  CHECK(iox2ps_publisher_create(&domain, &publisher) == IOX2PS_OK);
  CHECK(books_of(&domain) <= config.max_publishers);
  CHECK(iox2ps_domain_destroy(&domain) == IOX2PS_OK);
  return received;
}

static uint64_t below(uint64_t limit) {
  static uint64_t state = 1;
  state = state * UINT64_C(6364136223846793005) + 1442695040888963407;
  return (state >> 33) % limit;
}

/* Where it dies is left to chance: the first calls of a process that opens and creates take some hundred microseconds. */
static uint64_t kill_creators(uint64_t creators) {
  uint64_t ready = 0;
  for (uint64_t which = 0; which < creators; which++) {
    *step = 0;
    pid_t child = fork_child();
    CHECK(child >= 0);
    if (child == 0) {
      iox2ps_domain_t own = opened();
      (*step)++;
      CHECK(iox2ps_publisher_create(&own, &(iox2ps_publisher_t){0}) == IOX2PS_OK);
      pause();
    }
    nanosleep(&(struct timespec){.tv_nsec = (long)below(2000000)}, NULL);
    kill_and_wait(child);
    ready += *step;
    iox2ps_domain_t domain = opened();
    CHECK(books_of(&domain) == 0); /* what it had is given back as one enters */
    CHECK(iox2ps_domain_destroy(&domain) == IOX2PS_OK);
  }
  return ready;
}

int main(int count, char **words) {
  uint64_t deaths = count > 1 && strcmp(words[1], "whole") == 0 ? WHOLE : SHORT;
  snprintf(name, sizeof name, "test_domain_deaths.%d", (int)getpid());
  step = mmap(NULL, sizeof *step, PROT_READ | PROT_WRITE, MAP_SHARED | MAP_ANONYMOUS, -1, 0);
  CHECK(step != MAP_FAILED);
  iox2ps_config_defaults(&config, 7, WORDS * sizeof(uint64_t), _Alignof(uint64_t));
  config.max_publishers = 2;
  uint64_t received = kill_publishers(deaths), ready = kill_creators(deaths);
  printf("%llu publishers were killed, of which a subscriber received %llu messages; %llu creators, of which %llu were ready\n", (unsigned long long)deaths,
         (unsigned long long)received, (unsigned long long)deaths, (unsigned long long)ready);
  return 0;
}
