// SPDX-License-Identifier: Apache-2.0 OR MIT
#define _GNU_SOURCE
/* A process writes nonsense over a part of the files of a domain while others make calls on it, open it and leave: each of them ends
 * well or is told an error. None crashes, and none hangs.
 *
 *   domain_hostile          once for each part
 *   domain_hostile whole    fifty times */
#include "check_domains.h"
#include "children.h"
#include "iox2_pubsub_processes.h"
#include "nonsense.h"
#include "shared_domain.h"
#include <stdio.h>
#include <string.h>
#include <sys/wait.h>
#include <unistd.h>

enum { VICTIMS = 3, CALLS = 4000, OPENS = 30, WHOLE = 50, MOST_SECONDS = 600, TOLD = 3, OUTCOMES = 2, WORDS = 8 };

static char name[64];
static iox2ps_domain_t domain = IOX2PS_DOMAIN_INIT;
static iox2ps_config_t config;

/* Whether it is IOX2PS_OK. Ends the process where it is told that the domain is spoilt. */
static bool is_ok(iox2ps_status_t code) {
  if (code >= IOX2PS_OPEN_ERROR_DOES_NOT_EXIST) _exit(TOLD);
  return code == IOX2PS_OK;
}

static void send_and_receive(iox2ps_domain_t *own, const iox2ps_publisher_t *publisher, const iox2ps_subscriber_t *subscriber) {
  iox2ps_loan_t loan;
  iox2ps_sample_t sample;
  iox2ps_blocked_t blocked;
  void *payload;
  const void *received;
  size_t len, receivers;
  if (is_ok(iox2ps_publisher_loan_uninit(own, publisher, WORDS * sizeof(uint64_t), &loan, &payload))) {
    for (int i = 0; i < WORDS; i++) ((volatile uint64_t *)payload)[i] = 42;
    (void)is_ok(iox2ps_loan_send(own, &loan, &receivers, &blocked));
  }
  if (!is_ok(iox2ps_subscriber_receive(own, subscriber, &sample, &received, &len))) return;
  for (size_t i = 0; i < len / sizeof(uint64_t); i++) (void)((const volatile uint64_t *)received)[i];
  (void)is_ok(iox2ps_sample_release(own, &sample));
}

static void be_victim(bool opens_often, int ready_fd) {
  iox2ps_domain_t own = IOX2PS_DOMAIN_INIT;
  iox2ps_publisher_t publisher;
  iox2ps_subscriber_t subscriber;
  alarm(MOST_SECONDS); /* another status than being told */
  if (!opens_often) CHECK(iox2ps_domain_open(&own, name, "words", &config, NULL) == IOX2PS_OK);
  CHECK(write(ready_fd, "", 1) == 1);
  for (int i = 0; i < OPENS; i++) {
    if (opens_often && !is_ok(iox2ps_domain_open(&own, name, "words", &config, NULL))) continue;
    bool has_ports = is_ok(iox2ps_publisher_create(&own, &publisher));
    has_ports &= is_ok(iox2ps_subscriber_create(&own, &subscriber));
    for (int k = 0; has_ports && k < CALLS / OPENS; k++) send_and_receive(&own, &publisher, &subscriber);
    (void)is_ok(iox2ps_publisher_close(&own, &publisher)), (void)is_ok(iox2ps_subscriber_close(&own, &subscriber));
    if (opens_often) (void)is_ok(iox2ps_domain_destroy(&own));
  }
  if (!opens_often) (void)is_ok(iox2ps_domain_destroy(&own));
  _exit(0);
}

static void count_ends(part_t part, uint64_t *random, int outcomes[OUTCOMES]) {
  for (int left = VICTIMS; left > 0;) {
    int status;
    write_nonsense(part, random);
    pid_t ended = waitpid(-1, &status, WNOHANG);
    CHECK(ended >= 0);
    if (ended == 0) continue;
    left--;
    if (!WIFEXITED(status) || (WEXITSTATUS(status) != 0 && WEXITSTATUS(status) != TOLD)) fprintf(stderr, "nonsense in %s: a victim ends with status %#x\n", part.name, status);
    CHECK(WIFEXITED(status) && (WEXITSTATUS(status) == 0 || WEXITSTATUS(status) == TOLD));
    outcomes[WEXITSTATUS(status) != 0]++;
  }
}

/* False if there is no such part. */
static bool attack(uint32_t which, uint64_t seed, part_t *part, int outcomes[OUTCOMES]) {
  int ready[2];
  CHECK(iox2ps_domain_create_named(&domain, name, "words", &config, NULL) == IOX2PS_OK && pipe(ready) == 0);
  shared_files_t files = shared_domain_of(&domain)->group->member.files;
  CHECK(shared_files_protect_payloads(&files, true));
  *part = part_of(&files, which);
  for (int i = 0; part->name != NULL && i < VICTIMS; i++) {
    char byte;
    pid_t child = fork_child();
    CHECK(child >= 0);
    if (child == 0) be_victim(i == VICTIMS - 1, ready[1]);
    CHECK(read(ready[0], &byte, 1) == 1);
  }
  close(ready[0]), close(ready[1]);
  if (part->name != NULL) count_ends(*part, &seed, outcomes);
  (void)iox2ps_domain_destroy(&domain); /* whatever is left of the files */
  unlink(files.path[0]), unlink(files.path[1]);
  return part->name != NULL;
}

int main(int count, char **words) {
  int rounds = count > 1 && strcmp(words[1], "whole") == 0 ? WHOLE : 1;
  part_t part = {NULL, NULL, 0, false};
  snprintf(name, sizeof name, "test_domain_hostile.%d", (int)getpid());
  iox2ps_config_defaults(&config, 7, WORDS * sizeof(uint64_t), _Alignof(uint64_t));
  config.max_publishers = 4, config.max_subscribers = 4;
  for (uint32_t which = 0;; which++) {
    int outcomes[OUTCOMES] = {0};
    for (int round = 0; round < rounds; round++)
      if (!attack(which, which * 1000 + (uint64_t)round, &part, outcomes)) return 0;
    CHECK(!part.is_harmless || outcomes[1] == 0);
    printf("nonsense in %s: %d ended well, %d were told an error\n", part.name, outcomes[0], outcomes[1]);
    fflush(stdout);
  }
}
