// SPDX-License-Identifier: Apache-2.0 OR MIT
/* What a message costs that a process passes to itself, from loan to release: stops of it as another process traces it. */
#ifndef IOX2PS_PASSED_H
#define IOX2PS_PASSED_H

#include "check_domains.h"
#include "traced.h"
#include <stdlib.h>

/* Four calls each: as many as half the list has, so that one copy comes due. */
enum { WARM_UP = 300, MESSAGES = 32, BYTES = 64 };

/* The calls of a message. A process that counts what the test itself takes puts others in their place. */
static struct passing_calls_t {
  __typeof__(iox2ps_publisher_loan_uninit) *loan;
  __typeof__(iox2ps_loan_send_counted) *send;
  __typeof__(iox2ps_subscriber_receive) *receive;
  __typeof__(iox2ps_sample_release) *release;
} passing_calls = {iox2ps_publisher_loan_uninit, iox2ps_loan_send_counted, iox2ps_subscriber_receive, iox2ps_sample_release};

typedef struct passer_t {
  iox2ps_domain_t domain;
  iox2ps_publisher_t publisher;
  iox2ps_subscriber_t subscriber;
} passer_t;

/* Without a name the domain is of one process. */
static inline passer_t passer_of(const char *name) {
  passer_t it = {.domain = IOX2PS_DOMAIN_INIT};
  iox2ps_config_t config;
  iox2ps_config_defaults(&config, 7, BYTES, 8);
  CHECK((name == NULL ? iox2ps_domain_create(&it.domain, &config) : iox2ps_domain_open_or_create(&it.domain, name, "bytes", &config, NULL)) == IOX2PS_OK);
  CHECK(iox2ps_publisher_create(&it.domain, &it.publisher) == IOX2PS_OK && iox2ps_subscriber_create(&it.domain, &it.subscriber) == IOX2PS_OK);
  return it;
}

static inline void pass_message(void *of) {
  passer_t *it = of;
  iox2ps_loan_t loan;
  iox2ps_blocked_t blocked;
  iox2ps_sample_t sample;
  int bytes = 0;
  void *payload = &bytes;
  const void *received = &bytes;
  size_t receivers = 1, len;
  CHECK(passing_calls.loan(&it->domain, &it->publisher, BYTES, &loan, &payload) == IOX2PS_OK);
  *(int *)payload = 42;
  CHECK(passing_calls.send(&it->domain, &loan, &receivers, &blocked) == IOX2PS_OK && receivers == 1);
  CHECK(passing_calls.receive(&it->domain, &it->subscriber, &sample, &received, &len) == IOX2PS_OK && *(const int *)received == 42);
  CHECK(passing_calls.release(&it->domain, &sample) == IOX2PS_OK);
}

/* Stops before each message and after the last. */
static inline void pass_marked(void (*pass)(void *of), void *of, pid_t self) {
  for (int i = 0; i < WARM_UP; i++) pass(of);
  mark(self);
  for (int i = 0; i < MESSAGES; i++) {
    pass(of);
    mark(self);
  }
}

static inline void run_passer(const char *name, pid_t self) {
  passer_t it = passer_of(name);
  pass_marked(pass_message, &it, self);
  CHECK(iox2ps_domain_destroy(&it.domain) == IOX2PS_OK);
}

static inline int compare_stops(const void *one, const void *other) {
  uint64_t a = *(const uint64_t *)one, b = *(const uint64_t *)other;
  return (a > b) - (a < b);
}

typedef struct counts_t { uint64_t median, mean; } counts_t;

/* Stops of a message: of instructions, or of calls of the system, with those of the marks themselves. */
static inline counts_t stops_of(void (*run)(const char *name, pid_t self), const char *name, int request) {
  uint64_t stops[MESSAGES], sum = 0;
  int status;
  pid_t child = traced_child(run, name);
  CHECK(child > 0);
  for (int i = 0; i < MESSAGES; i++) {
    bool is_at_mark;
    sum += stops[i] = run_to_mark(child, request, UINT64_MAX, &is_at_mark);
    CHECK(is_at_mark);
  }
  CHECK(ptrace(PTRACE_CONT, child, NULL, NULL) == 0 && waitpid(child, &status, 0) == child && status == 0);
  qsort(stops, MESSAGES, sizeof *stops, compare_stops);
  return (counts_t){stops[MESSAGES / 2], sum / MESSAGES};
}

#endif
