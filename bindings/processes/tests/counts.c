// SPDX-License-Identifier: Apache-2.0 OR MIT
#define _GNU_SOURCE
/* What a message costs that a process passes to itself, from loan to release: instructions of its four calls beside those in a domain of one
 * process, for most messages and with the copies of the book-keeping that come due; and calls of the system, of which there is none. */
#include "iox2_pubsub_processes.h"
#include "passed.h"
#include <stdio.h>

enum { MOST_PERCENT = 300, MOST_PERCENT_WITH_COPIES = 365 };

/* ---- what the test itself takes */

static iox2ps_status_t no_loan(iox2ps_domain_t *domain, const iox2ps_publisher_t *publisher, size_t len, iox2ps_loan_t *loan, void **payload) {
  (void)domain, (void)publisher, (void)len, (void)loan, (void)payload;
  return IOX2PS_OK;
}

static iox2ps_status_t no_send(iox2ps_domain_t *domain, const iox2ps_loan_t *loan, size_t *receivers, iox2ps_blocked_t *blocked) {
  (void)domain, (void)loan, (void)receivers, (void)blocked;
  return IOX2PS_OK;
}

static iox2ps_status_t no_receive(iox2ps_domain_t *domain, const iox2ps_subscriber_t *subscriber, iox2ps_sample_t *sample, const void **payload, size_t *len) {
  (void)domain, (void)subscriber, (void)sample, (void)payload, (void)len;
  return IOX2PS_OK;
}

static iox2ps_status_t no_release(iox2ps_domain_t *domain, const iox2ps_sample_t *sample) {
  (void)domain, (void)sample;
  return IOX2PS_OK;
}

static void run_without_calls(const char *name, pid_t self) {
  passer_t it = passer_of(name);
  passing_calls = (struct passing_calls_t){no_loan, no_send, no_receive, no_release};
  pass_marked(pass_message, &it, self);
}

int main(void) {
  char name[64];
  snprintf(name, sizeof name, "test_counts.%d", (int)getpid());
  uint64_t own = stops_of(run_without_calls, NULL, PTRACE_SINGLESTEP).median;
  counts_t of_one = stops_of(run_passer, NULL, PTRACE_SINGLESTEP), of_several = stops_of(run_passer, name, PTRACE_SINGLESTEP);
  counts_t marks = stops_of(run_passer, NULL, PTRACE_SYSCALL), calls = stops_of(run_passer, name, PTRACE_SYSCALL);
  uint64_t one = of_one.median - own, several = of_several.median - own, with_copies = of_several.mean - own;
  printf("a message takes %llu instructions, with copies %llu, and %llu in a domain of one process; no call of the system\n", (unsigned long long)several,
         (unsigned long long)with_copies, (unsigned long long)one);
  fflush(stdout);
  CHECK(one > 100 && 100 * several <= MOST_PERCENT * one && 100 * with_copies <= MOST_PERCENT_WITH_COPIES * one);
  CHECK(marks.mean > 0 && calls.median == marks.median && calls.mean == marks.mean);
  return 0;
}
