// SPDX-License-Identifier: Apache-2.0 OR MIT
#define _GNU_SOURCE
/* What another language's message costs beside one of C, where a process passes it to itself: at most a tenth more instructions in a domain
 * of one thread, and three tenths where calls take a lock, for most messages and with the copies of the book-keeping that come due; and no
 * call of the system. */
#include "passed.h"
#include "passed_beside.h"
#include <stdio.h>

static bool with_threads;

static void pass_beside(void *of) { beside_pass(of); }

static void run_beside(const char *name, pid_t self) {
  void *it = beside_open(name, with_threads);
  pass_marked(pass_beside, it, self);
  beside_close(it);
}

enum { MOST_PERCENT = 110, MOST_PERCENT_WITH_LOCK = 130 };

static bool is_cheap(uint64_t count, uint64_t of_c) { return 100 * count <= (with_threads ? MOST_PERCENT_WITH_LOCK : MOST_PERCENT) * of_c; }

static void count_beside(const char *name, counts_t of_c, counts_t marks) {
  counts_t count = stops_of(run_beside, name, PTRACE_SINGLESTEP), calls = stops_of(run_beside, name, PTRACE_SYSCALL);
  printf("%s: %llu instructions, with copies %llu, where C takes %llu and %llu\n", with_threads ? "of threads" : "of one thread",
         (unsigned long long)count.median, (unsigned long long)count.mean, (unsigned long long)of_c.median, (unsigned long long)of_c.mean);
  fflush(stdout);
  CHECK(is_cheap(count.median, of_c.median) && is_cheap(count.mean, of_c.mean));
  CHECK(calls.median == marks.median);
}

int main(void) {
  char name[64];
  snprintf(name, sizeof name, "test_counts_beside.%d", (int)getpid());
  counts_t of_c = stops_of(run_passer, name, PTRACE_SINGLESTEP), marks = stops_of(run_passer, name, PTRACE_SYSCALL);
  for (int turn = 0; turn < 2; turn++) {
    with_threads = turn == 1;
    count_beside(name, of_c, marks);
  }
  return 0;
}
