// SPDX-License-Identifier: Apache-2.0 OR MIT
#ifndef IOX2PS_CHILDREN_H
#define IOX2PS_CHILDREN_H

#include <signal.h>
#include <stdbool.h>
#include <stdint.h>
#include <stdlib.h>
#include <sys/prctl.h>
#include <sys/wait.h>
#include <unistd.h>

/* A child that ends with its parent, so that a test that fails leaves no process behind. */
static inline pid_t fork_child(void) {
  pid_t parent = getpid(), child = fork();
  /* The parent may have ended before the system knew. */
  if (child == 0 && (prctl(PR_SET_PDEATHSIG, SIGKILL) != 0 || getppid() != parent)) _exit(1);
  return child;
}

/* A child that does this, and ends well behind it. */
static inline pid_t child_that(void (*runs)(void)) {
  pid_t child = fork_child();
  if (child < 0) abort();
  if (child > 0) return child;
  runs();
  _exit(0);
}

/* The same with a number. */
static inline pid_t run_child(void (*runs)(uint64_t which), uint64_t which) {
  pid_t child = fork_child();
  if (child < 0) abort();
  if (child > 0) return child;
  runs(which);
  _exit(0);
}

/* Whether it was ended so, and not by a fault of its own. */
static inline bool was_killed(int status) { return WIFSIGNALED(status) && WTERMSIG(status) == SIGKILL; }

/* How it has ended, when it has. */
static inline int status_of(pid_t child) {
  int status;
  if (waitpid(child, &status, 0) != child) abort();
  return status;
}

#endif
