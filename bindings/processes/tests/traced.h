// SPDX-License-Identifier: Apache-2.0 OR MIT
/* A child whose instructions or calls of the system this process counts, from one mark to the next. */
#ifndef IOX2PS_TRACED_H
#define IOX2PS_TRACED_H

#include "children.h"
#include <stdbool.h>
#include <stdint.h>
#include <sys/ptrace.h>
#include <sys/syscall.h>
#include <sys/wait.h>

/* Stops the child, by one call of the system. */
static void mark(pid_t self) { syscall(SYS_kill, self, SIGSTOP); }

/* A child that stops at its first mark. */
static pid_t traced_child(void (*run)(const char *name, pid_t self), const char *name) {
  pid_t child = fork_child();
  if (child == 0) {
    if (ptrace(PTRACE_TRACEME, 0, NULL, NULL) != 0) _exit(1);
    run(name, getpid());
    _exit(0);
  }
  int status;
  if (child < 0 || waitpid(child, &status, 0) != child || !WIFSTOPPED(status)) return -1;
  return ptrace(PTRACE_SETOPTIONS, child, NULL, PTRACE_O_TRACESYSGOOD | PTRACE_O_EXITKILL) == 0 ? child : -1;
}

/* Lets it run until its next mark or its end, or for so many stops (PTRACE_SYSCALL: two for each call; PTRACE_SINGLESTEP: one for
 * each instruction). Returns how many there were. */
static uint64_t run_to_mark(pid_t child, int request, uint64_t most, bool *is_at_mark) {
  int status;
  uint64_t stops = 0;
  for (; stops < most; stops++) {
    if (ptrace((enum __ptrace_request)request, child, NULL, NULL) != 0 || waitpid(child, &status, 0) != child) return UINT64_MAX;
    *is_at_mark = WIFSTOPPED(status) && WSTOPSIG(status) == SIGSTOP;
    if (*is_at_mark || !WIFSTOPPED(status)) break;
  }
  return stops;
}

static inline void end_child(pid_t child) {
  kill(child, SIGKILL);
  waitpid(child, NULL, 0);
}

#endif
