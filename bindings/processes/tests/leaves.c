// SPDX-License-Identifier: Apache-2.0 OR MIT
#define _GNU_SOURCE
/* A process leaves a mailbox as another comes, leaves or is refused. Either is stopped before and after each of its calls of the system, and who
 * leaves waits for nobody. Whoever comes has files that others can open, and who leaves last leaves none. */
#include "mailbox.h"
#include "traced.h"
#include <fcntl.h>
#include <poll.h>

static void leaves(const char *name, pid_t self) {
  member_t it;
  CHECK(join_mailbox(&it, name, SHARED_OPEN_OR_CREATE, true) == SHARED_OK);
  mark(self);
  leave_mailbox(&it);
}

static void comes_and_leaves(const char *name, pid_t self) {
  member_t it;
  mark(self);
  CHECK(join_mailbox(&it, name, SHARED_OPEN_OR_CREATE, true) == SHARED_OK);
  leave_mailbox(&it);
}

/* Wants another mailbox than there is. */
static void is_refused(const char *name, pid_t self) {
  member_t it;
  shared_settings_t settings = settings_of(name, true);
  settings.kinds[0].type_name = "letterbox";
  mark(self);
  shared_status_t status = join_with(&it, &settings, SHARED_OPEN);
  CHECK(status == SHARED_OTHER_TYPE || status == SHARED_NO_SUCH);
}

/* Has the mailbox until it is told to leave. */
static pid_t keep(const char *name, int *tell) {
  int told[2], ready[2];
  char byte;
  CHECK(pipe2(told, O_CLOEXEC) == 0 && pipe2(ready, O_CLOEXEC) == 0);
  pid_t child = fork_child();
  CHECK(child >= 0);
  if (child == 0) {
    member_t it;
    CHECK(join_mailbox(&it, name, SHARED_OPEN_OR_CREATE, true) == SHARED_OK && write(ready[1], "", 1) == 1 && read(told[0], &byte, 1) == 1);
    leave_mailbox(&it);
    _exit(0);
  }
  CHECK(read(ready[0], &byte, 1) == 1 && close(ready[0]) == 0 && close(ready[1]) == 0 && close(told[0]) == 0);
  *tell = told[1];
  return child;
}

static bool is_there(const char *name) {
  char path[SHARED_PATH_MAX];
  shared_path(name, SHARED_SUFFIX, path);
  bool has_list = access(path, F_OK) == 0;
  shared_path(name, SHARED_PAYLOADS_SUFFIX, path);
  return has_list || access(path, F_OK) == 0;
}

/* Whoever has the mailbox leaves while another is stopped before and after each of its calls of the system, and doesn't wait for it. In the end
 * no file is left. */
static void leaves_while(const char *name, void (*run)(const char *name, pid_t self)) {
  bool has_ended = false;
  for (uint64_t stops = 1; !has_ended; stops++) {
    int tell, status;
    bool is_at_mark;
    pid_t keeper = keep(name, &tell), other = traced_child(run, name);
    CHECK(other > 0);
    has_ended = run_to_mark(other, PTRACE_SYSCALL, stops, &is_at_mark) < stops;
    CHECK(write(tell, "", 1) == 1 && waitpid(keeper, &status, 0) == keeper && status == 0 && close(tell) == 0);
    if (!has_ended) CHECK(ptrace(PTRACE_CONT, other, NULL, NULL) == 0 && waitpid(other, &status, 0) == other && status == 0);
    CHECK(!is_there(name));
  }
}

/* Which call of the system a process is in; of one that runs, none. */
static long call_of_system(pid_t process) {
  char path[64];
  long which = -1;
  snprintf(path, sizeof path, "/proc/%d/syscall", (int)process);
  FILE *file = fopen(path, "r");
  CHECK(file != NULL);
  if (fscanf(file, "%ld", &which) != 1) which = -1;
  CHECK(fclose(file) == 0);
  return which;
}

/* Comes, says so by the descriptor, and stays. Returns then, or where it waits for the lock of who leaves. */
static pid_t come(const char *name, struct pollfd *has_come) {
  int ready[2];
  CHECK(pipe2(ready, O_CLOEXEC) == 0);
  pid_t child = fork_child();
  CHECK(child >= 0);
  if (child == 0) {
    member_t it;
    CHECK(join_mailbox(&it, name, SHARED_OPEN_OR_CREATE, true) == SHARED_OK && write(ready[1], "", 1) == 1);
    while (true) pause();
  }
  CHECK(close(ready[1]) == 0);
  *has_come = (struct pollfd){.fd = ready[0], .events = POLLIN};
  while (poll(has_come, 1, 1) == 0 && call_of_system(child) != SYS_fcntl) {}
  return child;
}

/* Stopped before and after each call of the system with which it leaves: who comes meanwhile has files that the next one can open. */
static void leaves_as_another_comes(const char *name) {
  bool has_left = false;
  for (uint64_t stops = 1; !has_left; stops++) {
    int status;
    bool is_at_mark;
    struct pollfd has_come;
    pid_t child = traced_child(leaves, name);
    CHECK(child > 0);
    has_left = run_to_mark(child, PTRACE_SYSCALL, stops, &is_at_mark) < stops;
    pid_t stays = come(name, &has_come);
    if (!has_left) CHECK(ptrace(PTRACE_CONT, child, NULL, NULL) == 0 && waitpid(child, &status, 0) == child && status == 0);
    CHECK(poll(&has_come, 1, -1) == 1 && (has_come.revents & POLLIN) != 0 && close(has_come.fd) == 0);
    member_t next;
    CHECK(join_mailbox(&next, name, SHARED_OPEN, true) == SHARED_OK && call(&next, LEND, 0) == 0);
    leave_mailbox(&next);
    end_child(stays);
  }
}

int main(void) {
  char name[64];
  snprintf(name, sizeof name, "test_leaves.%d", (int)getpid());
  leaves_as_another_comes(name);
  leaves_while(name, leaves);
  leaves_while(name, comes_and_leaves);
  leaves_while(name, is_refused);
  puts("leaves: nobody waits, and the last one leaves nothing");
  return 0;
}
