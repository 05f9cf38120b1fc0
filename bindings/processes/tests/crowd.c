// SPDX-License-Identifier: Apache-2.0 OR MIT
#define _GNU_SOURCE
/* Many processes open a name and leave at once: each enters or is told that there are too many, and a call of each that enters is made.
 *
 *   crowd          100 processes
 *   crowd whole    1,000 */
#include "children.h"
#include "mailbox.h"
#include <sys/wait.h>

enum { SHORT = 100, WHOLE = 1000, TOO_MANY = 2 };

static char name[64];

static void enter_and_leave(int start_fd) {
  member_t it;
  char byte;
  CHECK(read(start_fd, &byte, 1) == 0); /* when the parent closes it */
  shared_status_t status = join_mailbox(&it, name, SHARED_OPEN_OR_CREATE, true);
  if (status == SHARED_FULL) _exit(TOO_MANY);
  if (status != SHARED_OK) fprintf(stderr, "%s\n", it.files.why);
  CHECK(status == SHARED_OK);
  uint64_t slot = call(&it, LEND, 0);
  CHECK(slot != NOTHING && mailbox_of(&it)->slots[slot].place == it.replica.place);
  leave_mailbox(&it);
  _exit(0);
}

int main(int count, char **words) {
  int processes = count > 1 && strcmp(words[1], "whole") == 0 ? WHOLE : SHORT, start[2], entered = 0, too_many = 0;
  snprintf(name, sizeof name, "test_crowd.%d", (int)getpid());
  CHECK(pipe(start) == 0);
  for (int i = 0; i < processes; i++) {
    pid_t child = fork_child();
    CHECK(child >= 0);
    if (child == 0) close(start[1]), enter_and_leave(start[0]);
  }
  close(start[1]);
  for (int i = 0; i < processes; i++) {
    int status;
    CHECK(wait(&status) > 0 && WIFEXITED(status));
    CHECK(WEXITSTATUS(status) == 0 || WEXITSTATUS(status) == TOO_MANY);
    if (WEXITSTATUS(status) == 0) entered++;
    else too_many++;
  }
  char path[300];
  snprintf(path, sizeof path, "/dev/shm/iox2ps.%s.calls", name);
  CHECK(entered > 0 && access(path, F_OK) != 0);
  printf("%d processes at once: %d entered, and %d were told that there are too many\n", processes, entered, too_many);
  return 0;
}
