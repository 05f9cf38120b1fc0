// SPDX-License-Identifier: Apache-2.0 OR MIT
#define _GNU_SOURCE
/* Whoever opens a mailbox, or is refused since there is no room, gives back first what dead processes had; and a process that runs
 * another program is as good as dead. */
#include "children.h"
#include "mailbox.h"
#include <sys/wait.h>

enum { PUBLISHERS = 10 };

static member_t *keeper;
static uint64_t told;
static void tell(void *listener, uint32_t place, uint64_t number) {
  (void)listener, (void)place;
  CHECK(number > told);
  told = number;
}

static void open_keeper(member_t *it, const char *name) {
  CHECK(join_mailbox(it, name, SHARED_CREATE, true) == SHARED_OK);
  it->died = tell;
  keeper = it, told = 0;
}

/* A child that has the mailbox, and not its parent's place. */
static pid_t child_with_mailbox(const char *name, member_t *it) {
  pid_t child = fork_child();
  CHECK(child >= 0);
  if (child > 0) return child;
  shared_files_drop_in_child(&keeper->files);
  CHECK(join_mailbox(it, name, SHARED_OPEN, true) == SHARED_OK);
  return 0;
}


/* Publishers die one after the other with slots, in a mailbox that is full each time and whose keeper does nothing. */
static void a_place_for_the_next(const char *name) {
  member_t it, publisher;
  most_places = 2;
  open_keeper(&it, name);
  for (int i = 0; i < PUBLISHERS; i++) {
    pid_t child = child_with_mailbox(name, &publisher);
    if (child == 0) {
      for (int slot = 0; slot < SLOTS; slot++) CHECK(call(&publisher, LEND, 0) != NOTHING);
      raise(SIGKILL);
    }
    CHECK(was_killed(status_of(child)));
  }
  pid_t child = child_with_mailbox(name, &publisher);
  if (child == 0) {
    CHECK(places_begun(publisher.files.number) == 2 + PUBLISHERS && call(&publisher, LEND, 0) == 0);
    leave_mailbox(&publisher);
    _exit(0);
  }
  CHECK(status_of(child) == 0);
  reap(&it);
  CHECK(places_begun(told) == 1 + PUBLISHERS); /* the last that died */
  leave_mailbox(&it);
  most_places = PLACES;
}

static void one_too_many(const char *name) {
  member_t it, other, more;
  most_places = 2;
  open_keeper(&it, name);
  CHECK(join_mailbox(&other, name, SHARED_OPEN, true) == SHARED_OK && join_mailbox(&more, name, SHARED_OPEN, true) == SHARED_FULL);
  leave_mailbox(&other);
  leave_mailbox(&it);
  most_places = PLACES;
}

/* Whoever is refused a slot looks for the dead, and tries again. */
static void a_slot_for_the_next(const char *name) {
  member_t it, publisher;
  open_keeper(&it, name);
  pid_t child = child_with_mailbox(name, &publisher);
  if (child == 0) {
    for (int slot = 0; slot < SLOTS; slot++) CHECK(call(&publisher, LEND, 0) != NOTHING);
    raise(SIGKILL);
  }
  CHECK(was_killed(status_of(child)));
  size_t found;
  CHECK(call(&it, LEND, 0) == NOTHING);
  CHECK(member_reap(&it, &found) == REPLICA_OK && found == 1 && places_begun(told) == 2);
  CHECK(call(&it, LEND, 0) == 0);
  leave_mailbox(&it);
}

/* Whoever enters a mailbox that has places left looks for the dead, too. */
static void given_back_as_one_enters(const char *name) {
  member_t it, publisher, next;
  open_keeper(&it, name);
  pid_t child = child_with_mailbox(name, &publisher);
  if (child == 0) {
    CHECK(call(&publisher, LEND, 0) == 0);
    raise(SIGKILL);
  }
  CHECK(was_killed(status_of(child)));
  CHECK(join_mailbox(&next, name, SHARED_OPEN, true) == SHARED_OK && mailbox_of(&next)->slots[0].state == FREE);
  leave_mailbox(&next);
  leave_mailbox(&it);
}

/* Nobody says the end of a process again when another has its place: what the next one has stays. */
static void said_late(const char *name) {
  member_t it, first, next;
  open_keeper(&it, name);
  CHECK(join_mailbox(&first, name, SHARED_OPEN, true) == SHARED_OK);
  leave_mailbox(&first);
  CHECK(join_mailbox(&next, name, SHARED_OPEN, true) == SHARED_OK);
  CHECK(call(&next, LEND, 0) == 0);
  call_end_t end = {next.replica.place, first.files.number, true};
  CHECK(replica_call_end(&it.replica, end) == REPLICA_OK && mailbox_of(&it)->slots[0].state == LENT);
  end.number = next.files.number;
  CHECK(replica_call_end(&it.replica, end) == REPLICA_OK && mailbox_of(&it)->slots[0].state == FREE);
  shared_files_close(&next.files);
  free(next.replica.memory);
  leave_mailbox(&it);
}

/* The other program neither has the files nor keeps the place. */
static void another_program(const char *name, const char *self) {
  member_t it, other;
  int to_child[2];
  open_keeper(&it, name);
  CHECK(pipe(to_child) == 0);
  pid_t child = child_with_mailbox(name, &other);
  if (child == 0) {
    char fd[16];
    snprintf(fd, sizeof fd, "%d", to_child[0]);
    CHECK(call(&other, LEND, 0) == 0);
    close(to_child[1]);
    execl(self, self, "wait", fd, (char *)NULL);
    _exit(1);
  }
  size_t found = 0;
  while (found == 0) {
    CHECK(member_reap(&it, &found) == REPLICA_OK);
    usleep(1000);
  }
  CHECK(found == 1);
  CHECK(mailbox_of(&it)->slots[0].state == FREE && places_begun(told) == 2);
  CHECK(waitpid(child, NULL, WNOHANG) == 0); /* it runs still */
  close(to_child[0]), close(to_child[1]);
  CHECK(status_of(child) == 0);
  leave_mailbox(&it);
}

int main(int count, char **words) {
  char name[64], byte;
  if (count == 3) return read(atoi(words[2]), &byte, 1) != 0;
  snprintf(name, sizeof name, "test_deaths.%d", (int)getpid());
  a_place_for_the_next(name);
  one_too_many(name);
  a_slot_for_the_next(name);
  given_back_as_one_enters(name);
  said_late(name);
  if (count < 2) another_program(name, words[0]); /* an emulator of one program runs no other */
  puts("deaths: whoever comes next has room");
  return 0;
}
