// SPDX-License-Identifier: Apache-2.0 OR MIT
#define _GNU_SOURCE
/* A process is stopped before an access to shared memory, and then killed: as it creates, joins, takes the place of a dead one over, reaps,
 * calls, copies and leaves. While it is stopped, no call of another takes more accesses than a bound; when it is dead, all that it had is given back.
 * And several are stopped while each copies: whoever joins has a copy, then and when they have gone on.
 *
 *   steps          before every eleventh access
 *   steps whole    before each */
#include "children.h"
#include "mailbox.h"
#include <sys/wait.h>

/* What a call takes at most: a copy made and one loaded, its own entry, and two calls of others. */
enum { MOST_ACCESSES = 2 * sizeof(mailbox_t) / 8 + 100, ROUNDS = 5 };

static uint64_t accesses, stops_at, most;
static char name[64];

void before_access(void) {
  if (++accesses == stops_at) raise(SIGSTOP);
}

static uint64_t counted_call(member_t *it, operation_t operation, uint64_t argument) {
  uint64_t before = accesses, reply = call(it, operation, argument);
  if (accesses - before > most) most = accesses - before;
  CHECK(most <= MOST_ACCESSES);
  return reply;
}

/* Sends and receives, as long as another process has some slots. */
static void make_calls(member_t *it) {
  for (int round = 0; round < ROUNDS; round++) {
    uint64_t slot = counted_call(it, LEND, 0);
    CHECK(slot != NOTHING && counted_call(it, SEND, slot) == slot);
    while ((slot = counted_call(it, RECEIVE, 0)) != NOTHING) CHECK(counted_call(it, RELEASE, slot) == slot);
  }
}

/* So that whoever has time makes a copy, in pieces. */
static void call_until_copy(member_t *it) {
  const replica_t *replica = &it->replica;
  while (replica->memory->progress.made + 1 < copies_newest(&replica->copies) + LENGTH / 8 * 3) call(it, RELEASE, NOTHING);
}

static void live(void) {
  member_t it;
  CHECK(join_mailbox(&it, name, SHARED_OPEN_OR_CREATE, true) == SHARED_OK);
  for (int round = 0; round < 2; round++) {
    uint64_t slot = call(&it, LEND, 0);
    if (slot != NOTHING) call(&it, SEND, slot);
    slot = call(&it, RECEIVE, 0);
    do CHECK(replica_follow(&it.replica, LENGTH, true) == REPLICA_OK);
    while (it.replica.is_copying);
    if (slot != NOTHING) call(&it, RELEASE, slot);
  }
  leave_mailbox(&it);
}

/* Copies and leaves, and stops in the copy alone. */
static void copy(void) {
  member_t it;
  uint64_t access = stops_at;
  stops_at = 0;
  CHECK(join_mailbox(&it, name, SHARED_OPEN, false) == SHARED_OK);
  accesses = 0, stops_at = access;
  copies_make(&it.replica.copies, it.replica.place, it.replica.memory->progress.made, it.replica.memory, sizeof(mailbox_t));
  stops_at = 0;
  leave_mailbox(&it);
}

/* Starts a process that does this and stops before this access. False if it comes to its end first. */
static bool start_that(void (*runs)(void), uint64_t access, pid_t *child) {
  *child = fork_child();
  CHECK(*child >= 0);
  if (*child == 0) {
    accesses = 0, stops_at = access;
    runs();
    _exit(0);
  }
  int status;
  CHECK(waitpid(*child, &status, WUNTRACED) == *child);
  CHECK(WIFSTOPPED(status) || (WIFEXITED(status) && WEXITSTATUS(status) == 0));
  return WIFSTOPPED(status);
}

static bool start(uint64_t access, pid_t *child) { return start_that(live, access, child); }

static void end(pid_t child) { CHECK(kill(child, SIGKILL) == 0 && waitpid(child, NULL, 0) == child); }

/* Who joins has the same object. */
static void check_joins(member_t *it) {
  member_t joins;
  CHECK(replica_follow(&it->replica, UINT64_MAX, false) == REPLICA_OK);
  CHECK(join_mailbox(&joins, name, SHARED_OPEN, false) == SHARED_OK);
  CHECK(memcmp(joins.replica.memory, it->replica.memory, sizeof(mailbox_t)) == 0);
  leave_mailbox(&joins);
}

/* Nothing is left of others, and who joins has the same object. */
static void check_all_is_given_back(member_t *it) {
  make_calls(it);
  for (int slot = 0; slot < SLOTS; slot++) CHECK(mailbox_of(it)->slots[slot].state == FREE);
  for (uint32_t place = 1; place < PLACES; place++) CHECK(it->files.places.shared->numbers[place] == 0);
  check_joins(it);
}

/* Has a slot, and dies. */
static void leave_a_dead_process(void) {
  pid_t child = fork_child();
  if (child == 0) {
    member_t it;
    CHECK(join_mailbox(&it, name, SHARED_OPEN, true) == SHARED_OK && call(&it, LEND, 0) != NOTHING);
    raise(SIGKILL);
  }
  CHECK(waitpid(child, NULL, 0) == child);
}

/* With calls while the process is stopped, or killed at once, so that what it announced isn't in the list. */
static uint64_t kill_members(uint64_t stride, bool with_calls, bool one_is_dead) {
  uint64_t count = 0;
  member_t it;
  pid_t child;
  CHECK(join_mailbox(&it, name, SHARED_CREATE, true) == SHARED_OK);
  bool goes_on = true;
  for (uint64_t access = 1; goes_on; access += stride, count++) {
    if (one_is_dead) leave_a_dead_process();
    call_until_copy(&it);
    if ((goes_on = start(access, &child))) {
      if (with_calls) make_calls(&it);
      end(child);
    }
    reap(&it);
    check_all_is_given_back(&it);
  }
  leave_mailbox(&it);
  return count;
}

/* In a mailbox that is full, each takes over the place of the one killed before, whatever that was doing; and so does one that lives. */
static uint64_t kill_in_a_full_one(uint64_t stride) {
  uint64_t count = 0;
  member_t it;
  pid_t child;
  most_places = 2;
  CHECK(join_mailbox(&it, name, SHARED_CREATE, true) == SHARED_OK);
  leave_a_dead_process();
  for (uint64_t access = 1; start(access, &child); access += stride, count++) {
    if (count % 2 == 0) make_calls(&it);
    end(child);
    if (count % 3 == 0) CHECK(!start(UINT64_MAX, &child));
  }
  CHECK(!start(UINT64_MAX, &child));
  check_all_is_given_back(&it);
  leave_mailbox(&it);
  most_places = PLACES;
  return count;
}

static uint64_t kill_creators(uint64_t stride) {
  uint64_t count = 0;
  pid_t child;
  for (uint64_t access = 1; start(access, &child); access += stride, count++) {
    end(child);
    member_t it;
    CHECK(join_mailbox(&it, name, SHARED_OPEN_OR_CREATE, true) == SHARED_OK);
    check_all_is_given_back(&it);
    leave_mailbox(&it);
  }
  return count;
}

/* More calls than the list has. Not as many each time, so that the last copy that comes due lies in either buffer. */
static void make_many_calls(member_t *it, uint64_t round) {
  for (uint64_t i = 0; i < 6 + round % 4; i++) make_calls(it);
}

/* All but one, and a place for who joins. */
static uint64_t stop_copiers(uint64_t stride) {
  enum { COPIERS = PLACES - 2 };
  uint64_t count = 0, round = 0;
  member_t it;
  CHECK(join_mailbox(&it, name, SHARED_CREATE, true) == SHARED_OK);
  bool goes_on = true;
  for (uint64_t access = 1; goes_on; access += stride, round++) {
    pid_t children[COPIERS];
    int stopped = 0;
    while (stopped < COPIERS && (goes_on = start_that(copy, access, &children[stopped]))) make_calls(&it), check_joins(&it), stopped++;
    make_many_calls(&it, round);
    check_joins(&it);
    for (int i = 0; i < stopped; i++) CHECK(kill(children[i], SIGCONT) == 0 && status_of(children[i]) == 0);
    check_joins(&it);
    count += (uint64_t)stopped;
  }
  check_all_is_given_back(&it);
  leave_mailbox(&it);
  return count;
}

int main(int argument_count, char **arguments) {
  uint64_t stride = argument_count > 1 && strcmp(arguments[1], "whole") == 0 ? 1 : 11;
  snprintf(name, sizeof name, "test_steps.%d", (int)getpid());
  uint64_t count = kill_members(stride, true, false);
  count += kill_members(stride, true, true);
  count += kill_members(stride > 3 ? 3 : stride, false, false); /* so that some die between what they announce and its swap */
  count += kill_in_a_full_one(stride);
  count += kill_creators(stride);
  uint64_t copiers = stop_copiers(stride);
  printf("%llu processes were stopped and killed, and %llu stopped while they copied; a call took %llu accesses at most\n", (unsigned long long)count,
         (unsigned long long)copiers, (unsigned long long)most);
  return 0;
}
