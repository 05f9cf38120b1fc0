// SPDX-License-Identifier: Apache-2.0 OR MIT
#define _GNU_SOURCE
/* Three processes make random calls and sleep, and one of them is killed again and again, at any time. No message is torn, all others
 * go on, and nothing is left of who died.
 *
 *   kills          60 kills
 *   kills whole    3,000 */
#include "children.h"
#include "mailbox.h"
#include "random.h"
#include <sys/wait.h>
#include <time.h>

enum { WORKERS = 3, SHORT = 60, WHOLE = 3000, CHECK_EVERY = 20, SLEEP_NS = 300000 };

static char name[64];
static member_t keeper;

static void write_message(const member_t *it, uint64_t slot, uint64_t number) {
  for (int i = 0; i < BYTES / 8; i++) ((volatile uint64_t *)bytes_of(it, slot))[i] = number;
}

static void check_message(const member_t *it, uint64_t slot) {
  const volatile uint64_t *words = (const volatile uint64_t *)bytes_of(it, slot);
  for (int i = 1; i < BYTES / 8; i++) CHECK(words[i] == words[0]);
}

static bool has_message(void *waiter) { return mailbox_of(waiter)->head != mailbox_of(waiter)->tail; }
static bool has_room(void *waiter) {
  for (int slot = 0; slot < SLOTS; slot++)
    if (mailbox_of(waiter)->slots[slot].state == FREE) return true;
  return false;
}

static void send(member_t *it, uint64_t number) {
  bool was_there;
  uint64_t slot = call(it, LEND, 0);
  if (slot == NOTHING) {
    CHECK(member_wait(it, ROOM, has_room, it, SLEEP_NS, &was_there) == REPLICA_OK);
    return;
  }
  write_message(it, slot, number);
  CHECK(call(it, SEND, slot) == slot);
}

static void receive_and_look(member_t *it) {
  bool was_there;
  CHECK(member_wait(it, MESSAGE, has_message, it, SLEEP_NS, &was_there) == REPLICA_OK);
  uint64_t slot = call(it, RECEIVE, 0);
  if (slot == NOTHING) return;
  check_message(it, slot);
  CHECK(call(it, RELEASE, slot) == slot);
}

static void work(uint64_t seed) {
  member_t it;
  shared_files_drop_in_child(&keeper.files);
  CHECK(join_mailbox(&it, name, SHARED_OPEN, true) == SHARED_OK);
  it.reap_every_ms = 1 + seed % 3;
  while (true) {
    switch (next_random(&seed) % 16) {
      case 0: CHECK(replica_follow(&it.replica, LENGTH, true) == REPLICA_OK); break;
      case 1: reap(&it); break;
      default: if (next_random(&seed) % 2 == 0) send(&it, seed); else receive_and_look(&it);
    }
  }
}

static pid_t start(uint64_t seed) {
  pid_t child = fork_child();
  CHECK(child >= 0);
  if (child == 0) work(seed);
  return child;
}

static void end(pid_t child) {
  int status;
  CHECK(kill(child, SIGKILL) == 0 && waitpid(child, &status, 0) == child && was_killed(status));
}

static bool is_like_keeper(const member_t *it) { return memcmp(it->replica.memory, keeper.replica.memory, sizeof(mailbox_t)) == 0; }

/* All workers are dead. */
static void check_nothing_is_left(void) {
  member_t joins;
  reap(&keeper);
  while (has_message(&keeper)) receive_and_look(&keeper);
  for (int slot = 0; slot < SLOTS; slot++) CHECK(mailbox_of(&keeper)->slots[slot].state == FREE);
  for (uint32_t place = 1; place < PLACES; place++) CHECK(keeper.files.places.shared->numbers[place] == 0);
  CHECK(join_mailbox(&joins, name, SHARED_OPEN, false) == SHARED_OK && is_like_keeper(&joins));
  leave_mailbox(&joins);
}

int main(int count, char **words) {
  int kills = count > 1 && strcmp(words[1], "whole") == 0 ? WHOLE : SHORT;
  uint64_t random = 1;
  pid_t workers[WORKERS];
  snprintf(name, sizeof name, "test_kills.%d", (int)getpid());
  CHECK(join_mailbox(&keeper, name, SHARED_CREATE, true) == SHARED_OK);
  for (int done = 0; done < kills; done += CHECK_EVERY) {
    for (int i = 0; i < WORKERS; i++) workers[i] = start(next_random(&random));
    for (int i = 0; i < CHECK_EVERY; i++) {
      pid_t *one = &workers[next_random(&random) % WORKERS];
      nanosleep(&(struct timespec){.tv_nsec = 600000 + (long)(next_random(&random) % 3000000)}, NULL);
      end(*one);
      if (i % 2 == 0) receive_and_look(&keeper);
      *one = start(next_random(&random));
    }
    for (int i = 0; i < WORKERS; i++) end(workers[i]);
    check_nothing_is_left();
  }
  printf("%d kills, %llu calls: nothing is left\n", kills, (unsigned long long)keeper.replica.memory->progress.made);
  leave_mailbox(&keeper);
  return 0;
}
