// SPDX-License-Identifier: Apache-2.0 OR MIT
#define _GNU_SOURCE
/* Processes sleep until others have called: they are woken, or look by themselves if nobody is left to wake them; and how many calls of
 * the system that takes. */
#include "futex.h"
#include "mailbox.h"
#include "traced.h"

enum { TURNS = 200, CALLS = 1000, LONG_MS = 100000, SHORT_MS = 50, LOOKS = 8 };

static uint64_t deaths;
static void note_death(void *listener, uint32_t place, uint64_t number) {
  *(uint64_t *)listener += 1;
  CHECK(place != 0 && number > 1);
}

static void join(member_t *it, const char *name, shared_mode_t mode, uint32_t reap_every_ms) {
  CHECK(join_mailbox(it, name, mode, true) == SHARED_OK);
  it->reap_every_ms = reap_every_ms;
  it->died = note_death, it->listener = &deaths;
}

static uint64_t ms_since(uint64_t before) { return (futex_clock() - before) / 1000000; }

static bool has_message(void *waiter) { return mailbox_of(waiter)->head != mailbox_of(waiter)->tail; }
static bool all_is_free(void *waiter) {
  for (int slot = 0; slot < SLOTS; slot++)
    if (mailbox_of(waiter)->slots[slot].state != FREE) return false;
  return true;
}

/* So many messages were received. */
static uint64_t expected;
static bool is_received(void *waiter) { return mailbox_of(waiter)->head >= expected; }

static void wait_for(member_t *it, uint32_t reason, member_is_there_t *is_there) {
  bool was_there;
  CHECK(member_wait(it, reason, is_there, it, SLEEP_FOREVER, &was_there) == REPLICA_OK && was_there);
}

static void receive_one(member_t *it) {
  wait_for(it, MESSAGE, has_message);
  CHECK(call(it, RELEASE, call(it, RECEIVE, 0)) != NOTHING);
}

static void send_one(member_t *it) {
  uint64_t slot = call(it, LEND, 0);
  CHECK(slot != NOTHING && call(it, SEND, slot) == slot);
}

static void answers(const char *name, pid_t self) {
  (void)self;
  member_t it;
  join(&it, name, SHARED_OPEN, LONG_MS);
  for (int turn = 0; turn < TURNS; turn++) {
    receive_one(&it);
    send_one(&it);
    expected = 2 * (uint64_t)turn + 2; /* so that it doesn't receive its own answer */
    wait_for(&it, ROOM, is_received);
  }
  leave_mailbox(&it);
}

/* Both sleep at each turn, and neither would look by itself in time. */
static void woken(const char *name) {
  member_t it;
  join(&it, name, SHARED_CREATE, LONG_MS);
  pid_t child = fork_child();
  if (child == 0) answers(name, 0), _exit(0);
  for (int turn = 0; turn < TURNS; turn++) {
    send_one(&it);
    expected = 2 * (uint64_t)turn + 1;
    wait_for(&it, ROOM, is_received);
    receive_one(&it);
  }
  int status;
  CHECK(waitpid(child, &status, 0) == child && status == 0);
  leave_mailbox(&it);
}

static void timed_out(const char *name) {
  member_t it;
  bool was_there = true;
  join(&it, name, SHARED_CREATE, LONG_MS);
  uint64_t before = futex_clock();
  CHECK(member_wait(&it, MESSAGE, has_message, &it, 0, &was_there) == REPLICA_OK && !was_there);
  CHECK(member_wait(&it, MESSAGE, has_message, &it, 30000000, &was_there) == REPLICA_OK && !was_there);
  CHECK(ms_since(before) >= 30 && it.files.sleepers->asleep[0] == 0);
  leave_mailbox(&it);
}

/* Sends, has another slot, and dies before it wakes anybody. */
static void dies_before_it_wakes(const char *name) {
  member_t it;
  join(&it, name, SHARED_OPEN, LONG_MS);
  uint64_t sent = call(&it, LEND, 0);
  CHECK(call(&it, LEND, 0) != NOTHING);
  while (it.files.sleepers->asleep[0] == 0) usleep(1000);
  uint64_t arguments[CALL_ARGUMENTS] = {SEND, sent};
  CHECK(replica_call(&it.replica, arguments) == REPLICA_OK);
  raise(SIGKILL);
}

/* The sleeper finds the message, then what the dead process had, and is told of it. One that doesn't look by itself sleeps for good. */
static void left_asleep(const char *name) {
  member_t it;
  join(&it, name, SHARED_CREATE, SHORT_MS);
  deaths = 0;
  pid_t child = fork_child();
  if (child == 0) dies_before_it_wakes(name);
  receive_one(&it);
  wait_for(&it, ROOM, all_is_free);
  CHECK(it.files.places.shared->numbers[1] == 0);
  CHECK(waitpid(child, NULL, 0) == child);
  CHECK(deaths == 1);
  leave_mailbox(&it);
}

/* Of a process that leaves nobody hears, nor of those that died before. */
static void who_is_told(const char *name) {
  member_t it, other;
  join(&it, name, SHARED_CREATE, SHORT_MS);
  deaths = 0;
  for (int i = 0; i < 2; i++) {
    join(&other, name, SHARED_OPEN, SHORT_MS);
    leave_mailbox(&other);
    reap(&it);
    CHECK(deaths == 0);
  }
  leave_mailbox(&it);
}

static void calls_alone(const char *name, pid_t self) {
  member_t it;
  join(&it, name, SHARED_OPEN, LONG_MS);
  mark(self);
  for (int i = 0; i < CALLS; i++) send_one(&it), CHECK(call(&it, RELEASE, call(&it, RECEIVE, 0)) != NOTHING);
  mark(self);
  leave_mailbox(&it);
}

/* One sleeps until there is a message, and one until there is room: neither ever finds it. */
static bool never(void *waiter) {
  (void)waiter;
  return false;
}
static void sleeps_for(const char *name, uint32_t reason) {
  member_t it;
  bool was_there;
  join(&it, name, SHARED_OPEN, LONG_MS);
  CHECK(member_wait(&it, reason, never, &it, SLEEP_FOREVER, &was_there) == REPLICA_OK);
}

static void wakes_one(const char *name, pid_t self) {
  member_t it;
  join(&it, name, SHARED_OPEN, LONG_MS);
  while (it.files.sleepers->asleep[0] == 0 || it.files.sleepers->asleep[1] == 0) usleep(1000);
  mark(self);
  send_one(&it);
  mark(self);
}

static void sleeps_alone(const char *name, pid_t self) {
  member_t it;
  bool was_there;
  join(&it, name, SHARED_OPEN, SHORT_MS);
  mark(self);
  CHECK(member_wait(&it, MESSAGE, has_message, &it, (uint64_t)LOOKS * SHORT_MS * 1000000, &was_there) == REPLICA_OK && !was_there);
  mark(self);
  leave_mailbox(&it);
}

/* Calls of the system that a child makes between its marks: the end of one mark and the beginning of the next are a stop each. */
static uint64_t calls_of_system(void (*run)(const char *, pid_t), const char *name) {
  bool is_at_mark;
  pid_t child = traced_child(run, name);
  CHECK(child > 0);
  uint64_t stops = run_to_mark(child, PTRACE_SYSCALL, UINT64_MAX, &is_at_mark);
  CHECK(is_at_mark && stops % 2 == 0);
  end_child(child);
  return stops / 2 - 1;
}

/* None where nobody sleeps, one to wake the one process that it may help, and one sleep and one look at each other process where
 * nothing happens. */
static void few_calls_of_system(const char *name) {
  member_t all[3];
  pid_t sleepers[2];
  join(&all[0], name, SHARED_CREATE, LONG_MS);
  for (int i = 1; i < 3; i++) join(&all[i], name, SHARED_OPEN, LONG_MS);
  CHECK(calls_of_system(calls_alone, name) == 0);
  reap(&all[0]);
  for (uint32_t reason = MESSAGE; reason <= ROOM; reason++)
    if ((sleepers[reason - 1] = fork_child()) == 0) sleeps_for(name, reason);
  CHECK(calls_of_system(wakes_one, name) == 1);
  for (int i = 0; i < 2; i++) end_child(sleepers[i]);
  reap(&all[0]);
  receive_one(&all[0]);
  uint64_t idle = calls_of_system(sleeps_alone, name);
  CHECK(idle >= 1 && idle <= LOOKS * (1 + 3));
  for (int i = 2; i >= 0; i--) reap(&all[i]), leave_mailbox(&all[i]);
}

int main(int count, char **words) {
  char name[64];
  snprintf(name, sizeof name, "test_sleeps.%d", (int)getpid());
  woken(name);
  timed_out(name);
  left_asleep(name);
  who_is_told(name);
  if (count < 2 || strcmp(words[1], "untraced") != 0) few_calls_of_system(name);
  puts("sleep: who sleeps is woken, or looks by itself");
  return 0;
}
