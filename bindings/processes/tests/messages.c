// SPDX-License-Identifier: Apache-2.0 OR MIT
#define _GNU_SOURCE
/* Processes that open a mailbox by its name pass messages of 64 bytes, written and read in place.
 *
 *   messages                        runs the tests
 *   messages send NAME COUNT        sends so many messages, numbered from 1 on
 *   messages receive NAME COUNT     receives so many, and says their sum */
#include "children.h"
#include "mailbox.h"
#include <sys/mman.h>
#include <sys/wait.h>
#include <time.h>

enum { MESSAGES = 1000, PUBLISHERS = 10 };

/* Sleeping gets a turn sooner than yielding, where others use the processors. */
static void pause_shortly(void) { nanosleep(&(struct timespec){.tv_nsec = 20000}, NULL); }

static void send_number(member_t *it, uint64_t number) {
  uint64_t slot;
  while ((slot = call(it, LEND, 0)) == NOTHING) pause_shortly();
  for (int i = 0; i < BYTES / 8; i++) ((volatile uint64_t *)bytes_of(it, slot))[i] = number;
  CHECK(call(it, SEND, slot) == slot);
}

/* The number of the next message. All its words are the same. */
static uint64_t receive_number(member_t *it) {
  while (mailbox_of(it)->head == mailbox_of(it)->tail) {
    CHECK(replica_follow(&it->replica, LENGTH, true) == REPLICA_OK);
    pause_shortly();
  }
  uint64_t slot = call(it, RECEIVE, 0);
  if (slot == NOTHING) return 0;
  const volatile uint64_t *words = (const volatile uint64_t *)bytes_of(it, slot);
  uint64_t number = words[0];
  for (int i = 1; i < BYTES / 8; i++) CHECK(words[i] == number);
  CHECK(call(it, RELEASE, slot) == slot);
  return number;
}

static void send_all(const char *name, uint64_t first, uint64_t count) {
  member_t it;
  CHECK(join_mailbox(&it, name, SHARED_OPEN_OR_CREATE, true) == SHARED_OK);
  for (uint64_t number = first; number < first + count; number++) send_number(&it, number);
  leave_mailbox(&it);
}

static uint64_t receive_all(const char *name, uint64_t count) {
  member_t it;
  uint64_t sum = 0, before = 0;
  CHECK(join_mailbox(&it, name, SHARED_OPEN_OR_CREATE, false) == SHARED_OK);
  for (uint64_t received = 0; received < count; received++) {
    uint64_t number = receive_number(&it);
    CHECK(number == before + 1); /* of one sender, in its order */
    sum += before = number;
  }
  leave_mailbox(&it);
  return sum;
}

static bool exists(const char *name) {
  char path[300];
  snprintf(path, sizeof path, "/dev/shm/iox2ps.%s.calls", name);
  return access(path, F_OK) == 0;
}

static pid_t child_with_name(void (*runs)(const char *), const char *name) {
  pid_t child = fork_child();
  CHECK(child >= 0);
  if (child > 0) return child;
  runs(name);
  _exit(0);
}


static void sends(const char *name) { send_all(name, 1, MESSAGES); }

static void messages_by_name(const char *name) {
  member_t keeper; /* so that the name stays until both have come */
  CHECK(join_mailbox(&keeper, name, SHARED_CREATE, false) == SHARED_OK);
  pid_t sender = child_with_name(sends, name);
  CHECK(receive_all(name, MESSAGES) == (uint64_t)MESSAGES * (MESSAGES + 1) / 2);
  CHECK(status_of(sender) == 0);
  /* Nobody took it for dead. */
  CHECK(keeper.files.places.shared->numbers[keeper.files.places.own] == keeper.files.number);
  leave_mailbox(&keeper);
  CHECK(!exists(name));
}

static void sends_for_ever(const char *name) { send_all(name, 1, UINT64_MAX / 2); }

/* Publishers that are killed at any time: whoever has the mailbox goes on, and no slot is lost. */
static void killed_publishers(const char *name) {
  member_t it;
  CHECK(join_mailbox(&it, name, SHARED_CREATE, false) == SHARED_OK);
  for (int i = 0; i < PUBLISHERS; i++) {
    pid_t publisher = child_with_name(sends_for_ever, name);
    for (int n = 0; n < 20 + 7 * i; n++) receive_number(&it);
    CHECK(kill(publisher, SIGKILL) == 0);
    status_of(publisher);
    reap(&it);
    while (mailbox_of(&it)->head != mailbox_of(&it)->tail) receive_number(&it);
    for (int slot = 0; slot < SLOTS; slot++) CHECK(mailbox_of(&it)->slots[slot].state == FREE);
    for (uint32_t place = 1; place < PLACES; place++) CHECK(it.files.places.shared->numbers[place] == 0);
  }
  leave_mailbox(&it);
  CHECK(!exists(name));
}

static void writes_what_it_may_not(const char *name) {
  member_t it;
  CHECK(join_mailbox(&it, name, SHARED_OPEN, false) == SHARED_OK);
  *(volatile char *)bytes_of(&it, 0) = 1;
}

/* A process that publishes nothing can't write a message by mistake: it ends. */
static void stray_write(const char *name) {
  member_t it;
  CHECK(join_mailbox(&it, name, SHARED_CREATE, true) == SHARED_OK);
  uint64_t slot = call(&it, LEND, 0);
  CHECK(slot == 0);
  memset(bytes_of(&it, slot), 42, BYTES);
  int status = status_of(child_with_name(writes_what_it_may_not, name));
  CHECK(WIFSIGNALED(status) && WTERMSIG(status) == SIGSEGV);
  for (int i = 0; i < BYTES; i++) CHECK(bytes_of(&it, slot)[i] == 42);
  leave_mailbox(&it);
}

int main(int count, char **words) {
  if (count == 4 && strcmp(words[1], "send") == 0) {
    send_all(words[2], 1, strtoull(words[3], NULL, 10));
  } else if (count == 4 && strcmp(words[1], "receive") == 0) {
    printf("the sum of all messages: %llu\n", (unsigned long long)receive_all(words[2], strtoull(words[3], NULL, 10)));
  } else if (count == 1) {
    char name[64];
    snprintf(name, sizeof name, "test_messages.%d", (int)getpid());
    messages_by_name(name);
    killed_publishers(name);
    stray_write(name);
    puts("messages between processes: all came");
  } else {
    return 2;
  }
  return 0;
}
