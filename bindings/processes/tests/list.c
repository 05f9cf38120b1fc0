// SPDX-License-Identifier: Apache-2.0 OR MIT
#define _GNU_SOURCE
/* Several processes make calls at once, in short lists; some are killed in the middle of it. All objects that are left are the same,
 * and have each call of who ended well once. */
#include "children.h"
#include "shared_object.h"
#include <sys/wait.h>

enum { CALLS = 20000, KILLS = 60 };

/* The calls of one process. Each object gives it the reply that the list has there. */
static void make_calls(void *shared, uint32_t place, uint64_t count) {
  replica_t it = object_of(shared, place);
  CHECK(replica_join(&it) == REPLICA_OK);
  const shared_object_t *object = (const shared_object_t *)it.memory;
  uint64_t before = object->calls_of[place];
  for (uint64_t i = 1; i <= count; i++) {
    uint64_t arguments[CALL_ARGUMENTS] = {place, i, i, i, i, i, i};
    CHECK(replica_call(&it, arguments) == REPLICA_OK);
    CHECK(object->calls_of[place] == before + i);
    if (i % 7 == 0) CHECK(replica_follow(&it, LENGTH, true) == REPLICA_OK);
  }
}

static pid_t start(void *shared, uint32_t place, uint64_t count) {
  pid_t child = fork_child();
  CHECK(child >= 0);
  if (child > 0) return child;
  make_calls(shared, place, count);
  _exit(0);
}

static void wait_for(pid_t child) {
  int status;
  CHECK(waitpid(child, &status, 0) == child && WIFEXITED(status) && WEXITSTATUS(status) == 0);
}

static void *create(void) {
  void *shared = shared_memory(shared_room());
  replica_t first = object_of(shared, 0);
  replica_create(&first);
  free(first.memory);
  return shared;
}

static void processes_at_once(void) {
  void *shared = create();
  pid_t children[PLACES];
  for (uint32_t place = 0; place < PLACES; place++) children[place] = start(shared, place, CALLS);
  for (uint32_t place = 0; place < PLACES; place++) wait_for(children[place]);
  replica_t one = object_of(shared, 0), other = object_of(shared, 1);
  CHECK(replica_join(&one) == REPLICA_OK && replica_join(&other) == REPLICA_OK);
  CHECK(memcmp(one.memory, other.memory, sizeof(shared_object_t)) == 0);
  for (uint32_t place = 0; place < PLACES; place++) CHECK(((shared_object_t *)one.memory)->calls_of[place] == CALLS);
  CHECK(one.memory->progress.made == (uint64_t)PLACES * CALLS);
  free(one.memory), free(other.memory);
  munmap(shared, shared_room());
}

static void killed_processes(void) {
  void *shared = create();
  replica_t it = object_of(shared, 0);
  CHECK(replica_join(&it) == REPLICA_OK);
  pid_t lives = start(shared, 1, 5 * CALLS);
  uint64_t own = 0;
  for (uint32_t kill_number = 1; kill_number <= KILLS; kill_number++) {
    uint32_t place = 2 + kill_number % 3;
    pid_t victim = start(shared, place, UINT64_MAX);
    uint64_t arguments[CALL_ARGUMENTS] = {0};
    for (uint64_t until = it.memory->progress.of[place].entries + 1 + 97 * kill_number % 500; it.memory->progress.of[place].entries < until; own++)
      CHECK(replica_call(&it, arguments) == REPLICA_OK);
    CHECK(kill(victim, SIGKILL) == 0 && waitpid(victim, NULL, 0) == victim);
    CHECK(replica_call_end(&it, (call_end_t){place, kill_number, true}) == REPLICA_OK);
    CHECK(it.memory->progress.of[place].ended == kill_number);
    uint64_t calls = ((shared_object_t *)it.memory)->calls_of[place];
    for (int i = 0; i < 2 * PLACES; i++, own++) CHECK(replica_call(&it, arguments) == REPLICA_OK);
    CHECK(((shared_object_t *)it.memory)->calls_of[place] == calls);
  }
  wait_for(lives);
  replica_t other = object_of(shared, 5);
  CHECK(replica_join(&other) == REPLICA_OK && replica_follow(&it, UINT64_MAX, false) == REPLICA_OK);
  CHECK(memcmp(it.memory, other.memory, sizeof(shared_object_t)) == 0);
  CHECK(((shared_object_t *)it.memory)->calls_of[0] == own && ((shared_object_t *)it.memory)->calls_of[1] == 5 * CALLS);
  free(it.memory), free(other.memory);
  munmap(shared, shared_room());
}

static void call_often(replica_t *it, uint64_t count) {
  for (uint64_t i = 0; i < count; i++) CHECK(replica_call(it, (uint64_t[CALL_ARGUMENTS]){i}) == REPLICA_OK);
}

/* The place that has made the newest copy, of so many calls. */
static uint32_t place_of_copy(const replica_t *it, uint64_t made) {
  CHECK(copies_newest(&it->copies) == made + 1);
  return (uint32_t)(*it->copies.newest & ((1u << COPY_BUFFER_BITS) - 1)) / COPIES_OF_PLACE;
}

static bool has_begun_copy(const replica_t *it) { return it->is_copying; }

static bool has_copied(const replica_t *it) {
  const copy_head_t *heads = &it->copies.heads[it->place * COPIES_OF_PLACE];
  return heads[0].end != 0 || heads[1].end != 0;
}

static void idle(replica_t *it) { CHECK(replica_follow(it, UINT64_MAX, true) == REPLICA_OK); }
static void follow(replica_t *it) { CHECK(replica_follow(it, UINT64_MAX, false) == REPLICA_OK); }

enum { PROCESSES = 4, EARLY = LENGTH / 8 * 3, PIECES = (sizeof(shared_object_t) / COPY_UNIT + COPY_PIECE - 1) / COPY_PIECE };
_Static_assert(PIECES > 1, "a copy has several pieces");

static void *join_all(replica_t all[PROCESSES]) {
  void *shared = create();
  for (uint32_t i = 0; i < PROCESSES; i++) {
    all[i] = object_of(shared, i);
    CHECK(replica_join(&all[i]) == REPLICA_OK);
  }
  return shared;
}

/* Who joins takes the newest copy, and then has the same object as the others. */
static void end_all(replica_t all[PROCESSES], void *shared) {
  replica_t joins = object_of(shared, PROCESSES);
  CHECK(replica_join(&joins) == REPLICA_OK);
  for (uint32_t i = 0; i < PROCESSES; i++) {
    follow(&all[i]);
    CHECK(memcmp(all[i].memory, joins.memory, sizeof(shared_object_t)) == 0);
    free(all[i].memory);
  }
  free(joins.memory);
  munmap(shared, shared_room());
}

/* Of those that have time one makes a copy before it is due: who only follows before the others, and any other process where that one
 * doesn't end it. */
static void one_of_many_copies(void) {
  replica_t all[PROCESSES];
  void *shared = join_all(all);
  replica_t *calls = &all[0], *one = &all[1], *other = &all[2], *follower = &all[3];
  const uint64_t *made = &calls->memory->progress.made;
  follower->only_follows = true;
  call_often(calls, EARLY - 1);
  idle(one), idle(other);
  CHECK(!has_begun_copy(one) && !has_begun_copy(other));
  call_often(calls, 1);
  for (int i = 0; i < 1 + PIECES; i++) idle(one), idle(other);
  CHECK(place_of_copy(calls, *made) == 1 && !has_begun_copy(one) && !has_begun_copy(other) && !has_copied(other));
  call_often(calls, LENGTH / 8);
  idle(other), idle(follower);
  CHECK(place_of_copy(calls, *made) == 3 && !has_begun_copy(other));
  call_often(calls, EARLY);
  CHECK(copies_claim(&one->copies, *made, EARLY)); /* and it is stopped */
  idle(other);
  CHECK(!has_begun_copy(other));
  call_often(calls, LENGTH / 2 - EARLY);
  CHECK(copies_newest(&calls->copies) + LENGTH / 2 == *made + 1);
  follow(one);
  call_often(calls, 1);
  CHECK(place_of_copy(one, *made - 1) == calls->place && !has_copied(other));
  end_all(all, shared);
}

/* A copy that is made in pieces is one of the object as it was when it was begun: each look of a process that has time makes one piece, and
 * its own call that has to have a copy makes the rest. Nobody goes on with one that another has overtaken. */
static void copies_in_pieces(void) {
  replica_t all[PROCESSES];
  void *shared = join_all(all);
  replica_t *calls = &all[0], *one = &all[1];
  const uint64_t *made = &one->memory->progress.made;
  call_often(calls, EARLY);
  idle(one);
  uint64_t begun = *made;
  CHECK(has_begun_copy(one) && one->making.done == 0);
  for (int piece = 1; piece < PIECES; piece++) {
    call_often(calls, 1), idle(one);
    CHECK(one->making.done == (size_t)piece * COPY_PIECE && copies_newest(&one->copies) == 1);
  }
  call_often(one, LENGTH / 2 - (*made - begun));
  CHECK(place_of_copy(one, begun) == 1 && !has_begun_copy(one));
  call_often(calls, EARLY), follow(one);
  idle(one), idle(one);
  CHECK(has_begun_copy(one) && one->making.done == COPY_PIECE);
  call_often(calls, LENGTH / 2 - EARLY + 1);
  idle(one);
  CHECK(!has_begun_copy(one) && one->making.done == COPY_PIECE && place_of_copy(one, copies_newest(&one->copies) - 1) == calls->place);
  end_all(all, shared);
}

int main(void) {
  processes_at_once();
  killed_processes();
  one_of_many_copies();
  copies_in_pieces();
  puts("the list: all processes have the same object");
  return 0;
}
