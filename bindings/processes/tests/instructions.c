// SPDX-License-Identifier: Apache-2.0 OR MIT
#define _GNU_SOURCE
/* A process is stopped after each of its instructions, as it lends, sends, receives, releases, copies, reaps, joins and leaves. While it
 * is stopped, a call of another takes at most so many instructions; when it is killed, all that it had is given back.
 *
 *   instructions                       after some of them
 *   instructions whole [WHICH OF]      after each of a call's, and more of the others; in so many parts, this part from 0 on */
#include "mailbox.h"
#include "traced.h"

/* What four calls take at most: a copy made and one loaded, the four, and some calls of others. */
enum { MOST_INSTRUCTIONS = 20000 };

static member_t *keeper;

static void pass_a_message(member_t *it) {
  uint64_t slot = call(it, LEND, 0);
  if (slot != NOTHING) call(it, SEND, slot);
  if ((slot = call(it, RECEIVE, 0)) != NOTHING) call(it, RELEASE, slot);
}

/* What a process does between its two marks. */
static void calls(const char *name, pid_t self) {
  member_t it;
  CHECK(join_mailbox(&it, name, SHARED_OPEN, true) == SHARED_OK);
  mark(self);
  pass_a_message(&it);
  mark(self);
}

static void copies(const char *name, pid_t self) {
  member_t it;
  CHECK(join_mailbox(&it, name, SHARED_OPEN, true) == SHARED_OK);
  for (int i = 0; i < LENGTH / 4 - 1; i++) call(&it, RELEASE, NOTHING);
  mark(self);
  for (int i = 0; i < LENGTH / 4; i++) call(&it, RELEASE, NOTHING);
  mark(self);
}

static void comes_and_leaves(const char *name, pid_t self) {
  member_t it;
  mark(self);
  CHECK(join_mailbox(&it, name, SHARED_OPEN, true) == SHARED_OK);
  leave_mailbox(&it);
  mark(self);
}

static pid_t leave_a_dead_process(const char *name) {
  pid_t child = fork_child();
  if (child == 0) {
    member_t it;
    CHECK(join_mailbox(&it, name, SHARED_OPEN, true) == SHARED_OK && call(&it, LEND, 0) != NOTHING);
    raise(SIGKILL);
  }
  return waitpid(child, NULL, 0);
}

static void reaps(const char *name, pid_t self) {
  member_t it;
  CHECK(join_mailbox(&it, name, SHARED_OPEN, true) == SHARED_OK);
  CHECK(leave_a_dead_process(name) > 0);
  mark(self);
  reap(&it);
  mark(self);
}

/* Who calls while the other is stopped: again and again, between two marks each. */
static void calls_again(const char *name, pid_t self) {
  member_t it;
  CHECK(join_mailbox(&it, name, SHARED_OPEN, true) == SHARED_OK);
  mark(self);
  while (true) {
    pass_a_message(&it);
    mark(self);
  }
}

typedef struct outcome_t { uint64_t stops, most; } outcome_t;

/* Stops a process after so many instructions, lets the other call, and kills it. */
static void stop_after(uint64_t instructions, void (*run)(const char *, pid_t), const char *name, pid_t other, outcome_t *outcome) {
  bool is_at_mark, is_stopped_at_mark;
  pid_t child = traced_child(run, name);
  CHECK(child > 0 && run_to_mark(child, PTRACE_SINGLESTEP, instructions, &is_at_mark) != UINT64_MAX);
  uint64_t took = run_to_mark(other, PTRACE_SINGLESTEP, MOST_INSTRUCTIONS, &is_stopped_at_mark);
  CHECK(is_stopped_at_mark);
  if (took > outcome->most) outcome->most = took;
  outcome->stops++;
  end_child(child);
}

/* Nothing is left but the keeper and who calls. */
static void check_all_is_given_back(void) {
  uint64_t slot;
  reap(keeper);
  while ((slot = call(keeper, RECEIVE, 0)) != NOTHING) CHECK(call(keeper, RELEASE, slot) == slot);
  for (int i = 0; i < SLOTS; i++) CHECK(mailbox_of(keeper)->slots[i].state == FREE);
  for (uint32_t place = 2; place < PLACES; place++) CHECK(keeper->files.places.shared->numbers[place] == 0);
}

/* How many instructions it takes where nothing stops it. */
static uint64_t length_of(void (*run)(const char *, pid_t), const char *name) {
  bool is_at_mark;
  pid_t child = traced_child(run, name);
  CHECK(child > 0);
  uint64_t length = run_to_mark(child, PTRACE_SINGLESTEP, UINT64_MAX, &is_at_mark);
  CHECK(is_at_mark && length > 0 && length != UINT64_MAX);
  end_child(child);
  check_all_is_given_back();
  return length;
}

/* What is stopped, and at how many points at most: in short, and whole. */
typedef struct scenario_t {
  const char *what;
  void (*run)(const char *name, pid_t self);
  uint64_t points[2];
} scenario_t;

/* Which of the points this process takes. */
typedef struct part_t { uint64_t which, of; } part_t;

static void say(const scenario_t *it, uint64_t length, const outcome_t *outcome) {
  printf("%s: stopped at %llu points of %llu instructions; four calls of another took %llu at most\n", it->what, (unsigned long long)outcome->stops, (unsigned long long)length,
         (unsigned long long)outcome->most);
  fflush(stdout);
}

static void stop_everywhere(const scenario_t *it, const char *name, bool is_whole, part_t part) {
  pid_t other = traced_child(calls_again, name);
  CHECK(other > 0);
  outcome_t outcome = {0, 0};
  uint64_t length = length_of(it->run, name), points = it->points[is_whole] < length ? it->points[is_whole] : length;
  uint64_t every = points / part.of / 10 + 1;
  for (uint64_t point = part.which; point < points; point += part.of) {
    stop_after(1 + point * length / points, it->run, name, other, &outcome);
    check_all_is_given_back();
    if (is_whole && outcome.stops % every == 0) say(it, length, &outcome);
  }
  CHECK(outcome.stops > 0);
  end_child(other);
  reap(keeper);
  say(it, length, &outcome);
}

static const scenario_t scenarios[] = {
  {"calls", calls, {15, UINT64_MAX}},
  {"copies", copies, {6, 3000}},
  {"reaps", reaps, {6, UINT64_MAX}},
  {"comes and leaves", comes_and_leaves, {8, 4000}},
};

int main(int count, char **words) {
  bool is_whole = count > 1 && strcmp(words[1], "whole") == 0;
  part_t part = {0, 1};
  char name[64];
  member_t it;
  if (count > 3) part = (part_t){strtoull(words[2], NULL, 10), strtoull(words[3], NULL, 10)};
  snprintf(name, sizeof name, "test_instructions.%d", (int)getpid());
  CHECK(part.which < part.of && join_mailbox(&it, name, SHARED_CREATE, true) == SHARED_OK);
  keeper = &it;
  for (size_t i = 0; i < sizeof scenarios / sizeof *scenarios; i++) stop_everywhere(&scenarios[i], name, is_whole, part);
  leave_mailbox(&it);
  return 0;
}
