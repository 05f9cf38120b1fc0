// SPDX-License-Identifier: Apache-2.0 OR MIT
/* Explores the list of calls, its copies, and deaths: what each process makes is the list, whole and once, and whoever is
 * behind finds a copy.
 *
 *   list SCENARIO..    explores these (all without a word), and says how many states there are */
#include "../call_list.c"
#include "../copies.c"
#include "../replica.c"
#include "../sleepers.c"
#include "../member.c"
#include "explore.h"
#include "system.h"
#include <stdio.h>
#include <stdlib.h>
#include <string.h>

enum { CALLS = 16, LOADS = 2, END = 1000 };
_Static_assert(CALL_PLACES == PROCESSES, "compiled with -DCALL_PLACES=3");
_Static_assert(CALL_ARGUMENTS == 1, "compiled with -DCALL_WORDS=2");

/* The object: a number that depends on all calls. It lies behind what a copy has beside it. */
typedef struct object_t { replica_memory_t memory; uint64_t number; } object_t;

/* The first look begins a copy, and others make a piece of it each. */
enum { LOOKS_OF_COPY = 1 + (sizeof(object_t) / COPY_UNIT + COPY_PIECE - 1) / COPY_PIECE };
_Static_assert(LOOKS_OF_COPY == 3, "compiled with -DCOPY_PIECE=8");

typedef struct call_t { uint64_t argument; uint32_t place; bool is_end; } call_t;

/* What belongs to a state beside the shared memory and the stacks. */
static struct state_t {
  object_t objects[PROCESSES], snapshots[PROCESSES];
  call_t calls[CALLS]; /* the list as it has to be */
  uint64_t count;
  uint64_t announced[PROCESSES]; /* what each place wants in the list; 0 is nothing */
  uint64_t others[PROCESSES];    /* calls that were added since it was announced */
  uint32_t left[PROCESSES], looks[PROCESSES]; /* calls that each place still makes, and looks while it has nothing to do */
  uint32_t incarnation[PROCESSES]; /* which process has it */
  uint64_t end[PROCESSES];         /* what a process that took the place over says of the one before */
  uint32_t begins;
} state;

typedef struct scenario_t {
  const char *name;
  uint32_t length;               /* of the list; 2 where it isn't said */
  uint32_t processes, followers; /* the last of them only follow, for so many calls */
  uint64_t follows;
  bool loads_none;               /* whoever is behind goes no further */
  bool copies_at_once;           /* each look makes a whole copy, as one does of who only follows */
  bool takes_over;               /* a process may begin in the place of a dead one before others say that it died */
  uint32_t prepared;             /* calls of the first that all may see from the beginning */
  uint32_t deaths, calls[PROCESSES], looks[PROCESSES]; /* at most; calls to make, and looks while there is nothing to do: LOOKS_OF_COPY of
                                                          them make a copy in pieces */
  bool is_strong, is_long, joins[PROCESSES];
  uint32_t sleepers;             /* the last of them sleep until all calls of the first are made, and each call wakes them */
} scenario_t;

static const scenario_t *scenario;
static copies_t copies;
static call_list_t list;
static sleepers_shared_t *sleepers;
static member_t members[PROCESSES]; /* of scenarios with sleepers */

static uint64_t next_number(uint64_t number, uint64_t argument) { return (number + argument) * 31; }

static uint64_t apply(void *object, uint32_t place, const uint64_t arguments[CALL_ARGUMENTS]) {
  uint64_t *number = object;
  return *number = next_number(*number, arguments != NULL ? arguments[0] : END + place);
}

/* What the list says, made by itself. */
static object_t expected(uint64_t made) {
  object_t it = {.memory = {.size = sizeof it, .progress = {.made = made}}};
  for (uint64_t i = 0; i < made; i++) {
    const call_t *call = &state.calls[i];
    it.memory.progress.of[call->place].entries++;
    uint32_t ended = call->is_end ? note_end(&list, &it.memory.progress, call->argument) : CALL_PLACES;
    if (ended != CALL_PLACES) it.number = next_number(it.number, END + ended);
    if (!call->is_end) it.memory.progress.of[call->place].reply = (it.number = next_number(it.number, call->argument)) & (UINT64_MAX >> 1);
  }
  return it;
}

static void check(replica_status_t status) {
  const object_t *object = &state.objects[explore_self()];
  if (status == REPLICA_OUTRUN) explore_leave();
  if (status == REPLICA_DAMAGED) explore_wrong("the list or a copy is damaged");
  if (status == REPLICA_DIVERGED) explore_wrong("objects diverge");
  if (object->memory.progress.made > state.count) explore_wrong("more calls are made than there are");
  object_t is = expected(object->memory.progress.made);
  if (memcmp(&is, object, sizeof is) != 0) explore_wrong("another list is made");
}

/* A swap took place: if it added a call, that is one that is announced, and a copy is there for who is behind. */
static void swapped(size_t word) {
  _Atomic uint64_t *at = &region[word];
  if (at < list.order || at >= list.order + list.length) return;
  uint64_t name = explore_newest(at);
  uint32_t place = (uint32_t)(name >> CALL_ENTRY_BITS) & ((1u << CALL_PLACE_BITS) - 1);
  const call_entry_t *entry = &list.entries[place * 2 * list.length + (name & ((1u << CALL_ENTRY_BITS) - 1))];
  uint64_t argument = explore_newest(&entry->words[0]), own = explore_newest(&entry->words[1]);
  if (state.count == CALLS) explore_wrong("the model has too few calls");
  if (call_distance(name, state.count) != 0) explore_wrong("a call is added at another's number");
  uint64_t *wanted = argument == state.end[place] ? &state.end[place] : &state.announced[place];
  if (argument == 0 || argument != *wanted) explore_wrong("what is added isn't what its process wants");
  *wanted = 0;
  state.calls[state.count++] = (call_t){argument, place, own & CALL_IS_END};
  uint64_t newest = explore_newest(copies.newest);
  if ((newest >> COPY_BUFFER_BITS) - 1 + list.length < state.count) explore_wrong("whoever is behind finds no copy");
  if (explore_newest(&copies.heads[newest & ((1u << COPY_BUFFER_BITS) - 1)].end) != newest >> COPY_BUFFER_BITS) explore_wrong("the newest copy isn't whole");
  if (!scenario->is_strong) return;
  object_t now = expected(state.count);
  for (uint32_t i = 0; i < scenario->processes; i++) {
    bool is_announced = explore_newest(&list.announcements[i].count) == now.memory.progress.of[i].entries + 1;
    state.others[i] = is_announced ? state.others[i] + 1 : 0;
    if (state.others[i] > 2 * scenario->processes) explore_wrong("a call waits for too many others");
  }
}

static replica_t replica_of(uint32_t process) {
  return (replica_t){
    .list = list, .copies = copies, .apply = apply, .memory = &state.objects[process].memory, .place = process, .loads = scenario->loads_none ? 0 : LOADS,
    .snapshot = &state.snapshots[process], .only_follows = scenario->copies_at_once
  };
}

static void want(uint32_t process, uint64_t argument) { state.announced[process] = argument; }

static call_end_t end_of(uint32_t process, uint64_t number) { return (call_end_t){process, number, true}; }

/* A process begins in the place of a dead one, of whose end nobody has to have heard. */
static void begin_in_place_of(uint32_t dead) {
  state.end[dead] = argument_of(end_of(dead, state.incarnation[dead]));
  explore_take_over(dead);
}

static void end_predecessor(replica_t *it) {
  check(replica_end_predecessor(it, state.incarnation[it->place]));
  state.end[it->place] = state.announced[it->place] = 0;
  state.incarnation[it->place] = ++state.begins;
}

/* Says of each dead process that it died, and lets another begin in its place; or leaves that to others, or to one that takes the
 * place over. */
static void reap(replica_t *it) {
  for (uint32_t i = 0; i < scenario->processes; i++) {
    uint32_t dead = state.incarnation[i], way = explore_is_dead(i) ? explore_choose(scenario->takes_over ? 3 : 2) : 0;
    if (way == 2) begin_in_place_of(i);
    if (way != 1) continue;
    call_end_t end = end_of(i, dead);
    want(it->place, argument_of(end));
    check(replica_call_end(it, end));
    if (it->memory->progress.of[i].ended < dead) explore_wrong("a death isn't in the list");
    if (!explore_is_dead(i) || state.incarnation[i] != dead) continue;
    state.incarnation[i] = ++state.begins;
    state.announced[i] = 0;
    explore_begin_anew(i);
  }
}

static void call(replica_t *it) {
  uint64_t argument = 100 * (it->place + 1) + state.left[it->place]--, made = it->memory->progress.made;
  want(it->place, argument);
  if (scenario->sleepers > 0) check(member_call(&members[it->place], &argument, 1, SLEEP_ALL_PLACES));
  else check(replica_call(it, &argument));
  bool is_there = false;
  for (uint64_t i = made; i < it->memory->progress.made; i++) is_there |= state.calls[i].argument == argument && !state.calls[i].is_end;
  if (!is_there) explore_wrong("a call isn't in the list");
}

static bool all_are_made(void *waiter) { return ((const object_t *)waiter)->memory.progress.of[0].entries >= scenario->calls[0]; }

static void sleep_for_calls(uint32_t process) {
  bool was_there;
  check(member_wait(&members[process], 1, all_are_made, &state.objects[process], SLEEP_FOREVER, &was_there));
  if (!was_there) explore_wrong("a sleep ends without what it was for");
}

static const char *sleeps_on(void) { return "a process sleeps, and nobody wakes it"; }

static void run(uint32_t process) {
  replica_t it = replica_of(process);
  if (process >= scenario->processes - scenario->sleepers) {
    sleep_for_calls(process);
    return;
  }
  if (scenario->joins[process] || state.incarnation[process] > PROCESSES || state.end[process] != 0) check(replica_join(&it));
  if (state.end[process] != 0) end_predecessor(&it);
  while (true) {
    if (process >= scenario->processes - scenario->followers) {
      check(replica_follow(&it, scenario->follows, false));
      return;
    }
    reap(&it);
    if (state.looks[process] > 0) {
      state.looks[process]--;
      check(replica_follow(&it, UINT64_MAX, true));
    } else if (state.left[process] > 0) {
      call(&it);
    } else {
      return;
    }
  }
}

static void prepare(void) {
  memset(&state, 0, sizeof state);
  for (uint32_t i = 0; i < PROCESSES; i++) {
    state.objects[i].memory.size = sizeof(object_t);
    state.left[i] = scenario->calls[i];
    state.looks[i] = scenario->looks[i];
    state.incarnation[i] = i + 1;
  }
  for (uint32_t i = 0; i < PROCESSES; i++) members[i] = (member_t){.files = {.sleepers = sleepers}, .replica = replica_of(i)};
  state.begins = PROCESSES;
  replica_t first = replica_of(0);
  replica_create(&first);
  for (uint32_t i = 0; i < scenario->prepared; i++) call(&first);
}

static void explore_scenario(const scenario_t *which) {
  scenario = which;
  uint32_t length = scenario->length != 0 ? scenario->length : 2;
  list = call_list_at(region, scenario->processes, length);
  size_t list_words = (call_list_size(scenario->processes, length) + 63) / 64 * 8;
  copies = copies_at(region + list_words, scenario->processes, sizeof(object_t));
  size_t buffers = (size_t)(copies.buffers - region), end = list_words + copies_size(scenario->processes, sizeof(object_t)) / 8;
  sleepers = (sleepers_shared_t *)(region + end);
  if (end + sizeof *sleepers / 8 > REGION_WORDS) exit(2);
  exploration_t exploration = {
    .processes = scenario->processes, .deaths = scenario->deaths, .is_strong = scenario->is_strong, .is_total = scenario->sleepers > 0,
    .turn_end = (size_t)((_Atomic uint64_t *)list.entries - region), .first_reader = scenario->processes - scenario->followers, .bulk = buffers, .bulk_end = end,
    .state = &state, .state_size = sizeof state, .prepare = prepare, .run = run, .swapped = swapped, .sleeps_on = sleeps_on
  };
  printf("%s: %llu states\n", scenario->name, (unsigned long long)explore(&exploration));
  fflush(stdout);
}

/* Those with `is_long` take minutes, or most of one. */
static const scenario_t SCENARIOS[] = {
  {.name = "follower", .processes = 2, .followers = 1, .follows = 6, .calls = {6}},
  {.name = "copied by another", .processes = 3, .followers = 1, .follows = 1, .loads_none = true, .prepared = 2, .calls = {5}, .looks = {[1] = LOOKS_OF_COPY}},
  {.name = "two and a follower", .processes = 3, .followers = 1, .follows = 3, .calls = {2, 1}},
  {.name = "joiner", .processes = 2, .followers = 1, .follows = 5, .calls = {5}, .joins = {[1] = true}},
  {.name = "a sleeper", .processes = 2, .sleepers = 1, .calls = {2}},
  {.name = "a death", .processes = 2, .deaths = 1, .calls = {2, 1}},
  {.name = "a death while it copies", .processes = 2, .deaths = 1, .calls = {0, 1}, .looks = {2}, .copies_at_once = true},
  {.name = "a copy in pieces", .length = 4, .processes = 3, .deaths = 1, .followers = 1, .follows = 4, .prepared = 1, .calls = {3}, .looks = {[1] = LOOKS_OF_COPY}, .joins = {[2] = true}},
  {.name = "a place taken over", .processes = 2, .deaths = 1, .calls = {1, 1}, .takes_over = true},
  {.name = "two", .processes = 2, .calls = {2, 2}},
  {.name = "a death seen twice", .processes = 3, .deaths = 1, .calls = {2}},
  {.name = "turns", .processes = 2, .calls = {6, 1}, .is_strong = true},
  {.name = "three", .processes = 3, .calls = {1, 1, 1}},
  {.name = "a place taken over, and calls", .processes = 2, .deaths = 1, .calls = {2, 1}, .takes_over = true, .is_long = true},
  {.name = "a place taken over from another", .processes = 3, .deaths = 1, .calls = {2}, .takes_over = true, .is_long = true},
  {.name = "a sleeper and two", .processes = 3, .sleepers = 1, .calls = {1, 1}, .is_long = true},
  {.name = "two sleepers", .processes = 3, .sleepers = 2, .calls = {1}, .is_long = true},
};

int main(int count, char **words) {
  for (size_t i = 0; i < sizeof SCENARIOS / sizeof *SCENARIOS; i++) {
    bool is_chosen = count == 1;
    for (int k = 1; k < count; k++) is_chosen |= strcmp(words[k], SCENARIOS[i].name) == 0;
    if (is_chosen) explore_scenario(&SCENARIOS[i]);
  }
  return 0;
}
