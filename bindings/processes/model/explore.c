// SPDX-License-Identifier: Apache-2.0 OR MIT
#define _GNU_SOURCE
#include "explore.h"
#include <setjmp.h>
#include <stdio.h>
#include <stdlib.h>
#include <string.h>
#include <ucontext.h>

enum { MESSAGES = 48, STACK = 8192, BELOW = 256 /* bytes of the stack below a frame that belong to it */, EVENTS = 400 };

typedef enum life_t { NEW, RUNS, SLEEPS, ENDED, DEAD } life_t;

typedef struct process_t {
  life_t life;
  jmp_buf context;
  const char *used; /* where what it uses of its stack begins */
  view_t seen, received, released; /* the view, what a fence would add to it, and what relaxed stores publish since one */
  bool has_stored, has_newer;
  uint32_t sleeps_at; /* which location */
} process_t;

/* All but the messages and the stacks. */
typedef struct world_t {
  process_t of[PROCESSES];
  uint8_t counts[LOCATIONS]; /* messages of each location */
  uint8_t total[LOCATIONS];  /* how far sequentially consistent accesses saw each */
  uint64_t memory_hash;
  uint32_t deaths, event_count;
} world_t;

typedef struct message_t { uint64_t value, hash; view_t view; } message_t;

typedef struct event_t { const char *what; uint32_t process, word; uint64_t value; } event_t;

/* A point at which there are several ways to go on. */
typedef struct fork_t { uint32_t alternatives, next, self; char *saved; size_t room; } fork_t;

_Alignas(64) _Atomic uint64_t region[REGION_WORDS];

static const exploration_t *is;
static world_t world;
static _Alignas(16) char stacks[PROCESSES][STACK];
static message_t messages[LOCATIONS][MESSAGES];
static uint32_t location_of_word[REGION_WORDS], location_count = 1;
static event_t events[EVENTS];
static bool is_preparing;
static uint32_t self;
static jmp_buf explorer;
static ucontext_t fresh;

/* What a process asks of the explorer. */
typedef enum wish_t { TURN, CHOICE, LEAVE, WRONG } wish_t;
static wish_t wish;
static uint32_t wished, chosen;
static const char *what_is_wrong;

static uint64_t mix(uint64_t hash, uint64_t with) {
  hash = (hash ^ with) * UINT64_C(0x9e3779b97f4a7c15);
  return hash ^ hash >> 29;
}

/* ---- between processes and the explorer */

__attribute__((noinline)) static void ask(wish_t what) {
  wish = what;
  world.of[self].used = __builtin_frame_address(0);
  if (_setjmp(world.of[self].context) == 0) _longjmp(explorer, 1);
}

static void begin(void) {
  is->run(self);
  world.of[self].life = ENDED;
  ask(TURN);
  abort();
}

/* Lets a process run until it asks something. */
__attribute__((noinline)) static void resume(void) {
  if (_setjmp(explorer) != 0) return;
  process_t *process = &world.of[self];
  if (process->life != NEW) _longjmp(process->context, 1);
  process->life = RUNS;
  memset(stacks[self], 0, STACK);
  getcontext(&fresh);
  fresh.uc_stack.ss_sp = stacks[self];
  fresh.uc_stack.ss_size = STACK;
  fresh.uc_link = NULL;
  makecontext(&fresh, begin, 0);
  setcontext(&fresh);
}

uint32_t explore_self(void) { return self; }

uint32_t explore_choose(uint32_t alternatives) {
  if (alternatives < 2) return 0;
  wished = alternatives;
  ask(CHOICE);
  return chosen;
}

void explore_leave(void) { ask(LEAVE); }

bool explore_is_dead(uint32_t process) { return world.of[process].life == DEAD; }

void explore_begin_anew(uint32_t process) {
  view_t seen = world.of[self].seen;
  world.of[process] = (process_t){.life = NEW, .seen = seen, .received = seen};
}

void explore_take_over(uint32_t process) {
  view_t seen = world.of[process].seen;
  world.of[process] = (process_t){.life = NEW, .seen = seen, .received = seen};
}

/* ---- memory */

static uint32_t location_of(const _Atomic uint64_t *at) {
  size_t word = (size_t)(at - region);
  if (word >= REGION_WORDS) explore_wrong("an access outside of the shared memory");
  if (location_of_word[word] == 0) {
    if (location_count == LOCATIONS) explore_wrong("the model has too few locations");
    location_of_word[word] = location_count++;
  }
  return location_of_word[word];
}

static void note(const char *what, const _Atomic uint64_t *at, uint64_t value) {
  if (world.event_count < EVENTS) events[world.event_count++] = (event_t){what, self, at ? (uint32_t)(at - region) : 0, value};
}

static _Noreturn void say_wrong(void) {
  for (uint32_t i = 0; i < world.event_count; i++)
    printf("    %u %-12s word %3u  %#llx\n", events[i].process, events[i].what, events[i].word, (unsigned long long)events[i].value);
  printf("wrong: %s (process %u)\n", what_is_wrong, self);
  exit(1);
}

void explore_wrong(const char *words) {
  what_is_wrong = words;
  if (is_preparing) say_wrong();
  ask(WRONG); /* a process has too little stack to print */
  abort();
}

/* The message of a location that is so far in its order; 0 is what there was at first. */
static uint64_t value_of(uint32_t location, uint32_t which) { return which == 0 ? 0 : messages[location][which - 1].value; }
static view_t published_by(uint32_t location, uint32_t which) { return which == 0 ? 0 : messages[location][which - 1].view; }

uint64_t explore_newest(const _Atomic uint64_t *at) {
  uint32_t location = location_of(at);
  return value_of(location, world.counts[location]);
}

static bool acquires(memory_order order) { return order == memory_order_acquire || order == memory_order_acq_rel || order == memory_order_seq_cst; }
static bool releases(memory_order order) { return order == memory_order_release || order == memory_order_acq_rel || order == memory_order_seq_cst; }
static bool is_total(memory_order order) { return is->is_total && order == memory_order_seq_cst && !is_preparing; }

/* A sequentially consistent access took or made this message. */
static void note_total(uint32_t location, uint32_t which, memory_order order) {
  if (!is_total(order)) return;
  if (world.total[location] < which) world.total[location] = (uint8_t)which;
  world.of[self].has_stored = true; /* others may come before the next access */
}

static void take(uint32_t location, uint32_t which, memory_order order) {
  process_t *process = &world.of[self];
  note_total(location, which, order);
  view_t published = view_with(published_by(location, which), location, (uint8_t)which);
  process->received = view_join(process->received, published);
  process->seen = acquires(order) ? view_join(process->seen, published) : view_with(process->seen, location, (uint8_t)which);
}

static void publish(uint32_t location, uint64_t value, memory_order order, view_t also) {
  process_t *process = &world.of[self];
  uint32_t which = world.counts[location] + 1u;
  if (which > MESSAGES) explore_wrong("the model has too few messages");
  process->seen = view_with(process->seen, location, (uint8_t)which);
  process->received = view_join(process->received, process->seen);
  view_t view = releases(order) ? process->seen : process->released;
  view = view_with(view_join(view, also), location, (uint8_t)which);
  uint64_t before = which == 1 ? 0 : messages[location][which - 2].hash, hash = mix(mix(mix(before, location), value), view);
  messages[location][which - 1] = (message_t){value, hash, view};
  world.memory_hash += hash - before;
  world.counts[location] = (uint8_t)which;
  process->has_stored = true;
  process->has_newer = false;
  note_total(location, which, order);
}

static void maybe_die(void) {
  if (is_preparing || world.deaths == is->deaths || explore_choose(2) == 0) return;
  note("dies", NULL, 0);
  world.deaths++;
  world.of[self].life = DEAD;
  ask(TURN);
}

static void wait_for_turn(const _Atomic uint64_t *at, memory_order order) {
  process_t *process = &world.of[self];
  bool is_asked = is->is_strong ? (size_t)(at - region) < is->turn_end : process->has_stored || is_total(order);
  if (is_preparing || !is_asked) return;
  process->has_stored = false;
  ask(TURN);
}

/* One of the messages that the process may take. */
static uint32_t choose_message(const _Atomic uint64_t *at, uint32_t location, memory_order order) {
  process_t *process = &world.of[self];
  uint32_t newest = world.counts[location];
  if (is_preparing || is->is_strong) return newest;
  uint32_t oldest = view_of(process->seen, location);
  if (is_total(order) && oldest < world.total[location]) oldest = world.total[location];
  size_t word = (size_t)(at - region);
  bool is_bulk = word >= is->bulk && word < is->bulk_end;
  if (is_bulk && process->has_newer) return oldest;
  uint32_t which = oldest + explore_choose(newest - oldest + 1);
  if (is_bulk && which != oldest) process->has_newer = true;
  return which;
}

uint64_t model_load(const _Atomic uint64_t *at, memory_order order) {
  wait_for_turn(at, order);
  uint32_t location = location_of(at), which = choose_message(at, location, order);
  take(location, which, order);
  note("loads", at, value_of(location, which));
  return value_of(location, which);
}

void model_store(_Atomic uint64_t *at, uint64_t value, memory_order order) {
  maybe_die();
  if (is->is_strong) wait_for_turn(at, order);
  note("stores", at, value);
  publish(location_of(at), value, order, 0);
}

/* Puts a message behind the newest one, which it has taken. */
static void swap(uint32_t location, uint64_t value, memory_order order) {
  maybe_die();
  uint32_t newest = world.counts[location];
  view_t also = view_with(published_by(location, newest), location, (uint8_t)newest);
  take(location, newest, order);
  publish(location, value, order, also);
}

uint64_t model_fetch(_Atomic uint64_t *at, model_operation_t operation, uint64_t with, memory_order order) {
  wait_for_turn(at, order);
  uint32_t location = location_of(at);
  uint64_t before = value_of(location, world.counts[location]);
  uint64_t after = operation == MODEL_ADD ? before + with : operation == MODEL_OR ? before | with : before & with;
  note("fetches", at, after);
  swap(location, after, order);
  return before;
}

void explore_sleep(const _Atomic uint64_t *at, uint64_t seen) {
  process_t *process = &world.of[self];
  uint32_t location = location_of(at);
  ask(TURN);
  note("sleeps", at, seen);
  take(location, world.counts[location], memory_order_relaxed);
  if (value_of(location, world.counts[location]) != seen) return;
  process->life = SLEEPS, process->sleeps_at = location;
  ask(TURN);
}

void explore_wake(const _Atomic uint64_t *at) {
  note("wakes", at, 0);
  for (uint32_t i = 0; i < is->processes; i++)
    if (world.of[i].life == SLEEPS && world.of[i].sleeps_at == location_of(at)) world.of[i].life = RUNS;
}

bool model_compare_exchange(_Atomic uint64_t *at, uint64_t *expected, uint64_t desired, memory_order order) {
  wait_for_turn(at, order);
  uint32_t location = location_of(at), newest = world.counts[location];
  if (value_of(location, newest) == *expected) {
    note("swaps", at, desired);
    swap(location, desired, order);
    is->swapped((size_t)(at - region));
    return true;
  }
  take(location, newest, memory_order_relaxed);
  *expected = value_of(location, newest);
  note("fails", at, *expected);
  return false;
}

void model_fence(memory_order order) {
  process_t *process = &world.of[self];
  if (acquires(order)) process->seen = view_join(process->seen, process->received);
  if (releases(order)) process->released = process->seen;
}

/* ---- states */

static uint64_t hash_bytes(uint64_t hash, const void *bytes, size_t size) {
  const char *from = bytes;
  uint64_t word;
  for (; size >= sizeof word; from += sizeof word, size -= sizeof word) {
    memcpy(&word, from, sizeof word);
    hash = mix(hash, word);
  }
  return hash;
}

static bool has_stack(uint32_t process) { return world.of[process].life == RUNS || world.of[process].life == SLEEPS; }
static size_t size_of_stack(uint32_t process) {
  return has_stack(process) ? (size_t)(stacks[process] + STACK - world.of[process].used) : 0;
}

static uint64_t hash_of_state(void) {
  uint64_t hash = mix(world.memory_hash, world.deaths);
  if (wish == CHOICE) hash = mix(hash, self << 8 | wished);
  if (is->is_total) hash = hash_bytes(hash, world.total, sizeof world.total);
  for (uint32_t i = 0; i < is->processes; i++) {
    const process_t *process = &world.of[i];
    hash = mix(mix(mix(mix(hash, process->life), process->seen), process->received), process->released);
    hash = mix(hash, process->has_stored << 1 | process->has_newer);
    if (!has_stack(i)) continue;
    hash = hash_bytes(hash, &process->context, 64); /* the registers that calls keep */
    hash = hash_bytes(hash, process->used, size_of_stack(i));
  }
  return hash_bytes(hash, is->state, is->state_size);
}

enum { TABLE = 1 << 25 };
static uint64_t *met;
static uint64_t met_count;

/* Whether the state is new. */
static bool meet(uint64_t hash) {
  uint64_t at = hash % TABLE;
  if (hash == 0) hash = 1;
  for (; met[at] != 0; at = (at + 1) % TABLE)
    if (met[at] == hash) return false;
  if (++met_count > TABLE / 4 * 3) {
    fprintf(stderr, "the model has no room for more states\n");
    exit(2);
  }
  met[at] = hash;
  return true;
}

/* ---- the search */

static fork_t *forks;
static size_t fork_count, fork_room;

static size_t size_of_saved(void) {
  size_t size = sizeof world + is->state_size;
  for (uint32_t i = 0; i < is->processes; i++) size += size_of_stack(i) + BELOW;
  return size;
}

static void save(char *at) {
  memcpy(at, &world, sizeof world);
  memcpy(at += sizeof world, is->state, is->state_size);
  at += is->state_size;
  for (uint32_t i = 0; i < is->processes; at += size_of_stack(i++) + BELOW)
    if (size_of_stack(i) != 0) memcpy(at, world.of[i].used - BELOW, size_of_stack(i) + BELOW);
}

static void restore(const char *at) {
  memcpy(&world, at, sizeof world);
  memcpy(is->state, at += sizeof world, is->state_size);
  at += is->state_size;
  for (uint32_t i = 0; i < is->processes; at += size_of_stack(i++) + BELOW)
    if (size_of_stack(i) != 0) memcpy(stacks[i] + STACK - size_of_stack(i) - BELOW, at, size_of_stack(i) + BELOW);
}

static void push(uint32_t alternatives) {
  if (fork_count == fork_room) {
    forks = realloc(forks, (fork_room + 256) * sizeof *forks);
    memset(forks + fork_room, 0, 256 * sizeof *forks);
    fork_room += 256;
  }
  fork_t *fork = &forks[fork_count++];
  if (fork->room < size_of_saved()) fork->saved = realloc(fork->saved, fork->room = 2 * size_of_saved());
  fork->alternatives = alternatives, fork->next = 0, fork->self = wish == TURN ? UINT32_MAX : self;
  save(fork->saved);
}

static bool one_runs(uint32_t from, uint32_t to) {
  bool runs = false;
  for (uint32_t i = from; i < to; i++) runs |= world.of[i].life <= RUNS;
  return runs;
}

/* The process that is so far among those that may go on; or none. */
static uint32_t nth_that_runs(uint32_t n) {
  uint32_t from = one_runs(0, is->first_reader) ? 0 : is->first_reader, to = from == 0 ? is->first_reader : is->processes;
  for (uint32_t i = from; i < to; i++)
    if (world.of[i].life <= RUNS && n-- == 0) return i;
  return PROCESSES;
}
static uint32_t count_that_run(void) {
  uint32_t n = 0;
  while (nth_that_runs(n) != PROCESSES) n++;
  return n;
}

/* Takes the next way from the last fork that has one. */
static bool go_on(void) {
  while (fork_count > 0 && forks[fork_count - 1].next == forks[fork_count - 1].alternatives) fork_count--;
  if (fork_count == 0) return false;
  fork_t *fork = &forks[fork_count - 1];
  restore(fork->saved);
  if (fork->self == UINT32_MAX) self = nth_that_runs(fork->next);
  else self = fork->self, chosen = fork->next;
  fork->next++;
  return true;
}

/* Some sleep, and nobody is left to wake them. */
static void check_sleepers(void) {
  if (one_runs(0, is->processes)) return;
  for (uint32_t i = 0; i < is->processes; i++) {
    if (world.of[i].life != SLEEPS) continue;
    what_is_wrong = is->sleeps_on();
    if (what_is_wrong != NULL) say_wrong();
  }
}

static void prepare(void) {
  is_preparing = true;
  self = 0;
  is->prepare();
  is_preparing = false;
  for (uint32_t i = 0; i < PROCESSES; i++) world.of[i] = (process_t){.life = NEW, .seen = world.of[0].seen, .received = world.of[0].seen};
}

uint64_t explore(const exploration_t *exploration) {
  is = exploration;
  memset(&world, 0, sizeof world);
  met_count = 0;
  met = calloc(TABLE, sizeof *met);
  prepare();
  wish = TURN;
  push(count_that_run());
  while (go_on()) {
    resume();
    if (wish == WRONG) say_wrong();
    if (wish == TURN) check_sleepers();
    if (wish != LEAVE && meet(hash_of_state())) push(wish == CHOICE ? wished : count_that_run());
  }
  free(met);
  return met_count;
}
