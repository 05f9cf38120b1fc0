// SPDX-License-Identifier: Apache-2.0 OR MIT
#define _GNU_SOURCE
/* Nothing but its arguments decides what a call of the archive replies and keeps: two processes in which all lies at other addresses make
 * the same random calls. Their replies are the same, and so is each word of their book-keeping, but for addresses: of the same place in the
 * domain, or left behind on the stack, where a struct was moved from. A third process overwrites those that were left, which nobody reads. */
#include "children.h"
#include "archive_memory.h"
#include "domain_memory.h"
#include <stdio.h>
#include <stdlib.h>
#include <string.h>
#include <sys/auxv.h>
#include <sys/mman.h>
#include <sys/wait.h>

#define CHECK(condition) ((condition) ? (void)0 : fail(__FILE__, __LINE__, #condition))
static _Noreturn void fail(const char *file, int line, const char *words) {
  fprintf(stderr, "%s:%d: %s\n", file, line, words);
  _exit(1);
}

enum { ROOM = 1 << 20, PAYLOAD_ROOM = 1 << 20, CALLS = 20000, BETWEEN = 2000, PICTURES = CALLS / BETWEEN, PLACES = 3, STACK = 1 << 14 };
enum { MEMORY_AT, STACK_AT, PROGRAM_AT, LIBRARY_AT, LOADER_AT, THREAD_AT, ADDRESSES };

/* What a process shows of its run. Its bytes are those of the book-keeping after each BETWEEN calls. */
typedef struct run_t {
  uint64_t at[ADDRESSES];
  uint64_t replies, made, left; /* a sum of all replies; how many calls returned IOX2PS_OK; words that were overwritten */
  struct { uint64_t size, bytes[ROOM / 8]; } pictures[PICTURES];
} run_t;

/* ---- random calls */

static uint64_t state = 1;
static uint64_t random_below(uint64_t limit) {
  state = state * UINT64_C(6364136223846793005) + 1442695040888963407;
  return (state >> 33) % limit;
}

/* The words of a random handle of the kind, or of none. */
static void choose(const group_memory_t *it, handle_kind_t kind, uint64_t *words) {
  const live_handles_t *handles = &it->domains[0].handles;
  uint32_t which = UINT32_MAX;
  for (uint64_t first = random_below(PLACES), i = 0; i < PLACES && which == UINT32_MAX; i++) which = handles->first[(first + i) % PLACES][kind];
  for (uint64_t steps = random_below(4); which != UINT32_MAX && steps > 0; steps--) which = handles->all[which].next;
  if (which == UINT32_MAX) memset(words, 0, HANDLE_WORDS * sizeof *words);
  else memcpy(words, handles->all[which].words, HANDLE_WORDS * sizeof *words);
}

static void choose_options(uint64_t *words) {
  iox2ps_config_t config;
  iox2ps_publisher_options_t options;
  iox2ps_config_defaults(&config, 7, 64, 8);
  iox2ps_publisher_options_of(&config, &options);
  options.max_loaned_samples = 1 + random_below(3), options.backpressure_strategy = (uint32_t)random_below(2), options.initial_max_slice_len = 16;
  options.preallocated_samples = 1 + random_below(3), options.allocation_strategy = (uint32_t)random_below(3);
  CHECK(publisher_options_words(&options, words));
}

static void choose_arguments(const group_memory_t *it, uint64_t *arguments) {
  static const uint8_t often[] = {PUBLISHER_LOAN, LOAN_SEND, SUBSCRIBER_RECEIVE, SUBSCRIBER_RECEIVE, SAMPLE_RELEASE, BLOCKED_GIVE_UP, PUBLISHER_CREATE_WITH, SUBSCRIBER_CREATE};
  uint64_t *words = arguments + 1, operation = random_below(4) != 0 ? often[random_below(sizeof often)] : 1 + random_below(DOMAIN_OPERATIONS - 1);
  memset(arguments, 0, CALL_ARGUMENTS * sizeof *arguments);
  arguments[0] = operation;
  if (operation == PUBLISHER_CREATE_WITH) choose_options(words);
  else if (operation == SUBSCRIBER_CREATE_WITH) words[0] = 1 + random_below(3);
  else if (operation < LOAN_SEND || operation == PUBLISHER_CLOSE_CHANNEL) choose(it, HANDLE_PUBLISHER, words);
  else if (operation < BLOCKED_RETRY || operation == LOAN_DELIVER) choose(it, HANDLE_LOAN, words);
  else if (operation < SUBSCRIBER_CREATE) choose(it, HANDLE_BLOCKED, words);
  else choose(it, operation == SAMPLE_RELEASE ? HANDLE_SAMPLE : HANDLE_SUBSCRIBER, words);
  if (operation == PUBLISHER_LOAN) words[LENGTH_WORD] = random_below(4) * 16;
  if (operation == LOAN_DELIVER) words[DELIVER_WORD] = deliver_word(0, random_below(2));
}

/* So that nothing is left on the stack but what the next call leaves. */
__attribute__((noinline)) static void clear_stack(void) {
  char bytes[STACK];
  memset(bytes, 0, sizeof bytes);
  __asm__ volatile("" : : "r"(bytes) : "memory");
}

static void add_reply(run_t *run, const group_memory_t *it, uint32_t place) {
  const domain_reply_t *reply = &it->replies[place];
  uint64_t words[4 + HANDLE_WORDS] = {reply->code, reply->count, reply->payload == NULL ? 0 : (uint64_t)(reply->payload - (char *)it), reply->messages};
  memcpy(words + 4, reply->handle, sizeof reply->handle);
  for (size_t i = 0; i < sizeof words / sizeof *words; i++) run->replies = (run->replies ^ words[i]) * UINT64_C(0xff51afd7ed558ccd) + 1;
  run->made += reply->code == IOX2PS_OK;
}

/* ---- a process */

/* Where else this process has anything: a word of the book-keeping that points there was left behind. */
typedef struct ranges_t { struct { uint64_t from, to; } all[256]; size_t count; } ranges_t;
static void find_ranges(ranges_t *it, const char *memory) {
  char line[4096];
  FILE *maps = fopen("/proc/self/maps", "r");
  CHECK(maps != NULL);
  for (it->count = 0; it->count < 256 && fgets(line, sizeof line, maps) != NULL;) {
    unsigned long long from, to;
    CHECK(sscanf(line, "%llx-%llx", &from, &to) == 2);
    bool is_domain = from < (uintptr_t)memory + ROOM + PAYLOAD_ROOM && to > (uintptr_t)memory;
    if (!is_domain) it->all[it->count].from = from, it->all[it->count++].to = to;
  }
  CHECK(fclose(maps) == 0);
}

static uint64_t overwrite_left(const ranges_t *ranges, group_memory_t *it) {
  uint64_t *words = (uint64_t *)it->memory.heap.blocks, count = 0;
  for (size_t i = 0; i < it->memory.heap.used / 8; i++)
    for (size_t which = 0; which < ranges->count; which++)
      if (words[i] >= ranges->all[which].from && words[i] < ranges->all[which].to) words[i] = UINT64_C(0xdeadbeefdeadbeef), count++;
  return count;
}

static void make_calls(run_t *run, group_memory_t *it, bool overwrites) {
  static ranges_t ranges;
  find_ranges(&ranges, (char *)it);
  for (int call = 1; call <= CALLS; call++) {
    uint64_t arguments[CALL_ARGUMENTS];
    uint32_t place = (uint32_t)random_below(PLACES);
    choose_arguments(it, arguments);
    clear_stack();
    if (random_below(500) == 0) (void)group_memory_apply(&it->replica + 1, place, NULL);
    else (void)group_memory_apply(&it->replica + 1, place, arguments);
    add_reply(run, it, place);
    if (overwrites && call % 20 == 0) run->left += overwrite_left(&ranges, it);
    if (call % BETWEEN != 0) continue;
    group_memory_note_size(&it->replica);
    run->pictures[call / BETWEEN - 1].size = it->replica.size;
    memcpy(run->pictures[call / BETWEEN - 1].bytes, it, it->replica.size);
  }
}

static int run_calls(char *memory, run_t *run, bool overwrites) {
  static _Thread_local int of_thread;
  iox2ps_config_t config;
  iox2ps_config_defaults(&config, 7, 64, 8);
  config.max_publishers = 3, config.max_subscribers = 4, config.history_size = 2, config.enable_safe_overflow = 0, config.number_of_channels = 2;
  int flags = MAP_PRIVATE | MAP_ANONYMOUS | MAP_NORESERVE | MAP_FIXED_NOREPLACE;
  CHECK(mmap(memory, ROOM, PROT_READ | PROT_WRITE, flags, -1, 0) == memory && mmap(memory + ROOM, PAYLOAD_ROOM, PROT_NONE, flags, -1, 0) == memory + ROOM);
  group_memory_t *it = (group_memory_t *)memory;
  clear_stack();
  CHECK(group_memory_make(it, ROOM, PLACES, memory + ROOM, PAYLOAD_ROOM, &(domain_plan_t){&config, 0}, 1) == IOX2PS_OK);
  run->at[MEMORY_AT] = (uintptr_t)memory, run->at[STACK_AT] = (uintptr_t)__builtin_frame_address(0), run->at[PROGRAM_AT] = (uintptr_t)run_calls;
  run->at[LIBRARY_AT] = (uintptr_t)getauxval, run->at[LOADER_AT] = getauxval(AT_BASE), run->at[THREAD_AT] = (uintptr_t)&of_thread;
  make_calls(run, it, overwrites);
  return 0;
}

/* ---- two of them beside each other */

static void *map_shared(size_t size, int file) {
  void *at = mmap(NULL, size, PROT_READ | PROT_WRITE, MAP_SHARED, file, 0);
  CHECK(at != MAP_FAILED);
  return at;
}

/* Makes the calls in a process of its own, with its domain at this address. */
static run_t *start(char *program, uint64_t address, bool overwrites) {
  char at[32], into[32], *environment[] = {overwrites ? "MORE=words, which move the stack" : "FEW=", NULL};
  int file = memfd_create("run", 0), status;
  CHECK(file >= 0 && ftruncate(file, sizeof(run_t)) == 0);
  snprintf(at, sizeof at, "%llx", (unsigned long long)address), snprintf(into, sizeof into, "%d", file);
  pid_t child = fork_child();
  if (child == 0) {
    execve("/proc/self/exe", (char *[]){program, at, into, overwrites ? "overwrites" : "", NULL}, environment);
    _exit(1);
  }
  CHECK(child > 0 && waitpid(child, &status, 0) == child && status == 0);
  return map_shared(sizeof(run_t), file);
}

/* Whether two words are as far from these addresses, each in its process; or what is left of such words, of which the upper half or some
 * lower bytes were overwritten by the same. Without its lower bytes the rest may be one off. */
static bool are_alike(uint64_t first, uint64_t second, uint64_t one, uint64_t other) {
  if (first - one == second - other) return true;
  if (first >> 32 == second >> 32 && (uint32_t)(first - one) == (uint32_t)(second - other)) return true;
  for (int bits = 8; bits <= 32; bits += 8) {
    uint64_t off = (first >> bits) - (one >> bits) - (second >> bits) + (other >> bits);
    if ((first ^ second) << (64 - bits) == 0 && off + 1 <= 2) return true;
  }
  return false;
}

/* Which address two words have in common; ADDRESSES if none. */
static int kind_of(const run_t *one, const run_t *other, uint64_t first, uint64_t second) {
  int kind = 0;
  while (kind < ADDRESSES && !are_alike(first, second, one->at[kind], other->at[kind])) kind++;
  return kind;
}

static void compare(const run_t *one, const run_t *other, uint64_t counts[ADDRESSES]) {
  CHECK(one->replies == other->replies && one->made == other->made && one->made > CALLS / 10);
  for (int i = 0; i < PICTURES; i++) {
    CHECK(one->pictures[i].size == other->pictures[i].size && one->pictures[i].size > 8192);
    for (size_t word = 0; word < one->pictures[i].size / 8; word++) {
      uint64_t first = one->pictures[i].bytes[word], second = other->pictures[i].bytes[word];
      int kind = first == second ? 0 : kind_of(one, other, first, second);
      if (kind == ADDRESSES) fprintf(stderr, "after %d calls, word %zu: %llx and %llx\n", (i + 1) * BETWEEN, word, (unsigned long long)first, (unsigned long long)second);
      CHECK(kind < ADDRESSES);
      counts[kind] += first != second;
    }
  }
}

int main(int count, char **words) {
  if (count == 4) return run_calls((char *)(uintptr_t)strtoull(words[1], NULL, 16), map_shared(sizeof(run_t), atoi(words[2])), words[3][0] != 0);
  uint64_t counts[ADDRESSES] = {0};
  run_t *one = start(words[0], UINT64_C(0x210000000000), false), *other = start(words[0], UINT64_C(0x220040000000), false);
  compare(one, other, counts);
  run_t *overwritten = start(words[0], UINT64_C(0x230080000000), true);
  CHECK(overwritten->replies == one->replies && overwritten->made == one->made && overwritten->left > 0);
  for (int i = 0; i < PICTURES; i++) CHECK(overwritten->pictures[i].size == one->pictures[i].size);
  printf("%d calls, %llu of them well: the same in two processes, but for %llu addresses of the domain; and %llu that were left, which nobody reads\n", CALLS,
         (unsigned long long)one->made, (unsigned long long)counts[MEMORY_AT],
         (unsigned long long)(counts[STACK_AT] + counts[PROGRAM_AT] + counts[LIBRARY_AT] + counts[LOADER_AT] + counts[THREAD_AT]));
  return counts[MEMORY_AT] == 0;
}
