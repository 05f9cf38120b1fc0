// SPDX-License-Identifier: Apache-2.0 OR MIT
/* In the place of explore.c: Relacy runs the scenarios by random choices of its own, and has a reading of C11's orders of its own. So what
 * explore.c takes for allowed isn't one reading alone. Nobody dies here, and nobody takes turns. */
#include <csetjmp>
#include <cstring>
#include <iostream>
#include <memory> /* before the names of the model's accesses, which it has, too */

#define _Atomic
#define _Noreturn [[noreturn]]
extern "C" {
#include "explore.h"
}

namespace {
/* Relacy has macros of the orders' names, and of the fence's. */
enum { relaxed = memory_order_relaxed, acquire = memory_order_acquire, release = memory_order_release, acq_rel = memory_order_acq_rel };
} // namespace
#undef atomic_thread_fence
#include <relacy/relacy.hpp>

alignas(64) uint64_t region[REGION_WORDS]; /* addresses alone: what stands there is in `cells` */

namespace {

constexpr unsigned runs = 20000, most_steps = 20000;

const exploration_t *scenario;
uint64_t newest[REGION_WORDS];
uint32_t ended;
bool is_preparing, sleeps[PROCESSES];
size_t sleeps_at[PROCESSES];
std::jmp_buf leaves[PROCESSES];
rl::atomic<uint64_t> *cells;

rl::memory_order order_of(memory_order order) {
  switch (static_cast<int>(order)) {
  case relaxed: return rl::mo_relaxed;
  case acquire: return rl::mo_acquire;
  case release: return rl::mo_release;
  case acq_rel: return rl::mo_acq_rel;
  default: return rl::mo_seq_cst;
  }
}

size_t word_of(const uint64_t *at) {
  if (at < region || at >= region + REGION_WORDS) explore_wrong("an access outside of the shared memory");
  return static_cast<size_t>(at - region);
}

struct scenario_run : rl::test_suite<scenario_run, PROCESSES> {
  rl::atomic<uint64_t> of_region[REGION_WORDS];

  void before() {
    cells = of_region;
    for (auto &cell : of_region) cell.store(0, rl::mo_relaxed, $);
    std::memset(newest, 0, sizeof newest);
    std::memset(sleeps, 0, sizeof sleeps);
    ended = 0;
    is_preparing = true;
    scenario->prepare();
    is_preparing = false;
  }

  void thread(unsigned process) {
    if (process >= scenario->processes) return;
    if (setjmp(leaves[process]) == 0) scenario->run(process);
    ended++;
  }
};

} // namespace

uint64_t explore(const exploration_t *exploration) {
  scenario = exploration;
  std::ostream nowhere(nullptr);
  rl::test_params how;
  how.iteration_count = runs, how.execution_depth_limit = most_steps;
  how.output_stream = how.progress_stream = &nowhere;
  if (rl::simulate<scenario_run>(how)) return runs;
  std::cerr << "wrong: " << rl::test_result_str(how.test_result) << ", by Relacy, in run " << how.stop_iteration << '\n';
  std::_Exit(1);
}

uint32_t explore_self(void) { return is_preparing ? 0 : rl::thread_index(); }
uint32_t explore_choose(uint32_t alternatives) { return alternatives < 2 ? 0 : rl::rand(alternatives); }
void explore_leave(void) { std::longjmp(leaves[explore_self()], 1); }
void explore_wrong(const char *words) {
  std::cerr << "wrong: " << words << ", by Relacy (process " << explore_self() << ")\n";
  std::_Exit(1);
}

void explore_sleep(const uint64_t *at, uint64_t seen) {
  const uint32_t self = explore_self();
  if (newest[word_of(at)] != seen) return;
  sleeps[self] = true, sleeps_at[self] = word_of(at);
  while (sleeps[self]) {
    uint32_t asleep = 0;
    for (bool is_asleep : sleeps) asleep += is_asleep;
    if (ended + asleep == scenario->processes) explore_wrong(scenario->sleeps_on());
    rl::yield(1, $);
  }
}
void explore_wake(const uint64_t *at) {
  for (uint32_t process = 0; process < PROCESSES; process++)
    if (sleeps_at[process] == word_of(at)) sleeps[process] = false;
}

uint64_t explore_newest(const uint64_t *at) { return newest[word_of(at)]; }
bool explore_is_dead(uint32_t) { return false; }
void explore_begin_anew(uint32_t) { explore_wrong("nobody dies here"); }
void explore_take_over(uint32_t) { explore_wrong("nobody dies here"); }

extern "C" {
uint64_t model_load(const uint64_t *at, memory_order order) { return cells[word_of(at)].load(order_of(order), $); }

void model_store(uint64_t *at, uint64_t value, memory_order order) {
  cells[word_of(at)].store(value, order_of(order), $);
  newest[word_of(at)] = value;
}

bool model_compare_exchange(uint64_t *at, uint64_t *expected, uint64_t desired, memory_order order) {
  const size_t word = word_of(at);
  if (!cells[word].compare_exchange(rl::bool_t<false>(), *expected, desired, order_of(order), rl::mo_relaxed, $)) return false;
  newest[word] = desired;
  scenario->swapped(word);
  return true;
}

uint64_t model_fetch(uint64_t *at, model_operation_t operation, uint64_t with, memory_order order) {
  const size_t word = word_of(at);
  rl::atomic<uint64_t> &cell = cells[word];
  switch (operation) {
  case MODEL_ADD: newest[word] += with; return cell.fetch_add(with, order_of(order), $);
  case MODEL_OR: newest[word] |= with; return cell.fetch_or(with, order_of(order), $);
  case MODEL_AND: break;
  }
  newest[word] &= with;
  return cell.fetch_and(with, order_of(order), $);
}

void model_fence(memory_order order) { rl::atomic_thread_fence(order_of(order), $); }
}
