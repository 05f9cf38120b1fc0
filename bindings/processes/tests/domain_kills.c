// SPDX-License-Identifier: Apache-2.0 OR MIT
#define _GNU_SOURCE
/* Three processes make random calls of all kinds on a domain, and one of them is killed again and again, at any time. The others go on,
 * each message is whole, and whoever is left gives back all that the dead had.
 *
 *   domain_kills          60 kills
 *   domain_kills whole    3,000 */
#include "children.h"
#include "random_caller.h"
#include "shared_domain.h"
#include <string.h>
#include <sys/wait.h>
#include <time.h>

enum { CALLERS = 3, SHORT = 60, WHOLE = 3000, CHECK_EVERY = 20 };

static char name[64];
static iox2ps_domain_t domain = IOX2PS_DOMAIN_INIT;
static uint64_t calls;

static iox2ps_config_t settings(bool overflows) {
  iox2ps_config_t config;
  iox2ps_config_defaults(&config, 7, MESSAGE_WORDS * sizeof(uint64_t), _Alignof(uint64_t));
  config.max_publishers = 5, config.max_subscribers = 6, config.history_size = overflows ? 2 : 0, config.enable_safe_overflow = overflows;
  return config;
}

static pid_t start(const iox2ps_config_t *config, uint64_t seed) {
  pid_t child = fork_child();
  CHECK(child >= 0);
  if (child > 0) return child;
  static random_caller_t it;
  it = (random_caller_t){.domain = IOX2PS_DOMAIN_INIT, .state = seed, .number = seed << 32};
  CHECK(iox2ps_domain_open(&it.domain, name, "words", config, NULL) == IOX2PS_OK);
  while (true) call_by_random(&it);
}

static void end(pid_t child) {
  int status;
  CHECK(kill(child, SIGKILL) == 0 && waitpid(child, &status, 0) == child && was_killed(status));
}

/* All callers are dead. */
static void check_nothing_is_left(void) {
  size_t found, connections, books, taken;
  shared_domain_t *it = shared_domain_of(&domain);
  const domain_memory_t *memory = it->memory;
  CHECK(member_reap(&it->group->member, &found) == REPLICA_OK);
  CHECK(iox2ps_domain_connection_count(&domain, &connections) == IOX2PS_OK && iox2ps_domain_book_count(&domain, &books) == IOX2PS_OK);
  CHECK(connections == 0 && books == 0 && memory->handles.count == 0 && memory->group->memory.payloads.taken == 0);
  CHECK(region_heap_is_sane(&memory->group->memory.heap, &taken));
  for (uint32_t place = 1; place < it->group->member.files.places.count; place++) CHECK(it->group->member.files.places.shared->numbers[place] == 0);
  calls = memory->group->replica.progress.made;
}

static void kill_callers(bool overflows, int kills) {
  iox2ps_config_t config = settings(overflows);
  iox2ps_processes_options_t options;
  random_caller_t random = {.state = 1 + overflows};
  pid_t callers[CALLERS];
  iox2ps_processes_options_of(&config, &options);
  options.payload_room = options.book_room = 1 << 20; /* publishers of theirs grow */
  CHECK(iox2ps_domain_create_named(&domain, name, "words", &config, &options) == IOX2PS_OK);
  for (int done = 0; done < kills; done += CHECK_EVERY) {
    for (int i = 0; i < CALLERS; i++) callers[i] = start(&config, random_below(&random, 1 << 30));
    for (int i = 0; i < CHECK_EVERY; i++) {
      pid_t *one = &callers[random_below(&random, CALLERS)];
      nanosleep(&(struct timespec){.tv_nsec = 600000 + (long)random_below(&random, 3000000)}, NULL);
      end(*one);
      *one = start(&config, random_below(&random, 1 << 30));
    }
    for (int i = 0; i < CALLERS; i++) end(callers[i]);
    check_nothing_is_left();
  }
  printf("%d kills, %llu calls: nothing is left\n", kills, (unsigned long long)calls);
  CHECK(iox2ps_domain_destroy(&domain) == IOX2PS_OK);
}

int main(int count, char **words) {
  int kills = count > 1 && strcmp(words[1], "whole") == 0 ? WHOLE : SHORT;
  snprintf(name, sizeof name, "test_domain_kills.%d", (int)getpid());
  kill_callers(true, kills / 2);
  kill_callers(false, kills / 2);
  return 0;
}
