// SPDX-License-Identifier: Apache-2.0 OR MIT
#define _GNU_SOURCE
/* What the dearest of many messages takes, by counts: no page is touched for the first time by a message, and none has a copy of the
 * book-keeping in it where a process that has no port waits in the domain, however large the book-keeping is. Where there is none, who looks
 * for messages makes the copy between two of them, a piece at each look. */
#include "passed.h"
#include "shared_domain.h"
#include <sched.h>
#include <stdio.h>
#include <sys/resource.h>

/* As many messages as bring three copies. Of one with a copy in it not all is counted. */
enum { COUNTED = 100, MOST_COUNTED = 40000, MOST_PERCENT_OF_MEDIAN = 110, LEAST_PERCENT_WITH_COPY = 2000, BUFFER = 1000, BUFFER_FOR_TWO = 64, LEAST_BYTES = 300000 };

static bool is_followed;

static iox2ps_config_t config_of(size_t buffer) {
  iox2ps_config_t config;
  iox2ps_config_defaults(&config, 7, BYTES, 8);
  config.subscriber_max_buffer_size = buffer;
  return config;
}

/* With far more book-keeping than a list of this length is for. */
static iox2ps_domain_t opened(const char *name, uint32_t spins) {
  iox2ps_domain_t domain = IOX2PS_DOMAIN_INIT;
  iox2ps_config_t config = config_of(BUFFER);
  iox2ps_processes_options_t options;
  iox2ps_processes_options_of(&config, &options);
  options.spins = spins, options.calls = 256;
  CHECK(iox2ps_domain_open_or_create(&domain, name, "bytes", &config, &options) == IOX2PS_OK);
  return domain;
}

/* As of figures/by_processes.c. */
static iox2ps_domain_t opened_for_two(const char *name) {
  iox2ps_domain_t domain = IOX2PS_DOMAIN_INIT;
  iox2ps_config_t config = config_of(BUFFER_FOR_TWO);
  config.max_publishers = config.max_subscribers = 1;
  CHECK(iox2ps_domain_open_or_create(&domain, name, "bytes", &config, NULL) == IOX2PS_OK);
  return domain;
}

static passer_t passer_of_domain(iox2ps_domain_t domain) {
  passer_t it = {.domain = domain};
  CHECK(iox2ps_publisher_create(&it.domain, &it.publisher) == IOX2PS_OK && iox2ps_subscriber_create(&it.domain, &it.subscriber) == IOX2PS_OK);
  return it;
}
static passer_t passer_in(const char *name) { return passer_of_domain(opened(name, 0)); }

/* Until another process has made the copy that isn't due for long yet, also for those that have time. */
static void await_copy(const passer_t *it) {
  const replica_t *replica = &shared_domain_of(&it->domain)->group->member.replica;
  while (replica->memory->progress.made >= copies_newest(&replica->copies) + replica->list.length / 8) sched_yield();
}

/* Stops before and after each message. */
static void run(const char *name, pid_t self) {
  passer_t it = passer_in(name);
  for (int i = 0; i < WARM_UP; i++) pass_message(&it);
  CHECK(shared_domain_of(&it.domain)->group->memory->replica.size >= LEAST_BYTES);
  for (int i = 0; i < COUNTED; i++) {
    if (is_followed) await_copy(&it);
    mark(self);
    pass_message(&it);
    mark(self);
  }
  CHECK(iox2ps_domain_destroy(&it.domain) == IOX2PS_OK);
}

/* Instructions of a message: of most, and of the dearest. */
static counts_t dearest_of(const char *name) {
  uint64_t counts[COUNTED];
  int status;
  pid_t child = traced_child(run, name);
  CHECK(child > 0);
  for (int i = 0; i < COUNTED; i++) {
    bool is_at_mark = false;
    counts[i] = run_to_mark(child, PTRACE_SINGLESTEP, MOST_COUNTED, &is_at_mark);
    for (int ahead = !is_at_mark + (i + 1 < COUNTED); ahead > 0; ahead--) CHECK(run_to_mark(child, PTRACE_CONT, UINT64_MAX, &is_at_mark) == 0 && is_at_mark);
  }
  CHECK(ptrace(PTRACE_CONT, child, NULL, NULL) == 0 && waitpid(child, &status, 0) == child && status == 0);
  qsort(counts, COUNTED, sizeof *counts, compare_stops);
  return (counts_t){counts[COUNTED / 2], counts[COUNTED - 1]};
}

/* Waits for nothing that comes. */
static pid_t follower(const char *name) {
  pid_t child = fork_child();
  CHECK(child >= 0);
  if (child > 0) return child;
  iox2ps_domain_t domain = opened(name, UINT32_MAX);
  while (iox2ps_domain_wait(&domain, IOX2PS_BRINGS_DEAD_NODE, 0, UINT64_MAX) == IOX2PS_OK) continue;
  _exit(1);
}

static long pages_touched(void) {
  struct rusage usage;
  CHECK(getrusage(RUSAGE_SELF, &usage) == 0);
  return usage.ru_minflt;
}

/* For a message that isn't there: this process has time then. */
static void look(passer_t *it) {
  iox2ps_sample_t sample;
  const void *payload;
  size_t len;
  CHECK(iox2ps_subscriber_receive(&it->domain, &it->subscriber, &sample, &payload, &len) == IOX2PS_NO_SAMPLE);
}

static void pass_and_look(passer_t *it) {
  pass_message(it);
  look(it), look(it);
}

/* By a process that creates a domain, or joins it, and from its first message on. The program's own pages a message in another domain
 * touches before. */
static void no_new_page(const char *name, const char *other) {
  passer_t it = passer_in(name), before = passer_of(other);
  for (int i = 0; i < WARM_UP; i++) pass_and_look(&before);
  CHECK(iox2ps_domain_destroy(&before.domain) == IOX2PS_OK);
  long touched = pages_touched();
  for (int i = 0; i < WARM_UP; i++) pass_and_look(&it);
  CHECK(pages_touched() == touched && iox2ps_domain_destroy(&it.domain) == IOX2PS_OK);
}

static void joiner_touches_no_new_page(const char *name, const char *other) {
  iox2ps_domain_t creator = opened(name, 0);
  int status;
  pid_t child = fork_child();
  CHECK(child >= 0);
  if (child == 0) {
    CHECK(iox2ps_domain_destroy(&creator) == IOX2PS_OK);
    no_new_page(name, other);
    _exit(0);
  }
  CHECK(waitpid(child, &status, 0) == child && status == 0);
  CHECK(iox2ps_domain_destroy(&creator) == IOX2PS_OK);
}

/* ---- copies by who looks for messages */

/* So often it looks, and finds nothing, behind each message: at first by a call, and then it has time; more seldom than a process of a round
 * trip. */
enum { LOOKS = 3, ROUNDS = 1000, LEAST_MESSAGES_BETWEEN = 13 };

typedef struct copied_t { size_t words, most_words; int copies, messages, least_between; } copied_t;

/* At most a piece, or the beginning of a copy, which some messages came before. */
static void note_look(copied_t *it, const replica_t *before, const replica_t *after) {
  bool has_begun = after->making.made != before->making.made;
  size_t words = has_begun ? 0 : after->making.done - before->making.done;
  if (has_begun) {
    CHECK(!before->is_copying && after->is_copying && after->making.done == 0);
    if (it->copies++ > 0 && it->messages < it->least_between) it->least_between = it->messages;
    it->messages = 0;
  }
  it->words += words;
  if (words > it->most_words) it->most_words = words;
}

static void copies_between_messages(const char *name) {
  passer_t it = passer_of_domain(opened_for_two(name));
  const replica_t *replica = &shared_domain_of(&it.domain)->group->member.replica;
  copied_t copied = {.least_between = ROUNDS};
  for (int round = 0; round < ROUNDS; round++) {
    replica_t before = *replica;
    uint64_t newest = copies_newest(&replica->copies);
    pass_message(&it), copied.messages++;
    CHECK(replica->making.done == before.making.done && copies_newest(&replica->copies) == newest); /* no message makes any of it */
    for (int i = 0; i < LOOKS; i++) {
      before = *replica;
      look(&it);
      note_look(&copied, &before, replica);
    }
  }
  printf("tails: who looks for messages begins a copy of %zu bytes after each %d messages, and makes %zu bytes of it at a look\n", (size_t)replica->memory->size,
         copied.least_between, copied.most_words * COPY_UNIT);
  fflush(stdout);
  CHECK(copied.copies > ROUNDS / 50 && copied.words > (size_t)(copied.copies - 1) * replica->memory->size / COPY_UNIT * 9 / 10);
  CHECK(copied.most_words == COPY_PIECE && COPY_PIECE * COPY_UNIT <= 2048 && copied.least_between >= LEAST_MESSAGES_BETWEEN);
  CHECK(iox2ps_domain_destroy(&it.domain) == IOX2PS_OK);
}

/* ---- and by who sleeps */

enum { SHORT_NS = 1000000 };

static void sleep_shortly(passer_t *it) {
  uint64_t count = 0;
  CHECK(iox2ps_domain_brought(&it->domain, IOX2PS_BRINGS_MESSAGE, &count) == IOX2PS_OK);
  CHECK(iox2ps_domain_wait(&it->domain, IOX2PS_BRINGS_MESSAGE, count, SHORT_NS) == IOX2PS_PROCESSES_TIMED_OUT);
}

/* As one thread does for all. */
static void sleep_for_others(passer_t *it) {
  uint64_t begun = 0;
  CHECK(iox2ps_domain_sleep_begin(&it->domain, IOX2PS_BRINGS_MESSAGE, &begun) == IOX2PS_OK);
  CHECK(iox2ps_domain_sleep(&it->domain, begun, SHORT_NS) == IOX2PS_OK);
}

/* A copy of many pieces is whole before its process sleeps, which may be for long. */
static void copies_before_sleep(const char *name, void (*sleep)(passer_t *it)) {
  passer_t it = passer_in(name);
  const replica_t *replica = &shared_domain_of(&it.domain)->group->member.replica;
  for (int i = 0; i < WARM_UP || !replica->is_copying; i++) pass_and_look(&it);
  CHECK(replica->making.count - replica->making.done > 10 * COPY_PIECE);
  uint64_t begun = replica->making.made;
  sleep(&it);
  CHECK(!replica->is_copying && copies_newest(&replica->copies) == begun + 1);
  CHECK(iox2ps_domain_destroy(&it.domain) == IOX2PS_OK);
}

int main(void) {
  char name[64], other[64];
  snprintf(name, sizeof name, "test_tails.%d", (int)getpid());
  snprintf(other, sizeof other, "test_tails_other.%d", (int)getpid());
  no_new_page(name, other);
  joiner_touches_no_new_page(name, other);
  copies_between_messages(name);
  copies_before_sleep(name, sleep_shortly);
  copies_before_sleep(name, sleep_for_others);
  counts_t alone = dearest_of(name);
  is_followed = true;
  pid_t child = follower(name);
  counts_t followed = dearest_of(name);
  end_child(child);
  printf("tails: the dearest message takes %llu instructions where most take %llu, and without a follower %llu or more; none touches a page\n",
         (unsigned long long)followed.mean, (unsigned long long)followed.median, (unsigned long long)alone.mean);
  fflush(stdout);
  CHECK(100 * followed.mean <= MOST_PERCENT_OF_MEDIAN * followed.median && 100 * alone.mean >= LEAST_PERCENT_WITH_COPY * alone.median);
  return 0;
}
