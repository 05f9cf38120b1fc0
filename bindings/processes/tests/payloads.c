// SPDX-License-Identifier: Apache-2.0 OR MIT
#define _GNU_SOURCE
/* Which blocks of a domain are payloads, and that no process touches the bytes of a message but the one that has its loan or sample. */
#include "check_domains.h"
#include "archive_memory.h"
#include "children.h"
#include "shared_domain.h"
#include <stdio.h>
#include <stdlib.h>
#include <string.h>
#include <sys/mman.h>
#include <sys/socket.h>
#include <sys/wait.h>

enum { MOST = 1000, ROUNDS = 200, LARGE = 1 << 18 };

static char name[64];
static iox2ps_domain_t open_named(const iox2ps_config_t *config, size_t publishers) {
  iox2ps_domain_t domain = IOX2PS_DOMAIN_INIT;
  iox2ps_processes_options_t options;
  iox2ps_processes_options_of(config, &options);
  options.max_processes = 2, options.calls = 64, options.book_room *= 3, options.payload_room *= publishers;
  CHECK(iox2ps_domain_open_or_create(&domain, name, "bytes", config, &options) == IOX2PS_OK);
  return domain;
}

/* ---- which blocks are payloads */

static const payload_extents_t *extents_of(const iox2ps_domain_t *domain) { return &shared_domain_of(domain)->group->memory->memory.payloads; }

/* How many blocks of payloads there are for messages of so many bytes, or in all with 0. */
static size_t blocks_for(const iox2ps_domain_t *domain, size_t size) {
  const payload_extents_t *extents = extents_of(domain);
  size_t count = 0, needed = (size + PAYLOAD_ALIGNMENT - 1) / PAYLOAD_ALIGNMENT;
  for (size_t i = 0; i < extents->count; i++) count += extents->all[i].is_taken && (size == 0 || extents->all[i].size == needed);
  return count;
}

/* The block of payloads where a loan's bytes begin. */
static size_t block_of(const iox2ps_domain_t *domain, const void *bytes, size_t len) {
  const payload_extents_t *extents = extents_of(domain);
  size_t at = (size_t)((const char *)bytes - shared_domain_of(domain)->group->member.files.payloads) / PAYLOAD_ALIGNMENT;
  for (size_t i = 0; i < extents->count; i++) if (extents->all[i].is_taken && extents->all[i].at == at && (size_t)extents->all[i].size * PAYLOAD_ALIGNMENT >= len) return i;
  CHECK(!"the loan lies in a block of payloads");
  return 0;
}

static void *lend(iox2ps_domain_t *domain, const iox2ps_publisher_t *publisher, size_t len, iox2ps_loan_t *loan) {
  void *payload;
  CHECK(iox2ps_publisher_loan_uninit(domain, publisher, len, loan, &payload) == IOX2PS_OK);
  memset(payload, 0x5a, len);
  return payload;
}

/* All slots are lent at once: each lies in a block of its own, and no block is left over. */
static void lend_all(iox2ps_domain_t *domain, const iox2ps_publisher_t *publisher, size_t slots, size_t len) {
  static iox2ps_loan_t loans[MOST];
  static bool is_lent[MOST];
  CHECK(slots <= MOST);
  memset(is_lent, 0, sizeof is_lent);
  for (size_t i = 0; i < slots; i++) {
    size_t block = block_of(domain, lend(domain, publisher, len, &loans[i]), len);
    CHECK(!is_lent[block]);
    is_lent[block] = true;
  }
  for (size_t i = 0; i < slots; i++) CHECK(iox2ps_loan_discard(domain, &loans[i]) == IOX2PS_OK);
}

static iox2ps_config_t settings(size_t size, size_t loans) {
  iox2ps_config_t config;
  iox2ps_config_defaults(&config, 7, size, 1);
  config.max_subscribers = 2, config.publisher_max_loaned_samples = loans;
  return config;
}

/* Two bytes are as many as a cell has. */
static void slots_are_blocks(size_t size) {
  iox2ps_config_t config = settings(size, 20);
  iox2ps_domain_t domain = open_named(&config, 8);
  iox2ps_publisher_t publisher, growing;
  iox2ps_publisher_options_t options;
  iox2ps_publisher_options_of(&config, &options);
  options.preallocated_samples = 12;
  CHECK(blocks_for(&domain, 0) == 0 && iox2ps_publisher_create_with(&domain, &options, &publisher) == IOX2PS_OK);
  CHECK(blocks_for(&domain, 0) == 12 && blocks_for(&domain, size) == 12);
  lend_all(&domain, &publisher, 12, size);
  options.preallocated_samples = 3, options.allocation_strategy = IOX2PS_ALLOCATION_BEST_FIT;
  CHECK(iox2ps_publisher_create_with(&domain, &options, &growing) == IOX2PS_OK && blocks_for(&domain, 0) == 15);
  iox2ps_loan_t loan;
  size_t larger = size + 2 * PAYLOAD_ALIGNMENT;
  (void)block_of(&domain, lend(&domain, &growing, larger, &loan), larger);
  CHECK(blocks_for(&domain, larger) > 0 && blocks_for(&domain, larger) + blocks_for(&domain, size) == blocks_for(&domain, 0));
  CHECK(iox2ps_loan_discard(&domain, &loan) == IOX2PS_OK && iox2ps_publisher_close(&domain, &growing) == IOX2PS_OK);
  CHECK(blocks_for(&domain, 0) == 12 && iox2ps_publisher_close(&domain, &publisher) == IOX2PS_OK);
  CHECK(blocks_for(&domain, 0) == 0 && extents_of(&domain)->taken == 0 && iox2ps_domain_destroy(&domain) == IOX2PS_OK);
}

/* ---- where the archive asked for something else */

typedef struct memory_t {
  _Alignas(64) char book[1 << 16], payloads[1 << 12];
} memory_t;

static group_memory_t *make_alone(memory_t *in) {
  iox2ps_config_t config = settings(8, 2);
  group_memory_t *it = (group_memory_t *)in->book;
  CHECK(group_memory_make(it, sizeof in->book, 1, in->payloads, sizeof in->payloads, &(domain_plan_t){&config, 0}, 1) == IOX2PS_OK);
  return it;
}

/* Of two blocks that are aligned to 1, one behind the other, the second is a payload, where slots may be made. */
static void requests(void) {
  static memory_t memory;
  group_memory_t *it = make_alone(&memory);
  static const struct { size_t size, alignment; bool is_payload; } all[] = {{2, 1, false}, {9, 1, true}, {64, 8, false}, {2, 1, false}, {2, 1, true}, {2, 8, false},
                                                                            {9, 1, false}, {2, 1, false}, {16, 8, false}, {9, 1, false}};
  void *blocks[sizeof all / sizeof *all];
  for (int may_make_slots = 0; may_make_slots < 2; may_make_slots++) {
    archive_memory_use(&archive_memory_now, &it->memory, may_make_slots);
    for (size_t i = 0; i < sizeof all / sizeof *all; i++) {
      tried_t tried = rattle_alloc(all[i].size, all[i].alignment);
      CHECK(tried.is_ok && payload_extents_have(&it->memory.payloads, blocks[i] = tried.block) == (may_make_slots && all[i].is_payload));
    }
    CHECK(rattle_alloc(64, 32).is_ok == 0);
    for (size_t i = 0; i < sizeof all / sizeof *all; i++) rattle_dealloc(blocks[i]);
    archive_memory_use_plain();
  }
}

/* A loan whose bytes lie anywhere else is refused, and given back. */
static void lies_elsewhere(void) {
  static memory_t memory;
  group_memory_t *it = make_alone(&memory);
  uint64_t arguments[CALL_ARGUMENTS] = {PUBLISHER_CREATE};
  (void)group_memory_apply(&it->replica + 1, 0, arguments);
  CHECK(it->replies[0].code == IOX2PS_OK);
  arguments[0] = PUBLISHER_LOAN, memcpy(arguments + 1, it->replies[0].handle, sizeof it->replies[0].handle);
  arguments[1 + LENGTH_WORD] = 8;
  it->memory.payloads.payloads += it->memory.payloads.room;
  for (int turn = 0; turn < 5; turn++) {
    (void)group_memory_apply(&it->replica + 1, 0, arguments);
    CHECK(it->replies[0].code == IOX2PS_LOAN_ERROR_INTERNAL_FAILURE && live_handles_first(&it->domains[0].handles, 0)->kind == HANDLE_PUBLISHER);
  }
}

/* ---- who touches them */

static void send_and_receive(iox2ps_domain_t *domain, const iox2ps_publisher_t *publisher, const iox2ps_subscriber_t *subscriber, size_t len) {
  iox2ps_loan_t loan;
  iox2ps_sample_t sample;
  iox2ps_blocked_t blocked;
  const void *payload;
  void *bytes;
  size_t receivers, got;
  CHECK(iox2ps_publisher_loan(domain, publisher, len, &loan, &bytes) == IOX2PS_OK && (len == 0 || *(char *)bytes == 0));
  if (len != 0) *(char *)bytes = 7;
  CHECK(iox2ps_loan_send(domain, &loan, &receivers, &blocked) == IOX2PS_OK && receivers == 1);
  CHECK(iox2ps_subscriber_receive(domain, subscriber, &sample, &payload, &got) == IOX2PS_OK && got == len && (len == 0 || *(const char *)payload == 7));
  CHECK(iox2ps_sample_release(domain, &sample) == IOX2PS_OK);
}

/* Makes the calls of the parent, until that closes the pipe, where no page with payloads may be touched. */
static _Noreturn void follow(const iox2ps_config_t *config, int pipe) {
  iox2ps_domain_t domain = open_named(config, 1);
  shared_domain_t *shared = shared_domain_of(&domain);
  CHECK(mprotect(shared->group->member.files.payloads, shared->group->member.files.payload_size, PROT_NONE) == 0);
  char word = 1;
  CHECK(write(pipe, &word, 1) == 1);
  while (read(pipe, &word, 1) == 1) CHECK(shared_domain_follow(shared) == IOX2PS_OK && write(pipe, &word, 1) == 1);
  CHECK(blocks_for(&domain, 0) == 0 && iox2ps_domain_destroy(&domain) == IOX2PS_OK);
  _exit(0);
}

/* One round of calls, which the child makes before the next; or it takes a copy, if it is far behind. */
static void one_round(iox2ps_domain_t *domain, const iox2ps_publisher_t *publisher, const iox2ps_subscriber_t *subscriber, int round) {
  iox2ps_publisher_t growing;
  iox2ps_publisher_options_t options;
  iox2ps_config_t config = settings(LARGE, 2);
  for (int i = 0; i < (round % 20 == 0 ? 30 : 1); i++) send_and_receive(domain, publisher, subscriber, (size_t)(round % 3) * LARGE / 2);
  if (round % 10 != 0) return;
  iox2ps_publisher_options_of(&config, &options);
  options.initial_max_slice_len = 64, options.preallocated_samples = 4, options.allocation_strategy = IOX2PS_ALLOCATION_POWER_OF_TWO;
  CHECK(iox2ps_publisher_create_with(domain, &options, &growing) == IOX2PS_OK);
  for (size_t len = 64; len <= LARGE; len *= 4) send_and_receive(domain, &growing, subscriber, len);
  CHECK(iox2ps_publisher_close(domain, &growing) == IOX2PS_OK);
}

static void only_who_has_it(void) {
  int pipes[2], status;
  iox2ps_config_t config = settings(LARGE, 2);
  char word;
  CHECK(socketpair(AF_UNIX, SOCK_STREAM | SOCK_CLOEXEC, 0, pipes) == 0);
  pid_t child = fork_child();
  if (child == 0) {
    close(pipes[0]);
    follow(&config, pipes[1]);
  }
  close(pipes[1]);
  iox2ps_domain_t domain = open_named(&config, 1);
  iox2ps_publisher_t publisher;
  iox2ps_subscriber_t subscriber;
  CHECK(child > 0 && read(pipes[0], &word, 1) == 1);
  CHECK(iox2ps_publisher_create(&domain, &publisher) == IOX2PS_OK && iox2ps_subscriber_create(&domain, &subscriber) == IOX2PS_OK);
  for (int round = 0; round < ROUNDS; round++) {
    one_round(&domain, &publisher, &subscriber, round);
    CHECK(write(pipes[0], &word, 1) == 1 && read(pipes[0], &word, 1) == 1);
  }
  CHECK(iox2ps_publisher_close(&domain, &publisher) == IOX2PS_OK && iox2ps_subscriber_close(&domain, &subscriber) == IOX2PS_OK);
  CHECK(write(pipes[0], &word, 1) == 1 && read(pipes[0], &word, 1) == 1);
  close(pipes[0]);
  CHECK(waitpid(child, &status, 0) == child && status == 0);
  CHECK(iox2ps_domain_destroy(&domain) == IOX2PS_OK);
}

int main(void) {
  snprintf(name, sizeof name, "test_payloads.%d", (int)getpid());
  const size_t sizes[] = {1, 2, 3, 8, 63, 64, 65, 4096};
  for (size_t i = 0; i < sizeof sizes / sizeof *sizes; i++) slots_are_blocks(sizes[i]);
  only_who_has_it();
  requests();
  lies_elsewhere();
  puts("payloads: each slot has one, and nobody touches them but who has the loan or the sample");
  return 0;
}
