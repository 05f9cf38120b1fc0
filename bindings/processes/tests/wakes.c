// SPDX-License-Identifier: Apache-2.0 OR MIT
#define _GNU_SOURCE
/* Who is woken by what, as the list of those who sleep counts it, and how many calls of the system that takes: a publisher only where there
 * is room or a loan for it, and it alone. Where it isn't said otherwise none looks by itself for an hour. */
#include "numbers.h"
#include "shared_domain.h"
#include "traced.h"
#include <string.h>
#include <sys/mman.h>

enum { SHORT_MS = 50, OFTEN_MS = 10, SUBSCRIBERS = 8, MESSAGES = 40, PUBLISHERS = 3, LOOKS = 8, IDLE = 3 };
enum { MESSAGE_SLEEPERS = 0, ROOM_SLEEPERS = 1, LOAN_SLEEPERS = 3, EVENT_SLEEPERS = 5 }; /* the bits of what they wait for */

static char name[64];
static iox2ps_config_t config;

/* What processes tell each other beside the domain: where each is, how many are ready, where a send stands, and how often one looked. */
static struct told_t { _Atomic uint64_t places[SUBSCRIBERS], ready, stands_at, looks, is_over; } *told;

static iox2ps_domain_t opened(uint32_t reap_every_ms) {
  iox2ps_processes_options_t options = looking_every(&config, reap_every_ms);
  options.spins = 0;
  return open_numbers(name, &config, options);
}

static uint32_t place_of(const iox2ps_domain_t *domain) { return shared_domain_of(domain)->group->member.replica.place; }
static sleepers_shared_t *sleepers_of(const iox2ps_domain_t *domain) { return shared_domain_of(domain)->group->member.files.sleepers; }
/* How often others have woken the process of this place. */
static uint64_t wakes_of(const iox2ps_domain_t *domain, uint64_t place) { return sleepers_of(domain)->woken[place].count; }
static uint64_t all_wakes(const iox2ps_domain_t *domain) {
  uint64_t sum = 0;
  for (uint64_t place = 0; place < SLEEP_PLACES; place++) sum += wakes_of(domain, place);
  return sum;
}
static void wait_for_sleepers(const iox2ps_domain_t *domain, int reason, int count) {
  while (__builtin_popcountll(sleepers_of(domain)->asleep[reason]) < count) usleep(1000);
}
/* Until the system says that it sleeps. */
static void wait_until_asleep(pid_t process) {
  char path[64], state = 0;
  snprintf(path, sizeof path, "/proc/%d/stat", (int)process);
  while (state != 'S') {
    FILE *file = fopen(path, "r");
    CHECK(file != NULL && fscanf(file, "%*d (%*[^)]) %c", &state) == 1 && fclose(file) == 0);
    usleep(1000);
  }
}
static void wait_for_ready(uint64_t count) {
  while (told->ready < count) usleep(1000);
}

static uint64_t subscriber_of(iox2ps_domain_t *domain, const iox2ps_blocked_t *blocked) {
  iox2ps_wide_t subscriber;
  CHECK(iox2ps_blocked_subscriber(domain, blocked, &subscriber) == IOX2PS_OK);
  return subscriber.low;
}

/* Waits for room where a buffer is full. Returns at how many buffers it stood. */
static uint64_t send_number(iox2ps_domain_t *domain, const iox2ps_publisher_t *publisher, uint64_t number) {
  iox2ps_blocked_t blocked;
  uint64_t stops = 0, stands_at = 0, seen = seen_of(domain, IOX2PS_BRINGS_ROOM);
  iox2ps_status_t code = iox2ps_publisher_send_copy(domain, publisher, &number, sizeof number, NULL, &blocked);
  while (code == IOX2PS_BLOCKED) {
    if (subscriber_of(domain, &blocked) != stands_at) stops++;
    told->stands_at = stands_at = subscriber_of(domain, &blocked);
    CHECK(iox2ps_domain_wait(domain, IOX2PS_BRINGS_ROOM, seen, PATIENCE) == IOX2PS_OK);
    seen = seen_of(domain, IOX2PS_BRINGS_ROOM);
    code = iox2ps_blocked_retry(domain, &blocked, 0, NULL);
  }
  CHECK(code == IOX2PS_OK);
  return stops;
}

/* ---- room */

static void receive_all(uint64_t which) {
  iox2ps_domain_t domain = opened(HOUR_MS);
  iox2ps_subscriber_t subscriber;
  CHECK(iox2ps_subscriber_create(&domain, &subscriber) == IOX2PS_OK);
  told->ready++;
  for (uint64_t number = 1; number <= MESSAGES; number++) {
    if ((number + which) % 4 == 0) usleep(2000); /* so that the publisher sleeps at one or another */
    CHECK(receive_number(&domain, &subscriber) == number);
  }
  while (!told->is_over) usleep(1000); /* whoever leaves wakes all */
  destroy(&domain);
}

/* A publisher with many subscribers that sleep is woken once at each full buffer, and not by what the others receive. */
static void many_subscribers(void) {
  iox2ps_domain_t domain = opened(HOUR_MS);
  iox2ps_publisher_t publisher;
  pid_t children[SUBSCRIBERS];
  uint64_t stops = 0;
  memset(told, 0, sizeof *told);
  CHECK(iox2ps_publisher_create(&domain, &publisher) == IOX2PS_OK);
  for (uint64_t i = 0; i < SUBSCRIBERS; i++) children[i] = run_child(receive_all, i);
  wait_for_ready(SUBSCRIBERS);
  for (uint64_t number = 1; number <= MESSAGES; number++) stops += send_number(&domain, &publisher, number);
  uint64_t wakes = wakes_of(&domain, place_of(&domain));
  told->is_over = true;
  for (int i = 0; i < SUBSCRIBERS; i++) CHECK(status_of(children[i]) == 0);
  printf("a publisher with %d subscribers stood at %llu full buffers in %d messages, and was woken %llu times\n", SUBSCRIBERS, (unsigned long long)stops,
         MESSAGES, (unsigned long long)wakes);
  fflush(stdout);
  CHECK(wakes > 0 && wakes <= stops);
  destroy(&domain);
}

/* Sends twice, so that the second send waits where the first lies; the number is its place. */
static void stand_at_a_buffer(uint64_t which) {
  iox2ps_domain_t domain = opened(HOUR_MS);
  iox2ps_publisher_t publisher;
  CHECK(iox2ps_publisher_create(&domain, &publisher) == IOX2PS_OK);
  told->places[which] = place_of(&domain);
  for (int i = 0; i < 2; i++) send_number(&domain, &publisher, place_of(&domain));
  while (!told->is_over) usleep(1000); /* a closed publisher's messages go with it */
  destroy(&domain);
}

/* Of two subscribers that have the message, the one at which the send stands makes room by its receive. */
static void where_it_stands(void) {
  iox2ps_domain_t domain = opened(HOUR_MS);
  iox2ps_subscriber_t both[2];
  memset(told, 0, sizeof *told);
  for (int i = 0; i < 2; i++) CHECK(iox2ps_subscriber_create(&domain, &both[i]) == IOX2PS_OK);
  pid_t child = run_child(stand_at_a_buffer, 0);
  wait_for_sleepers(&domain, ROOM_SLEEPERS, 1);
  int at = told->stands_at == both[0].id.low ? 0 : 1;
  CHECK(told->stands_at == both[at].id.low && receive_number(&domain, &both[1 - at]) == told->places[0]);
  CHECK(all_wakes(&domain) == 0 && sleepers_of(&domain)->asleep[ROOM_SLEEPERS] == UINT64_C(1) << told->places[0]);
  CHECK(receive_number(&domain, &both[at]) == told->places[0] && wakes_of(&domain, told->places[0]) == 1 && all_wakes(&domain) == 1);
  for (int i = 0; i < 2; i++) CHECK(receive_number(&domain, &both[i]) == told->places[0]);
  told->is_over = true;
  CHECK(status_of(child) == 0);
  destroy(&domain);
}

/* Of several publishers that stand at one subscriber, each with a buffer of its own there, a receive wakes the one whose message it takes. */
static void one_of_several(void) {
  iox2ps_domain_t domain = opened(HOUR_MS);
  iox2ps_subscriber_t subscriber;
  pid_t children[PUBLISHERS];
  memset(told, 0, sizeof *told);
  CHECK(iox2ps_subscriber_create(&domain, &subscriber) == IOX2PS_OK);
  for (uint64_t i = 0; i < PUBLISHERS; i++) children[i] = run_child(stand_at_a_buffer, i);
  wait_for_sleepers(&domain, ROOM_SLEEPERS, PUBLISHERS);
  uint64_t before = seen_of(&domain, IOX2PS_BRINGS_ROOM);
  CHECK(all_wakes(&domain) == 0);
  uint64_t place = receive_number(&domain, &subscriber);
  CHECK(wakes_of(&domain, place) == 1 && all_wakes(&domain) == 1 && seen_of(&domain, IOX2PS_BRINGS_ROOM) == before + 1);
  for (int i = 1; i < 2 * PUBLISHERS; i++) (void)receive_number(&domain, &subscriber);
  for (int i = 0; i < PUBLISHERS; i++) CHECK(wakes_of(&domain, told->places[i]) == 1);
  CHECK(seen_of(&domain, IOX2PS_BRINGS_ROOM) == before + PUBLISHERS);
  told->is_over = true;
  for (int i = 0; i < PUBLISHERS; i++) CHECK(status_of(children[i]) == 0);
  destroy(&domain);
}

/* ---- loans */

/* Lends each slot, and waits for one that comes free. */
static void wait_for_a_loan(uint64_t which) {
  iox2ps_domain_t domain = opened(HOUR_MS);
  iox2ps_publisher_t publisher;
  iox2ps_publisher_options_t options;
  iox2ps_publisher_options_of(&config, &options);
  options.preallocated_samples = 1, options.allocation_strategy = IOX2PS_ALLOCATION_STATIC;
  CHECK(iox2ps_publisher_create_with(&domain, &options, &publisher) == IOX2PS_OK);
  told->places[which] = place_of(&domain);
  uint64_t seen = seen_of(&domain, IOX2PS_BRINGS_LOAN);
  send_number(&domain, &publisher, place_of(&domain));
  iox2ps_loan_t loan;
  void *payload;
  iox2ps_status_t code;
  while ((code = iox2ps_publisher_loan(&domain, &publisher, sizeof(uint64_t), &loan, &payload)) == IOX2PS_LOAN_ERROR_OUT_OF_MEMORY) {
    CHECK(iox2ps_domain_wait(&domain, IOX2PS_BRINGS_LOAN, seen, PATIENCE) == IOX2PS_OK);
    seen = seen_of(&domain, IOX2PS_BRINGS_LOAN);
  }
  CHECK(code == IOX2PS_OK);
  told->ready++;
  while (!told->is_over) usleep(1000);
  destroy(&domain);
}

/* A release wakes the publisher whose message it was; what another publisher sends wakes none that waits for a loan. */
static void loans(void) {
  iox2ps_domain_t domain = opened(HOUR_MS);
  iox2ps_subscriber_t subscriber;
  iox2ps_publisher_t publisher;
  pid_t children[2];
  memset(told, 0, sizeof *told);
  CHECK(iox2ps_subscriber_create(&domain, &subscriber) == IOX2PS_OK && iox2ps_publisher_create(&domain, &publisher) == IOX2PS_OK);
  for (uint64_t i = 0; i < 2; i++) {
    children[i] = run_child(wait_for_a_loan, i);
    wait_for_sleepers(&domain, LOAN_SLEEPERS, (int)i + 1);
    wait_until_asleep(children[i]); /* and not about to look once more, and to find what the other sends */
  }
  CHECK(send_number(&domain, &publisher, UINT64_MAX) == 0 && all_wakes(&domain) == 0);
  uint64_t number, wakes = 0;
  for (int i = 0; i < 3; i++, wakes += number != UINT64_MAX) {
    CHECK(all_wakes(&domain) == wakes);
    number = receive_number(&domain, &subscriber);
    CHECK(number == UINT64_MAX || (wakes_of(&domain, number) == 1 && (number == told->places[0] || number == told->places[1])));
  }
  CHECK(all_wakes(&domain) == 2);
  wait_for_ready(2);
  told->is_over = true;
  for (int i = 0; i < 2; i++) CHECK(status_of(children[i]) == 0);
  destroy(&domain);
}

/* ---- who leaves, and who dies */

static iox2ps_domain_t one = IOX2PS_DOMAIN_INIT, two = IOX2PS_DOMAIN_INIT;
static void open_both(void) {
  const iox2ps_domain_settings_t settings[] = {{"number", &config}, {"number", &config}};
  iox2ps_processes_options_t options;
  iox2ps_domains_options_of(settings, 2, &options);
  options.reap_every_ms = HOUR_MS, options.spins = 0;
  CHECK(iox2ps_domains_open_or_create((iox2ps_domain_t *const[]){&one, &two}, 2, name, settings, &options) == IOX2PS_OK);
}

static void stand_in_a_group(uint64_t which) {
  iox2ps_publisher_t publisher;
  (void)which;
  one.domain_ = two.domain_ = NULL; /* those of the parent stay with it */
  open_both();
  CHECK(iox2ps_publisher_create(&one, &publisher) == IOX2PS_OK);
  for (uint64_t number = 1; number <= 2; number++) send_number(&one, &publisher, number);
  destroy(&one), destroy(&two);
}

/* Who gives up one domain of a group wakes those that stood at its buffers. */
static void leaves_one_domain(void) {
  iox2ps_subscriber_t subscriber;
  open_both();
  CHECK(iox2ps_subscriber_create(&one, &subscriber) == IOX2PS_OK);
  pid_t child = run_child(stand_in_a_group, 0);
  wait_for_sleepers(&two, ROOM_SLEEPERS, 1);
  destroy(&one);
  CHECK(all_wakes(&two) == 1);
  CHECK(status_of(child) == 0);
  destroy(&two);
}

/* Receives, and dies before it wakes anybody. */
static void dies_before_it_wakes(uint64_t which) {
  (void)which;
  iox2ps_domain_t domain = opened(HOUR_MS);
  iox2ps_subscriber_t subscriber;
  uint64_t words[HANDLE_WORDS];
  CHECK(iox2ps_subscriber_create(&domain, &subscriber) == IOX2PS_OK && words_of_subscriber(&subscriber, config.service_id, words));
  told->ready++;
  wait_for_sleepers(&domain, ROOM_SLEEPERS, 1);
  uint64_t arguments[CALL_ARGUMENTS] = {domain_call(0, SUBSCRIBER_RECEIVE)};
  memcpy(arguments + 1, words, sizeof words);
  CHECK(replica_call(&shared_domain_of(&domain)->group->member.replica, arguments) == REPLICA_OK);
  raise(SIGKILL);
}

/* Whose waker died looks by itself. */
static void nobody_wakes(void) {
  iox2ps_domain_t domain = opened(SHORT_MS);
  iox2ps_publisher_t publisher;
  int status;
  memset(told, 0, sizeof *told);
  CHECK(iox2ps_publisher_create(&domain, &publisher) == IOX2PS_OK);
  pid_t child = run_child(dies_before_it_wakes, 0);
  wait_for_ready(1);
  uint64_t stops = 0;
  for (uint64_t number = 1; number <= 2; number++) stops += send_number(&domain, &publisher, number);
  CHECK(stops == 1 && waitpid(child, &status, 0) == child && was_killed(status));
  destroy(&domain);
}

/* Looks more often than the process that counts on it. */
static void sleep_in_vain(uint64_t which) {
  (void)which;
  iox2ps_domain_t domain = opened(OFTEN_MS);
  told->ready++;
  while (iox2ps_domain_wait(&domain, IOX2PS_BRINGS_ROOM, seen_of(&domain, IOX2PS_BRINGS_ROOM), PATIENCE) == IOX2PS_OK) {}
}

/* Who has looked for the dead itself, and then dies, is found. */
static void dies_after_its_looks(void) {
  iox2ps_domain_t domain = opened(SHORT_MS);
  const _Atomic uint64_t *looks = shared_domain_of(&domain)->group->member.files.places.shared->looks;
  uint64_t seen = seen_of(&domain, IOX2PS_BRINGS_DEAD_NODE);
  memset(told, 0, sizeof *told);
  pid_t child = run_child(sleep_in_vain, 0);
  while (looks[1] < 3) CHECK(iox2ps_domain_wait(&domain, IOX2PS_BRINGS_DEAD_NODE, seen, SECOND / 10) == IOX2PS_PROCESSES_TIMED_OUT);
  end_child(child);
  CHECK(iox2ps_domain_wait(&domain, IOX2PS_BRINGS_DEAD_NODE, seen, PATIENCE) == IOX2PS_OK);
  destroy(&domain);
}

/* ---- memory */

/* Of the C library, whose functions these are otherwise. */
extern void *__libc_malloc(size_t size);
extern void *__libc_calloc(size_t count, size_t size);
extern void *__libc_realloc(void *block, size_t size);
static uint64_t allocations;
void *malloc(size_t size) { return allocations++, __libc_malloc(size); }
void *calloc(size_t count, size_t size) { return allocations++, __libc_calloc(count, size); }
void *realloc(void *block, size_t size) { return allocations++, __libc_realloc(block, size); }

/* A listener takes memory as it is made; who notifies or waits takes none. */
static void events_take_no_memory(void) {
  iox2ps_domain_t domain = opened(HOUR_MS);
  iox2ps_listener_t listener;
  iox2ps_notifier_t notifier;
  iox2ps_event_ids_t ids;
  size_t id;
  uint64_t before = allocations;
  CHECK(iox2ps_listener_create(&domain, &listener) == IOX2PS_OK && allocations > before);
  const region_heap_t *heap = &shared_domain_of(&domain)->group->memory->memory.heap;
  size_t used = heap->used;
  before = allocations;
  for (size_t i = 0; i < 1000; i++) {
    CHECK(iox2ps_notifier_create(&domain, i % EVENT_IDS, &notifier) == IOX2PS_OK && iox2ps_notifier_notify(&domain, &notifier, NULL) == IOX2PS_OK);
    CHECK(iox2ps_listener_try_wait_one(&domain, &listener, &id) == IOX2PS_OK && iox2ps_listener_try_wait_all(&domain, &listener, &ids) == IOX2PS_PROCESSES_TIMED_OUT);
  }
  CHECK(iox2ps_listener_timed_wait_one(&domain, &listener, SECOND / 1000, &id) == IOX2PS_PROCESSES_TIMED_OUT && allocations == before && heap->used == used);
  destroy(&domain);
}

/* ---- calls of the system */

static void listen(uint64_t which) {
  (void)which;
  iox2ps_domain_t domain = opened(HOUR_MS);
  iox2ps_listener_t listener;
  size_t id;
  CHECK(iox2ps_listener_create(&domain, &listener) == IOX2PS_OK);
  CHECK(iox2ps_listener_timed_wait_one(&domain, &listener, PATIENCE, &id) == IOX2PS_OK && id == 9);
  destroy(&domain);
}

static void notifies(const char *of, pid_t self) {
  (void)of;
  iox2ps_domain_t domain = opened(HOUR_MS);
  iox2ps_notifier_t notifier;
  CHECK(iox2ps_notifier_create(&domain, 9, &notifier) == IOX2PS_OK);
  wait_for_sleepers(&domain, EVENT_SLEEPERS, 1);
  mark(self);
  CHECK(iox2ps_notifier_notify(&domain, &notifier, NULL) == IOX2PS_OK);
  mark(self);
  CHECK(iox2ps_notifier_notify(&domain, &notifier, NULL) == IOX2PS_OK);
  mark(self);
}

/* A notification makes one call of the system, to wake the one that sleeps for it, and has entered the list by then; and none where nobody
 * sleeps for it. */
static void a_notification(void) {
  iox2ps_domain_t domain = opened(HOUR_MS);
  iox2ps_listener_t listener;
  size_t id;
  bool is_at_mark;
  CHECK(iox2ps_listener_create(&domain, &listener) == IOX2PS_OK);
  pid_t sleeper = run_child(listen, 0), child = traced_child(notifies, name);
  CHECK(child > 0 && run_to_mark(child, PTRACE_SYSCALL, 2, &is_at_mark) == 2 && !is_at_mark); /* as that call begins */
  CHECK(iox2ps_listener_try_wait_one(&domain, &listener, &id) == IOX2PS_OK && id == 9);
  CHECK(run_to_mark(child, PTRACE_SYSCALL, UINT64_MAX, &is_at_mark) == 2 && is_at_mark);
  CHECK(status_of(sleeper) == 0);
  CHECK(run_to_mark(child, PTRACE_SYSCALL, UINT64_MAX, &is_at_mark) == 2 && is_at_mark);
  end_child(child);
  CHECK(iox2ps_domain_cleanup_dead_nodes(&domain, NULL) == IOX2PS_OK);
  destroy(&domain);
}

static const _Atomic uint64_t *looks_of(const iox2ps_domain_t *domain) {
  const places_t *places = &shared_domain_of(domain)->group->member.files.places;
  return &places->shared->looks[places->own];
}

static void waits_alone(const char *of, pid_t self) {
  (void)of;
  iox2ps_domain_t domain = opened(SHORT_MS);
  uint64_t seen = seen_of(&domain, IOX2PS_BRINGS_MESSAGE);
  CHECK(iox2ps_domain_wait(&domain, IOX2PS_BRINGS_MESSAGE, seen, 2 * (uint64_t)SHORT_MS * 1000000) == IOX2PS_PROCESSES_TIMED_OUT);
  uint64_t before = *looks_of(&domain);
  mark(self);
  CHECK(iox2ps_domain_wait(&domain, IOX2PS_BRINGS_MESSAGE, seen, (uint64_t)LOOKS * SHORT_MS * 1000000) == IOX2PS_PROCESSES_TIMED_OUT);
  told->looks = *looks_of(&domain) - before;
  mark(self);
}

/* Where nothing happens, each process makes one call of the system each time that it looks: to sleep on. It asks the system about another
 * only where that hasn't looked since, as the machine is busy. */
static void idle(void) {
  pid_t children[IDLE];
  bool is_at_mark, is_quiet = false;
  memset(told, 0, sizeof *told);
  for (int i = 0; i < IDLE; i++) children[i] = run_child(sleep_in_vain, 0);
  wait_for_ready(IDLE);
  for (int tries = 0; tries < 100 && !is_quiet; tries++) {
    pid_t child = traced_child(waits_alone, name);
    uint64_t stops = child > 0 ? run_to_mark(child, PTRACE_SYSCALL, UINT64_MAX, &is_at_mark) : 0, calls = stops / 2 - 1;
    CHECK(stops >= 4 && stops % 2 == 0 && is_at_mark && told->looks > 0);
    end_child(child);
    printf("%llu looks of an idle process beside %d others: %llu calls of the system\n", (unsigned long long)told->looks, IDLE, (unsigned long long)calls);
    is_quiet = calls <= told->looks + 1;
  }
  fflush(stdout);
  CHECK(is_quiet);
  for (int i = 0; i < IDLE; i++) end_child(children[i]);
  iox2ps_domain_t domain = opened(HOUR_MS); /* and its last process removes the files */
  destroy(&domain);
}

int main(void) {
  snprintf(name, sizeof name, "test_wakes.%d", (int)getpid());
  iox2ps_config_defaults(&config, 7, sizeof(uint64_t), _Alignof(uint64_t));
  config.enable_safe_overflow = 0, config.subscriber_max_buffer_size = 1, config.max_publishers = 4, config.max_subscribers = SUBSCRIBERS;
  told = mmap(NULL, sizeof *told, PROT_READ | PROT_WRITE, MAP_SHARED | MAP_ANONYMOUS, -1, 0);
  CHECK(told != MAP_FAILED);
  where_it_stands(), one_of_several(), many_subscribers();
  loans();
  leaves_one_domain(), nobody_wakes(), dies_after_its_looks();
  events_take_no_memory();
  a_notification(), idle();
  puts("wakes: each is woken by what helps it, and by nothing else");
  return 0;
}
