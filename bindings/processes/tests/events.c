// SPDX-License-Identifier: Apache-2.0 OR MIT
#define _GNU_SOURCE
/* Events: each listener is told of each id that came since it told of it last, in whichever process, and whatever dies or is stopped. Where
 * it isn't said otherwise none looks by itself for an hour, so that only a wake-up ends a sleep. */
#include "children.h"
#include "numbers.h"
#include "shared_domain.h"
#include <poll.h>
#include <stdlib.h>
#include <string.h>
#include <sys/mman.h>
#include <sys/wait.h>

enum { EVENT_BIT = 5 }; /* that of IOX2PS_BRINGS_EVENT */
enum { SHORT_MS = 20, CALLS = 8, NOTIFIERS = 3, LISTENERS = 3, IDS_OF_NOTIFIER = 20, ROUNDS = 15, KILLS = 40 };

static char name[64];
static iox2ps_config_t config;

/* A list of few calls: who makes none for a while is left behind. */
static iox2ps_domain_t opened(uint32_t reap_every_ms) {
  iox2ps_processes_options_t options = looking_every(&config, reap_every_ms);
  options.calls = CALLS;
  return open_numbers(name, &config, options);
}


static iox2ps_listener_t listener_of(iox2ps_domain_t *domain) {
  iox2ps_listener_t listener;
  CHECK(iox2ps_listener_create(domain, &listener) == IOX2PS_OK);
  return listener;
}

/* Returns how many listeners there are. */
static size_t notify(iox2ps_domain_t *domain, size_t id) {
  iox2ps_notifier_t notifier;
  size_t listeners = SIZE_MAX;
  CHECK(iox2ps_notifier_create(domain, 7, &notifier) == IOX2PS_OK);
  CHECK(iox2ps_notifier_notify_with_custom_event_id(domain, &notifier, id, &listeners) == IOX2PS_OK);
  return listeners;
}

static bool has_none(iox2ps_domain_t *domain, const iox2ps_listener_t *listener) {
  size_t id;
  return iox2ps_listener_try_wait_one(domain, listener, &id) == IOX2PS_PROCESSES_TIMED_OUT;
}

static bool is_next(iox2ps_domain_t *domain, const iox2ps_listener_t *listener, size_t expected) {
  size_t id = SIZE_MAX;
  return iox2ps_listener_timed_wait_one(domain, listener, PATIENCE, &id) == IOX2PS_OK && id == expected;
}

static size_t count_ids(const iox2ps_event_ids_t *ids) {
  size_t count = 0;
  for (size_t id = 0; id < EVENT_IDS; id++) count += iox2ps_event_ids_have(ids, id);
  return count;
}

/* ---- one process */

/* Each listener has a set of its own, in which an id is once; it begins empty. */
static void a_set_of_ids(void) {
  iox2ps_domain_t domain = opened(HOUR_MS);
  iox2ps_event_ids_t ids;
  size_t listeners = 0;
  iox2ps_notifier_t notifier;
  CHECK(iox2ps_notifier_create(&domain, 42, &notifier) == IOX2PS_OK && notify(&domain, 3) == 0);
  iox2ps_listener_t one = listener_of(&domain), other = listener_of(&domain);
  CHECK(has_none(&domain, &one) && iox2ps_listener_timed_wait_all(&domain, &one, SECOND / 100, &ids) == IOX2PS_PROCESSES_TIMED_OUT);
  CHECK(iox2ps_notifier_notify(&domain, &notifier, &listeners) == IOX2PS_OK && listeners == 2);
  CHECK(notify(&domain, 0) == 2 && notify(&domain, 255) == 2 && iox2ps_notifier_notify(&domain, &notifier, NULL) == IOX2PS_OK);
  CHECK(is_next(&domain, &one, 0) && is_next(&domain, &one, 42) && is_next(&domain, &one, 255) && has_none(&domain, &one));
  iox2ps_listener_t late = listener_of(&domain);
  CHECK(notify(&domain, 42) == 3 && is_next(&domain, &one, 42) && is_next(&domain, &late, 42) && has_none(&domain, &late));
  CHECK(iox2ps_listener_blocking_wait_all(&domain, &other, &ids) == IOX2PS_OK && count_ids(&ids) == 3);
  CHECK(iox2ps_event_ids_have(&ids, 0) && iox2ps_event_ids_have(&ids, 42) && iox2ps_event_ids_have(&ids, 255) && !iox2ps_event_ids_have(&ids, 256));
  CHECK(iox2ps_listener_try_wait_all(&domain, &other, &ids) == IOX2PS_PROCESSES_TIMED_OUT && has_none(&domain, &other));
  destroy(&domain);
}

/* An id that always comes anew keeps no other back. */
static void by_turns(void) {
  iox2ps_domain_t domain = opened(HOUR_MS);
  iox2ps_listener_t listener = listener_of(&domain);
  size_t id;
  CHECK(notify(&domain, 5) == 1 && notify(&domain, 9) == 1 && iox2ps_listener_blocking_wait_one(&domain, &listener, &id) == IOX2PS_OK && id == 5);
  CHECK(notify(&domain, 5) == 1 && is_next(&domain, &listener, 9) && is_next(&domain, &listener, 5));
  destroy(&domain);
}

/* Listeners come and go, also more than there was room for, and leave nothing. */
static void listeners_come_and_go(void) {
  iox2ps_domain_t domain = opened(HOUR_MS);
  iox2ps_listener_t all[20];
  const group_memory_t *memory = shared_domain_of(&domain)->group->memory;
  size_t used = memory->memory.heap.used;
  for (size_t i = 0; i < 20; i++) all[i] = listener_of(&domain);
  CHECK(notify(&domain, 1) == 20 && memory->memory.heap.used > used);
  for (size_t i = 0; i < 20; i += 2) CHECK(iox2ps_listener_close(&domain, &all[i]) == IOX2PS_OK && iox2ps_listener_close(&domain, &all[i]) == IOX2PS_NOT_LIVE);
  iox2ps_listener_t late = listener_of(&domain);
  CHECK(notify(&domain, 2) == 11 && is_next(&domain, &late, 2) && has_none(&domain, &late) && has_none(&domain, &late));
  CHECK(iox2ps_listener_try_wait_one(&domain, &all[0], &(size_t){0}) == IOX2PS_NOT_LIVE && iox2ps_listener_close(&domain, &late) == IOX2PS_OK);
  for (size_t i = 1; i < 20; i += 2) CHECK(is_next(&domain, &all[i], 1) && is_next(&domain, &all[i], 2) && iox2ps_listener_close(&domain, &all[i]) == IOX2PS_OK);
  CHECK(memory->memory.heap.used == used && notify(&domain, 3) == 0);
  late = listener_of(&domain);
  CHECK(has_none(&domain, &late) && notify(&domain, 3) == 1 && is_next(&domain, &late, 3));
  destroy(&domain);
}

/* ---- what can't be */

static iox2ps_domain_t of_parent;
static iox2ps_listener_t listener_of_parent;
static void forked(uint64_t which) {
  (void)which;
  iox2ps_notifier_t notifier = {.default_event_id = 1};
  iox2ps_listener_t listener;
  size_t id;
  CHECK(iox2ps_notifier_create(&of_parent, 1, &notifier) == IOX2PS_PROCESSES_FORKED && iox2ps_notifier_notify(&of_parent, &notifier, NULL) == IOX2PS_PROCESSES_FORKED);
  CHECK(iox2ps_listener_create(&of_parent, &listener) == IOX2PS_PROCESSES_FORKED);
  CHECK(iox2ps_listener_blocking_wait_one(&of_parent, &listener_of_parent, &id) == IOX2PS_PROCESSES_FORKED);
  CHECK(iox2ps_listener_close(&of_parent, &listener_of_parent) == IOX2PS_PROCESSES_FORKED);
  destroy(&of_parent);
  iox2ps_domain_t domain = opened(HOUR_MS);
  CHECK(listener_of(&domain).place_ == listener_of_parent.place_ && iox2ps_listener_close(&domain, &listener_of_parent) == IOX2PS_NOT_LIVE);
  CHECK(notify(&domain, 1) == 2);
  destroy(&domain);
}

static void check_refusals(iox2ps_domain_t *domain, iox2ps_status_t code) {
  iox2ps_notifier_t notifier = {0};
  iox2ps_event_ids_t ids;
  CHECK(iox2ps_notifier_create(domain, 1, &notifier) == code && iox2ps_notifier_notify(domain, &notifier, NULL) == code);
  CHECK(iox2ps_listener_create(domain, &(iox2ps_listener_t){0}) == code && iox2ps_listener_close(domain, &listener_of_parent) == code);
  CHECK(iox2ps_listener_try_wait_all(domain, &listener_of_parent, &ids) == code);
}

static void refusals(void) {
  iox2ps_domain_t ordinary = IOX2PS_DOMAIN_INIT;
  iox2ps_notifier_t notifier;
  uint64_t seen, before;
  of_parent = opened(HOUR_MS), listener_of_parent = listener_of(&of_parent);
  CHECK(iox2ps_domain_brought(&of_parent, IOX2PS_BRINGS_EVENT, &before) == IOX2PS_OK);
  CHECK(iox2ps_notifier_create(&of_parent, 256, &notifier) == IOX2PS_NOTIFIER_NOTIFY_ERROR_EVENT_ID_OUT_OF_BOUNDS);
  CHECK(iox2ps_notifier_create(&of_parent, 255, &notifier) == IOX2PS_OK);
  CHECK(iox2ps_notifier_notify_with_custom_event_id(&of_parent, &notifier, 256, NULL) == IOX2PS_NOTIFIER_NOTIFY_ERROR_EVENT_ID_OUT_OF_BOUNDS);
  CHECK(strcmp(iox2ps_error_text(IOX2PS_NOTIFIER_NOTIFY_ERROR_EVENT_ID_OUT_OF_BOUNDS), "NotifierNotifyError::EventIdOutOfBounds") == 0);
  notifier.service_id.low++;
  CHECK(iox2ps_notifier_notify(&of_parent, &notifier, NULL) == IOX2PS_NOT_LIVE);
  CHECK(iox2ps_domain_brought(&of_parent, IOX2PS_BRINGS_EVENT, &seen) == IOX2PS_OK && seen == before && has_none(&of_parent, &listener_of_parent));
  CHECK(status_of(run_child(forked, 0)) == 0 && is_next(&of_parent, &listener_of_parent, 1));
  destroy(&of_parent);
  check_refusals(&ordinary, IOX2PS_NO_DOMAIN);
  CHECK(iox2ps_domain_create(&ordinary, &config) == IOX2PS_OK);
  check_refusals(&ordinary, IOX2PS_PROCESSES_NOT_SHARED);
  destroy(&ordinary);
}

/* What nobody of this library writes: any entry of another process is a call that is refused. */
static void nonsense(void) {
  iox2ps_domain_t domain = opened(HOUR_MS);
  shared_domain_t *shared = shared_domain_of(&domain);
  CHECK(shared_domain_call(shared, NOTIFY, (uint64_t[CALL_ARGUMENTS]){[1 + EVENT_WORD] = UINT64_MAX}) == IOX2PS_NOTIFIER_NOTIFY_ERROR_EVENT_ID_OUT_OF_BOUNDS);
  CHECK(shared_domain_call(shared, LISTENER_CLOSE, (uint64_t[CALL_ARGUMENTS]){0}) == IOX2PS_NOT_LIVE);
  destroy(&domain);
}

/* ---- several processes */

/* How often each listener was told of each id; and how often a notifier has notified, as it begins and when it has done so. */
typedef struct counts_t { _Atomic uint64_t told[LISTENERS][EVENT_IDS], ready, begun, done; } counts_t;
static counts_t *counts;

static size_t id_of(uint64_t notifier, size_t which) { return 1 + notifier * IDS_OF_NOTIFIER + which; }

/* Each id again only when all listeners have told of it, so that none may be lost. */
static void notify_in_rounds(uint64_t which) {
  iox2ps_domain_t domain = opened(HOUR_MS);
  for (uint64_t round = 1; round <= ROUNDS; round++) {
    for (size_t i = 0; i < IDS_OF_NOTIFIER; i++) CHECK(notify(&domain, id_of(which, i)) == LISTENERS);
    for (size_t i = 0; i < IDS_OF_NOTIFIER; i++)
      for (int listener = 0; listener < LISTENERS; listener++)
        while (counts->told[listener][id_of(which, i)] < round) usleep(100);
  }
  destroy(&domain);
}

static bool count_event(iox2ps_domain_t *domain, const iox2ps_listener_t *listener, uint64_t which, uint64_t timeout_ns) {
  size_t id;
  if (iox2ps_listener_timed_wait_one(domain, listener, timeout_ns, &id) != IOX2PS_OK) return false;
  counts->told[which][id]++;
  return true;
}

/* Two listeners of one process: the first waits, and then the other looks. */
static void listen_twice(uint64_t which) {
  iox2ps_domain_t domain = opened(HOUR_MS);
  iox2ps_listener_t one = listener_of(&domain), other = listener_of(&domain);
  counts->ready++;
  while (counts->told[which][0] == 0 || counts->told[which + 1][0] == 0) {
    if (counts->told[which][0] == 0) CHECK(count_event(&domain, &one, which, PATIENCE));
    while (count_event(&domain, &other, which + 1, 0)) {}
  }
  destroy(&domain);
}

static void listen_once(uint64_t which) {
  iox2ps_domain_t domain = opened(HOUR_MS);
  iox2ps_listener_t listener = listener_of(&domain);
  counts->ready++;
  while (counts->told[which][0] == 0) CHECK(count_event(&domain, &listener, which, PATIENCE));
  destroy(&domain);
}

/* An end is event 0. All that were notified are told of, by each listener as often as it was notified. */
static void none_is_lost(void) {
  iox2ps_domain_t domain = opened(HOUR_MS);
  memset(counts, 0, sizeof *counts);
  pid_t listeners[2] = {run_child(listen_twice, 0), run_child(listen_once, 2)}, notifiers[NOTIFIERS];
  while (counts->ready < 2) usleep(1000);
  for (uint64_t i = 0; i < NOTIFIERS; i++) notifiers[i] = run_child(notify_in_rounds, i);
  for (int i = 0; i < NOTIFIERS; i++) CHECK(status_of(notifiers[i]) == 0);
  CHECK(notify(&domain, 0) == LISTENERS);
  for (int i = 0; i < 2; i++) CHECK(status_of(listeners[i]) == 0);
  for (int listener = 0; listener < LISTENERS; listener++)
    for (size_t id = 0; id < EVENT_IDS; id++) CHECK(counts->told[listener][id] == (id == 0 ? 1 : id < id_of(NOTIFIERS, 0) ? ROUNDS : 0));
  CHECK(notify(&domain, 0) == 0);
  destroy(&domain);
}

/* Who sees an event sees the message that was sent before it. */
static void send_and_notify(uint64_t number) {
  iox2ps_domain_t domain = opened(HOUR_MS);
  iox2ps_publisher_t publisher;
  iox2ps_blocked_t blocked;
  CHECK(iox2ps_publisher_create(&domain, &publisher) == IOX2PS_OK);
  CHECK(iox2ps_publisher_send_copy(&domain, &publisher, &number, sizeof number, NULL, &blocked) == IOX2PS_OK && notify(&domain, 1) == 1);
  while (true) pause(); /* a closed publisher's messages would go with it */
}

static void after_a_message(void) {
  iox2ps_domain_t domain = opened(HOUR_MS);
  iox2ps_subscriber_t subscriber;
  iox2ps_sample_t sample;
  iox2ps_listener_t listener = listener_of(&domain);
  uint64_t number = 0;
  size_t len;
  CHECK(iox2ps_subscriber_create(&domain, &subscriber) == IOX2PS_OK);
  pid_t child = run_child(send_and_notify, 42);
  CHECK(is_next(&domain, &listener, 1));
  CHECK(iox2ps_subscriber_receive_copy(&domain, &subscriber, &number, sizeof number, &len, &sample) == IOX2PS_OK && number == 42);
  CHECK(kill(child, SIGKILL) == 0 && status_of(child) == SIGKILL);
  destroy(&domain);
}

/* ---- who is left behind */

static void notify_each(uint64_t count) {
  iox2ps_domain_t domain = opened(HOUR_MS);
  for (size_t id = 0; id < count; id++) CHECK(notify(&domain, id) == 1);
  destroy(&domain);
}

static uint64_t calls_made(iox2ps_domain_t *domain) { return shared_domain_of(domain)->group->memory->replica.progress.made; }

/* A process that made no call meanwhile takes a copy of the book-keeping in place of the entries, which are overwritten, and makes those
 * that came behind the copy: by turns none, one or more. */
static void left_behind(uint64_t count) {
  iox2ps_domain_t domain = opened(HOUR_MS);
  iox2ps_listener_t listener = listener_of(&domain);
  iox2ps_event_ids_t ids;
  uint64_t before = calls_made(&domain);
  CHECK(notify(&domain, 77) == 1 && status_of(run_child(notify_each, count)) == 0 && calls_made(&domain) == before + 1);
  CHECK(iox2ps_listener_try_wait_all(&domain, &listener, &ids) == IOX2PS_OK && count_ids(&ids) == count + 1 && iox2ps_event_ids_have(&ids, 77));
  for (size_t id = 0; id < count; id++) CHECK(iox2ps_event_ids_have(&ids, id));
  CHECK(calls_made(&domain) > before + count && has_none(&domain, &listener));
  destroy(&domain);
}

/* A listener tells of what came while it was stopped, in its sleep or wherever it was. */
static void tell_all(uint64_t count) {
  iox2ps_domain_t domain = opened(HOUR_MS);
  iox2ps_listener_t listener = listener_of(&domain);
  counts->ready++;
  for (uint64_t told = 0; told < count; told++) CHECK(count_event(&domain, &listener, 0, PATIENCE));
  destroy(&domain);
}

static void stopped(void) {
  iox2ps_domain_t domain = opened(HOUR_MS);
  memset(counts, 0, sizeof *counts);
  pid_t child = run_child(tell_all, EVENT_IDS);
  int status;
  while (counts->ready == 0) usleep(1000);
  CHECK(kill(child, SIGSTOP) == 0 && waitpid(child, &status, WUNTRACED) == child && WIFSTOPPED(status));
  for (size_t id = 0; id < EVENT_IDS; id++) CHECK(notify(&domain, id) == 1);
  CHECK(kill(child, SIGCONT) == 0 && status_of(child) == 0);
  for (size_t id = 0; id < EVENT_IDS; id++) CHECK(counts->told[0][id] == 1);
  destroy(&domain);
}

/* ---- who dies */

/* A listener that is killed is counted until its death is found, and holds up nobody. */
static void killed_listener(void) {
  iox2ps_domain_t domain = opened(HOUR_MS);
  iox2ps_listener_t listener = listener_of(&domain);
  memset(counts, 0, sizeof *counts);
  pid_t child = run_child(tell_all, EVENT_IDS);
  while (counts->ready == 0) usleep(1000);
  CHECK(notify(&domain, 1) == 2 && kill(child, SIGKILL) == 0 && status_of(child) == SIGKILL);
  CHECK(notify(&domain, 2) == 2 && is_next(&domain, &listener, 1) && is_next(&domain, &listener, 2));
  size_t cleanups = 0;
  CHECK(iox2ps_domain_cleanup_dead_nodes(&domain, &cleanups) == IOX2PS_OK && cleanups == 1 && notify(&domain, 3) == 1);
  destroy(&domain);
}

/* Of a place that died, as it announced its notification or as that was in the list: nobody was woken. */
static void dies_in_the_middle(uint64_t is_in_list) {
  iox2ps_domain_t domain = opened(HOUR_MS);
  const shared_group_t *group = shared_domain_of(&domain)->group;
  const call_progress_t *progress = &group->memory->replica.progress;
  uint64_t arguments[CALL_ARGUMENTS] = {domain_call(0, NOTIFY), 9}, own = progress->of[group->seat.place].reply << 1;
  while (group->member.files.sleepers->asleep[EVENT_BIT] == 0) usleep(1000);
  if (is_in_list) CHECK(replica_call((replica_t *)&group->member.replica, arguments) == REPLICA_OK);
  else call_list_write(&group->member.files.list, &group->seat, progress->of[group->seat.place].entries, arguments, own);
  raise(SIGKILL);
}

/* Who sleeps finds by itself what a dead process has notified. What one had only announced is in the list or isn't. */
static void killed_notifier(void) {
  iox2ps_domain_t domain = opened(SHORT_MS);
  iox2ps_listener_t listener = listener_of(&domain);
  size_t id;
  pid_t child = run_child(dies_in_the_middle, 1);
  CHECK(is_next(&domain, &listener, 9) && status_of(child) == SIGKILL && has_none(&domain, &listener));
  child = run_child(dies_in_the_middle, 0);
  while (iox2ps_listener_timed_wait_one(&domain, &listener, SECOND / 100, &id) == IOX2PS_PROCESSES_TIMED_OUT && waitpid(child, NULL, WNOHANG) == 0) {}
  CHECK(iox2ps_domain_cleanup_dead_nodes(&domain, NULL) == IOX2PS_OK && notify(&domain, 8) == 1 && is_next(&domain, &listener, 8));
  destroy(&domain);
}

static void notify_without_end(uint64_t first) {
  iox2ps_domain_t domain = opened(HOUR_MS);
  for (uint64_t i = first; true; i++) {
    counts->begun = i + 1;
    CHECK(notify(&domain, i % EVENT_IDS) == 1);
    counts->done = i + 1;
  }
}

/* Wherever it is killed: what it has done is told of, and one more at most. */
static void killed_at_any_time(void) {
  iox2ps_domain_t domain = opened(HOUR_MS);
  iox2ps_listener_t listener = listener_of(&domain);
  memset(counts, 0, sizeof *counts);
  uint64_t notified = 0, before;
  CHECK(iox2ps_domain_brought(&domain, IOX2PS_BRINGS_EVENT, &before) == IOX2PS_OK);
  for (int i = 0; i < KILLS; i++) {
    uint64_t begun = counts->begun;
    iox2ps_event_ids_t ids;
    pid_t child = run_child(notify_without_end, begun);
    while (counts->done < begun + 1 + (uint64_t)i % 7) usleep(20);
    CHECK(kill(child, SIGKILL) == 0 && status_of(child) == SIGKILL && iox2ps_domain_cleanup_dead_nodes(&domain, NULL) == IOX2PS_OK);
    CHECK(iox2ps_domain_brought(&domain, IOX2PS_BRINGS_EVENT, &notified) == IOX2PS_OK && iox2ps_listener_try_wait_all(&domain, &listener, &ids) == IOX2PS_OK);
    for (uint64_t id = begun; id < counts->done; id++) CHECK(iox2ps_event_ids_have(&ids, id % EVENT_IDS));
    CHECK(notified - before >= counts->done - begun && notified - before <= counts->begun - begun);
    before = notified;
  }
  destroy(&domain);
}

/* ---- other ways to wait */

static void notify_one(uint64_t id) {
  iox2ps_domain_t domain = opened(HOUR_MS);
  (void)notify(&domain, id);
  destroy(&domain);
}

static bool is_readable(int fd) { return poll(&(struct pollfd){.fd = fd, .events = POLLIN}, 1, 0) == 1; }

static void by_descriptor(void) {
  iox2ps_domain_t domain = opened(HOUR_MS);
  iox2ps_listener_t listener = listener_of(&domain);
  int fd;
  CHECK(iox2ps_domain_get_file_descriptor(&domain, IOX2PS_BRINGS_EVENT, &fd) == IOX2PS_OK && !is_readable(fd));
  for (size_t id = 0; id < 5; id++) {
    pid_t child = run_child(notify_one, id);
    CHECK(poll(&(struct pollfd){.fd = fd, .events = POLLIN}, 1, HOUR_MS) == 1 && iox2ps_domain_clear_file_descriptor(&domain) == IOX2PS_OK);
    CHECK(is_next(&domain, &listener, id) && status_of(child) == 0 && iox2ps_domain_clear_file_descriptor(&domain) == IOX2PS_OK && !is_readable(fd));
  }
  CHECK(notify(&domain, 1) == 1 && !is_readable(fd) && is_next(&domain, &listener, 1));
  destroy(&domain);
}

/* As a thread sleeps for others: what other processes notify is counted by itself. */
static void as_threads_sleep(void) {
  iox2ps_domain_t domain = opened(HOUR_MS);
  uint64_t begun, count;
  CHECK(notify(&domain, 1) == 0 && iox2ps_domain_brought_by_others(&domain, IOX2PS_BRINGS_EVENT, &count) == IOX2PS_OK && count == 0);
  pid_t child = run_child(notify_one, 5);
  do {
    CHECK(iox2ps_domain_sleep_begin(&domain, IOX2PS_BRINGS_EVENT, &begun) == IOX2PS_OK);
    CHECK(iox2ps_domain_brought_by_others(&domain, IOX2PS_BRINGS_EVENT, &count) == IOX2PS_OK);
    if (count == 0) CHECK(iox2ps_domain_sleep(&domain, begun, PATIENCE) == IOX2PS_OK);
  } while (count == 0);
  uint64_t each[6];
  CHECK(count == 1 && status_of(child) == 0 && iox2ps_domain_brought_each(&domain, each) == IOX2PS_OK && each[EVENT_BIT] == 2 && each[0] == 0);
  destroy(&domain);
}

/* ---- several domains, and recordings */

/* An event is of one domain of a group; what another process had of a domain goes when it destroys that. */
static void in_a_group(void) {
  iox2ps_domain_t one = IOX2PS_DOMAIN_INIT, two = IOX2PS_DOMAIN_INIT;
  iox2ps_config_t second = config;
  second.service_id.low++;
  const iox2ps_domain_settings_t settings[] = {{"number", &config}, {"number", &second}};
  CHECK(iox2ps_domains_open_or_create((iox2ps_domain_t *const[]){&one, &two}, 2, name, settings, NULL) == IOX2PS_OK);
  iox2ps_listener_t of_one = listener_of(&one), of_two = listener_of(&two);
  CHECK(notify(&two, 5) == 1 && has_none(&one, &of_one) && is_next(&two, &of_two, 5) && notify(&one, 6) == 1 && is_next(&one, &of_one, 6));
  CHECK(has_none(&two, &of_two) && iox2ps_listener_close(&one, &of_two) == IOX2PS_NOT_LIVE);
  const event_numbers_t *events = &shared_domain_of(&one)->memory->events;
  CHECK(events->open == 1 && events[0].last != NULL);
  destroy(&two);
  CHECK(notify(&one, 7) == 1 && is_next(&one, &of_one, 7));
  destroy(&one);
}

static size_t length_of_recording(iox2ps_domain_t *domain) {
  size_t len = 0;
  uint64_t missed;
  CHECK(iox2ps_domain_recording(domain, NULL, 0, &len, &missed) == IOX2PS_TOO_SMALL && len > 0);
  return len;
}

static void not_recorded(void) {
  iox2ps_domain_t domain = IOX2PS_DOMAIN_INIT;
  CHECK(iox2ps_domain_create_named_recorded(&domain, name, "number", &config, NULL, 100) == IOX2PS_OK);
  size_t before = length_of_recording(&domain);
  iox2ps_listener_t listener = listener_of(&domain);
  CHECK(notify(&domain, 1) == 1 && is_next(&domain, &listener, 1) && iox2ps_listener_close(&domain, &listener) == IOX2PS_OK);
  CHECK(length_of_recording(&domain) == before);
  destroy(&domain);
}

int main(void) {
  snprintf(name, sizeof name, "test_events.%d", (int)getpid());
  iox2ps_config_defaults(&config, 7, sizeof(uint64_t), _Alignof(uint64_t));
  counts = mmap(NULL, sizeof *counts, PROT_READ | PROT_WRITE, MAP_SHARED | MAP_ANONYMOUS, -1, 0);
  CHECK(counts != MAP_FAILED);
  a_set_of_ids(), by_turns(), listeners_come_and_go();
  refusals(), nonsense();
  for (uint64_t count = 5 * CALLS; count < 6 * CALLS; count++) left_behind(count);
  stopped();
  none_is_lost(), after_a_message();
  killed_listener(), killed_notifier(), killed_at_any_time();
  by_descriptor(), as_threads_sleep();
  in_a_group(), not_recorded();
  puts("events: each listener is told of each, and of none twice");
  return 0;
}
