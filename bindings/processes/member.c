// SPDX-License-Identifier: Apache-2.0 OR MIT
#include "member.h"
#include "futex.h"

static const call_progress_t *progress_of(const member_t *it) { return &it->replica.memory->progress; }

/* `is_new`: what happened before this process came isn't told. */
static void tell_deaths(member_t *it, bool is_new) {
  for (uint32_t place = 0; place < it->replica.list.places; place++) {
    uint64_t died = progress_of(it)->of[place].died;
    if (died == it->told[place]) continue;
    it->told[place] = died;
    if (!is_new && it->died != NULL) it->died(it->listener, place, died);
  }
}

/* In the place of a dead process, says its end first. */
static replica_status_t take_over(member_t *it) {
  replica_status_t status = replica_end_predecessor(&it->replica, it->files.dead);
  if (status != REPLICA_OK) return status;
  places_take_over(&it->files.places, it->files.number);
  it->files.dead = 0;
  return REPLICA_OK;
}

replica_status_t member_enter(member_t *it) {
  replica_status_t status = REPLICA_OK;
  if (it->files.is_new) replica_create(&it->replica);
  else status = replica_join(&it->replica);
  if (status == REPLICA_OK && it->files.dead != 0) status = take_over(it);
  if (status == REPLICA_OK) {
    tell_deaths(it, true);
    sleepers_forget(it->files.sleepers, it->replica.place);
    shared_files_ready(&it->files);
    status = member_reap(it, NULL);
  }
  /* What it announced may be in the list: others find the place's process dead. */
  if (status != REPLICA_OK && it->files.dead == 0) it->files.dead = it->files.number;
  return status;
}

replica_status_t member_call(member_t *it, const uint64_t arguments[CALL_ARGUMENTS], uint32_t reasons, uint64_t places) {
  replica_status_t status = replica_call(&it->replica, arguments);
  if (status == REPLICA_OK) member_wake(it, reasons, places);
  return status;
}

static replica_status_t call_end(member_t *it, call_end_t end) {
  replica_status_t status = replica_call_end(&it->replica, end);
  if (status == REPLICA_OK) member_wake(it, SLEEP_ALL_REASONS, SLEEP_ALL_PLACES);
  return status;
}

static replica_status_t reap_among(member_t *it, uint64_t among, size_t *found) {
  size_t count = 0;
  uint64_t number;
  replica_status_t status = replica_follow(&it->replica, UINT64_MAX, true);
  for (uint32_t place = 0; status == REPLICA_OK && (place = places_next_dead(&it->files.places, among, place, &number)) != NO_PLACE; place++, count++) {
    status = call_end(it, (call_end_t){place, number, true});
    if (status == REPLICA_OK) places_free_dead(&it->files.places, place, number);
  }
  if (found != NULL) *found = count;
  tell_deaths(it, false);
  return status;
}

replica_status_t member_reap(member_t *it, size_t *found) { return reap_among(it, ALL_PLACES, found); }
replica_status_t member_look(member_t *it) { return reap_among(it, places_look(&it->files.places, it->looks), NULL); }

static uint64_t later(uint64_t now, uint64_t ns) { return ns > UINT64_MAX - now ? UINT64_MAX : now + ns; }

/* Makes the calls of others, and asks whether something is there; only then is there time for copies. */
static replica_status_t look(member_t *it, member_is_there_t *is_there, void *waiter, bool *was_there) {
  replica_status_t status = replica_follow(&it->replica, UINT64_MAX, false);
  *was_there = status == REPLICA_OK && is_there(waiter);
  if (status == REPLICA_OK && !*was_there) replica_idle(&it->replica);
  return status;
}

/* Says that it sleeps, looks once more, and sleeps for so many ns unless something is there. */
static replica_status_t sleep_for(member_t *it, uint32_t reasons, member_is_there_t *is_there, void *waiter, uint64_t ns, bool *was_there) {
  replica_end_copy(&it->replica);
  uint64_t begun = sleepers_begin(it->files.sleepers, it->replica.place, reasons);
  replica_status_t status = look(it, is_there, waiter, was_there);
  bool sleeps = status == REPLICA_OK && !*was_there;
  if (sleeps) sleepers_sleep(it->files.sleepers, it->replica.place, begun, ns);
  sleepers_end(it->files.sleepers, it->replica.place, reasons & ~it->listens_for);
  return sleeps ? look(it, is_there, waiter, was_there) : status;
}

static replica_status_t sleep_until(member_t *it, uint32_t reasons, member_is_there_t *is_there, void *waiter, uint64_t until, bool *was_there) {
  uint64_t now = futex_clock(), every = (uint64_t)it->reap_every_ms * 1000000u, reaps_at = later(now, every);
  replica_status_t status = REPLICA_OK;
  while (status == REPLICA_OK && !*was_there && now < until) {
    status = sleep_for(it, reasons, is_there, waiter, (until < reaps_at ? until : reaps_at) - now, was_there);
    now = futex_clock();
    if (now < reaps_at || status != REPLICA_OK || *was_there) continue;
    status = member_look(it);
    if (status == REPLICA_OK) status = look(it, is_there, waiter, was_there);
    reaps_at = later(now, every);
  }
  return status;
}

replica_status_t member_wait(member_t *it, uint32_t reasons, member_is_there_t *is_there, void *waiter, uint64_t timeout_ns, bool *was_there) {
  replica_status_t status = look(it, is_there, waiter, was_there);
  for (uint32_t i = 0; i < it->spins && status == REPLICA_OK && !*was_there && timeout_ns > 0; i++) status = look(it, is_there, waiter, was_there);
  if (status == REPLICA_OK && !*was_there && timeout_ns > 0) status = sleep_until(it, reasons, is_there, waiter, later(futex_clock(), timeout_ns), was_there);
  tell_deaths(it, false);
  return status;
}

replica_status_t member_leave(member_t *it) {
  replica_status_t status = call_end(it, (call_end_t){it->replica.place, it->files.number, false});
  /* Otherwise others find the place's process dead. */
  if (status != REPLICA_OK) it->files.dead = it->files.number;
  shared_files_close(&it->files);
  return status;
}
