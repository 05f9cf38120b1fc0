// SPDX-License-Identifier: Apache-2.0 OR MIT
#define _GNU_SOURCE
#include "shared_domain.h"
#include "helped_places.h"
#include <time.h>

iox2ps_status_t shared_group_break(shared_group_t *it, replica_status_t status) {
  return it->broken = status == REPLICA_DIVERGED ? IOX2PS_PROCESSES_DIVERGED : IOX2PS_PROCESSES_DAMAGED;
}

iox2ps_status_t shared_domain_follow(shared_domain_t *it) {
  if (it->group->broken != IOX2PS_OK) return it->group->broken;
  replica_status_t status = replica_follow(&it->group->member.replica, UINT64_MAX, false);
  return status == REPLICA_OK ? IOX2PS_OK : shared_group_break(it->group, status);
}

iox2ps_status_t shared_domain_reap(shared_domain_t *it, size_t *found) {
  if (it->group->broken != IOX2PS_OK) return it->group->broken;
  replica_status_t status = member_reap(&it->group->member, found);
  return status == REPLICA_OK ? IOX2PS_OK : shared_group_break(it->group, status);
}

iox2ps_status_t shared_domain_look(shared_domain_t *it) {
  if (it->group->broken != IOX2PS_OK) return it->group->broken;
  replica_status_t status = member_look(&it->group->member);
  return status == REPLICA_OK ? IOX2PS_OK : shared_group_break(it->group, status);
}

static uint64_t coarse_clock(void) {
  struct timespec now;
  clock_gettime(CLOCK_MONOTONIC_COARSE, &now);
  return (uint64_t)now.tv_sec * 1000000000u + (uint64_t)now.tv_nsec;
}

iox2ps_status_t shared_domain_reap_in_time(shared_domain_t *it) {
  uint64_t now = coarse_clock();
  if (now < it->group->reaps_at) return IOX2PS_OK;
  it->group->reaps_at = now + (uint64_t)it->group->member.reap_every_ms * 1000000u;
  return shared_domain_look(it);
}

bool shared_group_has_handles(const shared_group_t *it) {
  for (uint32_t i = 0; i < it->memory->count; i++)
    if (live_handles_first(&it->memory->domains[i].handles, it->member.replica.place) != NULL) return true;
  return false;
}

iox2ps_status_t shared_domain_idle(shared_domain_t *it) {
  if (it->group->broken != IOX2PS_OK) return it->group->broken;
  it->group->member.replica.only_follows = false;
  if (coarse_clock() >= it->group->reaps_at) return shared_domain_reap_in_time(it); /* which makes a piece of a copy, too */
  replica_idle(&it->group->member.replica);
  return IOX2PS_OK;
}

bool shared_group_protect(shared_group_t *it, bool may_write) {
  if (it->broken != IOX2PS_OK) return true; /* and the call says so */
  if (!shared_files_protect_payloads(&it->member.files, may_write)) return false;
  it->may_write = may_write;
  return true;
}

/* Whether a process that died may have what is wanting. */
static bool wants_room(iox2ps_status_t code) {
  switch (code) {
  case IOX2PS_OUT_OF_MEMORY:
  case IOX2PS_LOAN_ERROR_OUT_OF_MEMORY:
  case IOX2PS_LOAN_ERROR_INTERNAL_FAILURE:
  case IOX2PS_PUBLISHER_CREATE_ERROR_EXCEEDS_MAX_SUPPORTED_PUBLISHERS:
  case IOX2PS_PUBLISHER_CREATE_ERROR_UNABLE_TO_CREATE_DATA_SEGMENT:
  case IOX2PS_PUBLISHER_CREATE_ERROR_FAILED_TO_DEPLOY_THREADSAFETY_POLICY:
  case IOX2PS_SUBSCRIBER_CREATE_ERROR_EXCEEDS_MAX_SUPPORTED_SUBSCRIBERS:
  case IOX2PS_SUBSCRIBER_CREATE_ERROR_FAILED_TO_DEPLOY_THREADSAFETY_POLICY: return true;
  default: return false;
  }
}

void shared_domain_wrote(shared_domain_t *it) {
  const group_memory_t *memory = it->group->memory;
  uint32_t place = it->group->member.replica.place;
  if (it->group->broken != IOX2PS_OK || !it->group->may_write) return;
  for (uint32_t i = 0; i < memory->count; i++)
    if (live_handles_has(&memory->domains[i].handles, HANDLE_PUBLISHER, place) || live_handles_has(&memory->domains[i].handles, HANDLE_LOAN, place)) return;
  (void)shared_group_protect(it->group, false);
}

void shared_domain_wake(shared_domain_t *it, const uint64_t arguments[CALL_ARGUMENTS]) {
  const domain_reply_t *reply = shared_domain_reply(it);
  (void)domain_memory_ask(it->memory);
  uint64_t helped = helped_places_of(it->memory, it->group->seat.place, (uint32_t)arguments[0], arguments + 1, reply);
  domain_memory_asked();
  member_wake(&it->group->member, reply->brought & ~(uint32_t)HELPS_PUBLISHERS, it->group->other_places);
  member_wake(&it->group->member, reply->brought & HELPS_PUBLISHERS, it->group->other_places & helped);
}

iox2ps_status_t shared_domain_call_again(shared_domain_t *it, uint64_t arguments[CALL_ARGUMENTS], iox2ps_status_t code) {
  domain_operation_t operation = (domain_operation_t)(uint32_t)arguments[0];
  if (!wants_room(code)) return code;
  iox2ps_status_t reaped = shared_domain_reap(it, NULL);
  if (reaped != IOX2PS_OK) return reaped;
  if (it->deaths_known == it->memory->brought[BROUGHT_DEATHS]) return code;
  it->deaths_known = it->memory->brought[BROUGHT_DEATHS];
  /* What waited for the subscribers of the dead an update alone takes back. */
  if (operation == PUBLISHER_LOAN) (void)shared_domain_call(it, PUBLISHER_UPDATE, arguments);
  return shared_domain_call(it, operation, arguments);
}

iox2ps_status_t shared_domain_call(shared_domain_t *it, domain_operation_t operation, uint64_t arguments[CALL_ARGUMENTS]) {
  if (it->group->broken != IOX2PS_OK) return it->group->broken;
  arguments[0] = it->calls | operation;
  replica_status_t status = replica_call(&it->group->member.replica, arguments);
  if (status != REPLICA_OK) return shared_group_break(it->group, status);
  const domain_reply_t *reply = shared_domain_reply(it);
  if (reply->brought != 0) shared_domain_tell_brought(it, arguments, reply->brought);
  return reply->code == IOX2PS_OK ? IOX2PS_OK : shared_domain_call_again(it, arguments, reply->code);
}

void shared_domain_note_empty(shared_domain_t *it, const uint64_t words[HANDLE_WORDS]) {
  uint64_t which = words[0] % EMPTY_SUBSCRIBERS;
  it->empty[which].id = words[0], it->empty[which].messages = shared_domain_reply(it)->messages + 1;
}
