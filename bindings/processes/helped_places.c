// SPDX-License-Identifier: Apache-2.0 OR MIT
#include "helped_places.h"
#include "sleepers.h"

static uint64_t alone(uint32_t place) { return UINT64_C(1) << place; }

/* Each connection has a buffer of its own: a receive makes room for the publisher of its message, at this subscriber. */
static uint64_t blocked_at(domain_memory_t *it, uint64_t publisher, uint64_t subscriber) {
  const live_handle_t *blocked = live_handles_blocked_of(&it->handles, publisher);
  return blocked != NULL && domain_stands_at(&it->domain, it->service_id, blocked->words) == subscriber ? alone(blocked->place) : 0;
}

bool helped_places_need_room(domain_memory_t *it, const uint64_t words[HANDLE_WORDS], const domain_reply_t *reply) {
  return blocked_at(it, reply->handle[SAMPLE_PUBLISHER], words[0]) != 0;
}

/* What a closed publisher lent becomes room for others to grow. */
static uint64_t lends(const domain_memory_t *it, uint64_t publisher) {
  const live_handle_t *handle = live_handles_find(&it->handles, HANDLE_PUBLISHER, (const uint64_t[HANDLE_WORDS]){publisher});
  return handle != NULL ? alone(handle->place) : SLEEP_ALL_PLACES;
}

uint64_t helped_places_of(domain_memory_t *it, uint32_t place, uint64_t operation, const uint64_t words[HANDLE_WORDS], const domain_reply_t *reply) {
  switch ((domain_operation_t)operation) {
  case LOAN_SEND:
  case LOAN_DISCARD:
  case LOAN_DELIVER:
  case BLOCKED_RETRY:
  case BLOCKED_GIVE_UP: return alone(place);
  case SAMPLE_RELEASE: return lends(it, words[SAMPLE_PUBLISHER]);
  case SUBSCRIBER_RECEIVE: return blocked_at(it, reply->handle[SAMPLE_PUBLISHER], words[0]);
  default: return SLEEP_ALL_PLACES;
  }
}
