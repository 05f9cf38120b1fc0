// SPDX-License-Identifier: Apache-2.0 OR MIT
/* Notifiers, and the listeners of this process: which events each hasn't told of yet, as far as the calls are made. */
#include "shared_domain.h"
#include <stdlib.h>
#include <string.h>

enum { FIRST_LISTENERS = 4, WORD_BITS = 64, EVENT_WORDS = EVENT_IDS / WORD_BITS };
_Static_assert(sizeof(iox2ps_event_ids_t) == EVENT_WORDS * sizeof(uint64_t), "a bit for each id");

typedef struct event_listener_t {
  uint64_t id;            /* 0 where there is none */
  uint64_t noted;         /* how many notifications there were as it noted their ids last */
  size_t next;            /* the id that it tells first, so that none keeps others back */
  iox2ps_event_ids_t ids; /* that it hasn't told yet */
} event_listener_t;

static iox2ps_status_t check(const iox2ps_domain_t *domain, shared_domain_t **shared) {
  *shared = shared_domain_of(domain);
  if (*shared == NULL) return domain->domain_ == NULL ? IOX2PS_NO_DOMAIN : IOX2PS_PROCESSES_NOT_SHARED;
  return (*shared)->group->broken;
}

static bool is_of(const shared_domain_t *shared, iox2ps_wide_t service_id) {
  return service_id.low == shared->service_id.low && service_id.high == shared->service_id.high;
}

/* ---- notifiers */

iox2ps_status_t iox2ps_notifier_create(iox2ps_domain_t *domain, size_t default_event_id, iox2ps_notifier_t *notifier) {
  shared_domain_t *shared;
  iox2ps_status_t code = check(domain, &shared);
  if (code != IOX2PS_OK) return code;
  if (default_event_id > IOX2PS_EVENT_ID_MAX_VALUE) return IOX2PS_NOTIFIER_NOTIFY_ERROR_EVENT_ID_OUT_OF_BOUNDS;
  *notifier = (iox2ps_notifier_t){.service_id = shared->service_id, .default_event_id = default_event_id};
  return IOX2PS_OK;
}

iox2ps_status_t iox2ps_notifier_notify_with_custom_event_id(iox2ps_domain_t *domain, const iox2ps_notifier_t *notifier, size_t event_id, size_t *listeners) {
  shared_domain_t *shared;
  iox2ps_status_t code = check(domain, &shared);
  if (code != IOX2PS_OK) return code;
  if (!is_of(shared, notifier->service_id)) return IOX2PS_NOT_LIVE;
  if (event_id > IOX2PS_EVENT_ID_MAX_VALUE) return IOX2PS_NOTIFIER_NOTIFY_ERROR_EVENT_ID_OUT_OF_BOUNDS;
  code = shared_domain_call(shared, NOTIFY, (uint64_t[CALL_ARGUMENTS]){[1 + EVENT_WORD] = event_id});
  if (code == IOX2PS_OK && listeners != NULL) *listeners = shared_domain_reply(shared)->count;
  return code;
}

iox2ps_status_t iox2ps_notifier_notify(iox2ps_domain_t *domain, const iox2ps_notifier_t *notifier, size_t *listeners) {
  return iox2ps_notifier_notify_with_custom_event_id(domain, notifier, notifier->default_event_id, listeners);
}

/* ---- listeners */

/* Room for one more; or null. */
static event_listener_t *free_listener(shared_domain_t *shared) {
  for (size_t i = 0; i < shared->listener_count; i++)
    if (shared->listeners[i].id == 0) return &shared->listeners[i];
  size_t count = shared->listener_count == 0 ? FIRST_LISTENERS : 2 * shared->listener_count;
  event_listener_t *all = realloc(shared->listeners, count * sizeof *all);
  if (all == NULL) return NULL;
  event_listener_t *first = &all[shared->listener_count];
  memset(first, 0, (count - shared->listener_count) * sizeof *first);
  shared->listeners = all, shared->listener_count = count;
  return first;
}

static event_listener_t *find(const shared_domain_t *shared, const iox2ps_listener_t *listener) {
  if (!is_of(shared, listener->service_id) || listener->id.low == 0 || listener->id.high != 0 || listener->place_ >= shared->listener_count) return NULL;
  event_listener_t *it = &shared->listeners[listener->place_];
  return it->id == listener->id.low ? it : NULL;
}

iox2ps_status_t iox2ps_listener_create(iox2ps_domain_t *domain, iox2ps_listener_t *listener) {
  shared_domain_t *shared;
  iox2ps_status_t code = check(domain, &shared);
  if (code != IOX2PS_OK) return code;
  event_listener_t *it = free_listener(shared);
  if (it == NULL) return IOX2PS_OUT_OF_MEMORY;
  code = shared_domain_call(shared, LISTENER_CREATE, (uint64_t[CALL_ARGUMENTS]){0});
  if (code != IOX2PS_OK) return code;
  const uint64_t *handle = shared_domain_reply(shared)->handle;
  *it = (event_listener_t){.id = handle[0], .noted = handle[1]};
  *listener = (iox2ps_listener_t){.service_id = shared->service_id, .id = {.low = it->id}, .place_ = (uint64_t)(it - shared->listeners)};
  return IOX2PS_OK;
}

iox2ps_status_t iox2ps_listener_close(iox2ps_domain_t *domain, const iox2ps_listener_t *listener) {
  shared_domain_t *shared;
  iox2ps_status_t code = check(domain, &shared);
  if (code != IOX2PS_OK) return code;
  event_listener_t *it = find(shared, listener);
  if (it == NULL) return IOX2PS_NOT_LIVE;
  it->id = 0;
  return shared_domain_call(shared, LISTENER_CLOSE, (uint64_t[CALL_ARGUMENTS]){0});
}

/* ---- events */

static void note_events(event_listener_t *it, const event_numbers_t *events) {
  if (it->noted == events->notifications || events->last == NULL) return;
  for (size_t id = 0; id < EVENT_IDS; id++)
    if (events->last[id] > it->noted) it->ids.words[id / WORD_BITS] |= UINT64_C(1) << id % WORD_BITS;
  it->noted = events->notifications;
}

typedef struct waiter_t { const event_numbers_t *events; event_listener_t *listener; } waiter_t;

static bool has_event(void *of) {
  waiter_t *it = of;
  note_events(it->listener, it->events);
  uint64_t any = 0;
  for (int i = 0; i < EVENT_WORDS; i++) any |= it->listener->ids.words[i];
  return any != 0;
}

/* A look, where the domain is to be waited for no longer. */
static iox2ps_status_t look(shared_domain_t *shared, waiter_t *waiter) {
  iox2ps_status_t code = shared_domain_follow(shared);
  if (code != IOX2PS_OK || has_event(waiter)) return code;
  code = shared_domain_idle(shared);
  return code != IOX2PS_OK || has_event(waiter) ? code : IOX2PS_PROCESSES_TIMED_OUT;
}

/* Fills the listener that has an event. */
static iox2ps_status_t await(iox2ps_domain_t *domain, const iox2ps_listener_t *listener, uint64_t timeout_ns, event_listener_t **has) {
  shared_domain_t *shared;
  iox2ps_status_t code = check(domain, &shared);
  if (code != IOX2PS_OK) return code;
  waiter_t waiter = {&shared->memory->events, find(shared, listener)};
  if (waiter.listener == NULL) return IOX2PS_NOT_LIVE;
  code = timeout_ns == 0 ? look(shared, &waiter) : shared_domain_wait(shared, IOX2PS_BRINGS_EVENT, has_event, &waiter, timeout_ns);
  *has = find(shared, listener); /* who was told of a death may have created or closed listeners */
  return code == IOX2PS_OK && *has == NULL ? IOX2PS_NOT_LIVE : code;
}

static bool take(event_listener_t *it, size_t id) {
  uint64_t *word = &it->ids.words[id / WORD_BITS], bit = UINT64_C(1) << id % WORD_BITS;
  bool is_there = (*word & bit) != 0;
  *word &= ~bit;
  return is_there;
}

iox2ps_status_t iox2ps_listener_timed_wait_one(iox2ps_domain_t *domain, const iox2ps_listener_t *listener, uint64_t timeout_ns, size_t *event_id) {
  event_listener_t *it;
  iox2ps_status_t code = await(domain, listener, timeout_ns, &it);
  if (code != IOX2PS_OK) return code;
  while (!take(it, it->next)) it->next = (it->next + 1) % EVENT_IDS;
  *event_id = it->next;
  it->next = (it->next + 1) % EVENT_IDS;
  return IOX2PS_OK;
}

iox2ps_status_t iox2ps_listener_timed_wait_all(iox2ps_domain_t *domain, const iox2ps_listener_t *listener, uint64_t timeout_ns, iox2ps_event_ids_t *event_ids) {
  event_listener_t *it;
  iox2ps_status_t code = await(domain, listener, timeout_ns, &it);
  if (code != IOX2PS_OK) return code;
  *event_ids = it->ids;
  it->ids = (iox2ps_event_ids_t){{0}};
  return IOX2PS_OK;
}
