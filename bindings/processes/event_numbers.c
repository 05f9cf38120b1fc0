// SPDX-License-Identifier: Apache-2.0 OR MIT
#include "event_numbers.h"
#include <string.h>

bool event_numbers_make_it(uint64_t operation) { return operation == LISTENER_CREATE || operation == LISTENER_CLOSE || operation == NOTIFY; }

static domain_reply_t create(event_numbers_t *it, region_heap_t *heap, uint32_t place) {
  if (it->last == NULL) {
    it->last = region_heap_take(heap, EVENT_IDS * sizeof *it->last);
    if (it->last == NULL) return (domain_reply_t){.code = IOX2PS_OUT_OF_MEMORY};
    memset(it->last, 0, EVENT_IDS * sizeof *it->last);
  }
  it->open++, it->open_of[place]++;
  return (domain_reply_t){.code = IOX2PS_OK, .handle = {++it->created, it->notifications}};
}

static void close(event_numbers_t *it, region_heap_t *heap, uint32_t place, uint32_t count) {
  it->open -= count, it->open_of[place] -= count;
  if (it->open != 0 || it->last == NULL) return;
  region_heap_give(heap, it->last);
  it->last = NULL;
}

static domain_reply_t close_one(event_numbers_t *it, region_heap_t *heap, uint32_t place) {
  if (it->open_of[place] == 0) return (domain_reply_t){.code = IOX2PS_NOT_LIVE};
  close(it, heap, place, 1);
  return (domain_reply_t){.code = IOX2PS_OK};
}

static domain_reply_t notify(event_numbers_t *it, uint64_t event_id) {
  if (event_id > IOX2PS_EVENT_ID_MAX_VALUE) return (domain_reply_t){.code = IOX2PS_NOTIFIER_NOTIFY_ERROR_EVENT_ID_OUT_OF_BOUNDS};
  it->notifications++;
  if (it->last != NULL) it->last[event_id] = it->notifications;
  return (domain_reply_t){.code = IOX2PS_OK, .count = it->open, .handle = {it->notifications}, .brought = IOX2PS_BRINGS_EVENT};
}

domain_reply_t event_numbers_make(event_numbers_t *it, region_heap_t *heap, uint32_t place, uint64_t operation, const uint64_t words[HANDLE_WORDS]) {
  switch (operation) {
  case LISTENER_CREATE: return create(it, heap, place);
  case LISTENER_CLOSE: return close_one(it, heap, place);
  default: return notify(it, words[EVENT_WORD]);
  }
}

void event_numbers_end(event_numbers_t *it, region_heap_t *heap, uint32_t place) { close(it, heap, place, it->open_of[place]); }
