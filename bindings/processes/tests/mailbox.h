// SPDX-License-Identifier: Apache-2.0 OR MIT
/* A small object that passes messages of 64 bytes: who lends a slot writes it in place, and sends it to the end of a queue, from which
 * one receives and releases it. It knows which place has which slot. */
#ifndef IOX2PS_MAILBOX_H
#define IOX2PS_MAILBOX_H

#include "member.h"
#include <stdio.h>
#include <stdlib.h>
#include <string.h>
#include <unistd.h>

enum { SLOTS = 16, BYTES = 64, PLACES = 8, LENGTH = 64, LOADS = 1000, NOTHING = SLOTS };

typedef enum operation_t { LEND = 1, SEND, RECEIVE, RELEASE } operation_t;
/* What is to be waited for. */
enum { MESSAGE = 1, ROOM = 2 };
typedef enum slot_state_t { FREE, LENT, QUEUED, TAKEN } slot_state_t;

typedef struct mailbox_t {
  replica_memory_t memory;
  struct { uint64_t state, place; } slots[SLOTS];
  uint64_t queue[SLOTS], head, tail; /* numbers of slots */
  uint64_t reply_to[PLACES];
} mailbox_t;

#define CHECK(condition) ((condition) ? (void)0 : fail(__FILE__, __LINE__, #condition))
static _Noreturn void fail(const char *file, int line, const char *words) {
  fprintf(stderr, "%s:%d: %s\n", file, line, words);
  _exit(1);
}

static uint64_t lend(mailbox_t *it, uint64_t place) {
  for (uint64_t slot = 0; slot < SLOTS; slot++) {
    if (it->slots[slot].state != FREE) continue;
    it->slots[slot].state = LENT, it->slots[slot].place = place;
    return slot;
  }
  return NOTHING;
}

static uint64_t change(mailbox_t *it, uint64_t slot, uint64_t place, slot_state_t from, slot_state_t to) {
  if (slot >= SLOTS || it->slots[slot].state != from || it->slots[slot].place != place) return NOTHING;
  it->slots[slot].state = to;
  if (to == QUEUED) it->queue[it->tail++ % SLOTS] = slot;
  return slot;
}

static uint64_t receive(mailbox_t *it, uint64_t place) {
  if (it->head == it->tail) return NOTHING;
  uint64_t slot = it->queue[it->head++ % SLOTS];
  it->slots[slot].state = TAKEN, it->slots[slot].place = place;
  return slot;
}

/* What a place has, unless it was sent. */
static void give_back(mailbox_t *it, uint64_t place) {
  for (uint64_t slot = 0; slot < SLOTS; slot++)
    if (it->slots[slot].place == place && (it->slots[slot].state == LENT || it->slots[slot].state == TAKEN)) it->slots[slot].state = FREE;
}

static uint64_t apply(void *object, uint32_t place, const uint64_t arguments[CALL_ARGUMENTS]) {
  mailbox_t *it = (mailbox_t *)((replica_memory_t *)object - 1);
  uint64_t reply = NOTHING;
  if (arguments == NULL) give_back(it, place);
  else switch (arguments[0]) {
    case LEND: reply = lend(it, place); break;
    case SEND: reply = change(it, arguments[1], place, LENT, QUEUED); break;
    case RECEIVE: reply = receive(it, place); break;
    case RELEASE: reply = change(it, arguments[1], place, TAKEN, FREE); break;
  }
  return it->reply_to[place] = reply;
}

static mailbox_t *mailbox_of(const member_t *it) { return (mailbox_t *)it->replica.memory; }
static inline char *bytes_of(const member_t *it, uint64_t slot) { return it->files.payloads + slot * BYTES; }

static inline uint64_t call(member_t *it, operation_t operation, uint64_t argument) {
  uint64_t arguments[CALL_ARGUMENTS] = {operation, argument};
  CHECK(member_call(it, arguments, operation == SEND ? MESSAGE : operation == RELEASE ? ROOM : 0, SLEEP_ALL_PLACES) == REPLICA_OK);
  return mailbox_of(it)->reply_to[it->replica.place];
}

/* How many processes may have the mailbox. */
static uint32_t most_places = PLACES;

static shared_settings_t settings_of(const char *name, bool writes_payloads) {
  static const uint64_t config[2] = {SLOTS, BYTES};
  return (shared_settings_t){
    .name = name, .version = 1, .build = 7, .domains = 1, .kinds = {{"mailbox", BYTES, 8, config, sizeof config}},
    .places = most_places, .length = LENGTH, .room = sizeof(mailbox_t), .payload_room = (size_t)SLOTS * BYTES, .permissions = 0600, .writes_payloads = writes_payloads
  };
}

/* Gives back what processes had that died. */
static inline void reap(member_t *it) { CHECK(member_reap(it, NULL) == REPLICA_OK); }

/* A mailbox, and behind it room for what it was as a copy was begun. */
static mailbox_t *new_mailbox(const shared_files_t *files) {
  mailbox_t *it = calloc(2, files->copies.room);
  CHECK(it != NULL);
  it->memory.size = sizeof *it;
  return it;
}

static replica_t replica_of(const shared_files_t *files, mailbox_t *mailbox) {
  return (replica_t){.list = files->list, .copies = files->copies, .apply = apply, .memory = &mailbox->memory, .place = files->places.own, .loads = LOADS,
    .snapshot = (char *)mailbox + files->copies.room};
}

static shared_status_t join_with(member_t *it, const shared_settings_t *settings, shared_mode_t mode) {
  *it = (member_t){.reap_every_ms = REAP_EVERY_MS};
  shared_status_t status = shared_files_open(&it->files, settings, mode);
  if (status != SHARED_OK) return status;
  it->replica = replica_of(&it->files, new_mailbox(&it->files));
  CHECK(member_enter(it) == REPLICA_OK);
  return SHARED_OK;
}

static shared_status_t join_mailbox(member_t *it, const char *name, shared_mode_t mode, bool writes_payloads) {
  shared_settings_t settings = settings_of(name, writes_payloads);
  return join_with(it, &settings, mode);
}

static inline void leave_mailbox(member_t *it) {
  CHECK(member_leave(it) == REPLICA_OK);
  free(it->replica.memory);
}

#endif
