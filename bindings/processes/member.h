// SPDX-License-Identifier: Apache-2.0 OR MIT
/* One of the processes that share an object: it enters, calls, sleeps until others have called, says who died, and leaves.
 *
 * Nobody watches over the others. A process that sleeps looks for dead ones each `reap_every_ms`; one that enters, or is refused for
 * want of room, looks at once. Whoever finds a dead process adds its end to the list, and so gives back all that it had. */
#ifndef IOX2PS_MEMBER_H
#define IOX2PS_MEMBER_H

#include "shared_files.h"

enum { REAP_EVERY_MS = 200, SLEEP_ALL_REASONS = (1 << SLEEP_REASONS) - 1 };
#define SLEEP_FOREVER UINT64_MAX

typedef struct member_t {
  shared_files_t files; /* opened by `shared_files_open` */
  replica_t replica;    /* over the list and the copies of the files, with memory for the object */
  uint32_t reap_every_ms;
  uint32_t spins;       /* how often a wait looks before it sleeps */
  /* Told of each process that died since this one entered; in `member_reap` and `member_wait`. Or null. Of several that died in the
   * same place meanwhile, the last is told. */
  void (*died)(void *listener, uint32_t place, uint64_t number);
  void *listener;
  uint64_t told[CALL_PLACES];
  uint64_t looks[PLACES_MAX]; /* of the others, as this process looked last */
  /* Told of places that were woken, a bit each; or null. */
  void (*rouse)(void *rouser, uint64_t places);
  void *rouser;
  uint32_t listens_for; /* reasons for which this process is to be woken also where it doesn't sleep */
} member_t;

/* What a wait is for: asked after each look at the list. */
typedef bool member_is_there_t(void *waiter);

/* Creates the object or joins the others, and reaps. Others may open the files then. If it isn't REPLICA_OK, the files are to be
 * closed. */
replica_status_t member_enter(member_t *it);
/* Makes a call, and then wakes those of the places that sleep for one of the reasons, a bit each. */
replica_status_t member_call(member_t *it, const uint64_t arguments[CALL_ARGUMENTS], uint32_t reasons, uint64_t places);
/* The same for an object whose reply says whom it helps: after `replica_call`. */
static inline void member_wake(member_t *it, uint32_t reasons, uint64_t places) {
  if (!sleepers_are_there(it->files.sleepers, places)) return;
  uint64_t woken = sleepers_wake(it->files.sleepers, reasons, places);
  if (woken != 0 && it->rouse != NULL) it->rouse(it->rouser, woken);
}
/* Gives back what processes had that died, and says how many (`found` may be null). */
replica_status_t member_reap(member_t *it, size_t *found);
/* The same now and then, each `reap_every_ms`. The system isn't asked about those that look, too: such a one is found by the second look
 * after its death. */
replica_status_t member_look(member_t *it);
/* Makes the calls of others until something is there, or for so many ns. `is_there` is asked at least once. */
replica_status_t member_wait(member_t *it, uint32_t reasons, member_is_there_t *is_there, void *waiter, uint64_t timeout_ns, bool *was_there);
/* Gives back all that this process has, and its place. The object's memory is the caller's. */
replica_status_t member_leave(member_t *it);

#endif
