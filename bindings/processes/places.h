// SPDX-License-Identifier: Apache-2.0 OR MIT
/* Who is there. Each process has a place and a number that no other process of the file ever has. For its life it holds a lock
 * on a byte of the file, which the system gives back when it ends, however it ends. So no process identifiers are compared, and
 * processes in several containers may share the file.
 *
 * The descriptor of the locks isn't mapped, since the mappings of a forked child would keep them; a child closes it. */
#ifndef IOX2PS_PLACES_H
#define IOX2PS_PLACES_H

#include <stdatomic.h>
#include <stdbool.h>
#include <stdint.h>

enum { PLACES_MAX = 64, NO_PLACE = PLACES_MAX, PID_BITS = 22 };
#define ALL_PLACES UINT64_MAX

/* The number of a process: how many had a place by then, and its process identifier, which the system keeps below 2^PID_BITS. */
static inline uint64_t places_begun(uint64_t number) { return number >> PID_BITS; }
static inline uint32_t places_pid(uint64_t number) { return (uint32_t)number & ((1u << PID_BITS) - 1); }

/* In shared memory. It is 0 at first. */
typedef struct places_shared_t {
  _Atomic uint64_t begun;               /* how many processes had a place so far */
  _Atomic uint64_t numbers[PLACES_MAX]; /* of the process that has each place, also if it is dead; 0 is free */
  _Atomic uint64_t looks[PLACES_MAX];   /* how often the processes of each place looked for dead ones, as those that sleep do now and then */
} places_shared_t;

typedef struct places_t {
  places_shared_t *shared;
  uint32_t count;
  uint32_t own; /* the place of this process, or NO_PLACE */
  int lock_fd;  /* opened for reading and writing, by this process alone */
} places_t;

/* Makes those who create and open the file wait for each other. False if the system refuses. */
bool places_lock_file(int lock_fd);
/* The same where nobody has the lock. False if somebody has. */
bool places_try_lock_file(int lock_fd);
void places_unlock_file(int lock_fd);

/* Whether any process holds a place. */
bool places_one_lives(const places_t *places);
/* Takes a free place, or where there is none that of a dead process. Returns the number of this process, or 0. `dead` is the
 * number of the dead one, or 0: the place keeps it until the list says that it died. The caller has the file's lock. */
uint64_t places_take(places_t *places, uint64_t *dead);
/* The process has the place that it took over. When the list says that the one before died. */
void places_take_over(const places_t *places, uint64_t number);
/* Gives back the own place. The last call of a process says that it ended, as of one that died: so who took it for dead
 * as it left does no harm to the next one in its place. */
void places_leave(places_t *places);
/* Leaves a place that it took over to others, as it found it. */
void places_give_up(places_t *places);
/* The process that has a place, or 0; and whether it died. */
uint64_t places_process(const places_t *places, uint32_t place, bool *is_dead);
/* Says that this process looks for dead ones, and returns the places, a bit each, where none has looked since this one did last: only
 * those may have died before that, and so the system needn't be asked of others. `seen` is what it keeps from one look to the next. */
uint64_t places_look(const places_t *places, uint64_t seen[PLACES_MAX]);
/* The first of these places, a bit each, from this one on whose process died, or NO_PLACE; and the number of that process. */
uint32_t places_next_dead(const places_t *places, uint64_t among, uint32_t from, uint64_t *number);
/* Frees the place of a dead process, when the list says that it died and all that it had is given back. */
void places_free_dead(const places_t *places, uint32_t place, uint64_t number);

#endif
