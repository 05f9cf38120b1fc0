// SPDX-License-Identifier: Apache-2.0 OR MIT
/* Explores all that a few processes can do with one shared memory as C11 orders it.
 *
 * Each location has its messages in the order of its modification, and each process a view: how far it has seen each. A load
 * may take any message that isn't before the view. Release puts the view into the message, acquire takes it over; fences do so
 * for the accesses behind and before them. (This is C11 without cycles of loads that take what depends on them, as RC11 and
 * C++20's revision want it.)
 *
 * A process goes on alone until it is to load after it has stored: since a load may take old messages, it loses nothing by
 * being late, and others lose nothing by a store that is early. Compare-and-swaps are made in all orders. Before each store
 * and each swap a process may die.
 *
 * With `is_total`, sequentially consistent accesses have one order, in which they are made: such a load takes no message that is
 * older than one that such an access before it took or made. Without it they only acquire and release. A process that sleeps goes
 * on when another wakes it.
 *
 * Processes run on stacks of their own. A state is the bytes of all of them; states that were met before are left out. */
#ifndef IOX2PS_MODEL_EXPLORE_H
#define IOX2PS_MODEL_EXPLORE_H

#include "views.h"
#include <stdatomic.h>
#include <stddef.h>

enum { PROCESSES = 3, REGION_WORDS = 1024 };

/* How a run of the model is set. */
typedef struct exploration_t {
  uint32_t processes;
  uint32_t deaths;   /* at most, in a run */
  bool is_strong;    /* each load takes the newest message, and processes take turns at each access to a word before turn_end */
  size_t turn_end;
  bool is_total;
  uint32_t first_reader; /* processes from this one on store nothing: they lose nothing by waiting for the others' end */
  size_t bulk, bulk_end; /* words of the region of which a process takes one newer message at most in a row of loads: a
                            second one would tell it nothing more */
  void *state;       /* what else belongs to a state: of the processes, and of what the run expects */
  size_t state_size;
  void (*prepare)(void);          /* before all processes: its stores are seen by all */
  void (*run)(uint32_t process);  /* what a process does, also when it begins anew after a death */
  void (*swapped)(size_t word);   /* after each swap that took place */
  const char *(*sleeps_on)(void); /* what is wrong with a process that sleeps when nobody is left to wake it, or null */
} exploration_t;

/* The memory that processes share. It is 0 at first. */
extern _Atomic uint64_t region[REGION_WORDS];

/* Returns how many states there are, or ends the program where something is wrong. */
uint64_t explore(const exploration_t *exploration);

/* ---- by what a process runs */

uint32_t explore_self(void);
/* One of so many, each of which is tried. */
uint32_t explore_choose(uint32_t alternatives);
/* Nothing further is expected of this path. */
void explore_leave(void);
_Noreturn void explore_wrong(const char *words);
/* Sleeps until it is woken at the word, unless the newest message there is another. */
void explore_sleep(const _Atomic uint64_t *at, uint64_t seen);
void explore_wake(const _Atomic uint64_t *at);
/* The newest message of a location, whoever may see it. */
uint64_t explore_newest(const _Atomic uint64_t *at);
/* Whether the process died and wasn't begun anew. */
bool explore_is_dead(uint32_t process);
/* Another process begins in the dead one's place, and sees what this one has seen, or what the dead one had. */
void explore_begin_anew(uint32_t process);
void explore_take_over(uint32_t process);

#endif
