// SPDX-License-Identifier: Apache-2.0 OR MIT
/* How processes wake one that waits in an event loop: a named pipe of its place, beside the files of the name, into which others write a
 * byte. Nothing has to be handed over, so it doesn't matter who lives: whoever is to wake opens the pipe by its name, for reading, too,
 * so that no write ends a process by a signal, and the pipe stays where its process died. A timer is readable now and then, since a
 * process that dies between a call and its byte wakes nobody. */
#ifndef IOX2PS_WAKE_PIPES_H
#define IOX2PS_WAKE_PIPES_H

#include "places.h"
#include "shared_paths.h"
#include <sys/types.h>

typedef struct wake_pipes_t {
  int loop;           /* readable when the own pipe or the timer is; 0 where there is none, as for the others */
  int own, timer;
  int of[PLACES_MAX]; /* those of others that this process has opened */
} wake_pipes_t;

/* Makes the own pipe. False if the system refuses. `calls` is the path of the file with the list. */
bool wake_pipes_make(wake_pipes_t *it, const char *calls, uint32_t place, mode_t permissions, uint32_t every_ms);
/* Makes the pipes of these places readable, a bit each. */
void wake_pipes_wake(wake_pipes_t *it, const char *calls, uint64_t places);
/* The own pipe isn't readable any more, until it is woken. Whether the timer had run out. */
bool wake_pipes_clear(const wake_pipes_t *it);
void wake_pipes_close(wake_pipes_t *it);
/* Removes the pipes of so many places: of the last process, or of a new one. */
void wake_pipes_remove(const char *calls, uint32_t places);

#endif
