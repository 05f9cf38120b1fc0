// SPDX-License-Identifier: Apache-2.0 OR MIT
#define _GNU_SOURCE
#include "places.h"
#include <errno.h>
#include <fcntl.h>
#include <stdio.h>
#include <unistd.h>

/* Bytes far behind the end of the file. */
enum { FILE_BYTE, FIRST_PLACE_BYTE };
#define BYTES_AT (INT64_C(1) << 40)

/* The locks of an open file description: of this descriptor, and not of the process. */
static bool lock(int fd, int command, short type, uint32_t byte, uint32_t count, bool *is_locked) {
  struct flock it = {.l_type = type, .l_whence = SEEK_SET, .l_start = BYTES_AT + byte, .l_len = count};
  int done;
  do done = fcntl(fd, command, &it);
  while (done < 0 && errno == EINTR);
  if (is_locked) *is_locked = done == 0 && it.l_type != F_UNLCK;
  return done == 0;
}

bool places_lock_file(int lock_fd) { return lock(lock_fd, F_OFD_SETLKW, F_WRLCK, FILE_BYTE, 1, NULL); }
bool places_try_lock_file(int lock_fd) { return lock(lock_fd, F_OFD_SETLK, F_WRLCK, FILE_BYTE, 1, NULL); }
void places_unlock_file(int lock_fd) { lock(lock_fd, F_OFD_SETLK, F_UNLCK, FILE_BYTE, 1, NULL); }

bool places_one_lives(const places_t *places) {
  bool is_locked;
  return !lock(places->lock_fd, F_OFD_GETLK, F_WRLCK, FIRST_PLACE_BYTE, PLACES_MAX, &is_locked) || is_locked;
}

/* Takes a place that nobody holds: a free one, or that of a dead process. */
static bool hold(places_t *places, bool is_free, uint64_t *dead) {
  for (uint32_t place = 0; place < places->count; place++) {
    /* Acquire: what the process before did there, and what was given back after its death. */
    *dead = atomic_load_explicit(&places->shared->numbers[place], memory_order_acquire);
    if ((*dead == 0) != is_free || !lock(places->lock_fd, F_OFD_SETLK, F_WRLCK, FIRST_PLACE_BYTE + place, 1, NULL)) continue;
    places->own = place;
    return true;
  }
  return false;
}

uint64_t places_take(places_t *places, uint64_t *dead) {
  if (!hold(places, true, dead) && !hold(places, false, dead)) return 0;
  /* Relaxed: only a number, and each is taken under the file's lock. */
  uint64_t begun = atomic_fetch_add_explicit(&places->shared->begun, 1, memory_order_relaxed) + 1;
  uint64_t number = begun << PID_BITS | places_pid((uint64_t)getpid());
  if (*dead == 0) atomic_store_explicit(&places->shared->numbers[places->own], number, memory_order_relaxed);
  return number;
}

void places_take_over(const places_t *places, uint64_t number) {
  /* Relaxed: as in a free place. Whoever reaps the dead process changes nothing any more, since this isn't its number. */
  atomic_store_explicit(&places->shared->numbers[places->own], number, memory_order_relaxed);
}

void places_leave(places_t *places) {
  /* Release: whoever takes the place next goes on behind what was done here. Before the lock, so that nobody finds a number of
   * the dead. */
  atomic_store_explicit(&places->shared->numbers[places->own], 0, memory_order_release);
  places_give_up(places);
}

void places_give_up(places_t *places) {
  lock(places->lock_fd, F_OFD_SETLK, F_UNLCK, FIRST_PLACE_BYTE + places->own, 1, NULL);
  places->own = NO_PLACE;
}

uint64_t places_process(const places_t *places, uint32_t place, bool *is_dead) {
  /* Acquire: the place's bytes in the list are those that its process wrote. The number comes before the lock: a process that
   * takes the place in between has another. */
  uint64_t number = atomic_load_explicit(&places->shared->numbers[place], memory_order_acquire);
  bool is_locked = true;
  *is_dead = false;
  /* A descriptor's own locks aren't found. */
  if (number == 0 || place == places->own) return number;
  *is_dead = lock(places->lock_fd, F_OFD_GETLK, F_WRLCK, FIRST_PLACE_BYTE + place, 1, &is_locked) && !is_locked;
  return number;
}

uint64_t places_look(const places_t *places, uint64_t seen[PLACES_MAX]) {
  uint64_t quiet = 0;
  /* Relaxed: only numbers. Who is taken for dead in vain is asked about. */
  atomic_fetch_add_explicit(&places->shared->looks[places->own], 1, memory_order_relaxed);
  for (uint32_t place = 0; place < places->count; place++) {
    uint64_t looks = atomic_load_explicit(&places->shared->looks[place], memory_order_relaxed);
    if (looks == seen[place]) quiet |= UINT64_C(1) << place;
    seen[place] = looks;
  }
  return quiet;
}

uint32_t places_next_dead(const places_t *places, uint64_t among, uint32_t from, uint64_t *number) {
  bool is_dead = false;
  for (uint32_t place = from; place < places->count; place++) {
    if (!(among >> place & 1)) continue;
    *number = places_process(places, place, &is_dead);
    if (is_dead) return place;
  }
  return NO_PLACE;
}

void places_free_dead(const places_t *places, uint32_t place, uint64_t number) {
  /* Release, as a process that leaves. Only if it is still that process: another may have freed the place, and a new one taken it. */
  atomic_compare_exchange_strong_explicit(&places->shared->numbers[place], &number, 0, memory_order_release, memory_order_relaxed);
}
