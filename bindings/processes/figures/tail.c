// SPDX-License-Identifier: Apache-2.0 OR MIT
#define _GNU_SOURCE
/* Times round trips by one carrier beside a flag that the same two processes pass to and fro, with work that makes it as long:
 * NAME BYTES BUFFER COUNT PROCESSOR PROCESSOR [follows]
 * In each round all series come in turn, and each process keeps to its processor. Whatever a process does, the machine's own ticks take it
 * from it at the same places of each millisecond: what overlaps one is told apart in all series alike, and what is left is quiet. Prints ns:
 * of all round trips the median, 99 % and 99.9 %; of the quiet ones; and of the flag's quiet ones. */
#include "../tests/children.h"
#include "figures.h"
#include <sched.h>
#include <stdio.h>
#include <stdlib.h>
#include <string.h>
#include <sys/mman.h>
#include <sys/wait.h>
#include <time.h>
#include <unistd.h>

enum { ROUNDS = 4, WARM_UP = 2000, TURNS = 10000 };
typedef enum series_t { FLAG, FLAG_WITH_WORK, CARRIER, SERIES } series_t;
typedef struct trip_t { uint64_t begun, ended; } trip_t;

static struct {
  _Alignas(64) _Atomic uint64_t forth;
  _Alignas(64) _Atomic uint64_t back;
  _Alignas(64) _Atomic uint64_t met, turns; /* of the work on each side of a flag */
  _Atomic bool is_over;
} *common;

static uint64_t now(void) {
  struct timespec now;
  clock_gettime(CLOCK_MONOTONIC, &now);
  return (uint64_t)now.tv_sec * 1000000000u + (uint64_t)now.tv_nsec;
}

/* ---- the series */

static void work(uint64_t turns) {
  for (uint64_t i = 0, it = turns; i < turns; i++) {
    it = it * 3 + 1;
    __asm__ volatile("" : "+r"(it));
  }
}

/* Until both are here. */
static void meet(uint32_t process) {
  static uint64_t times;
  times++;
  if (process == 0) common->forth = common->back = 0;
  common->met++;
  while (common->met < 2 * times) usleep(100);
}

static void pass_flag(uint32_t process, uint64_t turns, trip_t *trips, uint64_t count) {
  _Atomic uint64_t *own = process == 0 ? &common->forth : &common->back, *other = process == 0 ? &common->back : &common->forth;
  for (uint64_t i = 0; i < count; i++) {
    if (process == 0) trips[i].begun = now();
    while (process != 0 && *other != i + 1) continue;
    work(turns);
    *own = i + 1;
    while (process == 0 && *other != i + 1) continue;
    if (process == 0) trips[i].ended = now();
  }
}

static void pass_messages(uint32_t process, trip_t *trips, uint64_t count) {
  for (uint64_t i = 0; i < count; i++) {
    if (process == 0) trips[i].begun = now();
    else if (carrier_receive() != i) _exit(1);
    carrier_send(i);
    if (process != 0) continue;
    if (carrier_receive() != i) _exit(1);
    trips[i].ended = now();
  }
}

static void run(uint32_t process, series_t series, trip_t *trips, uint64_t count) {
  meet(process);
  if (series == CARRIER) pass_messages(process, trips, count);
  else pass_flag(process, series == FLAG ? 0 : common->turns, trips, count);
}

/* ---- what is said of them */

static int compare(const void *one, const void *other) {
  uint64_t a = *(const uint64_t *)one, b = *(const uint64_t *)other;
  return (a > b) - (a < b);
}

typedef struct quantiles_t { uint64_t median, most, nearly_all; } quantiles_t;

static quantiles_t quantiles_of(uint64_t *times, uint64_t count) {
  if (count == 0) return (quantiles_t){0, 0, 0};
  qsort(times, count, sizeof *times, compare);
  return (quantiles_t){times[count / 2], times[count * 99 / 100], times[count * 999 / 1000]};
}

/* A millisecond in pieces, of which some have ticks of the machine in a round. */
enum { PIECES = 500, PIECE_NS = 2000, SLOWER_NS = 1500, LONGEST_NS = 100000, TICKS = 3 };
typedef struct ticks_t { uint32_t slow[PIECES]; } ticks_t;

static void note_slow(ticks_t *it, trip_t trip) {
  uint64_t first = trip.begun / PIECE_NS + PIECES - 2, pieces = (trip.ended - trip.begun) / PIECE_NS + 5;
  for (uint64_t i = 0; i < pieces; i++) it->slow[(first + i) % PIECES]++;
}

/* Where trips of flags are slow again and again. */
static void note_ticks(ticks_t *it, const trip_t *trips, uint64_t count, uint64_t *times) {
  for (uint64_t i = 0; i < count; i++) times[i] = trips[i].ended - trips[i].begun;
  uint64_t most = quantiles_of(times, count).median + SLOWER_NS;
  for (uint64_t i = 0; i < count; i++) {
    uint64_t took = trips[i].ended - trips[i].begun;
    if (took > most && took < LONGEST_NS) note_slow(it, trips[i]);
  }
}

static bool is_quiet(const ticks_t *it, trip_t trip) {
  uint64_t first = trip.begun / PIECE_NS, pieces = (trip.ended - trip.begun) / PIECE_NS + 2;
  if (pieces >= PIECES) return false;
  for (uint64_t i = 0; i < pieces; i++)
    if (it->slow[(first + i) % PIECES] >= TICKS) return false;
  return true;
}

/* Of all rounds; with ticks of the quiet ones alone. */
static quantiles_t all_of(trip_t *trips[ROUNDS][SERIES], series_t series, const ticks_t *ticks, uint64_t count, uint64_t *times) {
  uint64_t found = 0;
  for (int round = 0; round < ROUNDS; round++)
    for (uint64_t i = 0; i < count; i++) {
      trip_t trip = trips[round][series][i];
      if (ticks == NULL || is_quiet(&ticks[round], trip)) times[found++] = trip.ended - trip.begun;
    }
  return quantiles_of(times, found);
}

static void say(trip_t *trips[ROUNDS][SERIES], uint64_t count) {
  uint64_t *times = calloc(ROUNDS * count, sizeof *times);
  ticks_t *ticks = calloc(ROUNDS, sizeof *ticks);
  for (int round = 0; round < ROUNDS; round++)
    for (series_t series = FLAG; series < CARRIER; series++) note_ticks(&ticks[round], trips[round][series], count, times);
  quantiles_t said[] = {all_of(trips, CARRIER, NULL, count, times), all_of(trips, CARRIER, ticks, count, times), all_of(trips, FLAG_WITH_WORK, ticks, count, times)};
  for (int i = 0; i < 3; i++) printf("%llu %llu %llu\n", (unsigned long long)said[i].median, (unsigned long long)said[i].most, (unsigned long long)said[i].nearly_all);
  free(times), free(ticks);
}

/* ---- the processes */

static trip_t *room_for(uint64_t count) {
  trip_t *trips = mmap(NULL, count * sizeof *trips, PROT_READ | PROT_WRITE, MAP_PRIVATE | MAP_ANONYMOUS | MAP_POPULATE, -1, 0);
  if (trips == MAP_FAILED) _exit(1);
  return trips;
}

static uint64_t median_of(const trip_t *trips, uint64_t count) {
  uint64_t times[WARM_UP];
  for (uint64_t i = 0; i < count; i++) times[i] = trips[i].ended - trips[i].begun;
  return quantiles_of(times, count).median;
}

/* How much work on each side makes a flag take as long as the carrier. */
static void adjust_work(uint32_t process) {
  trip_t *trips = room_for(WARM_UP);
  run(process, CARRIER, trips, WARM_UP);
  run(process, CARRIER, trips, WARM_UP);
  uint64_t by_carrier = median_of(trips, WARM_UP), begun;
  run(process, FLAG, trips, WARM_UP);
  uint64_t by_flag = median_of(trips, WARM_UP);
  begun = now();
  work(TURNS);
  double each = (double)(now() - begun) / TURNS;
  if (process == 0) common->turns = by_carrier > by_flag ? (uint64_t)((double)(by_carrier - by_flag) / 2 / each) : 0;
}

static void be(uint32_t process, int processor, uint64_t count) {
  cpu_set_t set;
  CPU_ZERO(&set);
  CPU_SET(processor, &set);
  if (sched_setaffinity(0, sizeof set, &set) != 0) _exit(1);
  carrier_open(process);
  usleep(200000); /* so that both are connected */
  adjust_work(process);
  trip_t *trips[ROUNDS][SERIES];
  for (int round = 0; round < ROUNDS; round++)
    for (series_t series = FLAG; series < SERIES; series++) {
      trips[round][series] = process == 0 ? room_for(count) : NULL;
      run(process, series, trips[round][series], count);
    }
  if (process == 0) say(trips, count);
  fflush(stdout);
  meet(process);
  common->is_over = true;
  carrier_close();
}

static bool has_ended(void) { return common->is_over; }

/* Where a carrier has none of its own. */
__attribute__((weak)) void carrier_follow(bool (*is_over)(void)) {
  (void)is_over;
  _exit(1);
}

int main(int count, char **words) {
  if (count < 7) return 2;
  traffic_t traffic = {.name = words[1], .bytes = strtoull(words[2], NULL, 10), .subscribers = 1, .buffer = (uint32_t)atoi(words[3])};
  uint64_t messages = strtoull(words[4], NULL, 10);
  common = mmap(NULL, sizeof *common, PROT_READ | PROT_WRITE, MAP_SHARED | MAP_ANONYMOUS, -1, 0);
  if (common == MAP_FAILED) return 1;
  carrier_begin(&traffic);
  if (fork_child() == 0) {
    be(1, atoi(words[6]), messages);
    exit(0);
  }
  if (count > 7 && fork_child() == 0) {
    carrier_follow(has_ended);
    exit(0);
  }
  be(0, atoi(words[5]), messages);
  int status, failed = 0;
  while (wait(&status) > 0) failed |= status != 0;
  return failed;
}
