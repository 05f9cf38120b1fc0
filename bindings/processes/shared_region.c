// SPDX-License-Identifier: Apache-2.0 OR MIT
#define _GNU_SOURCE
#include "shared_region.h"
#include <errno.h>
#include <sys/mman.h>
#include <time.h>
#include <unistd.h>

enum { PAGE = 4096, TRIES = 100 };
#define GIGABYTE (UINT64_C(1) << 30)
#define MOST_BYTES (64 * GIGABYTE)

/* Where regions may lie. */
typedef struct range_t { uint64_t first, between, count; } range_t;
/* Behind the shadow of the address sanitizer, and before what the system maps by itself; and where systems for AArch64 give a program 512 GB
 * in all. */
static const range_t RANGES[] = {{17 * 1024 * GIGABYTE, 64 * GIGABYTE, 512}, {64 * GIGABYTE, GIGABYTE, 256}};

static size_t in_units(size_t size, size_t unit) { return (size + unit - 1) / unit * unit; }
static size_t size_of(const shared_region_t *it) { return it->room + it->payload_room; }

/* Takes the addresses, without any memory. */
static region_status_t claim(shared_region_t *it, uint64_t address) {
  void *wanted = (void *)(uintptr_t)address;
  void *got = mmap(wanted, size_of(it), PROT_NONE, MAP_PRIVATE | MAP_ANONYMOUS | MAP_NORESERVE | MAP_FIXED_NOREPLACE, -1, 0);
  if (got == wanted) {
    it->memory = got;
    return REGION_OK;
  }
  if (got == MAP_FAILED) return errno == EEXIST ? REGION_TAKEN : REGION_NO_MEMORY;
  munmap(got, size_of(it)); /* of a kernel that doesn't know the flag */
  return REGION_TAKEN;
}

/* By the clock, so that programs that open several domains seldom find an address taken. */
static region_status_t claim_in(shared_region_t *it, const range_t *range) {
  struct timespec now;
  clock_gettime(CLOCK_REALTIME, &now);
  uint64_t number = (uint64_t)now.tv_nsec * UINT64_C(0x9e3779b97f4a7c15) ^ (uint64_t)getpid() * UINT64_C(0xff51afd7ed558ccd);
  region_status_t status = REGION_TAKEN;
  for (int turn = 0; turn < TRIES && status == REGION_TAKEN; turn++) {
    status = claim(it, range->first + (number >> 40) % range->count * range->between);
    number = number * UINT64_C(6364136223846793005) + 1442695040888963407;
  }
  return status;
}

/* An address that no program has here is refused as if there were no memory. */
static region_status_t claim_any(shared_region_t *it) {
  region_status_t status = REGION_NO_MEMORY;
  for (size_t i = 0; i < sizeof RANGES / sizeof *RANGES && status != REGION_OK; i++) status = claim_in(it, &RANGES[i]);
  return status;
}

region_status_t shared_region_map(shared_region_t *it, uint64_t address, size_t room, size_t payload_room) {
  *it = (shared_region_t){.room = in_units(room, PAGE), .payload_room = in_units(payload_room, PAGE)};
  if (size_of(it) > MOST_BYTES || size_of(it) < payload_room) return REGION_NO_MEMORY;
  region_status_t status = address == 0 ? claim_any(it) : address % PAGE == 0 ? claim(it, address) : REGION_TAKEN;
  if (status != REGION_OK) return status;
  it->payloads = it->memory + it->room;
  /* All of it is touched, so that no call waits for a page. */
  bool has_memory = mmap(it->memory, it->room, PROT_READ | PROT_WRITE, MAP_PRIVATE | MAP_ANONYMOUS | MAP_FIXED | MAP_POPULATE, -1, 0) != MAP_FAILED;
  void *snapshot = mmap(NULL, it->room, PROT_READ | PROT_WRITE, MAP_PRIVATE | MAP_ANONYMOUS | MAP_POPULATE, -1, 0);
  if (snapshot != MAP_FAILED) it->snapshot = snapshot;
  if (has_memory && it->snapshot != NULL) return REGION_OK;
  shared_region_unmap(it);
  return REGION_NO_MEMORY;
}

void shared_region_unmap(shared_region_t *it) {
  if (it->memory != NULL) munmap(it->memory, size_of(it));
  if (it->snapshot != NULL) munmap(it->snapshot, it->room);
  *it = (shared_region_t){0};
}
