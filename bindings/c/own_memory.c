// SPDX-License-Identifier: Apache-2.0 OR MIT
/* A program whose memory for the library is its own: of functions that it hands in, or, with AT_LINK_TIME, of three that it defines. All of
 * it lies in a static region, the C library is asked for none, each block comes back, and a call that passes a message on asks for none. */
#include "checks.h"
#include "region.h"
#include <errno.h>
#include <stdlib.h>

/* How often anything of the program asked the C library, whose functions for memory these take the place of. */
static size_t heap_calls;

void *__libc_malloc(size_t size);
void *__libc_calloc(size_t count, size_t size);
void *__libc_realloc(void *block, size_t size);
void *__libc_memalign(size_t alignment, size_t size);
void __libc_free(void *block);
void *malloc(size_t size) { return heap_calls++, __libc_malloc(size); }
void *calloc(size_t count, size_t size) { return heap_calls++, __libc_calloc(count, size); }
void *realloc(void *block, size_t size) { return heap_calls++, __libc_realloc(block, size); }
void *memalign(size_t alignment, size_t size);
void *memalign(size_t alignment, size_t size) { return heap_calls++, __libc_memalign(alignment, size); }
void *aligned_alloc(size_t alignment, size_t size) { return heap_calls++, __libc_memalign(alignment, size); }
int posix_memalign(void **block, size_t alignment, size_t size) {
  heap_calls++;
  return (*block = __libc_memalign(alignment, size)) ? 0 : ENOMEM;
}
void free(void *block) { __libc_free(block); }

#ifdef AT_LINK_TIME
void *iox2ps_memory_allocate(size_t size, size_t alignment) { return region_allocate(NULL, size, alignment); }
void *iox2ps_memory_reallocate(void *block, size_t kept, size_t size, size_t alignment) {
  return region_reallocate(NULL, block, kept, size, alignment);
}
void iox2ps_memory_deallocate(void *block) { region_deallocate(NULL, block); }
#endif

static const iox2ps_allocator_t in_region = {region_allocate, region_reallocate, region_deallocate, NULL};

/* A domain with what takes memory: ports, connections, growth, a history, a recording. */
typedef struct world_t {
  iox2ps_domain_t domain;
  iox2ps_publisher_t publishers[2];
  iox2ps_subscriber_t subscribers[2];
} world_t;

static iox2ps_status_t make(world_t *world) {
  iox2ps_config_t config;
  iox2ps_publisher_options_t growing;
  iox2ps_config_defaults(&config, 7, 16, 16);
  config.history_size = 2;
  config.enable_safe_overflow = 0;
  config.subscriber_max_buffer_size = 4;
  iox2ps_publisher_options_of(&config, &growing);
  growing.allocation_strategy = IOX2PS_ALLOCATION_POWER_OF_TWO;
  *world = (world_t){IOX2PS_DOMAIN_INIT, {{{0, 0}, {0, 0}, 0, 0, 0, 0}}, {{{0, 0}, {0, 0}, 0, 0}}};
  iox2ps_status_t code = iox2ps_domain_create_recorded(&world->domain, &config, 500, 8);
  for (int i = 0; i < 2 && code == IOX2PS_OK; i++) {
    code = iox2ps_publisher_create_with(&world->domain, &growing, &world->publishers[i]);
    if (code == IOX2PS_OK) code = iox2ps_subscriber_create(&world->domain, &world->subscribers[i]);
  }
  return code;
}

/* Sends a message of so many bytes, which each subscriber reads in the region. */
static void pass(world_t *world, const iox2ps_publisher_t *publisher, size_t len) {
  iox2ps_loan_t loan;
  iox2ps_blocked_t blocked;
  void *written;
  IS(iox2ps_publisher_loan(&world->domain, publisher, len, &loan, &written), IOX2PS_OK);
  CHECK(is_in_region(written, len) && (uintptr_t)written % 16 == 0);
  memset(written, 7, len);
  IS(iox2ps_loan_send(&world->domain, &loan, NULL, &blocked), IOX2PS_OK);
  for (int i = 0; i < 2; i++) {
    iox2ps_sample_t sample;
    const void *read;
    size_t got;
    IS(iox2ps_subscriber_receive(&world->domain, &world->subscribers[i], &sample, &read, &got), IOX2PS_OK);
    CHECK(read == written && got == len && ((const unsigned char *)read)[len - 1] == 7);
    IS(iox2ps_sample_release(&world->domain, &sample), IOX2PS_OK);
  }
}

static void write_recording(iox2ps_domain_t *domain) {
  static char text[100000];
  size_t len;
  uint64_t missed;
  IS(iox2ps_domain_recording(domain, text, sizeof text, &len, &missed), IOX2PS_OK);
  CHECK(len > 100);
}

/* Everything that takes memory, and back. */
static void live(void) {
  world_t world;
  iox2ps_subscriber_t late;
  IS(make(&world), IOX2PS_OK);
  IS(iox2ps_set_allocator(NULL), IOX2PS_HAS_DOMAIN);
  IS(iox2ps_set_allocator(&in_region), IOX2PS_HAS_DOMAIN);
  pass(&world, &world.publishers[0], 100);
  pass(&world, &world.publishers[0], 5000);
  pass(&world, &world.publishers[1], 16);
  size_t before = asked;
  for (int round = 0; round < 20; round++)
    for (int i = 0; i < 2; i++) pass(&world, &world.publishers[i], 16);
  CHECK(asked == before);
  IS(iox2ps_subscriber_create(&world.domain, &late), IOX2PS_OK);
  IS(iox2ps_publisher_update_connections(&world.domain, &world.publishers[0]), IOX2PS_OK);
  IS(iox2ps_publisher_close(&world.domain, &world.publishers[0]), IOX2PS_OK);
  write_recording(&world.domain);
  IS(iox2ps_domain_destroy(&world.domain), IOX2PS_OK);
}

/* Each block in turn is refused: what was made before comes back all the same. */
static void refused_in_turn(void) {
  do {
    world_t world;
    asked = 0;
    region_refuses++;
    iox2ps_status_t code = make(&world);
    CHECK(code == IOX2PS_OK || asked >= region_refuses);
    if (world.domain.domain_) IS(iox2ps_domain_destroy(&world.domain), IOX2PS_OK);
    CHECK(taken == 0);
  } while (asked >= region_refuses);
  CHECK(region_refuses > 10);
  region_refuses = 0;
}

/* What was handed in is asked no more. */
static void of_c_again(void) {
  world_t world;
  IS(iox2ps_set_allocator(NULL), IOX2PS_OK);
  asked = heap_calls = 0;
  IS(make(&world), IOX2PS_OK);
  IS(iox2ps_domain_destroy(&world.domain), IOX2PS_OK);
#ifdef AT_LINK_TIME
  CHECK(asked > 10 && heap_calls == 0);
#else
  CHECK(asked == 0 && heap_calls > 10);
#endif
}

int main(void) {
#ifndef AT_LINK_TIME
  IS(iox2ps_set_allocator(&in_region), IOX2PS_OK);
#endif
  heap_calls = 0;
  live();
  CHECK(asked > 50 && taken == 0);
  refused_in_turn();
  CHECK(heap_calls == 0 && is_region_sane);
  of_c_again();
  return checked();
}
