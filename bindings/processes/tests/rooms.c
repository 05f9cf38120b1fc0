// SPDX-License-Identifier: Apache-2.0 OR MIT
#define _GNU_SOURCE
/* The rooms that a domain has by default suffice for all ports and messages that its settings allow, and for a publisher more. */
#include "check_domains.h"
#include "shared_domain.h"
#include <stdio.h>
#include <stdlib.h>
#include <unistd.h>

static void publish(iox2ps_domain_t *domain, const iox2ps_publisher_t *publisher, size_t count) {
  for (size_t i = 0; i < count; i++) {
    iox2ps_blocked_t blocked;
    size_t receivers;
    char bytes[8] = {0};
    CHECK(iox2ps_publisher_send_copy(domain, publisher, bytes, sizeof bytes, &receivers, &blocked) == IOX2PS_OK);
  }
}

/* Each subscriber holds as many samples of the publisher as it may. */
static void hold(iox2ps_domain_t *domain, const iox2ps_config_t *config, const iox2ps_publisher_t *publisher, const iox2ps_subscriber_t *subscribers) {
  for (size_t held = 0; held < config->subscriber_max_borrowed_samples; held++) {
    publish(domain, publisher, 1);
    for (size_t i = 0; i < config->max_subscribers; i++) {
      iox2ps_sample_t sample;
      const void *payload;
      size_t len;
      CHECK(iox2ps_subscriber_receive(domain, &subscribers[i], &sample, &payload, &len) == IOX2PS_OK);
    }
  }
}

static void lend_all(iox2ps_domain_t *domain, const iox2ps_config_t *config, const iox2ps_publisher_t *publisher) {
  iox2ps_loan_t loan;
  void *payload;
  for (size_t i = 0; i < config->publisher_max_loaned_samples; i++) CHECK(iox2ps_publisher_loan_uninit(domain, publisher, config->payload_size, &loan, &payload) == IOX2PS_OK);
  CHECK(iox2ps_publisher_loan_uninit(domain, publisher, config->payload_size, &loan, &payload) == IOX2PS_LOAN_ERROR_EXCEEDS_MAX_LOANS);
}

static void all_ports(const iox2ps_config_t *config) {
  iox2ps_domain_t domain = IOX2PS_DOMAIN_INIT;
  iox2ps_processes_options_t options;
  iox2ps_publisher_t closed, *publishers = calloc(config->max_publishers, sizeof *publishers);
  iox2ps_subscriber_t *subscribers = calloc(config->max_subscribers, sizeof *subscribers);
  char name[64];
  snprintf(name, sizeof name, "test_rooms.%d", (int)getpid());
  iox2ps_processes_options_of(config, &options);
  options.max_processes = 2, options.calls = 64;
  CHECK(publishers != NULL && subscribers != NULL && iox2ps_domain_create_named(&domain, name, "bytes", config, &options) == IOX2PS_OK);
  CHECK(iox2ps_listener_create(&domain, &(iox2ps_listener_t){0}) == IOX2PS_OK);
  for (size_t i = 0; i < config->max_subscribers; i++) CHECK(iox2ps_subscriber_create(&domain, &subscribers[i]) == IOX2PS_OK);
  CHECK(iox2ps_publisher_create(&domain, &closed) == IOX2PS_OK);
  hold(&domain, config, &closed, subscribers);
  CHECK(iox2ps_publisher_close(&domain, &closed) == IOX2PS_OK);
  for (size_t i = 0; i < config->max_publishers; i++) {
    CHECK(iox2ps_publisher_create(&domain, &publishers[i]) == IOX2PS_OK);
    hold(&domain, config, &publishers[i], subscribers);
  }
  for (size_t i = 0; i < config->max_publishers; i++) {
    publish(&domain, &publishers[i], config->history_size + config->subscriber_max_buffer_size);
    lend_all(&domain, config, &publishers[i]);
  }
  const group_memory_t *memory = shared_domain_of(&domain)->group->memory;
  size_t used = memory->memory.heap.used;
  printf("%zu publishers, %zu subscribers: %zu of %zu bytes of book-keeping, %zu of %zu of payloads\n", config->max_publishers, config->max_subscribers, used,
         options.book_room, memory->memory.payloads.taken, options.payload_room);
  CHECK(used < options.book_room / 16 * 15 && used > options.book_room / 2); /* with some to spare, and not far more */
  CHECK(iox2ps_domain_destroy(&domain) == IOX2PS_OK);
  free(publishers), free(subscribers);
}

static iox2ps_config_t settings(size_t publishers, size_t subscribers, size_t buffer, size_t borrowed, size_t history, size_t channels, size_t loans) {
  iox2ps_config_t config;
  iox2ps_config_defaults(&config, 7, 64, 8);
  config.max_publishers = publishers, config.max_subscribers = subscribers, config.subscriber_max_buffer_size = buffer;
  config.subscriber_max_borrowed_samples = borrowed, config.history_size = history, config.number_of_channels = channels;
  config.publisher_max_loaned_samples = loans, config.subscriber_expired_connection_buffer = borrowed;
  return config;
}

/* ---- ports that come and go */

enum { PORTS = 8, STEPS = 3000 };
typedef struct ports_t {
  iox2ps_domain_t domain;
  struct { bool is_there; iox2ps_publisher_t is; } publishers[2];
  struct { bool is_there; iox2ps_subscriber_t is; iox2ps_sample_t held; bool holds; } subscribers[PORTS];
} ports_t;

static void receive_one(ports_t *it, size_t which) {
  const void *payload;
  size_t len;
  if (!it->subscribers[which].is_there || it->subscribers[which].holds) return;
  it->subscribers[which].holds = iox2ps_subscriber_receive(&it->domain, &it->subscribers[which].is, &it->subscribers[which].held, &payload, &len) == IOX2PS_OK;
}

static void release_one(ports_t *it, size_t which) {
  if (it->subscribers[which].holds) CHECK(iox2ps_sample_release(&it->domain, &it->subscribers[which].held) == IOX2PS_OK);
  it->subscribers[which].holds = false;
}

/* A publisher goes when nobody has a message of it, so that its slots go with it. */
static void change_publisher(ports_t *it, size_t which) {
  if (!it->publishers[which].is_there) {
    CHECK(iox2ps_publisher_create(&it->domain, &it->publishers[which].is) == IOX2PS_OK);
  } else {
    for (size_t i = 0; i < PORTS; i++) {
      do release_one(it, i), receive_one(it, i);
      while (it->subscribers[i].holds);
    }
    CHECK(iox2ps_publisher_close(&it->domain, &it->publishers[which].is) == IOX2PS_OK);
  }
  it->publishers[which].is_there = !it->publishers[which].is_there;
}

static void change_subscriber(ports_t *it, size_t which) {
  release_one(it, which);
  if (it->subscribers[which].is_there) CHECK(iox2ps_subscriber_close(&it->domain, &it->subscribers[which].is) == IOX2PS_OK);
  else CHECK(iox2ps_subscriber_create(&it->domain, &it->subscribers[which].is) == IOX2PS_OK);
  it->subscribers[which].is_there = !it->subscribers[which].is_there;
}

/* However ports come and go, the rooms suffice. */
static void ports_come_and_go(void) {
  static ports_t it;
  iox2ps_config_t config = settings(2, PORTS, 2, 2, 0, 1, 2);
  char name[64];
  snprintf(name, sizeof name, "test_rooms.%d", (int)getpid());
  it.domain = (iox2ps_domain_t)IOX2PS_DOMAIN_INIT;
  CHECK(iox2ps_domain_create_named(&it.domain, name, "bytes", &config, NULL) == IOX2PS_OK);
  uint64_t state = 1;
  for (int step = 0; step < STEPS; step++) {
    state = state * UINT64_C(6364136223846793005) + 1442695040888963407;
    size_t which = (size_t)(state >> 40) % PORTS;
    switch ((state >> 33) % 6) {
    case 0: change_publisher(&it, which % 2); break;
    case 1: change_subscriber(&it, which); break;
    case 2: receive_one(&it, which); break;
    case 3: release_one(&it, which); break;
    default: if (it.publishers[which % 2].is_there) publish(&it.domain, &it.publishers[which % 2].is, 1 + which % 3);
    }
  }
  CHECK(iox2ps_domain_destroy(&it.domain) == IOX2PS_OK);
}

/* What a domain takes of memory beside its payloads, by default (docs/DECISIONS.md, "Room for two copies of each process"). */
static void file_by_default(void) {
  iox2ps_domain_t domain = IOX2PS_DOMAIN_INIT;
  iox2ps_config_t config;
  char name[64];
  snprintf(name, sizeof name, "test_rooms.%d", (int)getpid());
  iox2ps_config_defaults(&config, 7, 64, 8);
  CHECK(iox2ps_domain_create_named(&domain, name, "bytes", &config, NULL) == IOX2PS_OK);
  size_t size = shared_domain_of(&domain)->group->member.files.size;
  printf("by default a domain has a file of %zu KB beside its payloads\n", size / 1024);
  CHECK(size < 2720 * 1024);
  CHECK(iox2ps_domain_destroy(&domain) == IOX2PS_OK);
}

/* A large book-keeping has a long list, so that no call pays for more than some hundred bytes of copies. */
static void list_by_default(void) {
  const iox2ps_config_t small = settings(2, 8, 2, 2, 0, 1, 2), large = settings(1, 1, 1000, 1, 0, 1, 1), largest = settings(30, 60, 1000, 1, 0, 1, 1);
  iox2ps_processes_options_t options;
  iox2ps_processes_options_of(&small, &options);
  CHECK(options.calls == 256);
  iox2ps_processes_options_of(&large, &options);
  CHECK(options.calls >= options.book_room / 256 && options.calls < options.book_room / 128 && (options.calls & (options.calls - 1)) == 0);
  iox2ps_processes_options_of(&largest, &options);
  CHECK(options.calls == 8192);
}

int main(void) {
  const iox2ps_config_t all[] = {
    settings(2, 8, 2, 2, 0, 1, 2), settings(1, 1, 1, 1, 0, 1, 1), settings(1, 1, 1000, 1, 0, 1, 1), settings(1, 1, 1, 1000, 0, 1, 1), settings(30, 1, 2, 2, 0, 1, 2),
    settings(1, 60, 2, 2, 0, 1, 2), settings(8, 8, 8, 8, 8, 1, 8), settings(2, 3, 4, 2, 100, 5, 2), settings(1, 1, 2, 2, 0, 1, 500), settings(1, 1, 2, 2, 0, 40, 2)
  };
  for (size_t i = 0; i < sizeof all / sizeof *all; i++) all_ports(&all[i]);
  ports_come_and_go();
  file_by_default();
  list_by_default();
  puts("rooms by default: all ports and messages have room");
  return 0;
}
