// SPDX-License-Identifier: Apache-2.0 OR MIT
#define _GNU_SOURCE
/* Who is there: which process sent a message, which processes and ports a domain has, and which process died. */
#include "children.h"
#include "iox2_pubsub_processes.h"
#include "numbers.h"
#include <stdbool.h>
#include <stdio.h>
#include <string.h>
#include <sys/wait.h>

enum { PUBLISHERS = 10, DEATHS = 70, KEPT = 64 };

static char name[64];
static iox2ps_config_t config;
static uint32_t most_processes = 16;

static iox2ps_domain_t opened(uint32_t reap_every_ms) {
  iox2ps_processes_options_t options = looking_every(&config, reap_every_ms);
  options.max_processes = most_processes;
  return open_numbers(name, &config, options);
}
static bool is_same(iox2ps_wide_t one, iox2ps_wide_t other) { return one.low == other.low && one.high == other.high; }

static iox2ps_wide_t own_id(iox2ps_domain_t *domain) {
  iox2ps_wide_t id;
  CHECK(iox2ps_domain_node_id(domain, &id) == IOX2PS_OK);
  return id;
}

static void send_bytes(iox2ps_domain_t *domain, const iox2ps_publisher_t *publisher, const void *bytes, size_t len) {
  iox2ps_blocked_t blocked;
  size_t receivers;
  CHECK(iox2ps_publisher_send_copy(domain, publisher, bytes, len, &receivers, &blocked) == IOX2PS_OK && receivers == 1);
}

/* A process that makes ports, sends its id, and is killed. */
static iox2ps_wide_t die_after_sending(size_t len) {
  int ids[2], status;
  iox2ps_wide_t id;
  CHECK(pipe(ids) == 0);
  pid_t child = fork_child();
  if (child == 0) {
    iox2ps_domain_t domain = opened(HOUR_MS);
    iox2ps_publisher_t publisher;
    id = own_id(&domain);
    CHECK(iox2ps_publisher_create(&domain, &publisher) == IOX2PS_OK && iox2ps_subscriber_create(&domain, &(iox2ps_subscriber_t){0}) == IOX2PS_OK);
    CHECK(iox2ps_publisher_loan_uninit(&domain, &publisher, 0, &(iox2ps_loan_t){0}, &(void *){NULL}) == IOX2PS_OK);
    iox2ps_blocked_t blocked;
    CHECK(iox2ps_publisher_send_copy(&domain, &publisher, &id, len, NULL, &blocked) == IOX2PS_OK);
    CHECK(write(ids[1], &id, sizeof id) == sizeof id);
    raise(SIGKILL);
  }
  CHECK(read(ids[0], &id, sizeof id) == sizeof id && close(ids[0]) == 0 && close(ids[1]) == 0);
  CHECK(waitpid(child, &status, 0) == child && was_killed(status) && (id.low & 0x3fffff) == (uint64_t)child);
  return id;
}

static iox2ps_sample_t receive(iox2ps_domain_t *domain, const iox2ps_subscriber_t *subscriber, iox2ps_wide_t from, size_t has) {
  iox2ps_sample_t sample;
  iox2ps_header_t header;
  const void *payload;
  size_t len;
  CHECK(iox2ps_subscriber_receive(domain, subscriber, &sample, &payload, &len) == IOX2PS_OK && len == has && memcmp(payload, &from, len) == 0);
  CHECK(iox2ps_sample_header(domain, &sample, &header) == IOX2PS_OK && is_same(header.node_id, from) && header.number_of_elements == has);
  return sample;
}

/* Messages of a process that died name it, also when it is known to be dead and others have its place. */
static void headers(size_t len) {
  iox2ps_domain_t domain = opened(HOUR_MS);
  iox2ps_publisher_t publisher;
  iox2ps_subscriber_t subscriber;
  iox2ps_header_t header;
  iox2ps_wide_t own = own_id(&domain);
  CHECK(iox2ps_subscriber_create(&domain, &subscriber) == IOX2PS_OK && iox2ps_publisher_create(&domain, &publisher) == IOX2PS_OK);
  iox2ps_wide_t first = die_after_sending(len);
  iox2ps_sample_t before = receive(&domain, &subscriber, first, len);
  iox2ps_wide_t second = die_after_sending(len);
  CHECK(iox2ps_subscriber_update_connections(&domain, &subscriber) == IOX2PS_OK); /* else what waits goes with its publisher */
  CHECK(iox2ps_domain_cleanup_dead_nodes(&domain, NULL) == IOX2PS_OK && !is_same(first, second) && !is_same(first, own) && !is_same(second, own));
  iox2ps_sample_t after = receive(&domain, &subscriber, second, len);
  CHECK(iox2ps_sample_header(&domain, &before, &header) == IOX2PS_OK && is_same(header.node_id, first));
  send_bytes(&domain, &publisher, &own, len);
  iox2ps_sample_t mine = receive(&domain, &subscriber, own, len);
  for (int i = 0; i < 3; i++) CHECK(iox2ps_sample_release(&domain, (iox2ps_sample_t[]){before, after, mine} + i) == IOX2PS_OK);
  iox2ps_wide_t third = die_after_sending(len); /* where an earlier one's messages were */
  iox2ps_sample_t last = receive(&domain, &subscriber, third, len);
  CHECK(!is_same(third, first) && iox2ps_sample_release(&domain, &last) == IOX2PS_OK);
  destroy(&domain);
}

/* Where the settings name a node, headers name that. */
static void node_of_the_settings(void) {
  config.node_id = (iox2ps_wide_t){12, 13};
  iox2ps_domain_t domain = opened(HOUR_MS);
  iox2ps_publisher_t publisher;
  iox2ps_subscriber_t subscriber;
  CHECK(iox2ps_subscriber_create(&domain, &subscriber) == IOX2PS_OK && iox2ps_publisher_create(&domain, &publisher) == IOX2PS_OK);
  send_bytes(&domain, &publisher, &config.node_id, sizeof config.node_id);
  iox2ps_sample_t sample = receive(&domain, &subscriber, config.node_id, sizeof config.node_id);
  CHECK(iox2ps_sample_release(&domain, &sample) == IOX2PS_OK && !is_same(own_id(&domain), config.node_id));
  destroy(&domain);
  config.node_id = (iox2ps_wide_t){0, 0};
}

typedef struct found_t { size_t count; iox2ps_node_t nodes[8]; iox2ps_port_t ports[8]; } found_t;
static int note_node(const iox2ps_node_t *node, void *context) {
  found_t *found = context;
  CHECK(found->count < 8);
  found->nodes[found->count++] = *node;
  return 0;
}
static int note_port(const iox2ps_port_t *port, void *context) {
  found_t *found = context;
  CHECK(found->count < 8);
  found->ports[found->count++] = *port;
  return 0;
}
static int note_first(const iox2ps_port_t *port, void *context) { return note_port(port, context) + 1; }

/* A dead process is in the list with what it had, until that is given back; and then among the dead. */
static void lists(void) {
  iox2ps_domain_t domain = opened(HOUR_MS);
  iox2ps_publisher_t publisher;
  iox2ps_subscriber_t subscriber;
  iox2ps_node_t node;
  size_t cleanups;
  uint64_t count;
  CHECK(iox2ps_publisher_create(&domain, &publisher) == IOX2PS_OK && iox2ps_subscriber_create(&domain, &subscriber) == IOX2PS_OK);
  found_t nodes = {0}, ports = {0}, first = {0}, told = {0}, left = {0};
  CHECK(iox2ps_domain_set_dead_node_listener(&domain, note_node, &told) == IOX2PS_OK);
  iox2ps_wide_t own = own_id(&domain), dead = die_after_sending(sizeof(iox2ps_wide_t));
  iox2ps_sample_t sample = receive(&domain, &subscriber, dead, sizeof dead);
  CHECK(iox2ps_domain_nodes(&domain, note_node, &nodes) == IOX2PS_OK && nodes.count == 2);
  const iox2ps_node_t *mine = &nodes.nodes[0], *its = &nodes.nodes[1];
  CHECK(is_same(mine->node_id, own) && mine->pid == (uint32_t)getpid() && mine->state == IOX2PS_NODE_STATE_ALIVE);
  CHECK(mine->number_of_publishers == 1 && mine->number_of_subscribers == 1 && mine->number_of_loans == 0 && mine->number_of_samples == 1);
  CHECK(is_same(its->node_id, dead) && its->pid == (dead.low & 0x3fffff) && its->state == IOX2PS_NODE_STATE_DEAD);
  CHECK(its->number_of_publishers == 1 && its->number_of_subscribers == 1 && its->number_of_loans == 1 && its->number_of_samples == 0);
  CHECK(iox2ps_domain_ports(&domain, note_port, &ports) == IOX2PS_OK && ports.count == 4);
  CHECK(iox2ps_domain_ports(&domain, note_first, &first) == IOX2PS_OK && first.count == 1 && is_same(first.ports[0].id, publisher.id));
  for (int i = 0; i < 4; i++) CHECK(ports.ports[i].kind == (uint32_t)i % 2 && is_same(ports.ports[i].node_id, i < 2 ? own : dead));
  CHECK(is_same(ports.ports[1].id, subscriber.id) && told.count == 0);
  CHECK(iox2ps_domain_dead_node_count(&domain, &count) == IOX2PS_OK && count == 0 && iox2ps_domain_dead_node(&domain, 0, &node) == IOX2PS_NOT_LIVE);
  CHECK(iox2ps_domain_cleanup_dead_nodes(&domain, &cleanups) == IOX2PS_OK && cleanups == 1);
  CHECK(iox2ps_domain_dead_node_count(&domain, &count) == IOX2PS_OK && count == 1 && iox2ps_domain_dead_node(&domain, 0, &node) == IOX2PS_OK);
  CHECK(is_same(node.node_id, dead) && node.state == IOX2PS_NODE_STATE_DEAD && told.count == 1 && is_same(told.nodes[0].node_id, dead));
  CHECK(iox2ps_domain_cleanup_dead_nodes(&domain, &cleanups) == IOX2PS_OK && cleanups == 0 && told.count == 1);
  CHECK(iox2ps_domain_nodes(&domain, note_node, &left) == IOX2PS_OK && left.count == 1 && iox2ps_sample_release(&domain, &sample) == IOX2PS_OK);
  destroy(&domain);
}

/* A process that leaves isn't dead, and who comes afterwards is told of no death before. */
static void who_leaves(void) {
  iox2ps_domain_t domain = opened(HOUR_MS);
  int status;
  uint64_t count;
  pid_t child = fork_child();
  if (child == 0) {
    destroy(&domain);
    domain = opened(HOUR_MS);
    CHECK(iox2ps_publisher_create(&domain, &(iox2ps_publisher_t){0}) == IOX2PS_OK);
    destroy(&domain);
    _exit(0);
  }
  CHECK(waitpid(child, &status, 0) == child && status == 0);
  CHECK(iox2ps_domain_cleanup_dead_nodes(&domain, NULL) == IOX2PS_OK && iox2ps_domain_dead_node_count(&domain, &count) == IOX2PS_OK && count == 0);
  destroy(&domain);
}

/* Who waits for a death is told of it, by the call that gives back what the dead had. */
static void a_wait_for_a_death(void) {
  iox2ps_domain_t domain = opened(20);
  found_t told = {0};
  uint64_t seen;
  CHECK(iox2ps_domain_set_dead_node_listener(&domain, note_node, &told) == IOX2PS_OK);
  CHECK(iox2ps_domain_brought(&domain, IOX2PS_BRINGS_DEAD_NODE, &seen) == IOX2PS_OK && seen == 0);
  iox2ps_wide_t dead = die_after_sending(1);
  CHECK(iox2ps_domain_wait(&domain, IOX2PS_BRINGS_DEAD_NODE, seen, 600 * SECOND) == IOX2PS_OK && told.count == 1 && is_same(told.nodes[0].node_id, dead));
  destroy(&domain);
}

/* Who only polls gives back what the dead had, too. */
static void who_polls(void) {
  iox2ps_domain_t domain = opened(20);
  iox2ps_subscriber_t subscriber;
  iox2ps_sample_t sample;
  const void *payload;
  size_t len, books = 1;
  CHECK(iox2ps_subscriber_create(&domain, &subscriber) == IOX2PS_OK);
  iox2ps_wide_t dead = die_after_sending(sizeof dead);
  sample = receive(&domain, &subscriber, dead, sizeof dead);
  CHECK(iox2ps_sample_release(&domain, &sample) == IOX2PS_OK && iox2ps_domain_book_count(&domain, &books) == IOX2PS_OK && books == 1);
  while (books != 0) {
    CHECK(iox2ps_subscriber_receive(&domain, &subscriber, &sample, &payload, &len) == IOX2PS_NO_SAMPLE);
    CHECK(iox2ps_domain_book_count(&domain, &books) == IOX2PS_OK);
    usleep(1000);
  }
  destroy(&domain);
}

/* Publishers die one after the other where there is room for two of them, and for one process beside one that makes no call. */
static void a_place_for_the_next(void) {
  most_processes = 2;
  iox2ps_domain_t domain = opened(HOUR_MS);
  int status;
  for (int i = 0; i < PUBLISHERS; i++) (void)die_after_sending(1);
  pid_t child = fork_child();
  if (child == 0) {
    iox2ps_domain_t own = opened(HOUR_MS);
    for (int i = 0; i < 2; i++) CHECK(iox2ps_publisher_create(&own, &(iox2ps_publisher_t){0}) == IOX2PS_OK);
    CHECK(iox2ps_publisher_create(&own, &(iox2ps_publisher_t){0}) == IOX2PS_PUBLISHER_CREATE_ERROR_EXCEEDS_MAX_SUPPORTED_PUBLISHERS);
    destroy(&own);
    _exit(0);
  }
  CHECK(waitpid(child, &status, 0) == child && status == 0);
  destroy(&domain);
  most_processes = 16;
}

/* A process that has as many subscribers as there may be, and holds the only message of a publisher, when it is killed. */
static void hold_all(int told) {
  iox2ps_domain_t domain = opened(HOUR_MS);
  iox2ps_subscriber_t subscribers[2];
  iox2ps_sample_t sample;
  const void *payload;
  size_t len;
  for (int i = 0; i < 2; i++) CHECK(iox2ps_subscriber_create(&domain, &subscribers[i]) == IOX2PS_OK);
  CHECK(write(told, "", 1) == 1);
  while (iox2ps_subscriber_receive(&domain, &subscribers[0], &sample, &payload, &len) == IOX2PS_NO_SAMPLE) usleep(1000);
  raise(SIGKILL);
}

/* Whoever is refused for want of a slot, or of a subscriber, looks for the dead first. */
static void room_of_the_dead(void) {
  config.max_subscribers = 2;
  iox2ps_domain_t domain = opened(HOUR_MS);
  iox2ps_publisher_options_t options;
  iox2ps_publisher_t publisher;
  iox2ps_loan_t loan;
  void *payload;
  int told[2], status;
  iox2ps_publisher_options_of(&config, &options);
  options.preallocated_samples = 1, options.max_loaned_samples = 1;
  CHECK(iox2ps_publisher_create_with(&domain, &options, &publisher) == IOX2PS_OK && pipe(told) == 0);
  for (int turn = 0; turn < 3; turn++) {
    pid_t child = fork_child();
    if (child == 0) hold_all(told[1]);
    CHECK(child > 0 && read(told[0], &(char){0}, 1) == 1);
    CHECK(iox2ps_publisher_send_copy(&domain, &publisher, "", 1, NULL, &(iox2ps_blocked_t){0}) == IOX2PS_OK);
    CHECK(waitpid(child, &status, 0) == child && was_killed(status));
    if (turn == 1) CHECK(iox2ps_domain_cleanup_dead_nodes(&domain, NULL) == IOX2PS_OK); /* also if that was known */
    if (turn < 2) CHECK(iox2ps_publisher_loan(&domain, &publisher, 1, &loan, &payload) == IOX2PS_OK && iox2ps_loan_discard(&domain, &loan) == IOX2PS_OK);
    else for (int i = 0; i < 2; i++) CHECK(iox2ps_subscriber_create(&domain, &(iox2ps_subscriber_t){0}) == IOX2PS_OK);
  }
  CHECK(close(told[0]) == 0 && close(told[1]) == 0);
  destroy(&domain);
  config.max_subscribers = 8;
}

/* The last of many dead are known. */
static void many_deaths(void) {
  iox2ps_domain_t domain = opened(HOUR_MS);
  iox2ps_wide_t ids[DEATHS];
  iox2ps_node_t node;
  uint64_t count;
  for (int i = 0; i < DEATHS; i++) ids[i] = die_after_sending(1);
  CHECK(iox2ps_domain_cleanup_dead_nodes(&domain, NULL) == IOX2PS_OK && iox2ps_domain_dead_node_count(&domain, &count) == IOX2PS_OK && count == DEATHS);
  for (int i = 0; i < DEATHS; i++) {
    iox2ps_status_t code = iox2ps_domain_dead_node(&domain, (uint64_t)i, &node);
    CHECK(i < DEATHS - KEPT ? code == IOX2PS_NOT_LIVE : code == IOX2PS_OK && is_same(node.node_id, ids[i]));
  }
  destroy(&domain);
}

static void of_one_process(void) {
  iox2ps_domain_t domain = IOX2PS_DOMAIN_INIT;
  iox2ps_wide_t id;
  uint64_t count;
  CHECK(iox2ps_domain_node_id(&domain, &id) == IOX2PS_NO_DOMAIN && iox2ps_domain_create(&domain, &config) == IOX2PS_OK);
  CHECK(iox2ps_domain_node_id(&domain, &id) == IOX2PS_PROCESSES_NOT_SHARED && iox2ps_domain_nodes(&domain, note_node, NULL) == IOX2PS_PROCESSES_NOT_SHARED);
  CHECK(iox2ps_domain_ports(&domain, note_port, NULL) == IOX2PS_PROCESSES_NOT_SHARED && iox2ps_domain_dead_node_count(&domain, &count) == IOX2PS_PROCESSES_NOT_SHARED);
  CHECK(iox2ps_domain_cleanup_dead_nodes(&domain, NULL) == IOX2PS_PROCESSES_NOT_SHARED && iox2ps_domain_set_dead_node_listener(&domain, NULL, NULL) == IOX2PS_PROCESSES_NOT_SHARED);
  destroy(&domain);
}

int main(void) {
  snprintf(name, sizeof name, "test_nodes.%d", (int)getpid());
  iox2ps_config_defaults(&config, 7, sizeof(iox2ps_wide_t), _Alignof(iox2ps_wide_t));
  headers(sizeof(iox2ps_wide_t));
  headers(0);
  config.payload_size = 0;
  headers(0);
  config.payload_size = sizeof(iox2ps_wide_t);
  node_of_the_settings();
  lists();
  who_leaves();
  a_wait_for_a_death();
  who_polls();
  a_place_for_the_next();
  room_of_the_dead();
  many_deaths();
  of_one_process();
  puts("nodes: each message names its process, and each death is known");
  return 0;
}
