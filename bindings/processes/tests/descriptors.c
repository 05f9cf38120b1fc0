// SPDX-License-Identifier: Apache-2.0 OR MIT
#define _GNU_SOURCE
/* Event loops: the descriptor of a domain is readable when another process has brought something, and when one may have died. Where it
 * isn't said otherwise nobody looks by itself for an hour, so that only a wake-up can be what the loop waits for. */
#include "children.h"
#include "numbers.h"
#include "shared_domain.h"
#include <glob.h>
#include <poll.h>
#include <stdio.h>
#include <sys/epoll.h>
#include <sys/wait.h>

enum { MESSAGES = 300, SHORT_MS = 20 };

static char name[64];
static iox2ps_config_t config;

static iox2ps_domain_t opened(uint32_t reap_every_ms) { return open_numbers(name, &config, looking_every(&config, reap_every_ms)); }

static int descriptor_of(iox2ps_domain_t *domain, uint32_t brings) {
  int fd = -1;
  CHECK(iox2ps_domain_get_file_descriptor(domain, brings, &fd) == IOX2PS_OK && fd > 0);
  return fd;
}
static bool is_readable(int fd) { return poll(&(struct pollfd){.fd = fd, .events = POLLIN}, 1, 0) == 1; }
static void clear(iox2ps_domain_t *domain) { CHECK(iox2ps_domain_clear_file_descriptor(domain) == IOX2PS_OK); }

static bool receive(iox2ps_domain_t *domain, const iox2ps_subscriber_t *subscriber, uint64_t *number) {
  iox2ps_sample_t sample;
  size_t len;
  iox2ps_status_t code = iox2ps_subscriber_receive_copy(domain, subscriber, number, sizeof *number, &len, &sample);
  CHECK(code == IOX2PS_NO_SAMPLE || (code == IOX2PS_OK && len == sizeof *number));
  return code == IOX2PS_OK;
}


/* Sends all numbers in order, in an event loop that waits for room. */
static void send_numbers(void) {
  iox2ps_domain_t domain = opened(HOUR_MS);
  iox2ps_publisher_t publisher;
  iox2ps_blocked_t blocked;
  int fd = descriptor_of(&domain, IOX2PS_BRINGS_ROOM);
  CHECK(iox2ps_publisher_create(&domain, &publisher) == IOX2PS_OK);
  for (uint64_t number = 1; number <= MESSAGES; number++) {
    if (number % 50 == 0) usleep(20000); /* so that the other one waits */
    iox2ps_status_t code = iox2ps_publisher_send_copy(&domain, &publisher, &number, sizeof number, NULL, &blocked);
    while (code == IOX2PS_BLOCKED) {
      clear(&domain);
      if ((code = iox2ps_blocked_retry(&domain, &blocked, 0, NULL)) == IOX2PS_BLOCKED) CHECK(poll(&(struct pollfd){.fd = fd, .events = POLLIN}, 1, HOUR_MS) == 1);
    }
    CHECK(code == IOX2PS_OK);
  }
  while (true) pause(); /* a closed publisher's messages would go with it */
}

static void by_event_loops(void) {
  iox2ps_domain_t domain = opened(HOUR_MS);
  iox2ps_subscriber_t subscriber;
  struct epoll_event event = {.events = EPOLLIN};
  int loop = epoll_create1(EPOLL_CLOEXEC), fd = descriptor_of(&domain, IOX2PS_BRINGS_MESSAGE);
  uint64_t number = 0, expected = 1;
  CHECK(iox2ps_subscriber_create(&domain, &subscriber) == IOX2PS_OK && epoll_ctl(loop, EPOLL_CTL_ADD, fd, &event) == 0);
  pid_t child = child_that(send_numbers);
  while (expected <= MESSAGES) {
    if (expected % 70 == 0) usleep(20000); /* so that the other one waits */
    clear(&domain);
    while (receive(&domain, &subscriber, &number)) CHECK(number == expected++);
    if (expected <= MESSAGES) CHECK(epoll_wait(loop, &event, 1, HOUR_MS) == 1);
  }
  CHECK(kill(child, SIGKILL) == 0 && was_killed(status_of(child)) && close(loop) == 0);
  destroy(&domain);
}

static uint64_t one_number = 1;
static void send_one(void) {
  iox2ps_domain_t domain = opened(HOUR_MS);
  iox2ps_publisher_t publisher;
  iox2ps_blocked_t blocked;
  CHECK(iox2ps_publisher_create(&domain, &publisher) == IOX2PS_OK);
  CHECK(iox2ps_publisher_send_copy(&domain, &publisher, &one_number, sizeof one_number, NULL, &blocked) == IOX2PS_OK);
  destroy(&domain);
}

/* It is readable until it is cleared, and not for what this process does itself; a wait meanwhile changes nothing. */
static void readable_until_cleared(void) {
  iox2ps_domain_t domain = opened(HOUR_MS);
  iox2ps_subscriber_t subscriber;
  uint64_t seen;
  int fd = descriptor_of(&domain, IOX2PS_BRINGS_MESSAGE);
  CHECK(descriptor_of(&domain, IOX2PS_BRINGS_MESSAGE) == fd && !is_readable(fd) && iox2ps_subscriber_create(&domain, &subscriber) == IOX2PS_OK);
  CHECK(iox2ps_domain_brought(&domain, IOX2PS_BRINGS_MESSAGE, &seen) == IOX2PS_OK);
  CHECK(iox2ps_domain_wait(&domain, IOX2PS_BRINGS_MESSAGE, seen, SECOND / 100) == IOX2PS_PROCESSES_TIMED_OUT && !is_readable(fd));
  CHECK(status_of(child_that(send_one)) == 0 && is_readable(fd) && is_readable(fd));
  clear(&domain);
  CHECK(!is_readable(fd) && status_of(child_that(send_one)) == 0 && is_readable(fd));
  clear(&domain);
  iox2ps_publisher_t own;
  iox2ps_blocked_t blocked;
  CHECK(iox2ps_publisher_create(&domain, &own) == IOX2PS_OK && iox2ps_publisher_send_copy(&domain, &own, &seen, sizeof seen, NULL, &blocked) == IOX2PS_OK);
  CHECK(!is_readable(fd));
  destroy(&domain);
}

static void keep_a_descriptor(void) {
  iox2ps_domain_t domain = opened(HOUR_MS);
  (void)descriptor_of(&domain, IOX2PS_BRINGS_MESSAGE);
  raise(SIGKILL);
}

static size_t count_files(const char *what) {
  char pattern[128];
  glob_t found;
  snprintf(pattern, sizeof pattern, "/dev/shm/iox2ps.%s.%s", name, what);
  size_t count = glob(pattern, 0, NULL, &found) == 0 ? found.gl_pathc : 0;
  globfree(&found);
  return count;
}

/* Who had a descriptor and died leaves a pipe. At that the next one in its place isn't woken, and the last process removes it. */
static void who_died_with_one(void) {
  iox2ps_domain_t domain = opened(HOUR_MS), other = IOX2PS_DOMAIN_INIT;
  const sleepers_shared_t *sleepers = shared_domain_of(&domain)->group->member.files.sleepers;
  CHECK(count_files("wake.*") == 0 && was_killed(status_of(child_that(keep_a_descriptor))) && count_files("wake.1") == 1);
  CHECK(sleepers->by_descriptor == 2 && iox2ps_domain_cleanup_dead_nodes(&domain, NULL) == IOX2PS_OK);
  CHECK(status_of(child_that(send_one)) == 0 && sleepers->by_descriptor == 0 && count_files("wake.1") == 1); /* in its place */
  CHECK(iox2ps_domain_get_file_descriptor(&other, IOX2PS_BRINGS_MESSAGE, &(int){0}) == IOX2PS_NO_DOMAIN);
  destroy(&domain);
  CHECK(count_files("*") == 0);
}

static int note(const iox2ps_node_t *node, void *context) {
  *(uint32_t *)context = node->pid;
  return 0;
}

/* A loop that only waits finds out that a process died, and gives back what it had. */
static void dies_with_a_publisher(void) {
  iox2ps_domain_t domain = opened(HOUR_MS);
  CHECK(iox2ps_publisher_create(&domain, &(iox2ps_publisher_t){0}) == IOX2PS_OK);
  raise(SIGKILL);
}
static void a_death(void) {
  iox2ps_domain_t domain = opened(SHORT_MS);
  uint32_t died = 0;
  size_t books = 1;
  int fd = descriptor_of(&domain, IOX2PS_BRINGS_DEAD_NODE);
  CHECK(iox2ps_domain_set_dead_node_listener(&domain, note, &died) == IOX2PS_OK);
  pid_t child = child_that(dies_with_a_publisher);
  CHECK(was_killed(status_of(child)));
  while (died == 0) {
    CHECK(poll(&(struct pollfd){.fd = fd, .events = POLLIN}, 1, HOUR_MS) == 1);
    clear(&domain);
  }
  CHECK(died == (uint32_t)child && iox2ps_domain_book_count(&domain, &books) == IOX2PS_OK && books == 0);
  destroy(&domain);
}

/* Also where the program has closed its input. */
static void without_input(void) {
  iox2ps_domain_t domain = opened(HOUR_MS);
  CHECK(close(0) == 0 && descriptor_of(&domain, IOX2PS_BRINGS_MESSAGE) > 0 && status_of(child_that(send_one)) == 0);
  CHECK(is_readable(descriptor_of(&domain, IOX2PS_BRINGS_MESSAGE)));
  destroy(&domain);
}

static iox2ps_domain_t of_parent;
static void forked(void) {
  int fd;
  CHECK(iox2ps_domain_get_file_descriptor(&of_parent, IOX2PS_BRINGS_MESSAGE, &fd) == IOX2PS_PROCESSES_FORKED);
  CHECK(iox2ps_domain_clear_file_descriptor(&of_parent) == IOX2PS_PROCESSES_FORKED);
  destroy(&of_parent);
  send_one();
}
static void refusals(void) {
  iox2ps_domain_t ordinary = IOX2PS_DOMAIN_INIT;
  int fd;
  of_parent = opened(HOUR_MS);
  CHECK(iox2ps_domain_clear_file_descriptor(&of_parent) == IOX2PS_OK);
  CHECK(iox2ps_domain_get_file_descriptor(&of_parent, 0, &fd) == IOX2PS_OPEN_ERROR_INVALID_ARGUMENT && count_files("wake.*") == 0);
  CHECK(iox2ps_domain_get_file_descriptor(&of_parent, 64, &fd) == IOX2PS_OPEN_ERROR_INVALID_ARGUMENT);
  fd = descriptor_of(&of_parent, IOX2PS_BRINGS_MESSAGE);
  CHECK(status_of(child_that(forked)) == 0 && is_readable(fd));
  destroy(&of_parent);
  CHECK(iox2ps_domain_create(&ordinary, &config) == IOX2PS_OK && iox2ps_domain_get_file_descriptor(&ordinary, 1, &fd) == IOX2PS_PROCESSES_NOT_SHARED);
  CHECK(iox2ps_domain_clear_file_descriptor(&ordinary) == IOX2PS_PROCESSES_NOT_SHARED && iox2ps_domain_destroy(&ordinary) == IOX2PS_OK);
}

int main(void) {
  snprintf(name, sizeof name, "test_descriptors.%d", (int)getpid());
  iox2ps_config_defaults(&config, 7, sizeof(uint64_t), _Alignof(uint64_t));
  config.enable_safe_overflow = 0;
  readable_until_cleared();
  by_event_loops();
  who_died_with_one();
  a_death();
  CHECK(status_of(child_that(without_input)) == 0);
  refusals();
  puts("descriptors: each event loop is woken by what it waits for");
  return 0;
}
