// SPDX-License-Identifier: Apache-2.0 OR MIT
/* What a WaitSet is in C: one thread waits by epoll for readings and for commands, which are two domains, for a deadline and for ticks.
 * Each domain has a lock and an eventfd, which a thread writes that may have brought a message; times are timerfds. */
#define _POSIX_C_SOURCE 200809L
#include "iox2_pubsub.h"
#include <pthread.h>
#include <stdio.h>
#include <stdlib.h>
#include <string.h>
#include <sys/epoll.h>
#include <sys/eventfd.h>
#include <sys/timerfd.h>
#include <time.h>
#include <unistd.h>

enum { READINGS = 3, TICKS = 3, STOP = 1 };
static const struct timespec interval = {0, 5000000}, deadline = {0, 20000000}, never = {0, 0};

/* A domain that threads share, with one publisher and one subscriber. */
typedef struct {
  pthread_mutex_t lock;
  iox2ps_domain_t domain;
  iox2ps_publisher_t publisher;
  iox2ps_subscriber_t subscriber;
  int fd;
} topic_t;

static topic_t weather = {.lock = PTHREAD_MUTEX_INITIALIZER}, control = {.lock = PTHREAD_MUTEX_INITIALIZER};

static void check(int is_so, const char *words) {
  if (is_so) return;
  fprintf(stderr, "%s\n", words);
  exit(1);
}

static void check_code(iox2ps_status_t code) { check(code == IOX2PS_OK, iox2ps_error_text(code)); }

static void open_topic(topic_t *topic, uint64_t service_id, size_t size, size_t alignment) {
  iox2ps_config_t config;
  iox2ps_config_defaults(&config, service_id, size, alignment);
  config.subscriber_max_buffer_size = READINGS;
  check_code(iox2ps_domain_create(&topic->domain, &config));
  check_code(iox2ps_publisher_create(&topic->domain, &topic->publisher));
  check_code(iox2ps_subscriber_create(&topic->domain, &topic->subscriber));
  topic->fd = eventfd(0, EFD_CLOEXEC | EFD_NONBLOCK);
  check(topic->fd >= 0, "no eventfd");
}

static void close_topic(topic_t *topic) {
  close(topic->fd);
  check_code(iox2ps_domain_destroy(&topic->domain));
}

static void send_copy(topic_t *topic, const void *message, size_t size) {
  iox2ps_loan_t loan;
  iox2ps_blocked_t blocked;
  void *payload;
  pthread_mutex_lock(&topic->lock);
  check_code(iox2ps_publisher_loan(&topic->domain, &topic->publisher, size, &loan, &payload));
  pthread_mutex_unlock(&topic->lock);
  memcpy(payload, message, size); /* without the lock */
  pthread_mutex_lock(&topic->lock);
  iox2ps_status_t code = iox2ps_loan_send(&topic->domain, &loan, NULL, &blocked);
  pthread_mutex_unlock(&topic->lock);
  check_code(code);
  if (iox2ps_brought_by(IOX2PS_BRINGS_MESSAGE, code)) check(eventfd_write(topic->fd, 1) == 0, "no signal");
}

/* Whether there was a message. */
static int receive_copy(topic_t *topic, void *message, size_t size) {
  iox2ps_sample_t sample;
  size_t len;
  pthread_mutex_lock(&topic->lock);
  iox2ps_status_t code = iox2ps_subscriber_receive_copy(&topic->domain, &topic->subscriber, message, size, &len, &sample);
  pthread_mutex_unlock(&topic->lock);
  if (code != IOX2PS_NO_SAMPLE) check_code(code);
  return code == IOX2PS_OK;
}

static void *sense(void *unused) {
  (void)unused;
  for (int number = 0; number < READINGS; number++) {
    double celsius = 20 + number / 2.0;
    send_copy(&weather, &celsius, sizeof celsius);
    nanosleep(&interval, NULL);
  }
  return NULL;
}

static int timer(void) {
  int fd = timerfd_create(CLOCK_MONOTONIC, TFD_CLOEXEC | TFD_NONBLOCK);
  check(fd >= 0, "no timerfd");
  return fd;
}

/* It begins anew: after so long, and then each time after so long again. */
static void set_timer(int fd, struct timespec after, struct timespec again) {
  struct itimerspec times = {.it_value = after, .it_interval = again};
  check(timerfd_settime(fd, 0, &times, NULL) == 0, "no time");
}

/* The next descriptor that is readable, which is reset: what comes after that makes it readable again. */
static int next_event(int set) {
  struct epoll_event event;
  uint64_t count;
  check(epoll_wait(set, &event, 1, -1) == 1, "no event");
  check(read(event.data.fd, &count, sizeof count) == sizeof count, "nothing to read");
  return event.data.fd;
}

static void attach(int set, int fd) {
  struct epoll_event event = {.events = EPOLLIN, .data = {.fd = fd}};
  check(epoll_ctl(set, EPOLL_CTL_ADD, fd, &event) == 0, "not attached");
}

/* Ends by a command. */
static void process(int set, int late, int ticks) {
  const int stop = STOP;
  int read_so_far = 0, ticked = 0, command = 0;
  double celsius;
  while (command != STOP) {
    int fd = next_event(set);
    if (fd == weather.fd) {
      while (receive_copy(&weather, &celsius, sizeof celsius)) {
        printf("%.1f °C\n", celsius);
        if (++read_so_far == READINGS) set_timer(late, deadline, never);
      }
    } else if (fd == late) {
      puts("no reading came in time");
      set_timer(ticks, interval, interval);
    } else if (fd == ticks) {
      printf("tick %d\n", ++ticked);
      if (ticked < TICKS) continue;
      set_timer(ticks, never, never);
      send_copy(&control, &stop, sizeof stop);
    } else {
      while (receive_copy(&control, &command, sizeof command)) {}
    }
  }
  puts("stopped");
}

int main(void) {
  pthread_t sensor;
  open_topic(&weather, 7, sizeof(double), _Alignof(double));
  open_topic(&control, 8, sizeof(int), _Alignof(int));
  int set = epoll_create1(EPOLL_CLOEXEC), late = timer(), ticks = timer();
  check(set >= 0, "no epoll");
  attach(set, weather.fd);
  attach(set, control.fd);
  attach(set, late);
  attach(set, ticks);
  check(pthread_create(&sensor, NULL, sense, NULL) == 0, "no thread");
  process(set, late, ticks);
  check(pthread_join(sensor, NULL) == 0, "no end");
  close(set);
  close(late);
  close(ticks);
  close_topic(&weather);
  close_topic(&control);
  return 0;
}
