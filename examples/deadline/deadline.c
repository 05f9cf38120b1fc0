// SPDX-License-Identifier: Apache-2.0 OR MIT
/* A subscriber learns that no message came within its deadline. A message that came before it looks is in time. In C a program waits at a
 * lock of its own: whoever sends signals `changed`. */
#include "../must.h"
#include <pthread.h>
#include <time.h>

enum { DEADLINE_NS = 20000000, SECOND_NS = 1000000000 };
typedef struct { unsigned rpm; } speed_t;

static pthread_mutex_t lock = PTHREAD_MUTEX_INITIALIZER;
static pthread_cond_t changed = PTHREAD_COND_INITIALIZER;
static iox2ps_domain_t domain = IOX2PS_DOMAIN_INIT;
static iox2ps_publisher_t wheel;
static iox2ps_subscriber_t subscriber;

static void send(unsigned rpm) {
  iox2ps_blocked_t blocked;
  speed_t speed = {rpm};
  pthread_mutex_lock(&lock);
  MUST(iox2ps_publisher_send_copy(&domain, &wheel, &speed, sizeof speed, NULL, &blocked));
  pthread_cond_broadcast(&changed);
  pthread_mutex_unlock(&lock);
}

/* The next speed, or IOX2PS_NO_SAMPLE where none comes within the deadline. */
static iox2ps_status_t next(speed_t *speed) {
  struct timespec until;
  iox2ps_sample_t unread;
  iox2ps_status_t code;
  size_t len;
  int has_passed = 0;
  timespec_get(&until, TIME_UTC);
  until.tv_nsec += DEADLINE_NS;
  if (until.tv_nsec >= SECOND_NS) until.tv_sec++, until.tv_nsec -= SECOND_NS;
  pthread_mutex_lock(&lock);
  while ((code = iox2ps_subscriber_receive_copy(&domain, &subscriber, speed, sizeof *speed, &len, &unread)) == IOX2PS_NO_SAMPLE && !has_passed)
    has_passed = pthread_cond_timedwait(&changed, &lock, &until);
  pthread_mutex_unlock(&lock);
  return code;
}

int main(void) {
  iox2ps_config_t config;
  iox2ps_status_t code;
  speed_t speed;
  iox2ps_config_defaults(&config, 7, sizeof speed, _Alignof(speed_t));
  MUST(iox2ps_domain_create(&domain, &config));
  MUST(iox2ps_publisher_create(&domain, &wheel));
  MUST(iox2ps_subscriber_create(&domain, &subscriber));
  send(12);
  while ((code = next(&speed)) == IOX2PS_OK) {
    printf("%u rpm\n", speed.rpm);
    if (speed.rpm == 12) send(31); /* and then none */
  }
  if (code == IOX2PS_NO_SAMPLE) puts("no speed in time: stop");
  return iox2ps_domain_destroy(&domain) != IOX2PS_OK;
}
