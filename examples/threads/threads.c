// SPDX-License-Identifier: Apache-2.0 OR MIT
/* Two threads share a domain: one sends readings, and the other prints them. The lock is the program's own: each call is made while it
 * is held, and a thread that has to wait sleeps until another one's call brought what it waits for. */
#include "../must.h"
#include <pthread.h>

typedef struct { double celsius; } reading_t;

static pthread_mutex_t lock = PTHREAD_MUTEX_INITIALIZER;
static pthread_cond_t changed = PTHREAD_COND_INITIALIZER;
static iox2ps_domain_t domain = IOX2PS_DOMAIN_INIT;
static iox2ps_subscriber_t subscriber;
static int has_ended;

/* Wakes the other thread where a call that returned this code has brought something. */
static void tell(uint32_t brings, iox2ps_status_t code) {
  if (iox2ps_brought_by(brings, code)) pthread_cond_broadcast(&changed);
}

static void *print_all(void *unused) {
  iox2ps_sample_t sample;
  const void *reading;
  size_t len;
  for (;;) {
    iox2ps_status_t code;
    pthread_mutex_lock(&lock);
    while ((code = iox2ps_subscriber_receive(&domain, &subscriber, &sample, &reading, &len)) == IOX2PS_NO_SAMPLE && !has_ended)
      pthread_cond_wait(&changed, &lock);
    tell(IOX2PS_BRINGS_ROOM, code);
    pthread_mutex_unlock(&lock);
    if (code == IOX2PS_NO_SAMPLE) return unused;
    MUST(code);
    printf("%.1f °C\n", ((const reading_t *)reading)->celsius); /* read without the lock */
    pthread_mutex_lock(&lock);
    code = iox2ps_sample_release(&domain, &sample);
    tell(IOX2PS_BRINGS_LOAN, code);
    pthread_mutex_unlock(&lock);
    MUST(code);
  }
}

static void send(const iox2ps_publisher_t *publisher, reading_t reading) {
  iox2ps_loan_t loan;
  iox2ps_blocked_t blocked;
  void *payload;
  pthread_mutex_lock(&lock);
  MUST(iox2ps_publisher_loan(&domain, publisher, sizeof reading, &loan, &payload));
  pthread_mutex_unlock(&lock);
  *(reading_t *)payload = reading; /* written without the lock */
  pthread_mutex_lock(&lock);
  iox2ps_status_t code = iox2ps_loan_send(&domain, &loan, NULL, &blocked);
  tell(IOX2PS_BRINGS_MESSAGE, code);
  while (code == IOX2PS_BLOCKED) {
    pthread_cond_wait(&changed, &lock);
    code = iox2ps_blocked_retry(&domain, &blocked, 0, NULL);
    tell(IOX2PS_BRINGS_MESSAGE, code);
  }
  pthread_mutex_unlock(&lock);
  MUST(code);
}

int main(void) {
  iox2ps_config_t config;
  iox2ps_publisher_t publisher;
  pthread_t printing;
  iox2ps_config_defaults(&config, 7, sizeof(reading_t), _Alignof(reading_t));
  config.enable_safe_overflow = 0; /* loses nothing */
  MUST(iox2ps_domain_create(&domain, &config));
  MUST(iox2ps_publisher_create(&domain, &publisher));
  MUST(iox2ps_subscriber_create(&domain, &subscriber));
  if (pthread_create(&printing, NULL, print_all, NULL)) return 1;
  for (int tick = 0; tick < 5; tick++) send(&publisher, (reading_t){20.0 + tick});
  pthread_mutex_lock(&lock);
  has_ended = 1; /* so that the reader ends when nothing waits any more */
  pthread_cond_broadcast(&changed);
  pthread_mutex_unlock(&lock);
  pthread_join(printing, NULL);
  return iox2ps_domain_destroy(&domain) != IOX2PS_OK;
}
