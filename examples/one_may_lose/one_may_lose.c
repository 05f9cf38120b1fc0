// SPDX-License-Identifier: Apache-2.0 OR MIT
/* One subscriber may lose messages, another may not. The domain has no overflow, and a display closes its channel while it is busy, so
 * that sends pass it over. A send still waits for it if two messages arrive between its opening and its next receive. Fails if a
 * recorder misses a frame. In C the lock is the program's own, and each call that may help another thread signals `changed`. */
#include "../must.h"
#include <pthread.h>
#include <threads.h>

enum { FRAMES = 100, MILLISECOND = 1000000 };
typedef struct { int number; } frame_t;

static pthread_mutex_t lock = PTHREAD_MUTEX_INITIALIZER;
static pthread_cond_t changed = PTHREAD_COND_INITIALIZER;
static iox2ps_domain_t domain = IOX2PS_DOMAIN_INIT;
static iox2ps_publisher_t camera;
static iox2ps_subscriber_t recorder, display;
static int has_ended, recorded;

static void sleep_for(long milliseconds) { thrd_sleep(&(struct timespec){.tv_nsec = milliseconds * MILLISECOND}, NULL); }

/* Lets go of the lock where others may have been helped. */
static void unlock(void) {
  pthread_cond_broadcast(&changed);
  pthread_mutex_unlock(&lock);
}

/* Waits for the next frame. 0 where none comes any more. */
static int receive(const iox2ps_subscriber_t *subscriber, frame_t *frame) {
  iox2ps_sample_t unread;
  iox2ps_status_t code;
  size_t len;
  pthread_mutex_lock(&lock);
  while ((code = iox2ps_subscriber_receive_copy(&domain, subscriber, frame, sizeof *frame, &len, &unread)) == IOX2PS_NO_SAMPLE && !has_ended)
    pthread_cond_wait(&changed, &lock);
  unlock();
  if (code != IOX2PS_NO_SAMPLE) MUST(code);
  return code == IOX2PS_OK;
}

/* Shows one frame after the other, and what is sent meanwhile is none of them. */
static void *show(void *unused) {
  frame_t frame;
  uint32_t were_closed;
  while (receive(&display, &frame)) {
    pthread_mutex_lock(&lock);
    MUST(iox2ps_subscriber_close_channel(&domain, &display, 0, IOX2PS_CHANNEL_STATE_OPEN)); /* busy: sends pass it over */
    unlock();
    sleep_for(5); /* draws the frame */
    pthread_mutex_lock(&lock);
    MUST(iox2ps_subscriber_set_channel_state(&domain, &display, 0, IOX2PS_CHANNEL_STATE_OPEN, &were_closed)); /* ready for the next one */
    unlock();
  }
  return unused;
}

/* Counts the frames that came, each with the next number. */
static void *record(void *unused) {
  frame_t frame;
  while (receive(&recorder, &frame) && frame.number == recorded) recorded++;
  return unused;
}

static void send(frame_t frame) {
  iox2ps_blocked_t blocked;
  pthread_mutex_lock(&lock);
  iox2ps_status_t code = iox2ps_publisher_send_copy(&domain, &camera, &frame, sizeof frame, NULL, &blocked);
  while (code == IOX2PS_BLOCKED) {
    pthread_cond_broadcast(&changed); /* those before the full buffer have it */
    pthread_cond_wait(&changed, &lock);
    code = iox2ps_blocked_retry(&domain, &blocked, 0, NULL);
  }
  unlock();
  MUST(code);
}

static void open_domain(void) {
  iox2ps_config_t config;
  iox2ps_subscriber_options_t options;
  iox2ps_config_defaults(&config, 7, sizeof(frame_t), _Alignof(frame_t));
  config.enable_safe_overflow = 0;
  config.subscriber_max_buffer_size = 8;
  MUST(iox2ps_domain_create(&domain, &config));
  MUST(iox2ps_subscriber_create(&domain, &recorder));
  iox2ps_subscriber_options_of(&config, &options);
  options.buffer_size = 1;
  MUST(iox2ps_subscriber_create_with(&domain, &options, &display));
  MUST(iox2ps_publisher_create(&domain, &camera));
}

int main(void) {
  pthread_t showing, recording;
  open_domain();
  if (pthread_create(&showing, NULL, show, NULL) || pthread_create(&recording, NULL, record, NULL)) return 1;
  for (int number = 0; number < FRAMES; number++) {
    send((frame_t){number});
    sleep_for(1);
  }
  pthread_mutex_lock(&lock);
  has_ended = 1;
  unlock();
  pthread_join(showing, NULL);
  pthread_join(recording, NULL);
  printf("recorded %d of %d frames\n", recorded, FRAMES);
  return recorded != FRAMES || iox2ps_domain_destroy(&domain) != IOX2PS_OK;
}
