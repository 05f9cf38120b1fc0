// SPDX-License-Identifier: Apache-2.0 OR MIT
/* The calls of iox2_pubsub_dds.h in C: sends and receives COUNT messages over TOPIC, polled or with threads, and prints what
 * became of them as JSON.
 *   calls polled|threads COUNT TOPIC */
#include "iox2_pubsub_dds.h"

#include <pthread.h>
#include <stdio.h>
#include <stdlib.h>
#include <string.h>
#include <unistd.h>
#include <time.h>

typedef struct { double celsius; uint64_t number; } reading_t;

static iox2ps_domain_t domain = IOX2PS_DOMAIN_INIT;
static iox2ps_publisher_t publisher;
static iox2ps_subscriber_t subscriber;
static iox2ps_dds_gateways_t *gateways;
static iox2ps_dds_gateway_t *gateway;

/* ---- a lock of this program */

static pthread_mutex_t mutex = PTHREAD_MUTEX_INITIALIZER;
static pthread_cond_t changed = PTHREAD_COND_INITIALIZER;

/* With the lock: wakes the others where a call has brought them something. */
static void wake(uint32_t brings, uint32_t code) {
  if (iox2ps_brought_by(brings, code) != 0) pthread_cond_broadcast(&changed);
}

static uint32_t call(void *context, iox2ps_domain_t *its, uint32_t brings, iox2ps_dds_make_t make, void *what) {
  uint32_t code;
  (void)context;
  pthread_mutex_lock(&mutex);
  code = make(its, what);
  wake(brings, code);
  pthread_mutex_unlock(&mutex);
  return code;
}

static struct timespec after(uint64_t nanoseconds) {
  struct timespec time;
  clock_gettime(CLOCK_REALTIME, &time);
  nanoseconds += (uint64_t)time.tv_nsec;
  time.tv_sec += (time_t)(nanoseconds / 1000000000);
  time.tv_nsec = (long)(nanoseconds % 1000000000);
  return time;
}

static uint32_t wait_on(void *context, iox2ps_domain_t *its, uint32_t waits, iox2ps_wide_t port, uint32_t brings,
                        uint64_t nanoseconds, iox2ps_dds_make_t make, void *what) {
  const uint32_t again = waits == IOX2PS_DDS_MESSAGE ? IOX2PS_NO_SAMPLE : IOX2PS_BLOCKED;
  struct timespec until = after(nanoseconds);
  uint32_t code;
  (void)context;
  (void)port;
  pthread_mutex_lock(&mutex);
  for (code = make(its, what); code == again; code = make(its, what)) {
    wake(brings, code);
    if (pthread_cond_timedwait(&changed, &mutex, &until) != 0) break;
  }
  wake(brings, code);
  pthread_mutex_unlock(&mutex);
  return code;
}

/* ---- messages */

static uint32_t send_copy(iox2ps_domain_t *its, void *what) {
  size_t receivers;
  iox2ps_blocked_t blocked;
  return iox2ps_publisher_send_copy(its, &publisher, what, sizeof(reading_t), &receivers, &blocked);
}

typedef struct { reading_t reading; iox2ps_sample_t sample; } got_t;

static uint32_t receive_copy(iox2ps_domain_t *its, void *what) {
  got_t *got = what;
  const void *bytes;
  size_t len;
  uint32_t code = iox2ps_subscriber_receive(its, &subscriber, &got->sample, &bytes, &len);
  if (code != IOX2PS_OK) return code;
  memcpy(&got->reading, bytes, sizeof got->reading);
  return iox2ps_sample_release(its, &got->sample);
}

static void poll_for(int threads, uint64_t nanoseconds) {
  iox2ps_dds_forwarded_t now;
  struct timespec time = {0, 1000000};
  if (threads) nanosleep(&time, NULL);
  else iox2ps_dds_wait(gateways, nanoseconds, 1024, &now);
}

static int is_from_elsewhere(const got_t *got) {
  iox2ps_wide_t mine = iox2ps_dds_publisher(gateway);
  return memcmp(&got->sample.origin, &mine, sizeof mine) == 0;
}

static int open_all(const char *topic) {
  char why[200];
  iox2ps_config_t config;
  iox2ps_dds_settings_t settings;
  iox2ps_config_defaults(&config, 7, sizeof(reading_t), _Alignof(reading_t));
  config.subscriber_max_buffer_size = 1000;
  if (iox2ps_domain_create(&domain, &config) || iox2ps_publisher_create(&domain, &publisher)
      || iox2ps_subscriber_create(&domain, &subscriber)) return 0;
  iox2ps_dds_settings_defaults(&settings, sizeof(reading_t), 0);
  settings.topic = topic;
  settings.type_name = "Reading";
  settings.lock.call = call;
  settings.lock.wait = wait_on;
  if (iox2ps_dds_gateways_open(0, sizeof(reading_t), &gateways, why, sizeof why)
      || iox2ps_dds_gateway_open(gateways, &domain, &settings, &gateway, why, sizeof why)) return fprintf(stderr, "%s\n", why), 0;
  return 1;
}

int main(int count, char **words) {
  const int threads = count == 4 && strcmp(words[1], "threads") == 0;
  const uint64_t wanted = count == 4 ? strtoull(words[2], NULL, 10) : 0;
  uint64_t number, good = 0, wrong = 0;
  iox2ps_dds_peers_t peers = {0};
  iox2ps_dds_counts_t counts;
  alarm(900); /* a program whose test is gone ends by itself */
  if (count != 4 || !open_all(words[3])) return 3;
  while (peers.readers == 0 || peers.writers == 0) {
    poll_for(0, 20000000);
    iox2ps_dds_peers(gateway, &peers);
  }
  if (threads && (iox2ps_dds_start(gateway) != IOX2PS_OK || iox2ps_dds_start(gateway) != IOX2PS_DDS_HAS_THREADS)) return 4;
  for (number = 1; number <= wanted; number++) {
    reading_t reading = {20.0, number};
    if (call(NULL, &domain, IOX2PS_DDS_MESSAGE, send_copy, &reading) != IOX2PS_OK) return 5;
    poll_for(threads, 0);
  }
  while (good < wanted) {
    got_t got;
    poll_for(threads, 2000000);
    while (call(NULL, &domain, IOX2PS_DDS_ROOM, receive_copy, &got) == IOX2PS_OK) {
      if (!is_from_elsewhere(&got)) continue;
      good += got.reading.number == good + 1;
      wrong += got.reading.number != good;
    }
  }
  number = iox2ps_dds_flush(gateways, UINT64_MAX);
  iox2ps_dds_counts(gateway, &counts);
  printf("{\"good\": %llu, \"wrong\": %llu, \"sent\": %llu, \"flushed\": %d}\n", (unsigned long long)good, (unsigned long long)wrong,
         (unsigned long long)counts.sent, number == IOX2PS_OK);
  iox2ps_dds_gateway_close(gateway);
  iox2ps_dds_gateways_close(gateways);
  return iox2ps_domain_destroy(&domain) == IOX2PS_OK ? 0 : 6;
}
