// SPDX-License-Identifier: Apache-2.0 OR MIT
/* A board of last values: each publisher keeps one, and whoever comes reads them. What was read stays as it was. */
#include "../must.h"

enum { LEFT, RIGHT };
typedef struct { unsigned wheel, rpm; } speed_t;
typedef struct {
  iox2ps_sample_t sample;
  const void *speed;
} read_t;

static iox2ps_domain_t domain = IOX2PS_DOMAIN_INIT;
static iox2ps_publisher_t publishers[2];

static unsigned rpm(const read_t *of) { return ((const speed_t *)of->speed)->rpm; }

static void set(unsigned wheel, unsigned to) {
  iox2ps_blocked_t blocked;
  speed_t speed = {wheel, to};
  MUST(iox2ps_publisher_send_copy(&domain, &publishers[wheel], &speed, sizeof speed, NULL, &blocked));
}

/* The last value of each wheel, where it lies. */
static void read_all(read_t speeds[2]) {
  iox2ps_subscriber_t reader;
  read_t one;
  size_t len;
  MUST(iox2ps_subscriber_create(&domain, &reader));
  for (int wheel = LEFT; wheel <= RIGHT; wheel++) MUST(iox2ps_publisher_update_connections(&domain, &publishers[wheel]));
  while (iox2ps_subscriber_receive(&domain, &reader, &one.sample, &one.speed, &len) == IOX2PS_OK)
    speeds[((const speed_t *)one.speed)->wheel] = one;
}

static void give_back(const read_t speeds[2]) {
  for (int wheel = LEFT; wheel <= RIGHT; wheel++) MUST(iox2ps_sample_release(&domain, &speeds[wheel].sample));
}

int main(void) {
  iox2ps_config_t config;
  read_t before[2], now[2];
  iox2ps_config_defaults(&config, 7, sizeof(speed_t), _Alignof(speed_t));
  config.history_size = 1;
  MUST(iox2ps_domain_create(&domain, &config));
  for (int wheel = LEFT; wheel <= RIGHT; wheel++) MUST(iox2ps_publisher_create(&domain, &publishers[wheel]));
  set(LEFT, 12);
  set(LEFT, 31);
  set(RIGHT, 42);
  read_all(before);
  printf("left %u rpm, right %u rpm\n", rpm(&before[LEFT]), rpm(&before[RIGHT]));
  set(LEFT, 99);
  read_all(now);
  printf("left %u rpm now, and %u where it was read before\n", rpm(&now[LEFT]), rpm(&before[LEFT]));
  give_back(before);
  give_back(now);
  return iox2ps_domain_destroy(&domain) != IOX2PS_OK;
}
