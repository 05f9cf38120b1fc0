// SPDX-License-Identifier: Apache-2.0 OR MIT
/* What both programs in C have: a domain of readings, its ports, and the gateway that joins it to a topic of DDS. */
#ifndef EXAMPLES_STATION_H
#define EXAMPLES_STATION_H

#include "../must.h"
#include "iox2_pubsub_dds.h"

enum { READINGS = 5, MOST_SECONDS = 600 };
static const uint64_t second = 1000000000;

typedef struct {
  iox2ps_domain_t domain;
  iox2ps_publisher_t publisher;
  iox2ps_subscriber_t subscriber;
  iox2ps_dds_gateways_t *gateways;
  iox2ps_dds_gateway_t *gateway;
} station_t;

static inline void must_join(uint32_t code, const char *why) {
  if (code == IOX2PS_OK) return;
  fprintf(stderr, "%s\n", why);
  exit(1);
}

/* The history keeps what was sent for a process that comes later, or hasn't met this one yet. The domain stays where it is. */
static inline void open_station(station_t *it, const char *topic) {
  it->domain = (iox2ps_domain_t)IOX2PS_DOMAIN_INIT;
  iox2ps_config_t config;
  iox2ps_dds_settings_t settings;
  char why[256] = "";
  iox2ps_config_defaults(&config, 7, sizeof(double), _Alignof(double));
  config.history_size = config.subscriber_max_buffer_size = READINGS;
  MUST(iox2ps_domain_create(&it->domain, &config));
  MUST(iox2ps_publisher_create(&it->domain, &it->publisher));
  MUST(iox2ps_subscriber_create(&it->domain, &it->subscriber));
  iox2ps_dds_settings_defaults(&settings, sizeof(double), 0);
  settings.topic = topic;
  settings.type_name = "f64"; /* as C++ and Rust call it */
  must_join(iox2ps_dds_gateways_open(0, sizeof(double), &it->gateways, why, sizeof why), why);
  must_join(iox2ps_dds_gateway_open(it->gateways, &it->domain, &settings, &it->gateway, why, sizeof why), why);
}

static inline void close_station(station_t *it) {
  iox2ps_dds_gateway_close(it->gateway);
  iox2ps_dds_gateways_close(it->gateways);
  MUST(iox2ps_domain_destroy(&it->domain));
}

static inline void send_celsius(station_t *it, double celsius) {
  iox2ps_blocked_t blocked;
  MUST(iox2ps_publisher_send_copy(&it->domain, &it->publisher, &celsius, sizeof celsius, NULL, &blocked));
}

/* Waits a second at most for the topic. */
static inline void wait_a_second(station_t *it) {
  iox2ps_dds_forwarded_t moved;
  iox2ps_dds_wait(it->gateways, second, READINGS, &moved);
}

/* The next message of the other process, if there is one. This process' own come, too. */
static inline int receive_celsius(station_t *it, double *celsius) {
  iox2ps_sample_t sample;
  iox2ps_dds_origin_t origin;
  const void *payload;
  size_t len;
  for (iox2ps_status_t code; (code = iox2ps_subscriber_receive(&it->domain, &it->subscriber, &sample, &payload, &len)) != IOX2PS_NO_SAMPLE;) {
    MUST(code);
    int is_from_elsewhere = iox2ps_dds_origin(it->gateway, sample.number, &origin) == IOX2PS_OK;
    *celsius = *(const double *)payload;
    MUST(iox2ps_sample_release(&it->domain, &sample));
    if (is_from_elsewhere) return 1;
  }
  return 0;
}

#endif
