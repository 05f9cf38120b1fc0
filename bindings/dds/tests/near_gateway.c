// SPDX-License-Identifier: Apache-2.0 OR MIT
/* Stands in for the gateway where Cyclone DDS isn't there: its ports are made, and its messages sent and received, as those of a
 * gateway are. What comes from elsewhere is 1, 2, 3 .., one number of 64 bits for each iox2ps_dds_forward; counts say the sum of what
 * the domain sent. */
#include "iox2_pubsub_dds.h"
#include <stdlib.h>
#include <string.h>

struct iox2ps_dds_gateway_t {
  iox2ps_domain_t *domain;
  iox2ps_dds_lock_t lock;
  iox2ps_subscriber_t subscriber;
  iox2ps_publisher_t publisher;
  uint64_t next, sum;
};

struct iox2ps_dds_gateways_t {
  iox2ps_dds_gateway_t gateway; /* all that a test has */
};

static uint32_t call(iox2ps_dds_gateway_t *gateway, uint32_t brings, iox2ps_dds_make_t make) {
  if (!gateway->lock.call) return make(gateway->domain, gateway);
  return gateway->lock.call(gateway->lock.context, gateway->domain, brings, make, gateway);
}

static uint32_t make_subscriber(iox2ps_domain_t *domain, void *what) {
  return iox2ps_subscriber_create(domain, &((iox2ps_dds_gateway_t *)what)->subscriber);
}

static uint32_t make_publisher(iox2ps_domain_t *domain, void *what) {
  return iox2ps_publisher_create(domain, &((iox2ps_dds_gateway_t *)what)->publisher);
}

static uint32_t send_next(iox2ps_domain_t *domain, void *what) {
  iox2ps_dds_gateway_t *gateway = (iox2ps_dds_gateway_t *)what;
  iox2ps_blocked_t blocked;
  return iox2ps_publisher_send_copy(domain, &gateway->publisher, &gateway->next, sizeof gateway->next, NULL, &blocked);
}

static uint32_t receive(iox2ps_domain_t *domain, void *what) {
  iox2ps_dds_gateway_t *gateway = (iox2ps_dds_gateway_t *)what;
  iox2ps_sample_t sample;
  const void *bytes;
  uint64_t value;
  size_t len;
  uint32_t code = iox2ps_subscriber_receive(domain, &gateway->subscriber, &sample, &bytes, &len);
  if (code != IOX2PS_OK) return code;
  memcpy(&value, bytes, sizeof value);
  if (memcmp(&sample.origin, &gateway->publisher.id, sizeof sample.origin) != 0) gateway->sum += value;
  return iox2ps_sample_release(domain, &sample);
}

static uint32_t close_ports(iox2ps_domain_t *domain, void *what) {
  iox2ps_dds_gateway_t *gateway = (iox2ps_dds_gateway_t *)what;
  uint32_t code = iox2ps_publisher_close(domain, &gateway->publisher);
  return code == IOX2PS_OK ? iox2ps_subscriber_close(domain, &gateway->subscriber) : code;
}

uint32_t iox2ps_dds_gateways_open(uint32_t dds_domain, size_t max_message_size, iox2ps_dds_gateways_t **gateways, char *why,
                                  size_t room) {
  (void)dds_domain, (void)max_message_size, (void)why, (void)room;
  *gateways = (iox2ps_dds_gateways_t *)calloc(1, sizeof **gateways);
  return *gateways ? IOX2PS_OK : IOX2PS_DDS_REFUSED;
}

void iox2ps_dds_gateways_close(iox2ps_dds_gateways_t *gateways) { free(gateways); }

void iox2ps_dds_settings_defaults(iox2ps_dds_settings_t *settings, size_t element_size, uint32_t is_slice) {
  memset(settings, 0, sizeof *settings);
  settings->element_size = element_size;
  settings->is_slice = is_slice;
}

uint32_t iox2ps_dds_gateway_open(iox2ps_dds_gateways_t *gateways, iox2ps_domain_t *domain, const iox2ps_dds_settings_t *settings,
                                 iox2ps_dds_gateway_t **gateway, char *why, size_t room) {
  (void)why, (void)room;
  iox2ps_dds_gateway_t *made = &gateways->gateway;
  made->domain = domain;
  made->lock = settings->lock;
  uint32_t code = call(made, 0, make_subscriber);
  if (code == IOX2PS_OK) code = call(made, IOX2PS_DDS_MESSAGE, make_publisher);
  if (code == IOX2PS_OK) *gateway = made;
  return code;
}

void iox2ps_dds_gateway_close(iox2ps_dds_gateway_t *gateway) {
  if (call(gateway, IOX2PS_DDS_MESSAGE | IOX2PS_DDS_ROOM | IOX2PS_DDS_LOAN, close_ports) != IOX2PS_OK) abort();
}

void iox2ps_dds_forward(iox2ps_dds_gateways_t *gateways, size_t most, iox2ps_dds_forwarded_t *forwarded) {
  (void)most;
  memset(forwarded, 0, sizeof *forwarded);
  while (call(&gateways->gateway, IOX2PS_DDS_ROOM, receive) == IOX2PS_OK) forwarded->sent++;
  gateways->gateway.next++;
  if (call(&gateways->gateway, IOX2PS_DDS_MESSAGE | IOX2PS_DDS_LOAN, send_next) == IOX2PS_OK) forwarded->received++;
}

void iox2ps_dds_counts(const iox2ps_dds_gateway_t *gateway, iox2ps_dds_counts_t *counts) {
  memset(counts, 0, sizeof *counts);
  counts->sent = gateway->sum;
}

iox2ps_wide_t iox2ps_dds_publisher(const iox2ps_dds_gateway_t *gateway) { return gateway->publisher.id; }
