// SPDX-License-Identifier: Apache-2.0 OR MIT
/* Stands in for the gateway where Cyclone DDS isn't there: it refuses each gateway, and its why says which settings came. So
 * the tests of C++ and Rust see that each of their settings reaches C, and reaches what is meant. */
#include "iox2_pubsub_dds.h"
#include <stdio.h>
#include <stdlib.h>
#include <string.h>

struct iox2ps_dds_gateways_t {
  uint32_t dds_domain;
  size_t max_message_size;
};

uint32_t iox2ps_dds_gateways_open(uint32_t dds_domain, size_t max_message_size, iox2ps_dds_gateways_t **gateways, char *why,
                                  size_t room) {
  (void)why, (void)room;
  *gateways = (iox2ps_dds_gateways_t *)malloc(sizeof **gateways);
  if (*gateways == NULL) return IOX2PS_DDS_REFUSED;
  (*gateways)->dds_domain = dds_domain;
  (*gateways)->max_message_size = max_message_size;
  return IOX2PS_OK;
}

void iox2ps_dds_gateways_close(iox2ps_dds_gateways_t *gateways) { free(gateways); }

void iox2ps_dds_settings_defaults(iox2ps_dds_settings_t *settings, size_t element_size, uint32_t is_slice) {
  memset(settings, 0, sizeof *settings);
  settings->element_size = element_size;
  settings->is_slice = is_slice;
  settings->reader_limit = 64;
}

uint32_t iox2ps_dds_gateway_open(iox2ps_dds_gateways_t *gateways, iox2ps_domain_t *domain, const iox2ps_dds_settings_t *settings,
                                 iox2ps_dds_gateway_t **gateway, char *why, size_t room) {
  (void)domain, (void)gateway;
  const char *topic = settings->topic && *settings->topic ? settings->topic : "none";
  snprintf(why, room, "topic %s, type %s of %zu%s, reliability %u, volatile %u, known %u, limit %zu, domain %u, longest %zu", topic,
           settings->type_name, settings->element_size, settings->is_slice ? " in slices" : "", (unsigned)settings->reliability,
           (unsigned)settings->volatile_reader, (unsigned)settings->only_known, settings->reader_limit,
           (unsigned)gateways->dds_domain, gateways->max_message_size);
  return IOX2PS_DDS_REFUSED;
}

/* No gateway was opened, so that nobody calls these. */
iox2ps_wide_t iox2ps_dds_publisher(const iox2ps_dds_gateway_t *gateway) {
  (void)gateway;
  abort();
}

void iox2ps_dds_gateway_close(iox2ps_dds_gateway_t *gateway) {
  (void)gateway;
  abort();
}
