// SPDX-License-Identifier: Apache-2.0 OR MIT
#include "quality.hpp"

#include <algorithm>
#include <cstddef>
#include <cstdint>

namespace iox2ps::dds::detail {

namespace {

std::int32_t at_most(std::size_t value) { return static_cast<std::int32_t>(std::min<std::size_t>(value, 0x7fffffff)); }

/* Whether a full side holds back the one before it: else the topic keeps the last messages. */
bool holds_back(const iox2ps_config_t &domain) {
  return !domain.enable_safe_overflow && domain.backpressure_strategy == IOX2PS_RETRY_UNTIL_DELIVERED;
}

void set_durability(dds_qos_t *qos, const iox2ps_dds_settings_t &settings, std::int32_t history, bool reader) {
  if (history == 0 || (reader && settings.volatile_reader)) return dds_qset_durability(qos, DDS_DURABILITY_VOLATILE);
  dds_qset_durability(qos, DDS_DURABILITY_TRANSIENT_LOCAL);
  if (!reader)
    dds_qset_durability_service(qos, 0, DDS_HISTORY_KEEP_LAST, history, DDS_LENGTH_UNLIMITED, DDS_LENGTH_UNLIMITED,
                                DDS_LENGTH_UNLIMITED);
}

} // namespace

dds_qos_t *quality_of(const iox2ps_dds_settings_t &settings, const iox2ps_config_t &domain, bool reader) {
  dds_qos_t *qos = dds_create_qos();
  bool reliable = settings.reliability == IOX2PS_DDS_RELIABLE;
  dds_qset_reliability(qos, reliable ? DDS_RELIABILITY_RELIABLE : DDS_RELIABILITY_BEST_EFFORT, 0);
  std::int32_t buffer = at_most(std::max<std::size_t>(domain.subscriber_max_buffer_size, 1));
  std::int32_t history = at_most(domain.history_size);
  if (holds_back(domain) && reliable) {
    dds_qset_history(qos, DDS_HISTORY_KEEP_ALL, 0);
    std::int32_t limit = std::max(at_most(settings.reader_limit), 1);
    if (reader) dds_qset_resource_limits(qos, limit, DDS_LENGTH_UNLIMITED, DDS_LENGTH_UNLIMITED);
  } else {
    dds_qset_history(qos, DDS_HISTORY_KEEP_LAST, reader ? std::max(buffer, history) : buffer);
  }
  set_durability(qos, settings, history, reader);
  dds_qset_ignorelocal(qos, DDS_IGNORELOCAL_PARTICIPANT);
  return qos;
}

} // namespace iox2ps::dds::detail
