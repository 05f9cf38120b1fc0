// SPDX-License-Identifier: Apache-2.0 OR MIT
/* Gateways that were moved from hand nothing to the calls of C, each of which would read through it. Needs no DDS: the calls of C here
 * are for this test. */
#include "iox2_pubsub_dds.hpp"
#include <cstdio>
#include <cstdlib>

static char something;
static unsigned calls = 0;

static void call(const void *handle) {
  if (handle != &something) std::abort();
  calls++;
}
template <typename T> static void open(T **handle) { *handle = reinterpret_cast<T *>(&something); }

extern "C" {
uint32_t iox2ps_dds_gateways_open(uint32_t, size_t, iox2ps_dds_gateways_t **group, char *, size_t) noexcept { return open(group), IOX2PS_OK; }
void iox2ps_dds_gateways_close(iox2ps_dds_gateways_t *group) noexcept { call(group); }
void iox2ps_dds_forward(iox2ps_dds_gateways_t *group, size_t, iox2ps_dds_forwarded_t *) noexcept { call(group); }
void iox2ps_dds_wait(iox2ps_dds_gateways_t *group, uint64_t, size_t, iox2ps_dds_forwarded_t *) noexcept { call(group); }
void iox2ps_dds_wake(iox2ps_dds_gateways_t *group) noexcept { call(group); }
uint32_t iox2ps_dds_flush(iox2ps_dds_gateways_t *group, uint64_t) noexcept { return call(group), IOX2PS_OK; }
void iox2ps_dds_settings_defaults(iox2ps_dds_settings_t *settings, size_t, uint32_t) noexcept { *settings = iox2ps_dds_settings_t(); }
uint32_t iox2ps_dds_gateway_open(iox2ps_dds_gateways_t *group, iox2ps_domain_t *, const iox2ps_dds_settings_t *,
                                 iox2ps_dds_gateway_t **gateway, char *, size_t) noexcept {
  return call(group), open(gateway), IOX2PS_OK;
}
void iox2ps_dds_gateway_close(iox2ps_dds_gateway_t *gateway) noexcept { call(gateway); }
void iox2ps_dds_counts(const iox2ps_dds_gateway_t *gateway, iox2ps_dds_counts_t *) noexcept { call(gateway); }
void iox2ps_dds_peers(iox2ps_dds_gateway_t *gateway, iox2ps_dds_peers_t *) noexcept { call(gateway); }
iox2ps_wide_t iox2ps_dds_publisher(const iox2ps_dds_gateway_t *gateway) noexcept { return call(gateway), iox2ps_wide_t{7, 0}; }
uint32_t iox2ps_dds_origin(iox2ps_dds_gateway_t *gateway, iox2ps_wide_t, iox2ps_dds_origin_t *origin) noexcept {
  return call(gateway), *origin = iox2ps_dds_origin_t(), IOX2PS_OK;
}
uint32_t iox2ps_dds_start(iox2ps_dds_gateway_t *gateway) noexcept { return call(gateway), IOX2PS_OK; }
void iox2ps_dds_stop(iox2ps_dds_gateway_t *gateway) noexcept { call(gateway); }
}

using Gateway = iox2ps::dds::Gateway<int>;

/* How many of the calls of C its calls make. */
static unsigned calls_of(Gateway &gateway, const iox2ps::Sample<int> &sample) {
  unsigned before = calls;
  bool knows = gateway.publisher().low == 7;
  if (gateway.flush(std::chrono::seconds(1)) != knows || gateway.origin(sample).has_value() != knows || gateway.start() != knows) std::abort();
  if (gateway.forward().sent + gateway.wait(std::chrono::seconds(1)).sent + gateway.counts().sent + gateway.peers().readers > 0) std::abort();
  gateway.waker().wake();
  gateway.stop();
  return calls - before;
}

int main() {
  auto domain = iox2ps::Domain<int>::create(iox2ps::Config<int>(7)).expect("a domain");
  auto publisher = domain.publisher().expect("a publisher");
  auto subscriber = domain.subscriber().expect("a subscriber");
  publisher.send_copy(1).expect("a send").delivered();
  auto sample = *std::move(subscriber.receive().expect("a receive"));
  std::string why;
  auto opened = Gateway::open(domain, {}, why);
  auto gateway = *std::move(opened);
  auto groups = iox2ps::dds::Gateways::open(0, 4, why);
  auto group = *std::move(groups);
  if (calls_of(gateway, sample) != 10 || calls_of(*opened, sample) != 0) std::abort();
  if (!group.add(domain, {}, why) || groups->add(domain, {}, why) || groups->flush({})) std::abort();
  *opened = std::move(gateway);
  if (calls_of(*opened, sample) != 10 || calls_of(gateway, sample) != 0) std::abort();
  std::puts("what was moved from makes no call");
}
