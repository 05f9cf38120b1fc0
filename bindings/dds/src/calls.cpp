// SPDX-License-Identifier: Apache-2.0 OR MIT
/* The calls of iox2_pubsub_dds.h. */
#include "gateway.hpp"

#include <algorithm>
#include <atomic>
#include <cstring>
#include <exception>
#include <new>
#include <pthread.h>

using iox2ps::dds::detail::Flushed;
using iox2ps::dds::detail::Gateway;
using iox2ps::dds::detail::Group;
using iox2ps::dds::detail::Nanoseconds;

struct iox2ps_dds_gateways_t {
  std::shared_ptr<Group> group;
};

struct iox2ps_dds_gateway_t {
  std::unique_ptr<Gateway> gateway;
};

namespace {

void say(const std::string &words, char *why, std::size_t room) {
  if (!why || room == 0) return;
  std::size_t len = std::min(words.size(), room - 1);
  std::memcpy(why, words.data(), len);
  why[len] = 0;
}

/* What DDS takes as a time that ends. */
Nanoseconds time_of(std::uint64_t nanoseconds) {
  return Nanoseconds(static_cast<std::int64_t>(std::min<std::uint64_t>(nanoseconds, std::uint64_t{1} << 60)));
}

constexpr std::uint32_t ok = IOX2PS_OK, unknown = IOX2PS_DDS_UNKNOWN, after_fork = IOX2PS_DDS_AFTER_FORK;

/* Whether this process has joined DDS, and whether it is a child of one that had. */
std::atomic<bool> has_joined{false}, is_child{false};

bool knows_forks() {
  static const bool knows = pthread_atfork(nullptr, nullptr, [] { is_child = is_child || has_joined; }) == 0;
  return knows;
}

/* What opens something refuses where memory or a thread isn't had. Elsewhere that ends the program. */
template <typename Open> std::uint32_t opened(char *why, std::size_t room, Open open) {
  if (is_child) return say("this process is a child of the one that has gateways", why, room), after_fork;
  std::string words;
  std::uint32_t code = IOX2PS_DDS_REFUSED;
  try {
    code = open(words);
  } catch (const std::exception &error) {
    return say(error.what(), why, room), code;
  }
  return say(words, why, room), code;
}

std::uint32_t code_of(Flushed flushed) {
  switch (flushed) {
  case Flushed::All: return ok;
  case Flushed::TimedOut: return IOX2PS_DDS_TIMEOUT;
  case Flushed::NoPeer: return IOX2PS_DDS_NO_PEER;
  }
  return ok;
}

} // namespace

extern "C" {

std::uint32_t iox2ps_dds_gateways_open(std::uint32_t dds_domain, std::size_t max_message_size, iox2ps_dds_gateways_t **gateways,
                                       char *why, std::size_t room) noexcept {
  return opened(why, room, [&](std::string &words) -> std::uint32_t {
    if (!knows_forks()) throw std::bad_alloc();
    std::shared_ptr<Group> group = Group::open(dds_domain, max_message_size, words);
    if (!group) return IOX2PS_DDS_REFUSED;
    has_joined = true;
    *gateways = new iox2ps_dds_gateways_t{std::move(group)};
    return ok;
  });
}

void iox2ps_dds_gateways_close(iox2ps_dds_gateways_t *gateways) noexcept {
  if (!is_child) delete gateways;
}

void iox2ps_dds_forward(iox2ps_dds_gateways_t *gateways, std::size_t most, iox2ps_dds_forwarded_t *forwarded) noexcept {
  *forwarded = is_child ? iox2ps_dds_forwarded_t{} : gateways->group->forward(most);
}

void iox2ps_dds_wait(iox2ps_dds_gateways_t *gateways, std::uint64_t nanoseconds, std::size_t most,
                     iox2ps_dds_forwarded_t *forwarded) noexcept {
  *forwarded = is_child ? iox2ps_dds_forwarded_t{} : gateways->group->wait(time_of(nanoseconds), most);
}

void iox2ps_dds_wake(iox2ps_dds_gateways_t *gateways) noexcept {
  if (!is_child) gateways->group->wake();
}

std::uint32_t iox2ps_dds_flush(iox2ps_dds_gateways_t *gateways, std::uint64_t nanoseconds) noexcept {
  return is_child ? after_fork : code_of(gateways->group->flush(time_of(nanoseconds)));
}

void iox2ps_dds_settings_defaults(iox2ps_dds_settings_t *settings, std::size_t element_size, std::uint32_t is_slice) noexcept {
  *settings = iox2ps_dds_settings_t{};
  settings->element_size = element_size;
  settings->is_slice = is_slice;
  settings->reader_limit = 64;
}

std::uint32_t iox2ps_dds_gateway_open(iox2ps_dds_gateways_t *gateways, iox2ps_domain_t *domain,
                                      const iox2ps_dds_settings_t *settings, iox2ps_dds_gateway_t **gateway, char *why,
                                      std::size_t room) noexcept {
  return opened(why, room, [&](std::string &words) {
    std::unique_ptr<Gateway> made;
    std::uint32_t code = Gateway::open(gateways->group, domain, *settings, made, words);
    if (code == ok) *gateway = new iox2ps_dds_gateway_t{std::move(made)};
    return code;
  });
}

void iox2ps_dds_gateway_close(iox2ps_dds_gateway_t *gateway) noexcept {
  if (!is_child) delete gateway;
}

void iox2ps_dds_counts(const iox2ps_dds_gateway_t *gateway, iox2ps_dds_counts_t *counts) noexcept {
  *counts = gateway->gateway->counts().read();
}

void iox2ps_dds_peers(iox2ps_dds_gateway_t *gateway, iox2ps_dds_peers_t *peers) noexcept {
  *peers = is_child ? iox2ps_dds_peers_t{} : gateway->gateway->topic().peers();
}

iox2ps_wide_t iox2ps_dds_publisher(const iox2ps_dds_gateway_t *gateway) noexcept { return gateway->gateway->publisher(); }

std::uint32_t iox2ps_dds_origin(iox2ps_dds_gateway_t *gateway, iox2ps_wide_t number, iox2ps_dds_origin_t *origin) noexcept {
  if (is_child) return after_fork;
  return gateway->gateway->incoming().origin(number, *origin) ? ok : unknown;
}

std::uint32_t iox2ps_dds_start(iox2ps_dds_gateway_t *gateway) noexcept {
  return opened(nullptr, 0, [&](std::string &) { return gateway->gateway->start(); });
}

void iox2ps_dds_stop(iox2ps_dds_gateway_t *gateway) noexcept {
  if (!is_child) gateway->gateway->stop();
}

} // extern "C"
