// SPDX-License-Identifier: Apache-2.0 OR MIT
/* What the programs with a gateway share: how options become settings, and what they print. */
#ifndef GATEWAY_PEER_HPP
#define GATEWAY_PEER_HPP

#include "iox2_pubsub_dds.hpp"
#include "peer.hpp"

#include <set>

using Bytes = std::uint8_t[];
using Gateway = iox2ps::dds::Gateway<Bytes>;
using namespace std::chrono_literals;

struct Peer {
  iox2ps::Domain<Bytes> domain;
  Gateway gateway;
};

template <typename P> iox2ps::Config<P> config_of(const Options &options, std::size_t len) {
  iox2ps::Config<P> config(options.number("service", 7), len);
  std::string mode = options.word("mode", "overflow");
  config.node_id(iox2ps::Id{options.number("node", 0), 0});
  config.max_publishers(options.number("publishers", 1) + 1).max_subscribers(2);
  config.subscriber_max_buffer_size(options.number("buffer", 16)).history_size(options.number("history", 0));
  config.enable_safe_overflow(mode == "overflow");
  config.backpressure_strategy(mode == "discard" ? iox2ps::BackpressureStrategy::DiscardData
                                                 : iox2ps::BackpressureStrategy::RetryUntilDelivered);
  return config;
}

inline iox2ps::dds::Settings settings_of(const Options &options) {
  iox2ps::dds::Settings settings;
  settings.topic = options.word("topic", "");
  settings.reader_limit = options.number("limit", 64);
  settings.volatile_reader = options.number("volatile", 0) != 0;
  settings.only_known = options.number("only_known", 0) != 0;
  settings.dds_domain = static_cast<std::uint32_t>(options.number("dds_domain", 0));
  if (options.word("reliability", "") == "best") settings.reliability = iox2ps::dds::Reliability::BestEffort;
  return settings;
}

template <typename P> iox2ps::dds::Gateway<P> gateway_of(iox2ps::Domain<P> &domain, const Options &options) {
  std::string why;
  auto gateway = iox2ps::dds::Gateway<P>::open(domain, settings_of(options), why);
  if (!gateway) {
    std::fprintf(stderr, "%s\n", why.c_str());
    std::exit(3);
  }
  return std::move(*gateway);
}

inline Peer peer_of(const Options &options) {
  auto domain = iox2ps::Domain<Bytes>::create(config_of<Bytes>(options, options.number("max", options.number("len", 64)))).expect("a domain");
  auto gateway = gateway_of(domain, options);
  return {domain, std::move(gateway)};
}

template <typename G> bool wait_for_peers(G &gateway, const Options &options) {
  auto start = Clock::now();
  std::size_t wanted = options.number("peers", 1);
  for (;;) {
    auto peers = gateway.peers();
    if (peers.readers >= wanted && peers.writers >= wanted) return true;
    if (!is_patient(start)) return false;
    gateway.wait(20ms);
  }
}

/* Stays until the test says so, as long as others are to see it. */
template <typename G> void stay(G &gateway, const Options &options) {
  Flag until = options.flag("until");
  auto start = Clock::now();
  while (!until.path.empty() && !until.is_up() && is_patient(start)) gateway.wait(10ms);
}

inline void print_counts(const iox2ps::dds::Counts &counts) {
  auto print = [](const char *name, std::uint64_t value) { std::printf("\"%s\": %llu, ", name, static_cast<unsigned long long>(value)); };
  print("sent", counts.sent);
  print("received", counts.received);
  print("own", counts.own);
  print("too_long", counts.too_long);
  print("other_size", counts.other_size);
  print("other_type", counts.other_type);
  print("malformed", counts.malformed);
  print("no_loan", counts.no_loan);
  print("not_sent", counts.not_sent);
  print("missed", counts.missed);
  print("take_failed", counts.take_failed);
  print("write_failed", counts.write_failed);
  print("receive_failed", counts.receive_failed);
  std::printf("\"last_dds_code\": %lld", static_cast<long long>(counts.last_dds_code));
}

/* Who sent the messages elsewhere, and how many nobody elsewhere has sent. */
struct Origins {
  std::set<std::pair<std::uint64_t, std::uint64_t>> all;
  std::uint64_t from_here = 0;

  template <typename G, typename S> void see(const G &gateway, const S &sample) {
    auto origin = gateway.origin(sample);
    if (origin) all.insert({origin->node.low, origin->publisher.low ^ origin->publisher.high});
    else from_here++;
  }
  void print() const {
    std::printf("\"origins\": %zu, \"node\": %llu, \"from_here\": %llu, ", all.size(),
                all.empty() ? 0ull : static_cast<unsigned long long>(all.begin()->first), static_cast<unsigned long long>(from_here));
  }
};

#endif
