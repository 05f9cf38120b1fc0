// SPDX-License-Identifier: Apache-2.0 OR MIT
/* This library, by the classes of C++: a domain forth and one back, each for the only thread of its process. */
#include "figures.h"
#include "iox2_pubsub_processes.hpp"

#include <cstdio>
#include <cstdlib>
#include <optional>
#include <string>

namespace {

using Message = std::uint64_t[];
using Domain = iox2ps::Domain<Message>;

traffic_t is;
std::optional<iox2ps::Publisher<Message>> publisher;
std::optional<iox2ps::Subscriber<Message>> subscriber;

template <typename T> T must(iox2ps::Result<T> result) {
  if (result.has_value()) return std::move(result).value();
  std::fprintf(stderr, "%s: %s\n", text(result.error()), iox2ps::why_refused());
  std::_Exit(1);
}

std::size_t len() { return is.bytes / sizeof(std::uint64_t); }

Domain way(const char *which) {
  iox2ps::Config<Message> config(7, len());
  config.max_publishers(1).max_subscribers(*which == 'f' ? is.subscribers : 1).subscriber_max_buffer_size(is.buffer).enable_safe_overflow(false);
  iox2ps::ProcessesOptions options;
  if (is.sleeps) options.spins(0);
  return must(Domain::open_or_create(std::string(is.name) + "." + which, config, options));
}

} // namespace

void carrier_begin(const traffic_t *traffic) { is = *traffic; }

void carrier_open(uint32_t process) {
  const char *sends_on = process == 0 ? "forth" : "back", *receives_on = process == 0 ? "back" : "forth";
  if (process == 0 || (process == 1 && !is.is_one_way)) publisher = must(way(sends_on).publisher());
  if (process > 0 || !is.is_one_way) subscriber = must(way(receives_on).subscriber());
}

void carrier_send(uint64_t number) {
  auto loan = must(publisher->loan_slice_uninit(len()));
  static_cast<volatile std::uint64_t &>(loan[0]) = number;
  auto sent = must(is.sleeps ? loan.blocking_send() : loan.send());
  /* Without a wait of its own it spins until something has made room: the library looks 2000 times before it sleeps. */
  if (sent.blocked()) static_cast<void>(must(sent.blocked()->blocking_retry()));
}

uint64_t carrier_receive(void) {
  while (true) {
    auto sample = must(is.sleeps ? subscriber->blocking_receive() : subscriber->receive());
    if (sample) return static_cast<const volatile std::uint64_t &>((*sample)[0]);
  }
}

void carrier_close(void) {
  publisher.reset();
  subscriber.reset();
}
