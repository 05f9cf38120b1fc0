// SPDX-License-Identifier: Apache-2.0 OR MIT
// The settings of the gateway in C++, each by what reaches C: noted_settings.c stands in for the gateway, and says it. Prints
// each check that fails, and then "N passed, M failed".
#include "iox2_pubsub_dds.hpp"
#include <cstdio>

using iox2ps::dds::Reliability;
using iox2ps::dds::Settings;

static int passed = 0, failed = 0;

struct Reading {
  double celsius;
  std::uint64_t number;
};
template <> inline constexpr bool iox2ps::dds::any_bytes<Reading> = true;

/* What reached C. */
template <typename P> static std::string noted(const Settings &settings) {
  auto domain = iox2ps::Domain<P>::create(iox2ps::Config<P>(7, 4)).expect("a domain");
  std::string why;
  auto gateway = iox2ps::dds::Gateway<P>::open(domain, settings, why);
  return gateway ? "it was opened" : why;
}

static void check(const std::string &found, const std::string &wanted) {
  (found == wanted ? passed : failed)++;
  if (found != wanted) std::printf("%s, where it is to be %s\n", found.c_str(), wanted.c_str());
}

static void unset_settings_are_the_defaults() {
  check(noted<Reading>({}),
        "topic none, type Reading of 16, reliability 0, volatile 0, known 0, limit 64, domain 0, longest 16");
  check(noted<std::uint16_t[]>({}),
        "topic none, type u16 of 2 in slices, reliability 0, volatile 0, known 0, limit 64, domain 0, longest 8");
}

static void names_reach_c() {
  Settings settings;
  settings.topic = "a/topic";
  check(noted<Reading>(settings),
        "topic a/topic, type Reading of 16, reliability 0, volatile 0, known 0, limit 64, domain 0, longest 16");
  settings.type_name = "Other";
  check(noted<Reading>(settings), "topic a/topic, type Other of 16, reliability 0, volatile 0, known 0, limit 64, domain 0, longest 16");
}

static void qualities_reach_c() {
  Settings settings;
  settings.reliability = Reliability::BestEffort;
  check(noted<Reading>(settings),
        "topic none, type Reading of 16, reliability 1, volatile 0, known 0, limit 64, domain 0, longest 16");
  settings.reliability = Reliability::Reliable;
  settings.volatile_reader = true;
  check(noted<Reading>(settings),
        "topic none, type Reading of 16, reliability 0, volatile 1, known 0, limit 64, domain 0, longest 16");
  settings.volatile_reader = false;
  settings.only_known = true;
  check(noted<Reading>(settings),
        "topic none, type Reading of 16, reliability 0, volatile 0, known 1, limit 64, domain 0, longest 16");
}

static void numbers_reach_c() {
  Settings settings;
  settings.reader_limit = 5;
  settings.dds_domain = 3;
  settings.max_message_size = 40;
  check(noted<Reading>(settings),
        "topic none, type Reading of 16, reliability 0, volatile 0, known 0, limit 5, domain 3, longest 40");
  settings.max_message_size = 15; // shorter than a message of the domain
  check(noted<Reading>(settings),
        "topic none, type Reading of 16, reliability 0, volatile 0, known 0, limit 5, domain 3, longest 16");
}

int main() {
  unset_settings_are_the_defaults();
  names_reach_c();
  qualities_reach_c();
  numbers_reach_c();
  std::printf("%d passed, %d failed\n", passed, failed);
  return failed != 0;
}
