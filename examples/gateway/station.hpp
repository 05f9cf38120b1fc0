// SPDX-License-Identifier: Apache-2.0 OR MIT
// What both programs in C++ have: a domain of readings, its ports, and the gateway that joins it to a topic of DDS.
#ifndef EXAMPLES_STATION_HPP
#define EXAMPLES_STATION_HPP

#include "iox2_pubsub_dds.hpp"
#include <chrono>
#include <cstdio>
#include <cstdlib>
#include <optional>
#include <string>

constexpr int readings = 5, most_seconds = 600;

class Station {
public:
  explicit Station(const char *topic)
      : domain_(iox2ps::Domain<double>::create(config()).expect("a domain")), publisher_(domain_.publisher().expect("a publisher")),
        subscriber_(domain_.subscriber().expect("a subscriber")), gateway_(join(domain_, topic)) {}

  void send(double celsius) { (void)publisher_.send_copy(celsius).expect("a send"); }

  // Waits a second at most for the topic.
  void wait_a_second() { gateway_.wait(std::chrono::seconds(1)); }

  // The next message of the other process, if there is one. This process' own come, too.
  std::optional<double> receive() {
    while (auto sample = subscriber_.receive().expect("a receive"))
      if (gateway_.origin(*sample)) return **sample;
    return std::nullopt;
  }

  // Whether a process that sends to the topic is there.
  bool has_writer() const { return gateway_.peers().writers > 0; }

private:
  // The history keeps what was sent for a process that comes later, or hasn't met this one yet.
  static iox2ps::Config<double> config() { return iox2ps::Config<double>(7).history_size(readings).subscriber_max_buffer_size(readings); }

  static iox2ps::dds::Gateway<double> join(iox2ps::Domain<double> domain, const char *topic) {
    std::string why;
    auto gateway = iox2ps::dds::Gateway<double>::open(std::move(domain), {topic}, why);
    if (gateway) return std::move(*gateway);
    std::fprintf(stderr, "%s\n", why.c_str());
    std::exit(1);
  }

  iox2ps::Domain<double> domain_;
  iox2ps::Publisher<double> publisher_;
  iox2ps::Subscriber<double> subscriber_;
  iox2ps::dds::Gateway<double> gateway_;
};

#endif
