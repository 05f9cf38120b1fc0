// SPDX-License-Identifier: Apache-2.0 OR MIT
/* One process of a test: what isn't traffic alone.
 *   cases look|wake|values|voltages|twice|many|churn|threads|fork NAME VALUE .. */
#include "gateway_peer.hpp"
#include "iox2_pubsub_shared.hpp"

#include <cstring>
#include <sys/wait.h>
#include <thread>
#include <unistd.h>

namespace {

/* Says who is there: when the test says so, or that many seconds (hold) after what it waits for. Options:
 * ready (a file to make), until; writers, other_types, incompatible (how many it waits for), hold. */
int look_role(const Options &options) {
  Peer peer = peer_of(options);
  options.tell("ready");
  auto start = Clock::now();
  auto is_there = [&](const iox2ps::dds::Peers &peers) {
    return peers.writers >= options.number("writers", 0) && peers.other_types >= options.number("other_types", 0) &&
           peers.incompatible_writers + peers.incompatible_readers >= options.number("incompatible", 0);
  };
  while (!is_there(peer.gateway.peers()) && is_patient(start)) peer.gateway.wait(10ms);
  stay(peer.gateway, options);
  auto end = Clock::now() + std::chrono::seconds(options.number("hold", 0));
  while (Clock::now() < end) peer.gateway.wait(10ms);
  auto peers = peer.gateway.peers();
  std::printf("{\"readers\": %u, \"writers\": %u, \"incompatible_readers\": %u, \"incompatible_writers\": %u, "
              "\"other_types\": %u, \"other_type_name\": \"%s\", ",
              peers.readers, peers.writers, peers.incompatible_readers, peers.incompatible_writers, peers.other_types,
              peers.other_type);
  print_counts(peer.gateway.counts());
  std::printf("}\n");
  return 0;
}

/* Another thread ends a wait. */
int wake_role(const Options &options) {
  Peer peer = peer_of(options);
  auto waker = peer.gateway.waker();
  auto start = Clock::now();
  std::thread other([waker] {
    std::this_thread::sleep_for(200ms);
    waker.wake();
  });
  peer.gateway.wait(patience);
  double first = seconds_since(start);
  other.join();
  peer.gateway.wait(100ms); // the wake was for one wait
  std::printf("{\"first_s\": %.3f, \"both_s\": %.3f}\n", first, seconds_since(start));
  return 0;
}

struct Reading {
  double celsius;
  std::uint64_t number;
};

/* Of the same size and alignment. */
struct Voltage {
  double volts;
  std::uint64_t number;
};

} // namespace

template <> inline constexpr bool iox2ps::dds::any_bytes<Reading> = true;
template <> inline constexpr bool iox2ps::dds::any_bytes<Voltage> = true;

namespace {

/* A domain of single values. */
template <typename T> int values_role(const Options &options) {
  auto domain = iox2ps::Domain<T>::create(config_of<T>(options, 1)).expect("a domain");
  auto gateway = gateway_of(domain, options);
  auto subscriber = domain.subscriber().expect("a subscriber");
  std::uint64_t good = 0, wrong = 0;
  bool flushed = false;
  auto start = Clock::now();
  if (options.number("count", 0) > 0) {
    auto publisher = domain.publisher().expect("a publisher");
    if (!wait_for_peers(gateway, options)) return 4;
    for (std::uint64_t number = 1; number <= options.number("count", 0); number++) {
      (void)publisher.send_copy(T{static_cast<double>(number) / 2, number}).expect("a send");
      while (gateway.forward().held > 0) gateway.wait(1ms);
    }
    flushed = gateway.flush(patience);
    options.tell("sent");
    stay(gateway, options);
  }
  Flag until = options.flag("until");
  while (good < options.number("expect", 0) && is_patient(start)) {
    bool over = until.is_up();
    auto now = gateway.wait(10ms);
    if (over && now.received + now.dropped == 0) break;
    while (auto sample = subscriber.receive().expect("a receive")) {
      T value = **sample;
      double expected = static_cast<double>(value.number) / 2;
      if (std::memcmp(&value, &expected, sizeof expected) == 0 && value.number == good + 1) good++;
      else wrong++;
    }
  }
  auto peers = gateway.peers();
  std::printf("{\"good\": %llu, \"wrong\": %llu, \"flushed\": %d, \"other_types\": %u, \"other_type_name\": \"%s\", ",
              static_cast<unsigned long long>(good), static_cast<unsigned long long>(wrong), flushed, peers.other_types,
              peers.other_type);
  print_counts(gateway.counts());
  std::printf("}\n");
  return 0;
}

template <typename P> bool is_refused(iox2ps::Domain<P> domain, const char *topic, const char *words) {
  std::string why;
  auto gateway = iox2ps::dds::Gateway<P>::open(domain, {topic}, why);
  std::fprintf(stderr, "%s\n", why.c_str());
  return !gateway && why.find(words) != std::string::npos;
}

/* A second gateway for a domain or a topic of the process is refused, until the first is gone. */
int twice_role(const Options &options) {
  auto one = iox2ps::Domain<Bytes>::create(config_of<Bytes>(options, 64)).expect("a domain");
  auto other = iox2ps::Domain<Bytes>::create(config_of<Bytes>(options, 64)).expect("a domain");
  auto longer = iox2ps::Domain<Bytes>::create(config_of<Bytes>(options, 2000000)).expect("a domain");
  int refused = 0;
  {
    auto gateway = gateway_of(one, options);
    std::string topic = options.word("topic", "");
    refused += is_refused(one, (topic + "/other").c_str(), "for the domain");
    refused += is_refused(other, topic.c_str(), "for the topic");
    refused += is_refused(longer, (topic + "/other").c_str(), "longer");
  }
  auto gateway = gateway_of(other, options); // which takes the ports that a refusal has to give back
  gateway = gateway_of(one, Options(options).with("topic", options.word("topic", "") + "/again"));
  auto publisher = one.publisher().expect("a publisher");
  const std::uint8_t byte = 1;
  auto receivers = publisher.send_copy(&byte, 1).expect("a send").delivered().value_or(0);
  std::printf("{\"refused\": %d, \"sent\": %zu, \"receivers\": %zu}\n", refused, gateway.forward().sent, receivers);
  return 0;
}

/* Several domains of different types, polled together. */
int many_role(const Options &options) {
  std::string why, topic = options.word("topic", "");
  auto bytes = iox2ps::Domain<Bytes>::create(config_of<Bytes>(options, 1000)).expect("a domain");
  auto readings = iox2ps::Domain<Reading>::create(config_of<Reading>(options, 1)).expect("a domain");
  auto numbers = iox2ps::Domain<double>::create(config_of<double>(options, 1)).expect("a domain");
  auto all = iox2ps::dds::Gateways::open(0, 1000, why);
  if (!all) return std::fprintf(stderr, "%s\n", why.c_str()), 3;
  auto first = all->add(bytes, {topic + "/bytes"}, why);
  auto second = all->add(readings, {topic + "/readings"}, why);
  auto third = all->add(numbers, {topic + "/numbers"}, why);
  if (!first || !second || !third) return std::fprintf(stderr, "%s\n", why.c_str()), 3;
  if (!wait_for_peers(*first, options) || !wait_for_peers(*second, options) || !wait_for_peers(*third, options)) return 4;
  auto to_bytes = bytes.publisher().expect("a publisher");
  auto to_readings = readings.publisher().expect("a publisher");
  auto to_numbers = numbers.publisher().expect("a publisher");
  std::uint64_t count = options.number("count", 100);
  auto done = [&] {
    auto is_done = [&](const iox2ps::dds::Counts &counts) { return counts.received >= count; };
    return is_done(first->counts()) && is_done(second->counts()) && is_done(third->counts());
  };
  auto start = Clock::now();
  for (std::uint64_t number = 1; number <= count; number++) {
    std::uint8_t byte = static_cast<std::uint8_t>(number);
    (void)to_bytes.send_copy(&byte, 1).expect("a send");
    (void)to_readings.send_copy({1, number}).expect("a send");
    (void)to_numbers.send_copy(static_cast<double>(number)).expect("a send");
    while (all->forward().held > 0) all->wait(1ms);
  }
  while (!done() && is_patient(start)) all->wait(10ms);
  all->flush(patience);
  stay(*all, options);
  std::printf("{\"bytes\": %llu, \"readings\": %llu, \"numbers\": %llu}\n", static_cast<unsigned long long>(first->counts().received),
              static_cast<unsigned long long>(second->counts().received), static_cast<unsigned long long>(third->counts().received));
  return 0;
}

/* Gateways come and go while the reader of another one of this thread is full. */
int churn_role(const Options &options) {
  Peer full = peer_of(options);
  auto subscriber = full.domain.subscriber().expect("a subscriber"); // which nobody empties
  auto start = Clock::now();
  while (!full.gateway.wait(10ms).blocked && is_patient(start)) {}
  std::this_thread::sleep_for(300ms);
  auto other = iox2ps::Domain<Bytes>::create(config_of<Bytes>(options, 64)).expect("a domain");
  std::uint64_t opened = 0;
  for (; opened < options.number("count", 20); opened++) {
    auto gateway = gateway_of(other, Options(options).with("topic", options.word("topic", "") + "/" + std::to_string(opened)));
    gateway.forward();
  }
  std::printf("{\"opened\": %llu, \"blocked\": %u}\n", static_cast<unsigned long long>(opened), full.gateway.forward().blocked);
  return 0;
}

/* The gateway has threads of its own, and this program's threads share the domain. */
int threads_role(const Options &options) {
  using Shared = iox2ps::SharedDomain<Bytes>;
  auto domain = Shared::create(config_of<Bytes>(options, 64)).expect("a domain");
  auto subscriber = domain.subscriber().expect("a subscriber");
  auto publisher = domain.publisher().expect("a publisher");
  std::string why;
  auto gateway = iox2ps::dds::Gateway<Bytes, iox2ps::ManyThreads>::open(domain, settings_of(options), why);
  if (!gateway) return std::fprintf(stderr, "%s\n", why.c_str()), 3;
  if (!wait_for_peers(*gateway, options) || !gateway->start() || gateway->start()) return 4;
  std::uint64_t count = options.number("count", 1000), own = 0, mine = static_cast<std::uint64_t>(getpid());
  std::thread sender([&] {
    for (std::uint64_t number = 1; number <= count; number++) {
      auto loan = publisher.loan_slice(64).expect("a loan");
      fill(loan.data(), 64, Head{mine, 0, number});
      (void)loan.blocking_send().expect("a send");
    }
  });
  Checks checks;
  auto start = Clock::now();
  while ((checks.good < count || own < count) && is_patient(start)) {
    auto sample = subscriber.timed_receive(100ms).expect("a receive");
    if (!sample) continue;
    Head head;
    std::memcpy(&head, sample->data(), sizeof head);
    if (head.process == mine) own++;
    else checks.see(sample->data(), sample->size());
  }
  double all = seconds_since(start);
  if (own < count || checks.good < count) domain.stop_waits(); // so that the sender ends
  sender.join();
  bool flushed = gateway->flush(patience);
  // The last one is counted once the gateway's own subscriber, which may be full, has taken it too.
  while (gateway->counts().received < count && is_patient(start)) std::this_thread::sleep_for(1ms);
  gateway->stop();
  std::printf("{\"own_seen\": %llu, \"all_s\": %.3f, \"flushed\": %d, ", static_cast<unsigned long long>(own), all, flushed);
  checks.print();
  std::printf(", ");
  print_counts(gateway->counts());
  std::printf("}\n");
  return 0;
}

/* What a child has of its parent's gateway: nothing moves, and what it closes stays its parent's. */
int child_of(iox2ps_dds_gateways_t *gateways, iox2ps_dds_gateway_t *gateway) {
  alarm(static_cast<unsigned>(patience.count()));
  iox2ps_dds_forwarded_t now{1, 1, 1, 1, 1, 0};
  iox2ps_dds_forward(gateways, 10, &now);
  if (now.sent + now.received + now.dropped + now.held + now.blocked > 0) return 1;
  iox2ps_dds_wait(gateways, UINT64_MAX, 10, &now);
  iox2ps_dds_wake(gateways);
  iox2ps_dds_gateways_t *own = nullptr;
  char why[64] = "";
  if (iox2ps_dds_flush(gateways, UINT64_MAX) != IOX2PS_DDS_AFTER_FORK || iox2ps_dds_start(gateway) != IOX2PS_DDS_AFTER_FORK) return 2;
  if (iox2ps_dds_gateways_open(0, 0, &own, why, sizeof why) != IOX2PS_DDS_AFTER_FORK || !std::strstr(why, "child")) return 3;
  iox2ps_dds_origin_t origin;
  if (iox2ps_dds_origin(gateway, iox2ps_wide_t{1, 0}, &origin) != IOX2PS_DDS_AFTER_FORK) return 4;
  iox2ps_dds_stop(gateway);
  iox2ps_dds_gateway_close(gateway);
  iox2ps_dds_gateways_close(gateways);
  return 0;
}

/* A process that forks goes on sending. */
int fork_role(const Options &options) {
  iox2ps_domain_t domain = IOX2PS_DOMAIN_INIT;
  iox2ps_config_t config;
  iox2ps_dds_settings_t settings;
  iox2ps_dds_gateways_t *gateways = nullptr;
  iox2ps_dds_gateway_t *gateway = nullptr;
  iox2ps_publisher_t publisher;
  std::string topic = options.word("topic", "");
  iox2ps_config_defaults(&config, 7, 8, 8);
  iox2ps_dds_settings_defaults(&settings, 8, 0);
  settings.topic = topic.c_str();
  if (iox2ps_domain_create(&domain, &config) != IOX2PS_OK) return 2;
  if (iox2ps_dds_gateways_open(0, 0, &gateways, nullptr, 0) != IOX2PS_OK) return 3;
  if (iox2ps_dds_gateway_open(gateways, &domain, &settings, &gateway, nullptr, 0) != IOX2PS_OK) return 4;
  if (iox2ps_publisher_create(&domain, &publisher) != IOX2PS_OK) return 5;
  pid_t child = fork();
  if (child == 0) _exit(child_of(gateways, gateway));
  int status = -1;
  waitpid(child, &status, 0);
  std::uint64_t number = 1;
  std::size_t receivers = 0;
  iox2ps_blocked_t blocked;
  iox2ps_status_t sent = iox2ps_publisher_send_copy(&domain, &publisher, &number, sizeof number, &receivers, &blocked);
  iox2ps_dds_forwarded_t now{};
  iox2ps_dds_forward(gateways, 10, &now);
  std::uint32_t flushed = iox2ps_dds_flush(gateways, 0);
  iox2ps_dds_gateway_close(gateway);
  iox2ps_dds_gateways_close(gateways);
  std::printf("{\"child\": %d, \"code\": %u, \"sent\": %zu, \"flushed\": %u}\n", status, sent, now.sent, flushed);
  return iox2ps_domain_destroy(&domain) == IOX2PS_OK ? 0 : 6;
}

} // namespace

int main(int count, char **words) {
  Options options(count, words);
  std::string role = count > 1 ? words[1] : "";
  if (role == "look") return look_role(options);
  if (role == "wake") return wake_role(options);
  if (role == "values") return values_role<Reading>(options);
  if (role == "voltages") return values_role<Voltage>(options);
  if (role == "twice") return twice_role(options);
  if (role == "many") return many_role(options);
  if (role == "churn") return churn_role(options);
  if (role == "threads") return threads_role(options);
  if (role == "fork") return fork_role(options);
  std::fprintf(stderr, "no such role\n");
  return 2;
}
