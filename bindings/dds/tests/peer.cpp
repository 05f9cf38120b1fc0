// SPDX-License-Identifier: Apache-2.0 OR MIT
/* One process of a test: a domain with a gateway, and traffic.
 *   peer send|receive|both|ping|pong NAME VALUE .. */
#include "gateway_peer.hpp"

#include <csignal>

namespace {

/* Sends in the domain, and lets the gateway work while the send is blocked. */
void send(Peer &peer, iox2ps::Publisher<Bytes> &publisher, std::size_t len, const Head &head) {
  auto loan = publisher.loan_slice(len).expect("a loan");
  fill(loan.data(), len, head);
  auto sent = loan.send().expect("a send");
  if (!sent.blocked()) return;
  while (auto ended = sent.blocked()->retry()) {
    if (*ended) return;
    peer.gateway.wait(1ms);
  }
}

/* Options: count, len, publishers, gentle (0: send on while messages wait for the topic), more_when (a file:
 * that many messages more once it is there), sent (a file to make when all are), late (1: one message more,
 * once somebody is there), until (a file: to stay until it is there). */
int send_role(const Options &options) {
  Peer peer = peer_of(options);
  std::vector<iox2ps::Publisher<Bytes>> publishers;
  for (std::size_t at = 0; at < options.number("publishers", 1); at++) publishers.push_back(peer.domain.publisher().expect("a publisher"));
  if (options.number("peers", 1) > 0 && !wait_for_peers(peer.gateway, options)) return 4;
  Flag more_when = options.flag("more_when");
  std::uint64_t more = options.number("count", 1000), count = more_when.path.empty() ? more : UINT64_MAX;
  std::size_t len = options.number("len", 64);
  std::uint64_t every = options.number("every_us", 0), forward_each = options.number("each", 1);
  auto start = Clock::now();
  double cpu = cpu_seconds();
  std::size_t most_held = 0;
  for (std::uint64_t number = 0; number < count; number++) {
    if (count == UINT64_MAX && more_when.is_up()) count = number + more;
    std::size_t which = number % publishers.size();
    send(peer, publishers[which], len, Head{static_cast<std::uint64_t>(getpid()), which, number / publishers.size() + 1});
    if ((number + 1) % forward_each != 0) continue;
    auto now = peer.gateway.forward();
    most_held = std::max(most_held, now.held);
    while (options.number("gentle", 1) != 0 && now.held > 0) now = peer.gateway.wait(1ms);
    if (every > 0) usleep(static_cast<useconds_t>(every));
  }
  double sending = seconds_since(start);
  bool acknowledged = peer.gateway.flush(std::chrono::seconds(options.number("flush", patience.count())));
  double all = seconds_since(start);
  cpu = cpu_seconds() - cpu;
  options.tell("sent");
  if (options.number("late", 0) != 0) {
    if (!wait_for_peers(peer.gateway, Options(options).with("peers", "1"))) return 4;
    send(peer, publishers[0], len, Head{static_cast<std::uint64_t>(getpid()), 0, count / publishers.size() + 1});
    acknowledged = peer.gateway.flush(std::chrono::seconds(options.number("flush", patience.count())));
  }
  stay(peer.gateway, options);
  std::printf("{\"count\": %llu, \"sending_s\": %.3f, \"acknowledged\": %d, \"all_s\": %.3f, \"cpu_s\": %.4f, \"most_held\": %zu, ",
              static_cast<unsigned long long>(count), sending, acknowledged, all, cpu, most_held);
  print_counts(peer.gateway.counts());
  std::printf("}\n");
  return 0;
}

/* Options: expect, until (a file: it ends when that is there), idle (seconds without a message after which it ends; first before
 * there was one), slow_us, die_after, ready (a file to make), seen (a file to make after seen_after messages). */
int receive_role(const Options &options) {
  Peer peer = peer_of(options);
  auto subscriber = peer.domain.subscriber().expect("a subscriber");
  options.tell("ready");
  Flag until = options.flag("until");
  Checks checks;
  Origins origins;
  std::uint64_t expect = options.number("expect", 1000), die_after = options.number("die_after", 0), slow = options.number("slow_us", 0);
  std::uint64_t stall_after = options.number("stall_after", 0), stall = options.number("stall_s", 0);
  std::uint64_t seen_after = options.number("seen_after", 0);
  double idle = static_cast<double>(options.number("idle", patience.count())), first_idle = static_cast<double>(options.number("first", patience.count()));
  auto start = Clock::now(), last = start, first = start;
  double cpu = 0;
  while (checks.good < expect && seconds_since(last) < (checks.good == 0 ? first_idle : idle) && !until.is_up()) {
    peer.gateway.wait(10ms);
    while (auto sample = subscriber.receive().expect("a receive")) {
      checks.see(sample->data(), sample->size());
      origins.see(peer.gateway, *sample);
      last = Clock::now();
      if (checks.good == 1) first = last, cpu = cpu_seconds();
      if (checks.good == die_after) raise(SIGKILL);
      if (checks.good == seen_after) options.tell("seen");
      if (slow > 0) usleep(static_cast<useconds_t>(slow));
      if (stall > 0 && checks.good == stall_after) {
        auto end = Clock::now() + std::chrono::seconds(stall);
        while (Clock::now() < end) {
          peer.gateway.wait(10ms);
          usleep(10000);
        }
        last = Clock::now();
      }
    }
  }
  double all = std::chrono::duration<double>(last - first).count();
  cpu = cpu_seconds() - cpu;
  for (int more = 0; more < 20; more++) { // also what comes too much
    peer.gateway.wait(10ms);
    while (auto sample = subscriber.receive().expect("a receive")) checks.see(sample->data(), sample->size());
  }
  auto peers = peer.gateway.peers();
  std::printf("{\"receiving_s\": %.3f, \"cpu_s\": %.4f, \"writers\": %u, \"lost\": %u, ", all, cpu, peers.writers, peers.lost);
  std::printf("\"largest_kb\": %ld, ", largest_kilobytes());
  origins.print();
  checks.print();
  std::printf(", ");
  print_counts(peer.gateway.counts());
  std::printf("}\n");
  return 0;
}

/* Sends and receives at the same time. */
int both_role(const Options &options) {
  Peer peer = peer_of(options);
  auto subscriber = peer.domain.subscriber().expect("a subscriber");
  auto publisher = peer.domain.publisher().expect("a publisher");
  if (!wait_for_peers(peer.gateway, options)) return 4;
  std::uint64_t count = options.number("count", 1000), number = 0, own = 0, mine = static_cast<std::uint64_t>(getpid());
  std::size_t len = options.number("len", 64);
  Checks checks;
  Origins own_origins, origins;
  std::optional<iox2ps::BlockedSend<Bytes>> blocked;
  auto start = Clock::now(), last = start;
  while ((checks.good < count || own < count || blocked) && is_patient(last)) {
    peer.gateway.wait(1ms);
    while (auto sample = subscriber.receive().expect("a receive")) {
      Head head;
      std::memcpy(&head, sample->data(), sizeof head);
      last = Clock::now();
      (head.process == mine ? own_origins : origins).see(peer.gateway, *sample);
      if (head.process == mine) own++;
      else checks.see(sample->data(), sample->size());
    }
    if (blocked) {
      auto ended = blocked->retry().expect("a retry");
      if (!ended) continue;
      blocked.reset();
      last = Clock::now();
    }
    for (int burst = 0; burst < 64 && number < count && !blocked; burst++) {
      auto loan = publisher.loan_slice(len).expect("a loan");
      fill(loan.data(), len, Head{mine, 0, ++number});
      auto sent = loan.send().expect("a send");
      if (sent.blocked()) blocked = std::move(sent.blocked());
    }
  }
  double all = seconds_since(start);
  auto now = peer.gateway.forward();
  auto peers = peer.gateway.peers();
  peer.gateway.flush(patience);
  std::printf("{\"held\": %zu, \"blocked\": %u, \"readers\": %u, \"writers\": %u, \"all_s\": %.3f, \"published\": %llu, \"own_seen\": %llu, ",
              now.held, now.blocked, peers.readers, peers.writers, all, static_cast<unsigned long long>(number),
              static_cast<unsigned long long>(own));
  std::printf("\"own_origins\": %zu, ", own_origins.all.size());
  origins.print();
  checks.print();
  std::printf(", ");
  print_counts(peer.gateway.counts());
  std::printf("}\n");
  return 0;
}

int ping_role(const Options &options) {
  Peer peer = peer_of(options);
  auto subscriber = peer.domain.subscriber().expect("a subscriber");
  auto publisher = peer.domain.publisher().expect("a publisher");
  if (!wait_for_peers(peer.gateway, options)) return 4;
  std::vector<double> times;
  auto mine = static_cast<std::uint64_t>(getpid());
  std::size_t len = options.number("len", 64);
  for (std::uint64_t number = 1; number <= options.number("count", 1000); number++) {
    auto start = Clock::now();
    send(peer, publisher, len, Head{mine, 0, number});
    peer.gateway.forward();
    for (bool back = false; !back && seconds_since(start) < 2;) {
      while (auto sample = subscriber.receive().expect("a receive")) {
        Head head;
        std::memcpy(&head, sample->data(), sizeof head);
        if (head.process != mine && head.number == number) back = true;
      }
      if (!back) peer.gateway.wait(10ms);
      else times.push_back(seconds_since(start) * 1e6);
    }
  }
  print_latencies(times);
  return 0;
}

int pong_role(const Options &options) {
  Peer peer = peer_of(options);
  auto subscriber = peer.domain.subscriber().expect("a subscriber");
  auto publisher = peer.domain.publisher().expect("a publisher");
  auto mine = static_cast<std::uint64_t>(getpid());
  auto last = Clock::now();
  std::size_t len = options.number("len", 64);
  std::uint64_t answered = 0;
  while (answered < options.number("count", 1000) && seconds_since(last) < 10) {
    peer.gateway.wait(10ms);
    std::vector<std::uint64_t> questions; // answered when its own earlier answers are out: a buffer has few
    while (auto sample = subscriber.receive().expect("a receive")) {
      Head head;
      std::memcpy(&head, sample->data(), sizeof head);
      if (head.process != mine) questions.push_back(head.number);
    }
    for (std::uint64_t number : questions) {
      last = Clock::now();
      send(peer, publisher, len, Head{mine, 0, number});
      peer.gateway.forward();
      answered++;
    }
  }
  peer.gateway.flush(2s);
  return 0;
}

} // namespace

int main(int count, char **words) {
  Options options(count, words);
  std::string role = count > 1 ? words[1] : "";
  if (role == "send") return send_role(options);
  if (role == "receive") return receive_role(options);
  if (role == "both") return both_role(options);
  if (role == "ping") return ping_role(options);
  if (role == "pong") return pong_role(options);
  std::fprintf(stderr, "no such role\n");
  return 2;
}
