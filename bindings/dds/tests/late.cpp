// SPDX-License-Identifier: Apache-2.0 OR MIT
/* Whoever comes late to a domain with a gateway misses nothing: a subscriber that is made after a message came, a thread that falls
 * asleep while one comes, and the gateway itself. near_gateway.c stands in for the gateway, so that the test says what comes when. */
#include "iox2_pubsub_dds.hpp"
#include "iox2_pubsub_shared.hpp"
#include "../../cpp/turns.hpp"
#include <optional>

using Number = std::uint64_t;
using WatchedThreads = iox2ps::ManyThreadsWith<Watched>;
using Domain = iox2ps::SharedDomain<Number, Watched>;
using Gateway = iox2ps::dds::Gateway<Number, WatchedThreads>;

#define CHECK(it) check((it), #it, __LINE__)

static void check(bool is_so, const char *what, int line) {
  if (is_so) return;
  std::fprintf(stderr, "dds/tests/late.cpp:%d: %s\n", line, what);
  std::abort();
}

static Domain with_history() {
  return Domain::create(iox2ps::Config<Number>(7).history_size(1).max_publishers(3)).expect("a domain");
}

static Gateway opened(const Domain &domain) {
  std::string why;
  return *Gateway::open(domain, {}, why);
}

static bool received(iox2ps::Subscriber<Number, WatchedThreads> &subscriber, Number wanted) {
  return subscriber.receive_copy().expect("a receive") == wanted;
}

static void a_late_subscriber_has_what_came_before() {
  auto domain = with_history();
  auto own = domain.publisher().expect("a publisher");
  auto gateway = opened(domain);
  CHECK(gateway.forward().received == 1);
  auto late = domain.subscriber().expect("a subscriber");
  CHECK(received(late, 1));
  /* A thread that waits in a subscriber which it makes. */
  CHECK(gateway.forward().received == 1);
  std::thread([&] { CHECK(domain.subscriber().expect("a subscriber").blocking_receive_copy().expect("a receive") == 2u); }).join();
  CHECK(received(late, 2));
}

static void a_late_gateway_has_what_came_before() {
  auto domain = with_history();
  auto publisher = domain.publisher().expect("a publisher");
  CHECK(publisher.send_copy(50).expect("a send").delivered() == 0u);
  auto gateway = opened(domain);
  CHECK(gateway.forward().sent == 1 && gateway.counts().sent == 50);
}

static void a_thread_that_falls_asleep_misses_nothing() {
  auto domain = with_history();
  auto subscriber = domain.subscriber().expect("a subscriber");
  auto gateway = opened(domain);
  auto receives = [&subscriber](Number number) {
    return [&subscriber, number] { CHECK(subscriber.blocking_receive_copy().expect("a receive") == number); };
  };
  /* It has tried, and isn't in the list of those who wait; and it is in the list. */
  auto late = stopped_after(1, receives(1));
  CHECK(gateway.forward().received == 1);
  late.go_on();
  late.join();
  auto sleeps = asleep_after(to_sleep, receives(2));
  CHECK(gateway.forward().received == 1);
  sleeps.join();
}

/* Gateways that are moved, take each other's place, and go leave no publisher behind that a subscriber would be connected to. */
static void a_gateway_that_goes_is_forgotten() {
  auto domain = with_history();
  auto other = with_history();
  std::optional<Gateway> gateway = opened(domain);
  auto moved = std::move(*gateway);
  gateway.reset();
  CHECK(moved.forward().received == 1);
  auto late = domain.subscriber().expect("a subscriber");
  CHECK(received(late, 1));
  moved = opened(other);
  CHECK(moved.forward().received == 1 && domain.publisher().has_value());
  auto here = domain.subscriber().expect("a subscriber"), there = other.subscriber().expect("a subscriber");
  CHECK(!here.receive().expect("a receive") && received(there, 1));
}

int main() {
  a_late_subscriber_has_what_came_before();
  a_late_gateway_has_what_came_before();
  a_thread_that_falls_asleep_misses_nothing();
  a_gateway_that_goes_is_forgotten();
  std::puts("nobody who comes late misses a message");
}
