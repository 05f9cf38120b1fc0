// SPDX-License-Identifier: Apache-2.0 OR MIT
/* Processes that share domains by the classes of C++: threads that wait, listeners, descriptors and wait sets hear of what others bring,
 * and of their deaths. */
#include "iox2_pubsub_wait_set.hpp"
#include "roles.hpp"
#include <atomic>
#include <condition_variable>
#include <memory>
#include <optional>
#include <poll.h>
#include <vector>

using Domain = iox2ps::SharedDomain<Reading>;
using Subscriber = iox2ps::Subscriber<Reading, iox2ps::ManyThreads>;

namespace {

Domain opened(const std::string &name, const iox2ps::ProcessesOptions &options = by_wakes) { return open_by<Domain>(name, options); }

/* ---- other roles */

void sends_one(const std::string &name) {
  auto domain = opened(name);
  auto publisher = domain.publisher().expect("a publisher");
  CHECK(publisher.send_copy({1, {}}).has_value());
  pause();
}
/* Sends what it is told in a domain of its own. */
void sends_when_told(const std::string &name) {
  auto domain = opened(name), tells = opened(name + ".told");
  auto publisher = domain.publisher().expect("a publisher");
  auto subscriber = tells.subscriber().expect("a subscriber");
  while (auto sample = subscriber.blocking_receive().expect("a receive")) CHECK(publisher.send_copy(**sample).has_value());
}
void has_a_publisher(const std::string &name) {
  auto domain = opened(name, by_looks);
  auto publisher = domain.publisher().expect("a publisher");
  pause();
}
void has_a_subscriber(const std::string &name) {
  auto domain = opened(name, by_looks);
  auto subscriber = domain.subscriber().expect("a subscriber");
  pause();
}
/* A listener that throws ends its program, as in a domain of one process. */
void throws(const std::string &name) {
  std::set_terminate([] { _exit(42); });
  auto domain = opened(name);
  auto subscriber = domain.subscriber().expect("a subscriber");
  auto listener = [] { throw 7; };
  CHECK(subscriber.set_listener(listener).has_value());
  auto other = domain.subscriber().expect("a subscriber"); /* who sees it knows that there is a listener */
  pause();
}

/* ---- tests */

/* Each waits for the other by turns, in order, and nothing is lost. */
void messages_come_and_make_room() {
  std::string name = name_of("turns");
  auto domain = opened(name);
  auto subscriber = domain.subscriber().expect("a subscriber");
  pid_t child = started("sends", name);
  receive_all(subscriber, 1, messages);
  CHECK(status_of(child) == 0);
  auto publisher = domain.publisher().expect("a publisher");
  subscriber.close();
  child = started("receives", name);
  connect(domain, publisher);
  send_all(publisher);
  CHECK(status_of(child) == 0);
}

/* Several threads wait, of which one sleeps for all: also when that one has what it wants, and goes. */
void all_threads_hear() {
  std::string name = name_of("threads");
  auto domain = opened(name);
  std::vector<Subscriber> subscribers;
  for (int i = 0; i < 3; i++) subscribers.push_back(domain.subscriber().expect("a subscriber"));
  std::vector<std::thread> threads;
  for (std::uint64_t last : {std::uint64_t(1), messages / 2, messages}) {
    threads.emplace_back([last, subscriber = &subscribers[threads.size()]] {
      receive_all(*subscriber, 1, last);
      subscriber->close();
    });
  }
  pid_t child = started("sends", name);
  for (auto &thread : threads) thread.join();
  CHECK(status_of(child) == 0);
}

/* A listener is called for what comes, and not for what waits already. */
void a_listener_begins_where_it_is_set() {
  std::atomic<int> calls{0};
  auto domain = opened(name_of("begins"));
  auto subscriber = domain.subscriber().expect("a subscriber");
  auto publisher = domain.publisher().expect("a publisher");
  CHECK(publisher.send_copy({1, {}})->delivered() == 1u);
  CHECK(subscriber.set_listener([&] { calls++; }).has_value() && calls == 0);
  CHECK(publisher.send_copy({2, {}})->delivered() == 1u && calls == 1);
}

/* Also where the thread that sleeps for all has last heard of a message that nobody listened to. */
void a_listener_is_set_again() {
  constexpr int turns = 6;
  std::string name = name_of("again");
  std::atomic<bool> is_called{false};
  auto domain = opened(name), tells = opened(name + ".told");
  auto subscriber = domain.subscriber().expect("a subscriber");
  auto publisher = tells.publisher().expect("a publisher");
  auto is_received = [&] { return subscriber.receive()->has_value(); };
  pid_t child = started("sends_when_told", name);
  connect(tells, publisher);
  for (int turn = 0; turn < turns; turn++) {
    CHECK(publisher.send_copy({1, {}})->delivered() == 1u);
    until(is_received);
    std::this_thread::sleep_for(20ms); /* mostly it sleeps again by then */
    is_called = false;
    CHECK(subscriber.set_listener([&] { is_called = true; }).has_value());
    CHECK(publisher.send_copy({2, {}})->delivered() == 1u);
    until([&] { return is_called.load(); });
    until(is_received);
    subscriber.clear_listener();
  }
  kill_it(child);
}

/* A listener, a descriptor and a wait set, of which no thread of this process waits in the domain. */
void listeners_hear() {
  std::string name = name_of("listeners");
  auto domain = opened(name);
  auto subscriber = domain.subscriber().expect("a subscriber"), with_descriptor = domain.subscriber().expect("a subscriber");
  auto in_set = domain.subscriber().expect("a subscriber");
  std::mutex mutex;
  std::condition_variable signal;
  bool has_come = false;
  std::uint64_t next = 1;
  CHECK(subscriber.set_listener([&] {
    std::lock_guard<std::mutex> lock(mutex);
    has_come = true;
    signal.notify_all();
  }).has_value());
  auto descriptor = with_descriptor.message_fd().expect("a descriptor");
  std::thread polls([&] {
    for (std::uint64_t number = 1; number <= messages;) {
      pollfd one = {descriptor.fd(), POLLIN, 0};
      CHECK(poll(&one, 1, -1) == 1);
      descriptor.reset();
      while (auto sample = with_descriptor.receive().expect("a receive")) CHECK((*sample)->number == number++);
    }
  });
  std::thread waits([&] {
    auto set = iox2ps::WaitSet::create().expect("a set");
    auto guard = set.attach_notification(in_set).expect("a guard");
    std::uint64_t number = 1;
    auto ended = set.wait_and_process([&](iox2ps::WaitSetAttachmentId id) {
      CHECK(id.has_event_from(guard));
      while (auto sample = in_set.receive().expect("a receive")) CHECK((*sample)->number == number++);
      return number > messages ? iox2ps::CallbackProgression::Stop : iox2ps::CallbackProgression::Continue;
    });
    CHECK(ended.value() == iox2ps::WaitSetRunResult::StopRequest);
  });
  pid_t child = started("sends", name);
  while (next <= messages) {
    std::unique_lock<std::mutex> lock(mutex);
    signal.wait(lock, [&] { return std::exchange(has_come, false); });
    lock.unlock();
    while (auto sample = subscriber.receive().expect("a receive")) CHECK((*sample)->number == next++);
  }
  polls.join();
  waits.join();
  CHECK(status_of(child) == 0);
}

/* Another thread of the process closes what is waited in, or ends all waits. */
void waits_are_ended() {
  auto domain = opened(name_of("ends"));
  auto closed = domain.subscriber().expect("a subscriber"), stopped = domain.subscriber().expect("a subscriber");
  std::thread first([&] { CHECK(closed.blocking_receive().error() == Error::NotLive); });
  std::thread second([&] { CHECK(!stopped.blocking_receive().expect("a receive")); });
  std::this_thread::sleep_for(20ms); /* mostly they sleep by then */
  closed.close();
  first.join();
  domain.stop_waits();
  second.join();
  domain.stop_waits(false);
  auto begun = std::chrono::steady_clock::now();
  CHECK(!stopped.timed_receive(30ms).expect("a receive") && std::chrono::steady_clock::now() - begun >= 30ms);
}

/* What a process had that is killed is given back, also to a thread that waits for it. */
void the_dead_give_back() {
  std::string name = name_of("deaths");
  auto domain = opened(name, by_looks);
  auto publisher = domain.publisher().expect("a publisher");
  pid_t child = started("has_a_subscriber", name);
  connect(domain, publisher);
  for (std::uint64_t number = 1; number <= 2; number++) CHECK(publisher.send_copy({number, {}}).expect("a send").delivered() == 1u);
  std::thread waits([&] { CHECK(publisher.blocking_send_copy({3, {}}).expect("a send").delivered() == 0u); });
  std::this_thread::sleep_for(20ms); /* mostly it sleeps by then */
  kill_it(child);
  waits.join();
  auto subscriber = domain.subscriber().expect("a subscriber");
  for (std::size_t i = 0; i <= settings().max_publishers(); i++) {
    child = started("has_a_publisher", name);
    until([&] { return domain.book_count() == 2; });
    kill_it(child);
    until([&] { return !subscriber.timed_receive(1ms).expect("a receive") && domain.book_count() == 1; });
  }
}

/* A listener drops the domain's last handles, in the thread that the library has. */
void a_listener_drops_all() {
  struct Handles {
    Domain domain;
    Subscriber subscriber;
  };
  std::string name = name_of("drops");
  auto domain = opened(name);
  auto handles = std::make_shared<std::optional<Handles>>(Handles{domain, domain.subscriber().expect("a subscriber")});
  std::atomic<bool> has_dropped{false};
  CHECK((*handles)->subscriber.set_listener([&] {
    if (has_dropped.exchange(true)) return;
    auto dropped = std::move(*handles);
    handles->reset();
  }).has_value());
  domain = opened(name_of("other"));
  CHECK(*Domain::exists(name));
  pid_t child = started("sends_one", name);
  until([&] { return has_dropped.load(); });
  kill_it(child);
  /* Whoever comes next takes the dead one for dead, and is the last. */
  until([&] { return Domain::create(name, settings(), by_wakes).has_value(); });
  CHECK(!*Domain::exists(name));
}

void listeners_that_throw_end_their_program() {
  std::string name = name_of("throws");
  auto domain = opened(name);
  auto publisher = domain.publisher().expect("a publisher");
  pid_t child = started("throws", name);
  connect(domain, publisher, 2);
  CHECK(publisher.send_copy({1, {}})->delivered() == 2u);
  int status = status_of(child);
  CHECK(WIFEXITED(status) && WEXITSTATUS(status) == 42);
}

} // namespace

int main(int count, char **words) {
  if (has_played(count, words, {{"sends", sends<Domain>}, {"receives", receives<Domain>}, {"sends_one", sends_one}, {"sends_when_told", sends_when_told}, {"has_a_publisher", has_a_publisher}, {"has_a_subscriber", has_a_subscriber}, {"throws", throws}})) return 0;
  messages_come_and_make_room();
  all_threads_hear();
  a_listener_begins_where_it_is_set();
  a_listener_is_set_again();
  listeners_hear();
  waits_are_ended();
  the_dead_give_back();
  a_listener_drops_all();
  listeners_that_throw_end_their_program();
  std::puts("processes in C++: each hears of the others");
}
