// SPDX-License-Identifier: Apache-2.0 OR MIT
/* The only thread of a domain of C++ waits for what other processes bring: for messages, room, loans and deaths. */
#include "roles.hpp"
#include <optional>

using Domain = iox2ps::Domain<Reading>;
using iox2ps::WaitFor;

namespace {

Domain opened(const std::string &name, const iox2ps::ProcessesOptions &options = by_wakes) { return open_by<Domain>(name, options); }

/* ---- other roles */

void goes_over_all(const std::string &name) {
  auto domain = opened(name);
  auto subscriber = domain.subscriber().expect("a subscriber");
  std::uint64_t next = 1;
  CHECK(subscriber.blocking_for_each([&](const auto &sample) {
    CHECK(sample->number == next++);
    return next <= messages;
  }).has_value());
  CHECK(next == messages + 1);
}
void takes_copies(const std::string &name) {
  auto domain = opened(name);
  auto subscriber = domain.subscriber().expect("a subscriber");
  for (std::uint64_t number = 1; number <= messages; number++) CHECK(subscriber.blocking_receive_copy().expect("a receive")->number == number);
}
/* Holds the first message for a while, so that its sender waits for a loan. */
void holds_one(const std::string &name) {
  auto domain = opened(name);
  auto subscriber = domain.subscriber().expect("a subscriber");
  auto sample = std::move(*subscriber.blocking_receive().expect("a receive"));
  std::this_thread::sleep_for(50ms); /* mostly the sender sleeps by then */
  sample.release();
  CHECK(subscriber.blocking_receive().expect("a receive").value()->number == 2);
}
void has_a_subscriber(const std::string &name) {
  auto domain = opened(name);
  auto subscriber = domain.subscriber().expect("a subscriber");
  pause();
}

/* ---- tests */

void messages_come_and_make_room() {
  std::string name = name_of("turns");
  auto domain = opened(name);
  auto subscriber = domain.subscriber().expect("a subscriber");
  pid_t child = started("sends", name);
  receive_all(subscriber, 1, messages);
  CHECK(status_of(child) == 0);
  subscriber.close();
  for (const char *role : {"receives", "goes_over_all", "takes_copies"}) {
    auto publisher = domain.publisher().expect("a publisher");
    child = started(role, name);
    connect(domain, publisher);
    send_all(publisher);
    CHECK(status_of(child) == 0);
  }
}

/* Each loan and send that may wait for a slot does so, once by each kind of call. */
void loans_come_free() {
  std::string name = name_of("loans");
  auto domain = opened(name);
  auto publisher = domain.publisher(iox2ps::PublisherOptions<Reading>().preallocated_samples(1)).expect("a publisher");
  for (int way = 0; way < 2; way++) {
    pid_t child = started("holds_one", name);
    connect(domain, publisher);
    CHECK(publisher.send_copy({1, {}}).expect("a send").delivered() == 1u);
    CHECK(publisher.loan().error() == Error::LoanOutOfMemory && publisher.timed_loan(1ms).error() == Error::LoanOutOfMemory);
    if (way == 0) {
      auto loan = publisher.blocking_loan().expect("a loan");
      loan->number = 2;
      CHECK(loan.blocking_send().expect("a send").delivered() == 1u);
    } else {
      CHECK(publisher.blocking_send_copy({2, {}}).expect("a send").delivered() == 1u);
    }
    CHECK(status_of(child) == 0);
  }
}

template <typename Call> void takes(std::chrono::milliseconds time, Call call) {
  auto begun = std::chrono::steady_clock::now();
  call();
  CHECK(std::chrono::steady_clock::now() - begun >= time);
}

void time_is_over() {
  std::string name = name_of("times");
  auto domain = opened(name);
  auto publisher = domain.publisher().expect("a publisher");
  auto subscriber = domain.subscriber().expect("a subscriber");
  takes(30ms, [&] { CHECK(!subscriber.timed_receive(30ms).expect("a receive")); });
  takes(30ms, [&] { CHECK(!subscriber.timed_receive_copy(30ms).expect("a receive")); });
  CHECK(!subscriber.timed_receive(0ms).expect("a receive") && !subscriber.blocking_receive(std::chrono::steady_clock::now() - 1h).expect("a receive"));
  for (std::uint64_t number = 1; number <= 2; number++) CHECK(publisher.send_copy({number, {}}).expect("a send").delivered() == 1u);
  CHECK(subscriber.timed_receive(0ms).expect("a receive").value()->number == 1);
  CHECK(publisher.send_copy({3, {}}).expect("a send").delivered() == 1u);
  takes(30ms, [&] {
    auto sent = publisher.timed_send_copy({4, {}}, 30ms).expect("a send");
    CHECK(sent.blocked() && !sent.blocked()->timed_retry(1ms).expect("a retry") && *sent.blocked());
  });
  takes(30ms, [&] { CHECK(!*domain.timed_wait(WaitFor::Message | WaitFor::Room | WaitFor::Loan | WaitFor::DeadNode, 30ms)); });
}

/* What this thread's own handles keep from it comes from nobody else: it is refused, and not waited for. */
void own_handles_refuse() {
  auto domain = opened(name_of("own"));
  auto publisher = domain.publisher(iox2ps::PublisherOptions<Reading>().max_loaned_samples(2)).expect("a publisher");
  auto subscriber = domain.subscriber().expect("a subscriber");
  auto first = publisher.loan({1, {}}).expect("a loan"), second = publisher.loan({2, {}}).expect("a loan");
  CHECK(publisher.blocking_loan().error() == Error::LoanExceedsMaxLoans && publisher.blocking_send_copy({3, {}}).error() == Error::LoanExceedsMaxLoans);
  second.discard();
  for (std::uint64_t number = 3; number <= 4; number++) CHECK(publisher.send_copy({number, {}}).expect("a send").delivered() == 1u);
  auto blocked = publisher.send_copy({5, {}}).expect("a send");
  CHECK(blocked.blocked() && publisher.blocking_loan().error() == Error::PublisherIsBlocked);
  CHECK(first.blocking_send().error() == Error::PublisherIsBlocked && first && first->number == 1);
  CHECK(subscriber.blocking_receive().expect("a receive").value()->number == 3);
  CHECK(blocked.blocked()->blocking_retry().expect("a retry") == 1u);
}

/* In a domain of one process there is nobody to wait for. What was to be sent stays. */
void one_process_waits_for_nobody() {
  auto domain = Domain::create(settings()).expect("a domain");
  auto publisher = domain.publisher().expect("a publisher");
  auto subscriber = domain.subscriber().expect("a subscriber");
  CHECK(subscriber.blocking_receive().error() == Error::ProcessesNotShared && subscriber.timed_receive_copy(1h).error() == Error::ProcessesNotShared);
  CHECK(subscriber.blocking_for_each([](const auto &) { return true; }).error() == Error::ProcessesNotShared);
  CHECK(publisher.blocking_loan().error() == Error::ProcessesNotShared && publisher.blocking_send_copy({1, {}}).error() == Error::ProcessesNotShared);
  auto loan = publisher.loan({1, {}}).expect("a loan");
  CHECK(loan.blocking_send().error() == Error::ProcessesNotShared && loan && loan->number == 1);
  CHECK(loan.send().expect("a send").delivered() == 1u && publisher.send_copy({2, {}}).expect("a send").delivered() == 1u);
  auto blocked = publisher.send_copy({3, {}}).expect("a send");
  CHECK(blocked.blocked()->blocking_retry().error() == Error::ProcessesNotShared && *blocked.blocked() && publisher.is_blocked());
  CHECK(subscriber.receive_copy().expect("a receive")->number == 1 && blocked.blocked()->retry().expect("a retry") == 1u);
  CHECK(domain.wait(WaitFor::Message).error() == Error::ProcessesNotShared);
}

/* One thread, several subscribers, one wait. */
void several_ports_are_waited_for() {
  std::string name = name_of("several");
  auto domain = opened(name);
  auto one = domain.subscriber().expect("a subscriber"), other = domain.subscriber().expect("a subscriber");
  pid_t child = started("sends", name);
  std::uint64_t of_one = 1, of_other = 1;
  while (of_one <= messages || of_other <= messages) {
    while (auto sample = one.receive().expect("a receive")) CHECK((*sample)->number == of_one++);
    while (auto sample = other.receive().expect("a receive")) CHECK((*sample)->number == of_other++);
    if (of_one <= messages || of_other <= messages) CHECK(*domain.wait(WaitFor::Message));
  }
  CHECK(status_of(child) == 0);
}

/* What has come is known of each by itself, and calls of this process aren't waited for. */
void waits_are_told_apart() {
  std::string name = name_of("apart");
  auto domain = opened(name);
  auto publisher = domain.publisher().expect("a publisher");
  auto subscriber = domain.subscriber().expect("a subscriber");
  while (*domain.timed_wait(WaitFor::Message | WaitFor::Room, 0ms)) {}
  CHECK(publisher.send_copy({1, {}}).has_value() && subscriber.receive()->has_value());
  CHECK(!*domain.timed_wait(WaitFor::Message | WaitFor::Room, 1ms));
  subscriber.close();
  pid_t child = started("receives", name);
  connect(domain, publisher);
  for (std::uint64_t number = 1; number <= messages; number++) {
    auto sent = publisher.send_copy({number, {0.5, 1.5}}).expect("a send");
    while (sent.blocked() && !sent.blocked()->retry().expect("a retry")) CHECK(*domain.wait(WaitFor::Room));
  }
  CHECK(status_of(child) == 0);
  while (*domain.timed_wait(WaitFor::Room, 0ms)) {}
  CHECK(*domain.timed_wait(WaitFor::Loan, 0ms) && !*domain.timed_wait(WaitFor::Loan, 0ms) && !*domain.timed_wait(WaitFor::DeadNode, 0ms));
  CHECK(domain.wait(static_cast<WaitFor>(0)).error() == Error::OpenInvalidArgument && domain.wait(static_cast<WaitFor>(64)).error() == Error::OpenInvalidArgument);
}

/* Who waits for room, or for a death, is told when the other process dies. */
void the_dead_end_waits() {
  std::string name = name_of("deaths");
  auto domain = opened(name, by_looks);
  auto publisher = domain.publisher().expect("a publisher");
  pid_t child = started("has_a_subscriber", name);
  connect(domain, publisher);
  for (std::uint64_t number = 1; number <= 2; number++) CHECK(publisher.send_copy({number, {}}).expect("a send").delivered() == 1u);
  auto sent = publisher.send_copy({3, {}}).expect("a send");
  CHECK(sent.blocked() && !*domain.timed_wait(WaitFor::DeadNode, 0ms));
  kill_it(child);
  CHECK(sent.blocked()->blocking_retry().expect("a retry") == 0u);
  CHECK(*domain.timed_wait(WaitFor::DeadNode, 0ms) && domain.dead_nodes()->size() == 1);
  child = started("has_a_subscriber", name);
  connect(domain, publisher);
  kill_it(child);
  CHECK(*domain.wait(WaitFor::DeadNode) && domain.dead_nodes()->size() == 2 && domain.dead_nodes()->back().pid == child);
}

/* What was moved from, and what belongs to a parent. */
void who_may_not_wait() {
  std::string name = name_of("whose");
  auto domain = opened(name);
  auto subscriber = domain.subscriber().expect("a subscriber");
  pid_t child = fork_child();
  if (child == 0) {
    CHECK(subscriber.blocking_receive().error() == Error::AfterFork && domain.wait(WaitFor::Message).error() == Error::AfterFork);
    _exit(0);
  }
  CHECK(status_of(child) == 0);
  auto moved = std::move(domain);
  CHECK(domain.wait(WaitFor::Message).error() == Error::NotLive && domain.timed_wait(WaitFor::Message, 1h).error() == Error::NotLive);
  subscriber.close();
  CHECK(subscriber.blocking_receive().error() == Error::NotLive);
}

} // namespace

int main(int count, char **words) {
  if (has_played(count, words, {{"sends", sends<Domain>}, {"receives", receives<Domain>}, {"goes_over_all", goes_over_all}, {"takes_copies", takes_copies}, {"holds_one", holds_one}, {"has_a_subscriber", has_a_subscriber}})) return 0;
  messages_come_and_make_room();
  loans_come_free();
  time_is_over();
  own_handles_refuse();
  one_process_waits_for_nobody();
  several_ports_are_waited_for();
  waits_are_told_apart();
  the_dead_end_waits();
  who_may_not_wait();
  std::puts("one thread in C++: it waits for other processes");
}
