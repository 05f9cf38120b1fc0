// SPDX-License-Identifier: Apache-2.0 OR MIT
/* Domains that several threads use, by the C++ handles. */
#include "iox2_pubsub_shared.hpp"
#include "turns.hpp"
#include <array>
#include <atomic>
#include <cstdio>
#include <cstdlib>
#include <functional>
#include <mutex>
#include <pthread.h>
#include <thread>
#include <vector>
#ifdef __linux__
#include <sys/epoll.h>
#endif

using Message = std::array<std::uint64_t, 8>;
using Domain = iox2ps::SharedDomain<Message>;
using M = iox2ps::ManyThreads;
using WatchedThreads = iox2ps::ManyThreadsWith<Watched>;
using namespace std::chrono_literals;
using Clock = std::chrono::steady_clock;

namespace {

#define CHECK(it) check((it), #it, __LINE__)

void check(bool is_so, const char *what, int line) {
  if (is_so) return;
  std::fprintf(stderr, "cpp/threads.cpp:%d: %s\n", line, what);
  std::abort();
}

Message message(std::uint64_t number) {
  Message all;
  all.fill(number);
  return all;
}

template <typename Lock = std::mutex> auto keeping(std::size_t buffer) {
  iox2ps::Config<Message> config(1);
  config.enable_safe_overflow(false).subscriber_max_buffer_size(buffer);
  return iox2ps::SharedDomain<Message, Lock>::create(config).expect("a domain");
}

template <typename Threads> iox2ps::BlockedSend<Message, Threads> blocked(iox2ps::Result<iox2ps::Sent<Message, Threads>> sent) {
  CHECK(sent && sent->blocked());
  return std::move(*sent->blocked());
}

template <typename Threads> std::uint64_t first_of(iox2ps::Result<std::optional<iox2ps::Sample<Message, Threads>>> received) {
  CHECK(received && *received);
  return (***received)[0];
}

void a_message_crosses_threads_in_place() {
  auto domain = keeping(2);
  auto publisher = domain.publisher().expect("a publisher");
  auto subscriber = domain.subscriber().expect("a subscriber");
  auto loan = publisher.loan().expect("a loan");
  const Message *written = nullptr;
  std::thread([&, mine = std::move(loan)]() mutable {
    mine->fill(7);
    written = &*mine;
    CHECK(mine.send().expect("a send").delivered() == 1u);
  }).join();
  auto sample = std::move(*subscriber.receive().expect("a receive"));
  CHECK(&*sample == written);
  publisher.close();
  subscriber.close();
  CHECK(domain.book_count() == 1);
  std::thread([mine = std::move(sample)] { CHECK((*mine)[0] == 7); }).join();
  CHECK(domain.book_count() == 0);
}

void receives_wait() {
  auto domain = keeping<Watched>(2);
  auto publisher = domain.publisher().expect("a publisher");
  auto subscriber = domain.subscriber().expect("a subscriber");
  auto started = Clock::now();
  CHECK(!subscriber.timed_receive(20ms).expect("a receive"));
  CHECK(Clock::now() - started >= 20ms);
  auto waits = asleep_after(to_sleep, [&] {
    CHECK((**subscriber.blocking_receive_copy())[0] == 1);
    CHECK((**subscriber.blocking_receive_copy())[0] == 2);
    CHECK(!subscriber.blocking_receive().expect("a receive"));
  });
  for (std::uint64_t number = 1; number < 3; number++) {
    CHECK(publisher.send_copy(message(number)).expect("a send").delivered() == 1u);
    /* It has received the message, and sleeps again. */
    waits.has_had(to_sleep + number * (1 + to_sleep));
  }
  domain.stop_waits();
  waits.join();
}

void what_comes_while_a_thread_falls_asleep_is_not_missed() {
  auto domain = keeping<Watched>(1);
  auto publisher = domain.publisher().expect("a publisher");
  auto subscriber = domain.subscriber().expect("a subscriber");
  /* It has tried, and isn't in the list of those who wait. */
  auto receives = stopped_after(1, [&] { CHECK(first_of(subscriber.blocking_receive()) == 1); });
  CHECK(publisher.send_copy(message(1)).expect("a send").delivered() == 1u);
  receives.go_on();
  receives.join();
  CHECK(publisher.send_copy(message(2)).expect("a send").delivered() == 1u);
  auto waits = blocked(publisher.send_copy(message(3)));
  auto sends = stopped_after(1, [&] { CHECK(waits.blocking_retry().expect("a retry") == 1u); });
  CHECK(first_of(subscriber.receive()) == 2);
  sends.go_on();
  sends.join();
}

void sends_wait() {
  auto domain = keeping<Watched>(1);
  auto publisher = domain.publisher().expect("a publisher");
  auto subscriber = domain.subscriber().expect("a subscriber");
  CHECK(publisher.send_copy(message(1)).expect("a send").delivered() == 1u);
  auto started = Clock::now();
  auto waits = blocked(publisher.loan(message(2)).expect("a loan").timed_send(20ms));
  CHECK(Clock::now() - started >= 20ms);
  auto sends = asleep_after(to_sleep, [&] { CHECK(waits.blocking_retry().expect("a retry") == 1u); });
  CHECK(first_of(subscriber.receive()) == 1);
  sends.join();
  CHECK(!waits);
  auto third = blocked(publisher.send_copy(message(3)));
  auto gone = asleep_after(to_sleep, [&] { CHECK(third.blocking_retry().expect("a retry") == 0u); });
  subscriber.close();
  gone.join();
}

void each_that_waits_is_woken() {
  iox2ps::Config<Message> config(1);
  config.max_subscribers(8);
  auto domain = iox2ps::SharedDomain<Message, Watched>::create(config).expect("a domain");
  auto publisher = domain.publisher().expect("a publisher");
  std::vector<iox2ps::Subscriber<Message, WatchedThreads>> subscribers;
  for (int i = 0; i < 8; i++) subscribers.push_back(domain.subscriber().expect("a subscriber"));
  std::vector<Watch> all;
  for (auto &subscriber : subscribers) {
    all.push_back(asleep_after(to_sleep, [&] { CHECK((**subscriber.blocking_receive_copy())[0] == 5); }));
  }
  CHECK(publisher.send_copy(message(5)).expect("a send").delivered() == 8u);
  for (auto &one : all) one.join();
}

void each_gets_all_in_order() {
  constexpr std::uint64_t messages = 2000;
  auto domain = keeping(2);
  std::vector<std::thread> threads;
  std::vector<iox2ps::Publisher<Message, M>> publishers;
  for (std::uint64_t of = 0; of < 2; of++) publishers.push_back(domain.publisher().expect("a publisher"));
  std::vector<iox2ps::Subscriber<Message, M>> subscribers;
  for (int i = 0; i < 3; i++) subscribers.push_back(domain.subscriber().expect("a subscriber"));
  for (std::uint64_t of = 0; of < 2; of++) {
    threads.emplace_back([&, of] {
      for (std::uint64_t number = 0; number < messages; number++) {
        auto loan = publishers[of].loan().expect("a loan");
        loan->fill(number << 1 | of);
        CHECK(loan.blocking_send().expect("a send").delivered() == 3u);
      }
    });
  }
  for (auto &subscriber : subscribers) {
    threads.emplace_back([&] {
      std::uint64_t next[2] = {0, 0};
      for (std::uint64_t i = 0; i < 2 * messages; i++) {
        std::uint64_t value = first_of(subscriber.blocking_receive());
        if (value >> 1 != next[value & 1]++) std::abort();
      }
    });
  }
  for (auto &thread : threads) thread.join();
}

/* A thread waits for a loan, and has it once this was called. */
template <typename Ends> void lends_after(iox2ps::Publisher<Message, WatchedThreads> &publisher, Ends ends) {
  auto lends = asleep_after(to_sleep, [&] {
    auto loan = publisher.blocking_loan();
    CHECK(loan && *loan);
  });
  ends();
  lends.join();
}

void loans_wait() {
  auto domain = keeping<Watched>(1);
  auto publisher = domain.publisher().expect("a publisher");
  auto subscriber = domain.subscriber().expect("a subscriber");
  auto first = publisher.loan(message(1)).expect("a loan");
  auto second = publisher.loan(message(2)).expect("a loan");
  CHECK(publisher.timed_loan(20ms).error() == iox2ps::Error::LoanExceedsMaxLoans);
  lends_after(publisher, [&] { first.discard(); });
  first = publisher.loan(message(1)).expect("a loan");
  lends_after(publisher, [&] { CHECK(first.send().expect("a send").delivered() == 1u); });
  auto waits = blocked(second.send());
  CHECK(publisher.timed_send_copy(message(3), 1ms).error() == iox2ps::Error::PublisherIsBlocked);
  lends_after(publisher, [&] { CHECK(waits.give_up().expect("an end") == 0u); });
  CHECK(first_of(subscriber.receive()) == 1);
}

void loans_wait_for_slots() {
  auto domain = keeping<Watched>(1);
  auto publisher = domain.publisher(iox2ps::PublisherOptions<Message>().preallocated_samples(1)).expect("a publisher");
  auto subscriber = domain.subscriber().expect("a subscriber");
  CHECK(publisher.send_copy(message(1)).expect("a send").delivered() == 1u);
  auto sample = std::move(*subscriber.receive().expect("a receive"));
  CHECK(publisher.timed_loan(0ns).error() == iox2ps::Error::LoanOutOfMemory);
  lends_after(publisher, [&] { sample.release(); });
  CHECK(publisher.send_copy(message(2)).expect("a send").delivered() == 1u);
  lends_after(publisher, [&] { CHECK((*subscriber.receive_copy().expect("a receive"))[0] == 2); });
  CHECK(publisher.send_copy(message(3)).expect("a send").delivered() == 1u);
  lends_after(publisher, [&] { subscriber.close(); });
}

/* Two threads wait for a loan that never comes, and stop where they are woken: then the one that waits for a message isn't woken,
 * since another is about to come back. */
void threads_that_wait_for_a_loan_dont_wake_each_other() {
  for (std::size_t slots : {std::size_t(0), std::size_t(1)}) {
    auto domain = keeping<Watched>(1);
    auto other = domain.publisher().expect("a publisher");
    auto publisher = domain.publisher(iox2ps::PublisherOptions<Message>().preallocated_samples(slots)).expect("a publisher");
    auto subscriber = domain.subscriber().expect("a subscriber");
    std::atomic<unsigned> heard{0};
    CHECK(subscriber.set_listener([&] { heard++; }).has_value());
    std::vector<iox2ps::Loan<Message, WatchedThreads>> out;
    while (auto loan = publisher.loan()) out.push_back(std::move(*loan));
    auto receives = asleep_after(to_sleep, [&] { CHECK(first_of(subscriber.blocking_receive()) == 7); });
    Watch one = asleep_and_stopped([&] { CHECK(publisher.blocking_loan().has_value()); });
    Watch two = asleep_and_stopped([&] { CHECK(publisher.blocking_send_copy(message(8)).expect("a send").delivered() == 1u); });
    CHECK(heard == 0);
    CHECK(other.send_copy(message(7)).expect("a send").delivered() == 1u);
    receives.join();
    out.clear();
    for (Watch *watch : {&one, &two}) {
      watch->go_on();
      watch->join();
    }
    CHECK(heard == 2);
  }
}

/* A send waits for two subscribers one after the other. A retry that goes on from the first to the second is blocked still, and wakes
 * who waits at a subscriber between them. */
void a_retry_wakes_whom_it_reaches() {
  auto domain = keeping<Watched>(1);
  auto publisher = domain.publisher().expect("a publisher");
  auto first = domain.subscriber().expect("a subscriber"), between = domain.subscriber().expect("a subscriber");
  auto last = domain.subscriber().expect("a subscriber");
  CHECK(publisher.send_copy(message(1)).expect("a send").delivered() == 3u);
  CHECK(first_of(between.receive()) == 1);
  auto waits = blocked(publisher.send_copy(message(2)));
  CHECK(waits.subscriber().expect("a subscriber") == first.id());
  auto receives = asleep_after(to_sleep, [&] { CHECK(first_of(between.blocking_receive()) == 2); });
  CHECK(first_of(first.receive()) == 1);
  CHECK(!waits.retry().expect("a retry") && waits.subscriber().expect("a subscriber") == last.id());
  receives.join();
  CHECK(first_of(last.receive()) == 1 && waits.retry().expect("a retry") == 3u);
}

/* Of each sort one call that is refused, in a domain in which threads wait for all that there is. */
template <typename M, typename D>
void are_refused(D &domain, iox2ps::Publisher<Message, M> &full, iox2ps::Publisher<Message, M> &lends, iox2ps::Subscriber<Message, M> &held,
                 iox2ps::Subscriber<Message, M> &empty) {
  using iox2ps::Error;
  CHECK(domain.publisher().error() == Error::PublisherExceedsMaxSupportedPublishers);
  CHECK(domain.subscriber().error() == Error::SubscriberExceedsMaxSupportedSubscribers);
  CHECK(lends.loan().error() == Error::LoanExceedsMaxLoans && lends.timed_loan(0ns).error() == Error::LoanExceedsMaxLoans);
  CHECK(lends.send_copy(message(1)).error() == Error::LoanExceedsMaxLoans);
  CHECK(full.loan().error() == Error::PublisherIsBlocked && full.send_copy(message(1)).error() == Error::PublisherIsBlocked);
  CHECK(full.update_connections().error() == Error::PublisherIsBlocked);
  CHECK(held.receive().error() == Error::ReceiveExceedsMaxBorrows && held.receive_copy().error() == Error::ReceiveExceedsMaxBorrows);
  CHECK(!empty.receive().expect("a receive") && !empty.receive_copy().expect("a receive"));
  CHECK(!empty.timed_receive(0ns).expect("a receive"));
  CHECK(held.close_channel(9, 0).error() == Error::NoSuchChannel && full.close_channel(9, 0, 0).error() == Error::NoSuchChannel);
}

void a_refused_call_wakes_nobody() {
  iox2ps::Config<Message> config(1);
  config.enable_safe_overflow(false).subscriber_max_buffer_size(1).subscriber_max_borrowed_samples(1);
  config.max_publishers(3).max_subscribers(2);
  auto domain = iox2ps::SharedDomain<Message, Watched>::create(config).expect("a domain");
  auto first = domain.publisher().expect("a publisher");
  auto full = domain.publisher().expect("a publisher");
  auto lends = domain.publisher().expect("a publisher");
  auto held = domain.subscriber().expect("a subscriber");
  std::vector<iox2ps::Sample<Message, WatchedThreads>> samples;
  for (auto *publisher : {&full, &first}) {
    CHECK(publisher->send_copy(message(1)).expect("a send").delivered() == 1u);
    samples.push_back(std::move(*held.receive().expect("a receive")));
    CHECK(publisher->send_copy(message(2)).expect("a send").delivered() == 1u);
  }
  auto unsent = full.loan(message(3)).expect("a loan");
  auto waits = blocked(full.send_copy(message(3)));
  auto woken = blocked(first.send_copy(message(3)));
  auto one = lends.loan().expect("a loan"), two = lends.loan().expect("a loan");
  auto empty = domain.subscriber().expect("a subscriber");
  std::atomic<unsigned> heard{0};
  CHECK(empty.set_listener([&] { heard++; }).has_value());
  /* The first that waits goes on where another is woken only after it. */
  auto next = asleep_after(to_sleep, [&] { static_cast<void>(woken.blocking_retry()); });
  Watch others[] = {
      asleep_and_stopped([&] { static_cast<void>(empty.blocking_receive()); }),
      asleep_and_stopped([&] { static_cast<void>(waits.blocking_retry()); }),
      asleep_and_stopped([&] { static_cast<void>(unsent.blocking_send()); }),
      asleep_and_stopped([&] { static_cast<void>(lends.blocking_loan()); }),
  };
  are_refused(domain, full, lends, held, empty);
  CHECK(heard == 0);
  CHECK(held.close_channel(0, iox2ps::channel_state_open).has_value());
  next.has_had(to_sleep + 1);
  domain.stop_waits();
  next.join();
  for (Watch &watch : others) {
    watch.go_on();
    watch.join();
  }
}

void copies_and_all_take_the_lock_once() {
  constexpr std::uint64_t messages = 1000;
  auto domain = keeping(2);
  auto publisher = domain.publisher().expect("a publisher");
  auto copies = domain.subscriber().expect("a subscriber");
  auto all = domain.subscriber().expect("a subscriber");
  std::thread by_copies([&] {
    for (std::uint64_t number = 0; number < messages; number++) {
      CHECK((**copies.blocking_receive_copy())[0] == number);
    }
  });
  std::thread by_all([&] {
    std::uint64_t next = 0;
    auto read = [&](const iox2ps::Sample<Message, M> &sample) {
      CHECK((*sample)[0] == next);
      return ++next < messages;
    };
    CHECK(all.blocking_for_each(read).has_value());
    CHECK(next == messages);
  });
  for (std::uint64_t number = 0; number < messages; number++) {
    CHECK(publisher.blocking_send_copy(message(number)).expect("a send").delivered() == 2u);
  }
  by_copies.join();
  by_all.join();
  CHECK(publisher.timed_send_copy(message(7), 0ns).expect("a send").delivered() == 2u);
  CHECK((*copies.timed_receive_copy(-1ns).expect("a receive"))[0] == 7);
  all.close();
  copies.close();
  publisher.close();
  CHECK(domain.book_count() == 0);
}

void waits_are_stopped_twice_and_taken_back() {
  auto domain = keeping<Watched>(1);
  auto publisher = domain.publisher().expect("a publisher");
  auto subscriber = domain.subscriber().expect("a subscriber");
  CHECK(!domain.waits_are_stopped());
  domain.stop_waits();
  domain.stop_waits();
  CHECK(domain.waits_are_stopped());
  CHECK(!subscriber.blocking_receive().expect("a receive"));
  domain.stop_waits(false);
  domain.stop_waits(false);
  CHECK(!domain.waits_are_stopped());
  auto waits = asleep_after(to_sleep, [&] { CHECK(first_of(subscriber.blocking_receive()) == 1); });
  CHECK(publisher.send_copy(message(1)).expect("a send").delivered() == 1u);
  waits.join();
  /* Times of zero, of less, and of the greatest length. */
  CHECK(!subscriber.timed_receive(0ns).expect("a receive"));
  CHECK(!subscriber.timed_receive(-1h).expect("a receive"));
  CHECK(!subscriber.timed_receive(std::chrono::nanoseconds::min()).expect("a receive"));
  CHECK(publisher.timed_send_copy(message(2), std::chrono::nanoseconds::max()).expect("a send").delivered() == 1u);
  CHECK(first_of(subscriber.timed_receive(std::chrono::nanoseconds::max())) == 2);
}

/* A loop of calls with a time ends, and doesn't spin. */
void a_loop_of_timed_calls_sees_the_end() {
  auto domain = keeping<Watched>(1);
  auto subscriber = domain.subscriber().expect("a subscriber");
  std::size_t turns = 0;
  auto loops = asleep_after(to_sleep, [&] {
    do {
      CHECK(!subscriber.timed_receive(1h).expect("a receive"));
      turns++;
    } while (!domain.waits_are_stopped());
  });
  domain.stop_waits();
  loops.join();
  CHECK(turns == 1);
}

/* The history of a domain with these settings, as a subscriber has it that was made last. */
void a_late_subscriber_has_the_history_at_once() {
  for (bool overflows : {true, false}) {
    iox2ps::Config<Message> config(1);
    config.history_size(2).subscriber_max_buffer_size(3).enable_safe_overflow(overflows);
    auto domain = Domain::create(config).expect("a domain");
    auto silent = domain.publisher().expect("a publisher");
    for (std::uint64_t number = 1; number < 4; number++) CHECK(silent.send_copy(message(number)).expect("a send").delivered() == 0u);
    auto closed = domain.publisher().expect("a publisher");
    closed.close();
    auto other = domain.publisher().expect("a publisher");
    CHECK(other.send_copy(message(7)).expect("a send").delivered() == 0u);
    auto late = domain.subscriber().expect("a subscriber");
    CHECK(first_of(late.blocking_receive()) == 2 && first_of(late.blocking_receive()) == 3 && first_of(late.blocking_receive()) == 7);
    CHECK(!late.receive().expect("a receive"));
    /* One of another thread too, which waits at once. */
    std::thread([&] { CHECK(first_of(domain.subscriber().expect("a subscriber").blocking_receive()) == 2); }).join();
    CHECK(silent.send_copy(message(4)).expect("a send").delivered() == 1u);
  }
}

/* A publisher that can't connect now keeps no subscriber from being made, nor another publisher from handing over its history. It
 * connects when the next subscriber is made, and who waits for its history is woken then. */
void a_blocked_publisher_connects_later() {
  iox2ps::Config<Message> config(1);
  config.history_size(1).subscriber_max_buffer_size(1).enable_safe_overflow(false);
  auto domain = iox2ps::SharedDomain<Message, Watched>::create(config).expect("a domain");
  auto full = domain.publisher().expect("a publisher");
  auto other = domain.publisher().expect("a publisher");
  auto subscriber = domain.subscriber().expect("a subscriber");
  CHECK(full.send_copy(message(1)).expect("a send").delivered() == 1u);
  CHECK(other.send_copy(message(7)).expect("a send").delivered() == 1u);
  auto waits = blocked(full.send_copy(message(2)));
  auto late = domain.subscriber().expect("a subscriber");
  CHECK(first_of(late.receive()) == 7 && !late.receive().expect("a receive"));
  CHECK(first_of(subscriber.receive()) == 1 && first_of(subscriber.receive()) == 7);
  CHECK(waits.retry().expect("a retry") == 1u);
  auto receives = asleep_after(to_sleep, [&] { CHECK(first_of(late.blocking_receive()) == 2); });
  auto last = domain.subscriber().expect("a subscriber");
  receives.join();
  CHECK(first_of(last.receive()) == 2);
}

/* A publisher that couldn't connect to a late subscriber does so where a loan of it waits for a slot. The loan doesn't get one, and who
 * waits gets the history. */
void an_update_for_a_loan_wakes_who_waits() {
  iox2ps::Config<Message> config(1);
  config.history_size(1).subscriber_max_buffer_size(1).enable_safe_overflow(false);
  auto domain = iox2ps::SharedDomain<Message, Watched>::create(config).expect("a domain");
  auto publisher = domain.publisher(iox2ps::PublisherOptions<Message>().preallocated_samples(2)).expect("a publisher");
  auto first = domain.subscriber().expect("a subscriber");
  CHECK(publisher.send_copy(message(1)).expect("a send").delivered() == 1u);
  auto waits = blocked(publisher.send_copy(message(2)));
  auto late = domain.subscriber().expect("a subscriber");
  auto sample = std::move(*first.receive().expect("a receive"));
  CHECK(waits.retry().expect("a retry") == 1u);
  auto receives = asleep_after(to_sleep, [&] { CHECK(first_of(late.blocking_receive()) == 2); });
  auto lends = asleep_after(to_sleep, [&] { CHECK(publisher.blocking_loan().has_value()); });
  receives.join();
  sample.release();
  lends.join();
}

constexpr auto is_closed = [](const auto &result) { return !result.has_value() && result.error() == iox2ps::Error::NotLive; };

void a_close_ends_the_waits_for_messages() {
  auto domain = keeping<Watched>(1);
  auto subscriber = domain.subscriber().expect("a subscriber");
  auto other = domain.subscriber().expect("a subscriber");
  auto stays = asleep_after(to_sleep, [&] { CHECK(!other.blocking_receive().expect("a receive")); });
  auto receives = asleep_after(to_sleep, [&] { CHECK(is_closed(subscriber.blocking_receive())); });
  auto copies = asleep_after(to_sleep, [&] { CHECK(is_closed(subscriber.timed_receive_copy(1h))); });
  auto read = [](const iox2ps::Sample<Message, WatchedThreads> &) { return true; };
  auto all = asleep_after(to_sleep, [&] { CHECK(is_closed(subscriber.blocking_for_each(read))); });
  /* It has tried, and isn't in the list of those who wait. */
  auto late = stopped_after(1, [&] { CHECK(is_closed(subscriber.blocking_receive())); });
  subscriber.close();
  late.go_on();
  for (Watch *one : {&receives, &copies, &all, &late}) one->join();
  CHECK(!subscriber && is_closed(subscriber.receive()) && is_closed(subscriber.has_samples()));
  CHECK(is_closed(subscriber.set_listener([] {})));
  subscriber.close();
  domain.stop_waits();
  stays.join();
}

void a_close_ends_the_waits_for_loans() {
  auto domain = keeping<Watched>(1);
  auto publisher = domain.publisher().expect("a publisher");
  auto first = publisher.loan().expect("a loan");
  auto second = publisher.loan().expect("a loan");
  auto lends = asleep_after(to_sleep, [&] { CHECK(is_closed(publisher.blocking_loan())); });
  auto sends = asleep_after(to_sleep, [&] { CHECK(is_closed(publisher.blocking_send_copy(message(1)))); });
  publisher.close();
  lends.join();
  sends.join();
  CHECK(!publisher && is_closed(publisher.loan()) && is_closed(publisher.send_copy(message(1))));
}

/* The publisher is there for the send, and none of its handle's calls waits for that. */
void a_close_ends_the_waits_beside_a_blocked_send() {
  auto domain = keeping<Watched>(1);
  auto publisher = domain.publisher().expect("a publisher");
  auto subscriber = domain.subscriber().expect("a subscriber");
  CHECK(publisher.send_copy(message(1)).expect("a send").delivered() == 1u);
  auto waits = blocked(publisher.send_copy(message(2)));
  auto sends = asleep_after(to_sleep, [&] { CHECK(waits.blocking_retry().expect("a retry") == 1u); });
  auto lends = asleep_after(to_sleep, [&] { CHECK(is_closed(publisher.blocking_loan())); });
  publisher.close();
  lends.join();
  CHECK(first_of(subscriber.receive()) == 1);
  sends.join();
  CHECK(first_of(subscriber.receive()) == 2);
  CHECK(domain.book_count() == 0);
}

void ports_are_closed_while_messages_cross() {
  for (std::uint64_t round = 0; round < 100; round++) {
    auto domain = keeping(1);
    auto publisher = domain.publisher().expect("a publisher");
    auto subscriber = domain.subscriber().expect("a subscriber");
    std::atomic<std::uint64_t> got{0};
    std::thread receives([&] {
      while (auto received = subscriber.blocking_receive()) got += (**received)->size() == 8;
      CHECK(!subscriber);
    });
    std::thread sends([&] {
      while (publisher.blocking_send_copy(message(round))) {}
      CHECK(!publisher);
    });
    while (got < round % 8) std::this_thread::yield();
    subscriber.close();
    publisher.close();
    receives.join();
    sends.join();
    CHECK(domain.book_count() == 0);
  }
}

#ifdef __cpp_exceptions
void a_thread_that_throws_gives_back_what_it_has() {
  auto domain = keeping(1);
  auto publisher = domain.publisher().expect("a publisher");
  auto subscriber = domain.subscriber().expect("a subscriber");
  CHECK(publisher.send_copy(message(1)).expect("a send").delivered() == 1u);
  std::thread([&] {
    try {
      auto sample = std::move(*subscriber.receive().expect("a receive"));
      CHECK(publisher.send_copy(message(2)).expect("a send").delivered() == 1u);
      auto waits = blocked(publisher.send_copy(message(3)));
      auto mine = std::move(subscriber);
      throw 7;
    } catch (int) {
    }
  }).join();
  CHECK(!subscriber);
  auto first = publisher.loan().expect("a loan");
  auto second = publisher.loan().expect("a loan");
  CHECK(first.send().expect("a send").delivered() == 0u);
  second.discard();
  publisher.close();
  CHECK(domain.book_count() == 0);
}

/* A message whose reading throws is given back: so more may be read so than may be borrowed. */
void a_reading_that_throws_gives_its_message_back() {
  constexpr unsigned messages = 20;
  auto domain = keeping(messages);
  auto publisher = domain.publisher().expect("a publisher");
  auto subscriber = domain.subscriber().expect("a subscriber");
  for (unsigned number = 0; number < messages; number++) CHECK(publisher.send_copy(message(number)).expect("a send").delivered() == 1u);
  auto throws = [](const iox2ps::Sample<Message, M> &sample) -> bool { throw (*sample)[0]; };
  for (unsigned number = 0; number < messages; number++) {
    try {
      static_cast<void>(subscriber.blocking_for_each(throws));
      CHECK(false);
    } catch (std::uint64_t read) {
      CHECK(read == number);
    }
  }
  CHECK(!subscriber.receive().expect("a receive"));
  CHECK(publisher.send_copy(message(7)).expect("a send").delivered() == 1u && first_of(subscriber.receive()) == 7);
}
#endif

/* A domain goes while threads wait in it, and a listener receives and takes itself away. */
void domains_go_while_threads_wait_and_listeners_go() {
  for (int round = 0; round < 100; round++) {
    std::thread waits;
    {
      auto domain = keeping(8);
      auto subscriber = std::make_shared<iox2ps::Subscriber<Message, M>>(domain.subscriber().expect("a subscriber"));
      auto publisher = domain.publisher().expect("a publisher");
      CHECK(subscriber->set_listener([weak = std::weak_ptr(subscriber)] {
        auto there = weak.lock();
        if (!there) return;
        static_cast<void>(there->receive());
        there->clear_listener();
      }).has_value());
      waits = std::thread([subscriber, domain] {
        static_cast<void>(subscriber->timed_receive(1ms));
        CHECK(domain.subscriber().expect("a subscriber").timed_receive(1ms).has_value());
      });
      for (std::uint64_t number = 0; number < 2; number++) CHECK(publisher.send_copy(message(number)).has_value());
      if (round % 2 != 0) domain.stop_waits();
    }
    waits.join();
  }
}

void a_domain_that_goes_while_others_wait_stays_for_them() {
  std::optional<iox2ps::SharedDomain<Message, Watched>> domain = keeping<Watched>(1);
  auto publisher = domain->publisher().expect("a publisher");
  auto subscriber = domain->subscriber().expect("a subscriber");
  auto waits = asleep_after(to_sleep, [&] { CHECK(first_of(subscriber.blocking_receive()) == 1); });
  domain.reset();
  CHECK(publisher.send_copy(message(1)).expect("a send").delivered() == 1u);
  waits.join();
}

/* What is read where it lies is given back in the call that waits for the next: so a loan that waits for its slot goes on. */
void a_slot_comes_back_while_the_next_message_is_waited_for() {
  auto domain = keeping<Watched>(1);
  auto publisher = domain.publisher(iox2ps::PublisherOptions<Message>().preallocated_samples(1)).expect("a publisher");
  auto subscriber = domain.subscriber().expect("a subscriber");
  CHECK(publisher.send_copy(message(0)).expect("a send").delivered() == 1u);
  std::uint64_t next = 0;
  std::vector<Watch> sends;
  auto read = [&](const iox2ps::Sample<Message, WatchedThreads> &sample) {
    CHECK((*sample)[0] == next);
    if (++next == 3) return false;
    sends.push_back(asleep_after(to_sleep, [&publisher, number = next] {
      CHECK(publisher.blocking_send_copy(message(number)).expect("a send").delivered() == 1u);
    }));
    return true;
  };
  CHECK(subscriber.blocking_for_each(read).has_value());
  for (auto &one : sends) one.join();
  CHECK(next == 3);
}

using Subscriber = iox2ps::Subscriber<Message, M>;
using Publisher = iox2ps::Publisher<Message, M>;

void a_listener_is_called_without_the_lock() {
  auto domain = keeping(8);
  auto publisher = domain.publisher().expect("a publisher");
  auto subscriber = domain.subscriber().expect("a subscriber");
  std::vector<std::uint64_t> all;
  auto listener = [&] {
    /* All calls may be made; one that waits tries once. */
    while (auto one = subscriber.receive_copy().expect("a receive")) all.push_back((*one)[0]);
    CHECK(!subscriber.blocking_receive().expect("a receive"));
    CHECK(!subscriber.blocking_receive_copy().expect("a receive"));
    CHECK(domain.connection_count() == 1);
  };
  CHECK(subscriber.set_listener(listener).has_value());
  for (std::uint64_t number = 0; number < 40; number += 2) {
    CHECK(publisher.send_copy(message(number)).expect("a send").delivered() == 1u);
    CHECK(publisher.loan(message(number + 1)).expect("a loan").send().expect("a send").delivered() == 1u);
  }
  CHECK(all.size() == 40);
  for (std::uint64_t number = 0; number < 40; number++) CHECK(all[number] == number);
  subscriber.clear_listener();
  subscriber.clear_listener();
  CHECK(publisher.send_copy(message(7)).expect("a send").delivered() == 1u);
  CHECK(all.size() == 40 && first_of(subscriber.receive()) == 7);
  std::size_t stops = 0;
  CHECK(subscriber.set_listener([&] { stops++; }).has_value());
  domain.stop_waits();
  CHECK(stops == 1);
  subscriber.close();
  CHECK(subscriber.set_listener([] {}).error() == iox2ps::Error::NotLive);
}

void a_listener_that_sends_isnt_called_inside_of_itself() {
  auto domain = keeping(8);
  auto publisher = domain.publisher().expect("a publisher");
  auto subscriber = domain.subscriber().expect("a subscriber");
  auto others = keeping(8);
  auto there = others.publisher().expect("a publisher");
  auto far = others.subscriber().expect("a subscriber");
  std::size_t depth = 0, calls = 0, calls_far = 0;
  auto listener = [&] {
    CHECK(depth++ == 0);
    if (calls++ < 3) {
      CHECK(publisher.send_copy(message(100)).expect("a send").delivered() == 1u);
      CHECK(there.send_copy(message(100)).expect("a send").delivered() == 1u);
      /* A loan that never comes isn't waited for. */
      auto first = publisher.loan().expect("a loan");
      auto second = publisher.loan().expect("a loan");
      CHECK(publisher.blocking_loan().error() == iox2ps::Error::LoanExceedsMaxLoans);
    }
    depth--;
  };
  CHECK(subscriber.set_listener(listener).has_value());
  CHECK(far.set_listener([&] {
    CHECK(depth == 0);
    calls_far++;
  }).has_value());
  CHECK(publisher.send_copy(message(1)).expect("a send").delivered() == 1u);
  CHECK(calls >= 4 && calls_far == 3);
  for (std::size_t i = 0; i < 4; i++) CHECK(first_of(subscriber.receive()) == (i == 0 ? 1u : 100u));
  CHECK(!subscriber.receive().expect("a receive"));
  /* No thread thinks that it still calls a listener. */
  auto started = Clock::now();
  CHECK(!subscriber.timed_receive(20ms).expect("a receive"));
  CHECK(Clock::now() - started >= 20ms);
}

void a_listener_goes_with_its_subscriber_and_may_own_other_handles() {
  auto domain = keeping(8);
  auto publisher = domain.publisher().expect("a publisher");
  auto subscriber = domain.subscriber().expect("a subscriber");
  auto other = std::make_shared<Subscriber>(domain.subscriber().expect("a subscriber"));
  std::weak_ptr<Subscriber> held = other;
  auto counted = std::make_shared<int>(0);
  CHECK(subscriber.set_listener([other = std::move(other), counted] { ++*counted; }).has_value());
  CHECK(publisher.send_copy(message(1)).expect("a send").delivered() == 2u && *counted == 1);
  auto moved = std::move(subscriber);
  CHECK(publisher.send_copy(message(1)).expect("a send").delivered() == 2u && *counted == 2);
  /* Another takes its place, which has what it uses dropped without the lock: that closes a subscriber. */
  CHECK(moved.set_listener([counted] { *counted += 10; }).has_value());
  CHECK(held.expired());
  CHECK(publisher.send_copy(message(1)).expect("a send").delivered() == 1u && *counted == 12);
  moved.close();
  CHECK(counted.use_count() == 1);
  CHECK(publisher.send_copy(message(1)).expect("a send").delivered() == 0u && *counted == 12);
  /* One that closes its own subscriber. */
  auto mine = std::make_shared<Subscriber>(domain.subscriber().expect("a subscriber"));
  CHECK(mine->set_listener([weak = std::weak_ptr<Subscriber>(mine), counted] {
    if (auto there = weak.lock()) there->close();
    ++*counted;
  }).has_value());
  CHECK(publisher.send_copy(message(1)).expect("a send").delivered() == 1u && *counted == 13);
  CHECK(publisher.send_copy(message(1)).expect("a send").delivered() == 0u && *counted == 13);
}

void each_listener_is_called_for_each_message() {
  constexpr std::uint64_t messages = 2000;
  iox2ps::Config<Message> config(1);
  config.max_subscribers(40);
  auto domain = Domain::create(config).expect("a domain");
  std::vector<Publisher> publishers;
  std::atomic<std::uint64_t> calls{0};
  std::vector<Subscriber> stay;
  for (int i = 0; i < 3; i++) {
    stay.push_back(domain.subscriber().expect("a subscriber"));
    CHECK(stay.back().set_listener([&] { calls++; }).has_value());
  }
  for (int i = 0; i < 2; i++) publishers.push_back(domain.publisher().expect("a publisher"));
  std::uint64_t before = calls;
  std::vector<std::thread> threads;
  for (auto &publisher : publishers) {
    threads.emplace_back([&] {
      for (std::uint64_t number = 0; number < messages; number++) {
        CHECK(publisher.send_copy(message(number)).expect("a send").delivered().has_value());
      }
    });
  }
  /* Meanwhile others come and go. */
  for (int turn = 0; turn < 200; turn++) {
    auto one = domain.subscriber().expect("a subscriber");
    CHECK(one.set_listener([&] { std::this_thread::yield(); }).has_value());
    static_cast<void>(one.receive());
  }
  for (auto &thread : threads) thread.join();
  CHECK(calls == before + 6 * messages);
}

#ifdef __linux__
/* Whether it is readable within that many milliseconds; -1 waits for good. */
bool is_readable(int loop, int milliseconds) {
  epoll_event event;
  return epoll_wait(loop, &event, 1, milliseconds) == 1;
}

int loop_over(const iox2ps::MessageFd &descriptor) {
  int loop = epoll_create1(EPOLL_CLOEXEC);
  epoll_event event{};
  event.events = EPOLLIN;
  CHECK(loop >= 0 && epoll_ctl(loop, EPOLL_CTL_ADD, descriptor.fd(), &event) == 0);
  return loop;
}

void a_descriptor_is_readable_when_a_message_came() {
  auto domain = keeping(8);
  auto publisher = domain.publisher().expect("a publisher");
  auto subscriber = domain.subscriber().expect("a subscriber");
  auto descriptor = subscriber.message_fd().expect("a descriptor");
  int loop = loop_over(descriptor);
  CHECK(is_readable(loop, 0));
  descriptor.reset();
  descriptor.reset();
  CHECK(!is_readable(loop, 5));
  for (std::uint64_t number = 0; number < 3; number++) {
    CHECK(publisher.send_copy(message(number)).expect("a send").delivered() == 1u);
  }
  CHECK(is_readable(loop, 0));
  descriptor.reset();
  for (std::uint64_t number = 0; number < 3; number++) CHECK(first_of(subscriber.receive()) == number);
  CHECK(!is_readable(loop, 0));
  subscriber.close();
  CHECK(publisher.send_copy(message(7)).expect("a send").delivered() == 0u);
  CHECK(!is_readable(loop, 0));
  CHECK(subscriber.message_fd().error() == iox2ps::Error::NotLive);
  close(loop);
}

void an_event_loop_misses_nothing() {
  constexpr std::uint64_t messages = 2000;
  auto domain = keeping(2);
  auto publisher = domain.publisher().expect("a publisher");
  auto subscriber = domain.subscriber().expect("a subscriber");
  std::thread reads([&] {
    auto descriptor = subscriber.message_fd().expect("a descriptor");
    int loop = loop_over(descriptor);
    std::uint64_t next = 0;
    while (next < messages) {
      CHECK(is_readable(loop, -1));
      descriptor.reset();
      while (auto one = subscriber.receive_copy().expect("a receive")) CHECK((*one)[0] == next++);
    }
    close(loop);
  });
  for (std::uint64_t number = 0; number < messages; number++) {
    CHECK(publisher.blocking_send_copy(message(number)).expect("a send").delivered() == 1u);
  }
  reads.join();
}
#endif

/* A lock of one's own: it counts, wakes all, and lets no thread look before it sleeps. */
class Counting {
public:
  static constexpr bool wakes_all = true;
  static constexpr unsigned looks = 0;
  static inline std::atomic<unsigned> taken{0};
  void lock() {
    mutex_.lock();
    taken++;
  }
  void unlock() { mutex_.unlock(); }

private:
  std::mutex mutex_;
};

void a_lock_is_brought() {
  iox2ps::Config<Message> config(1);
  config.max_subscribers(4);
  auto domain = iox2ps::SharedDomain<Message, Counting>::create(config).expect("a domain");
  auto publisher = domain.publisher().expect("a publisher");
  std::vector<iox2ps::Subscriber<Message, iox2ps::ManyThreadsWith<Counting>>> subscribers;
  for (int i = 0; i < 4; i++) subscribers.push_back(domain.subscriber().expect("a subscriber"));
  std::vector<std::thread> threads;
  unsigned start = Counting::taken;
  for (auto &subscriber : subscribers) {
    threads.emplace_back([&] { CHECK((**subscriber.blocking_receive_copy())[0] == 5); });
  }
  unsigned before = start + static_cast<unsigned>(to_sleep * subscribers.size());
  while (Counting::taken < before) std::this_thread::yield();
  CHECK(publisher.send_copy(message(5)).expect("a send").delivered() == 4u);
  for (auto &thread : threads) thread.join();
  CHECK(Counting::taken == before + 5);
}

/* One that lends its holder the priority of whoever waits for it, as robots need. */
class Inheriting {
public:
  static constexpr bool wakes_all = true;
  static constexpr unsigned looks = 0;
  Inheriting() {
    pthread_mutexattr_t attributes;
    int protocol = 0;
    CHECK(pthread_mutexattr_init(&attributes) == 0);
    CHECK(pthread_mutexattr_setprotocol(&attributes, PTHREAD_PRIO_INHERIT) == 0);
    CHECK(pthread_mutexattr_getprotocol(&attributes, &protocol) == 0 && protocol == PTHREAD_PRIO_INHERIT);
    CHECK(pthread_mutex_init(&mutex_, &attributes) == 0);
    CHECK(pthread_mutexattr_destroy(&attributes) == 0);
  }
  Inheriting(const Inheriting &) = delete;
  Inheriting &operator=(const Inheriting &) = delete;
  ~Inheriting() { CHECK(pthread_mutex_destroy(&mutex_) == 0); }
  void lock() { CHECK(pthread_mutex_lock(&mutex_) == 0); }
  void unlock() { CHECK(pthread_mutex_unlock(&mutex_) == 0); }

private:
  pthread_mutex_t mutex_;
};

/* Two threads send to two others. Each of these gets all. */
void a_lock_with_inheritance_is_brought() {
  constexpr std::uint64_t messages = 500;
  iox2ps::Config<Message> config(1);
  config.enable_safe_overflow(false);
  auto domain = iox2ps::SharedDomain<Message, Inheriting>::create(config).expect("a domain");
  std::vector<iox2ps::Subscriber<Message, iox2ps::ManyThreadsWith<Inheriting>>> subscribers;
  std::vector<iox2ps::Publisher<Message, iox2ps::ManyThreadsWith<Inheriting>>> publishers;
  for (int i = 0; i < 2; i++) {
    subscribers.push_back(domain.subscriber().expect("a subscriber"));
    publishers.push_back(domain.publisher().expect("a publisher"));
  }
  std::vector<std::thread> threads;
  for (auto &subscriber : subscribers) {
    threads.emplace_back([&] {
      std::uint64_t sum = 0;
      for (std::uint64_t i = 0; i < 2 * messages; i++) sum += (**subscriber.blocking_receive_copy())[0];
      CHECK(sum == messages * (messages - 1));
    });
  }
  for (auto &publisher : publishers) {
    threads.emplace_back([&] {
      for (std::uint64_t number = 0; number < messages; number++) {
        CHECK(publisher.blocking_send_copy(message(number)).expect("a send").delivered() == 2u);
      }
    });
  }
  for (auto &thread : threads) thread.join();
}

} // namespace

int main() {
  const std::function<void()> tests[] = {
      a_message_crosses_threads_in_place,
      receives_wait,
      what_comes_while_a_thread_falls_asleep_is_not_missed,
      sends_wait,
      each_that_waits_is_woken,
      each_gets_all_in_order,
      loans_wait,
      loans_wait_for_slots,
      threads_that_wait_for_a_loan_dont_wake_each_other,
      a_retry_wakes_whom_it_reaches,
      a_refused_call_wakes_nobody,
      copies_and_all_take_the_lock_once,
      waits_are_stopped_twice_and_taken_back,
      a_loop_of_timed_calls_sees_the_end,
      a_late_subscriber_has_the_history_at_once,
      a_blocked_publisher_connects_later,
      an_update_for_a_loan_wakes_who_waits,
      a_close_ends_the_waits_for_messages,
      a_close_ends_the_waits_for_loans,
      a_close_ends_the_waits_beside_a_blocked_send,
      ports_are_closed_while_messages_cross,
#ifdef __cpp_exceptions
      a_thread_that_throws_gives_back_what_it_has,
      a_reading_that_throws_gives_its_message_back,
#endif
      domains_go_while_threads_wait_and_listeners_go,
      a_domain_that_goes_while_others_wait_stays_for_them,
      a_slot_comes_back_while_the_next_message_is_waited_for,
      a_listener_is_called_without_the_lock,
      a_listener_that_sends_isnt_called_inside_of_itself,
      a_listener_goes_with_its_subscriber_and_may_own_other_handles,
      each_listener_is_called_for_each_message,
#ifdef __linux__
      a_descriptor_is_readable_when_a_message_came,
      an_event_loop_misses_nothing,
#endif
      a_lock_is_brought,
      a_lock_with_inheritance_is_brought,
  };
  std::size_t passed = 0;
  for (auto &test : tests) {
    test();
    passed++;
  }
  std::printf("%zu tests passed\n", passed);
}
