// SPDX-License-Identifier: Apache-2.0 OR MIT
/* Waits for several ports and times, by the C++ class. */
#include "iox2_pubsub_wait_set.hpp"
#include "turns.hpp"
#include <atomic>
#include <cstdio>
#include <cstdlib>
#include <fstream>
#include <functional>
#include <future>
#include <map>
#include <mutex>
#include <string>
#include <thread>
#include <unordered_set>
#include <vector>
#ifdef __linux__
#include <sys/syscall.h>
#include <unistd.h>
#endif

using namespace std::chrono_literals;
using namespace iox2ps;
using Steady = std::chrono::steady_clock;
using M = ManyThreads;

namespace {

#define CHECK(it) check((it), #it, __LINE__)

void check(bool is_so, const char *what, int line) {
  if (is_so) return;
  std::fprintf(stderr, "cpp/wait_sets.cpp:%d: %s\n", line, what);
  std::abort();
}

template <typename T = int, typename Lock = std::mutex> SharedDomain<T, Lock> keeping(std::size_t buffer = 4) {
  auto config = Config<T>(1).enable_safe_overflow(false).subscriber_max_buffer_size(buffer).subscriber_max_borrowed_samples(buffer);
  return SharedDomain<T, Lock>::create(config).expect("a domain");
}

template <typename P> void send(P &publisher, typename P::Element value) {
  CHECK(publisher.send_copy(value).expect("a send").delivered().has_value());
}

using Ids = std::vector<WaitSetAttachmentId>;

/* The events of one wait. */
Ids once(WaitSet &set) {
  Ids all;
  auto ended = set.wait_and_process_once([&](WaitSetAttachmentId id) {
    all.push_back(id);
    return CallbackProgression::Continue;
  });
  CHECK(ended.value() == WaitSetRunResult::AllEventsHandled);
  return all;
}

/* Those that are there now. */
Ids now(WaitSet &set) {
  Ids all;
  auto ended = set.wait_and_process_once_with_timeout(
      [&](WaitSetAttachmentId id) {
        all.push_back(id);
        return CallbackProgression::Continue;
      },
      0ns);
  CHECK(ended.value() == WaitSetRunResult::AllEventsHandled);
  return all;
}

CallbackProgression none(WaitSetAttachmentId) {
  CHECK(!"an event");
  return CallbackProgression::Stop;
}

WaitSetAttachmentId id_of(const WaitSetGuard &guard) { return WaitSetAttachmentId::from_guard(guard); }

WaitSet made() { return WaitSet::create().expect("a set"); }

void subscribers_of_several_domains_have_events_while_messages_wait() {
  auto numbers = keeping<int>();
  auto words = SharedDomain<char[]>::create(Config<char[]>(2, 8)).expect("a domain");
  auto number = numbers.publisher().expect("a publisher");
  auto word = words.publisher().expect("a publisher");
  auto by_number = numbers.subscriber().expect("a subscriber");
  auto by_word = words.subscriber().expect("a subscriber");
  auto set = made();
  auto first = set.attach_notification(by_number).expect("a guard");
  auto second = set.attach_notification(by_word).expect("a guard");
  CHECK(set.len() == 2 && !set.is_empty() && set);
  CHECK(now(set).empty());
  CHECK(word.send_copy("yes", 3).expect("a send").delivered() == 1u);
  CHECK(once(set) == Ids{id_of(second)});
  send(number, 1);
  send(number, 2);
  CHECK(once(set) == (Ids{id_of(first), id_of(second)}));
  CHECK(by_number.receive_copy().expect("a receive") == 1);
  CHECK((*by_word.receive().expect("a receive")).size() == 3);
  CHECK(once(set) == Ids{id_of(first)});
  CHECK(by_number.receive_copy().expect("a receive") == 2);
  CHECK(now(set).empty());
}

/* Attaching takes the lock once, and a look once for each port to which something may have come. */
constexpr std::size_t to_attach = 1, to_look = 1;

void a_set_that_sleeps_is_woken() {
  auto first = keeping<int, Watched>(), second = keeping<int, Watched>();
  auto one = first.publisher().expect("a publisher"), other = second.publisher().expect("a publisher");
  auto at_one = first.subscriber().expect("a subscriber"), at_other = second.subscriber().expect("a subscriber");
  int received = 0;
  auto waits = asleep_after(2 * (to_attach + to_look), [&] {
    auto set = made();
    auto of_one = set.attach_notification(at_one).expect("a guard"), of_other = set.attach_notification(at_other).expect("a guard");
    auto ended = set.wait_and_process([&](WaitSetAttachmentId id) {
      auto &subscriber = id.has_event_from(of_one) ? at_one : at_other;
      CHECK(id.has_event_from(of_one) != id.has_event_from(of_other) && !id.has_missed_deadline(of_one));
      while (auto value = subscriber.receive_copy().expect("a receive")) received += *value;
      return received == 11 ? CallbackProgression::Stop : CallbackProgression::Continue;
    });
    CHECK(ended.value() == WaitSetRunResult::StopRequest);
  });
  send(other, 1);
  /* It looks, receives twice, and looks again. */
  waits.has_had(2 * (to_attach + to_look) + 2 + 2 * to_look);
  send(one, 10);
  waits.join();
  CHECK(received == 11);
}

/* It has looked at the first, and not at the second. */
void what_comes_while_a_set_falls_asleep_is_not_missed() {
  auto first = keeping<int, Watched>(), second = keeping<int, Watched>();
  auto publisher = first.publisher().expect("a publisher");
  auto at_first = first.subscriber().expect("a subscriber"), at_second = second.subscriber().expect("a subscriber");
  auto waits = stopped_after(2 * to_attach + to_look, [&] {
    auto set = made();
    auto of_first = set.attach_notification(at_first).expect("a guard"), of_second = set.attach_notification(at_second).expect("a guard");
    CHECK(once(set) == Ids{id_of(of_first)});
  });
  send(publisher, 1);
  waits.go_on();
  waits.join();
}

void a_time_passes() {
  auto domain = keeping();
  auto subscriber = domain.subscriber().expect("a subscriber");
  auto set = made();
  auto guard = set.attach_notification(subscriber).expect("a guard");
  auto started = Steady::now();
  auto ended = set.wait_and_process_once_with_timeout(none, 20ms);
  CHECK(ended.value() == WaitSetRunResult::AllEventsHandled && Steady::now() - started >= 20ms);
  CHECK(set.wait_and_process_once_with_timeout(none, -1ns).has_value());
}

void nothing_attached_is_an_error() {
  auto domain = keeping();
  auto subscriber = domain.subscriber().expect("a subscriber");
  auto set = made();
  CHECK(set.wait_and_process(none).error() == Error::NoAttachments);
  {
    auto guard = set.attach_interval(0ns).expect("a guard");
    CHECK(set.len() == 1 && once(set) == Ids{id_of(guard)});
  }
  CHECK(set.is_empty() && set.wait_and_process_once(none).error() == Error::NoAttachments);
  auto guard = set.attach_notification(subscriber).expect("a guard");
  subscriber.close();
  CHECK(set.wait_and_process_once_with_timeout(none, 1h).error() == Error::NoAttachments && set.is_empty());
  CHECK(set.attach_notification(subscriber).error() == Error::NotLive);
  auto moved = std::move(set);
  CHECK(!set && set.len() == 0 && set.wait_and_process(none).error() == Error::NotLive && set.attach_interval(1h).error() == Error::NotLive);
}

void a_deadline_is_missed_where_no_message_came() {
  auto domain = keeping();
  auto publisher = domain.publisher().expect("a publisher");
  auto subscriber = domain.subscriber().expect("a subscriber");
  auto set = made();
  auto started = Steady::now();
  auto guard = set.attach_deadline(subscriber, 20ms).expect("a guard");
  for (int missed = 1; missed < 4; missed++) {
    auto all = once(set);
    CHECK(all.size() == 1 && all[0].has_missed_deadline(guard) && !all[0].has_event_from(guard));
    CHECK(Steady::now() - started >= missed * 20ms);
  }
  send(publisher, 1);
  CHECK(once(set) == Ids{id_of(guard)});
}

/* Where it didn't begin anew it would be missed earlier. */
void a_deadline_begins_anew_with_each_message() {
  auto domain = keeping();
  auto publisher = domain.publisher().expect("a publisher");
  auto subscriber = domain.subscriber().expect("a subscriber");
  auto set = made();
  auto guard = set.attach_deadline(subscriber, 200ms).expect("a guard");
  std::this_thread::sleep_for(150ms);
  auto came = Steady::now();
  send(publisher, 1);
  CHECK(once(set) == Ids{id_of(guard)});
  CHECK(subscriber.receive_copy().expect("a receive") == 1);
  CHECK(once(set)[0].has_missed_deadline(guard) && Steady::now() - came >= 200ms);
}

void a_message_that_is_late_for_its_deadline_is_an_event() {
  auto domain = keeping();
  auto publisher = domain.publisher().expect("a publisher");
  auto subscriber = domain.subscriber().expect("a subscriber");
  auto set = made();
  auto guard = set.attach_deadline(subscriber, 0ns).expect("a guard");
  CHECK(once(set)[0].has_missed_deadline(guard));
  send(publisher, 1);
  CHECK(once(set) == Ids{id_of(guard)});
  guard = set.attach_deadline(subscriber, -1h).expect("a guard");
  CHECK(subscriber.receive_copy().expect("a receive") == 1 && set.len() == 1);
  CHECK(once(set)[0].has_missed_deadline(guard));
}

void ticks_that_were_due_meanwhile_are_one() {
  auto set = made();
  auto started = Steady::now();
  auto guard = set.attach_interval(2ms).expect("a guard");
  std::this_thread::sleep_for(201ms);
  for (int tick = 0; tick < 100; tick++) CHECK(once(set) == Ids{id_of(guard)});
  CHECK(Steady::now() - started >= 201ms + 99 * 2ms - 1ms);
}

void the_longest_times_are_forever() {
  auto domain = keeping();
  auto publisher = domain.publisher().expect("a publisher");
  auto subscriber = domain.subscriber().expect("a subscriber");
  auto set = made();
  auto interval = set.attach_interval((std::chrono::nanoseconds::max)()).expect("a guard");
  auto deadline = set.attach_deadline(subscriber, (std::chrono::nanoseconds::max)()).expect("a guard");
  CHECK(now(set).empty());
  send(publisher, 1);
  auto ended = set.wait_and_process_once_with_timeout([](WaitSetAttachmentId) { return CallbackProgression::Stop; },
                                                      (std::chrono::nanoseconds::max)());
  CHECK(ended.value() == WaitSetRunResult::StopRequest);
}

/* A function is called for nothing that was detached, by itself or by the one before. */
void what_is_detached_is_not_called() {
  auto domain = keeping();
  auto publisher = domain.publisher().expect("a publisher");
  auto subscribers = {domain.subscriber(), domain.subscriber(), domain.subscriber()};
  auto set = made();
  std::vector<std::optional<WaitSetGuard>> guards;
  for (auto &subscriber : subscribers) guards.emplace_back(set.attach_notification(*subscriber).expect("a guard"));
  send(publisher, 1);
  int called = 0;
  auto ended = set.wait_and_process_once([&](WaitSetAttachmentId id) {
    CHECK(++called == 1 && id.has_event_from(*guards[0]));
    for (auto &guard : guards) guard.reset();
    guards[0] = set.attach_interval(0ns).expect("a guard");
    return CallbackProgression::Continue;
  });
  CHECK(ended.value() == WaitSetRunResult::AllEventsHandled && called == 1);
  CHECK(set.len() == 1 && once(set) == Ids{id_of(*guards[0])});
}

void a_port_that_goes_is_not_called() {
  auto domain = keeping();
  auto publisher = domain.publisher().expect("a publisher");
  auto stays = domain.subscriber().expect("a subscriber");
  auto set = made();
  auto of_stays = set.attach_notification(stays).expect("a guard");
  std::vector<WaitSetGuard> guards;
  {
    auto subscriber = domain.subscriber().expect("a subscriber");
    auto other = domain.publisher().expect("a publisher");
    guards.push_back(set.attach_deadline(subscriber, 0ns).expect("a guard"));
    guards.push_back(set.attach_deadline(other, 0ns).expect("a guard"));
    send(publisher, 1);
    CHECK(once(set) == (Ids{id_of(of_stays), id_of(guards[0]), id_of(guards[1])}));
  }
  auto moved = std::move(stays);
  CHECK(once(set) == Ids{id_of(of_stays)} && set.len() == 1);
  CHECK(moved.receive_copy().expect("a receive") == 1 && now(set).empty());
}

/* A publisher that is closed while a send of it waits is there until that has ended. */
void a_publisher_that_is_closed_beside_a_blocked_send_is_not_called() {
  auto domain = keeping(1);
  auto publisher = domain.publisher().expect("a publisher");
  auto subscriber = domain.subscriber().expect("a subscriber");
  send(publisher, 1);
  auto sent = publisher.send_copy(2).expect("a send");
  CHECK(sent.blocked().has_value());
  auto set = made();
  auto guard = set.attach_notification(publisher).expect("a guard");
  publisher.close();
  CHECK(set.wait_and_process_once(none).error() == Error::NoAttachments);
}

void a_close_wakes_a_set_that_has_nothing_else() {
  auto domain = keeping<int, Watched>();
  auto subscriber = domain.subscriber().expect("a subscriber");
  auto waits = asleep_after(to_attach + to_look, [&] {
    auto set = made();
    auto guard = set.attach_notification(subscriber).expect("a guard");
    CHECK(set.wait_and_process(none).error() == Error::NoAttachments);
  });
  subscriber.close();
  waits.join();
}

void guards_outlive_their_set_and_domains_their_handles() {
  std::optional<WaitSetGuard> guard;
  auto domain = keeping();
  auto publisher = domain.publisher().expect("a publisher");
  auto subscriber = domain.subscriber().expect("a subscriber");
  {
    auto set = made();
    guard = set.attach_notification(subscriber).expect("a guard");
    CHECK(set.len() == 1);
  }
  send(publisher, 1);
  auto set = made();
  {
    auto other = keeping();
    auto there = other.subscriber().expect("a subscriber");
    guard = set.attach_notification(there).expect("a guard");
  }
  CHECK(set.len() == 1);
  auto moved = std::move(set);
  CHECK(moved.wait_and_process(none).error() == Error::NoAttachments);
}

void stopped_waits_end_once_no_port_has_an_event() {
  auto domain = keeping<int, Watched>();
  auto publisher = domain.publisher().expect("a publisher");
  auto subscriber = domain.subscriber().expect("a subscriber");
  int received = 0;
  auto waits = asleep_after(to_attach + to_look, [&] {
    auto set = made();
    auto guard = set.attach_notification(subscriber).expect("a guard");
    auto forever = set.attach_interval(1h).expect("a guard");
    auto ended = set.wait_and_process([&](WaitSetAttachmentId) {
      received += *subscriber.receive_copy().expect("a receive");
      return CallbackProgression::Continue;
    });
    CHECK(ended.value() == WaitSetRunResult::TerminationRequest);
  });
  domain.stop_waits();
  waits.join();
  send(publisher, 3);
  send(publisher, 4);
  auto set = made();
  auto guard = set.attach_notification(subscriber).expect("a guard");
  auto always = set.attach_interval(0ns).expect("a guard");
  int called = 0;
  auto receive = [&](WaitSetAttachmentId id) {
    CHECK(called++ < 10);
    if (id.has_event_from(guard)) received += *subscriber.receive_copy().expect("a receive");
    return CallbackProgression::Continue;
  };
  CHECK(set.wait_and_process(receive).expect("a wait") == WaitSetRunResult::TerminationRequest && received == 7);
  CHECK(set.wait_and_process_once(none).expect("a wait") == WaitSetRunResult::TerminationRequest);
  domain.stop_waits(false);
  CHECK(once(set) == Ids{id_of(always)});
}

void an_event_after_a_stop_is_there_where_nothing_else_comes() {
  auto first = keeping(), second = keeping();
  auto one = first.publisher().expect("a publisher"), other = second.publisher().expect("a publisher");
  auto set = made();
  auto of_one = set.attach_notification(one).expect("a guard"), of_other = set.attach_notification(other).expect("a guard");
  auto stops = [&](WaitSetAttachmentId id) {
    CHECK(id.has_event_from(of_one));
    return CallbackProgression::Stop;
  };
  CHECK(set.wait_and_process(stops).value() == WaitSetRunResult::StopRequest);
  CHECK(once(set) == Ids{id_of(of_other)} && now(set).empty());
}

/* What nothing was called for is there for the next wait: a message, what a publisher waits for, and a tick. */
void events_after_a_stop_stay() {
  auto domain = keeping();
  auto publisher = domain.publisher().expect("a publisher");
  auto subscriber = domain.subscriber().expect("a subscriber");
  auto set = made();
  auto always = set.attach_interval(0ns).expect("a guard");
  auto of_subscriber = set.attach_notification(subscriber).expect("a guard");
  auto of_publisher = set.attach_notification(publisher).expect("a guard");
  auto tick = set.attach_interval(1ms).expect("a guard");
  send(publisher, 1);
  std::this_thread::sleep_for(2ms);
  for (int i = 0; i < 2; i++) {
    int called = 0;
    auto ended = set.wait_and_process_once([&](WaitSetAttachmentId id) {
      CHECK(++called == 1 && id.has_event_from(always));
      return CallbackProgression::Stop;
    });
    CHECK(ended.value() == WaitSetRunResult::StopRequest);
  }
  CHECK(once(set) == (Ids{id_of(always), id_of(of_subscriber), id_of(of_publisher), id_of(tick)}));
#ifdef __cpp_exceptions
  tick = set.attach_interval(1h).expect("a guard");
  try {
    static_cast<void>(set.wait_and_process([](WaitSetAttachmentId) -> CallbackProgression { throw 7; }));
    CHECK(false);
  } catch (int thrown) {
    CHECK(thrown == 7);
  }
  CHECK(once(set) == (Ids{id_of(always), id_of(of_subscriber)}));
#endif
}

void a_publisher_has_an_event_when_a_loan_may_be_made() {
  auto domain = keeping();
  auto publisher = domain.publisher().expect("a publisher");
  auto set = made();
  auto guard = set.attach_deadline(publisher, 1h).expect("a guard");
  CHECK(once(set) == Ids{id_of(guard)} && now(set).empty());
  std::vector<Loan<int, M>> loans;
  while (auto loan = publisher.loan()) loans.push_back(std::move(*loan));
  CHECK(now(set).empty());
  loans.back().discard();
  CHECK(once(set) == Ids{id_of(guard)} && now(set).empty() && publisher.loan().has_value());
  guard = set.attach_deadline(publisher, 1ms).expect("a guard");
  CHECK(once(set) == Ids{id_of(guard)} && once(set)[0].has_missed_deadline(guard));
}

void a_publisher_has_an_event_when_a_blocked_send_may_be_retried() {
  auto domain = keeping<int, Watched>(1);
  auto publisher = domain.publisher().expect("a publisher");
  auto subscriber = domain.subscriber().expect("a subscriber");
  send(publisher, 1);
  auto sends = asleep_after(to_attach + to_look + 2, [&] {
    auto sent = publisher.send_copy(2).expect("a send");
    auto set = made();
    auto guard = set.attach_notification(publisher).expect("a guard");
    auto ended = set.wait_and_process([&](WaitSetAttachmentId) {
      return sent.blocked()->retry().expect("a retry") ? CallbackProgression::Stop : CallbackProgression::Continue;
    });
    CHECK(ended.value() == WaitSetRunResult::StopRequest);
  });
  auto sample = std::move(*subscriber.receive().expect("a receive")); // which makes room, and frees no slot
  sends.join();
  sample.release();
  CHECK(subscriber.receive_copy().expect("a receive") == 2);
}

void a_function_may_wait() {
  auto domain = keeping();
  auto publisher = domain.publisher().expect("a publisher");
  auto subscriber = domain.subscriber().expect("a subscriber");
  auto set = made();
  auto first = set.attach_notification(publisher).expect("a guard");
  auto second = set.attach_notification(subscriber).expect("a guard");
  auto third = set.attach_notification(publisher).expect("a guard");
  send(publisher, 1);
  Ids outside;
  auto ended = set.wait_and_process_once([&](WaitSetAttachmentId id) {
    outside.push_back(id);
    CHECK(once(set) == (Ids{id_of(second), id_of(third)}));
    return CallbackProgression::Continue;
  });
  CHECK(ended.value() == WaitSetRunResult::AllEventsHandled && outside == Ids{id_of(first)});
  CHECK(once(set) == Ids{id_of(second)});
}

void a_listener_does_not_wait() {
  auto domain = keeping();
  auto publisher = domain.publisher().expect("a publisher");
  auto subscriber = domain.subscriber().expect("a subscriber"), silent = keeping().subscriber().expect("a subscriber");
  auto set = made();
  auto guard = set.attach_notification(silent).expect("a guard");
  bool is_called = false;
  CHECK(subscriber.set_listener([&] {
    is_called = set.wait_and_process(none).expect("a wait") == WaitSetRunResult::TerminationRequest;
  }).has_value());
  send(publisher, 1);
  CHECK(is_called);
}

void ids_are_keys() {
  auto set = made(), other = made();
  auto first = set.attach_interval(0ns).expect("a guard"), second = other.attach_interval(0ns).expect("a guard");
  CHECK(id_of(first) != id_of(second) && id_of(first) < id_of(second) && !(id_of(second) < id_of(first)));
  std::map<WaitSetAttachmentId, int> ordered{{id_of(first), 1}, {id_of(second), 2}};
  std::unordered_set<WaitSetAttachmentId> hashed{id_of(first), id_of(second), id_of(first)};
  CHECK(ordered[once(other)[0]] == 2 && hashed.size() == 2 && hashed.count(once(set)[0]) == 1);
  auto moved = std::move(first);
  CHECK(once(set)[0].has_event_from(moved) && !once(set)[0].has_event_from(first) && !once(set)[0].has_missed_deadline(first));
  auto domain = keeping();
  auto subscriber = domain.subscriber().expect("a subscriber");
  auto of_subscriber = other.attach_deadline(subscriber, 0ns).expect("a guard");
  auto missed = once(other)[1];
  CHECK(missed != id_of(of_subscriber) && id_of(of_subscriber) < missed && !missed.has_missed_deadline(second));
  hashed.insert({missed, id_of(of_subscriber)});
  CHECK(hashed.size() == 4);
}

/* How often the lock was taken, by whomever. */
struct Counted {
  static inline std::atomic<std::size_t> turns{0};
  std::mutex mutex;
  void lock() {
    mutex.lock();
    turns++;
  }
  void unlock() { mutex.unlock(); }
};

/* Its ports have had events, and have none any longer. */
void an_idle_set_asks_no_domain() {
  auto domain = keeping<int, Counted>();
  auto publisher = domain.publisher().expect("a publisher");
  auto subscriber = domain.subscriber().expect("a subscriber");
  auto set = made();
  auto of_subscriber = set.attach_deadline(subscriber, 1h).expect("a guard");
  auto of_publisher = set.attach_notification(publisher).expect("a guard");
  send(publisher, 1);
  CHECK(once(set) == (Ids{id_of(of_subscriber), id_of(of_publisher)}));
  CHECK(subscriber.receive_copy().expect("a receive") == 1 && once(set) == Ids{id_of(of_publisher)} && now(set).empty());
  auto tick = set.attach_interval(10ms).expect("a guard");
  std::size_t turns = Counted::turns;
  for (int i = 0; i < 10; i++) CHECK(once(set) == Ids{id_of(tick)});
  CHECK(Counted::turns == turns);
}

#ifdef __linux__
/* What the kernel says of a thread: its state, and how often it has slept so far. */
std::string sleeps_of(long thread) {
  std::ifstream status("/proc/self/task/" + std::to_string(thread) + "/status");
  std::string said;
  for (std::string line; std::getline(status, line);)
    if (line.rfind("State:", 0) == 0 || line.rfind("voluntary_ctxt", 0) == 0) said += line;
  return said;
}

/* Whether a thread is found asleep that isn't awake once until it is looked at again, however late that is. */
bool sleeps_on(long thread) {
  for (auto started = Steady::now(); Steady::now() - started < 60s;) {
    auto before = sleeps_of(thread);
    std::this_thread::sleep_for(200ms);
    if (before.find("S (sleeping)") != std::string::npos && sleeps_of(thread) == before) return true;
  }
  return false;
}

/* One that looks now and then is awake meanwhile, and one that looks all the time never sleeps. */
void an_idle_set_sleeps_on() {
  auto domain = keeping();
  auto publisher = domain.publisher().expect("a publisher");
  auto subscriber = domain.subscriber().expect("a subscriber");
  std::promise<long> place;
  std::thread waits([&] {
    auto set = made();
    auto guard = set.attach_deadline(subscriber, 1h).expect("a guard"), tick = set.attach_interval(1h).expect("a guard");
    send(publisher, 1);
    CHECK(once(set) == Ids{id_of(guard)} && subscriber.receive_copy().expect("a receive") == 1);
    place.set_value(syscall(SYS_gettid));
    CHECK(set.wait_and_process_once(none).expect("a wait") == WaitSetRunResult::TerminationRequest);
  });
  CHECK(sleeps_on(place.get_future().get()));
  domain.stop_waits();
  waits.join();
}
#endif

/* Many senders, and ports that come and go while messages cross. */
void each_message_is_received() {
  constexpr int messages = 500, domains = 4;
  std::vector<SharedDomain<int>> all;
  std::vector<Subscriber<int, M>> subscribers;
  for (int i = 0; i < domains; i++) {
    all.push_back(keeping(2));
    subscribers.push_back(all.back().subscriber().expect("a subscriber"));
  }
  std::vector<std::thread> threads;
  for (auto &domain : all) {
    threads.emplace_back([&domain] {
      auto publisher = domain.publisher().expect("a publisher");
      for (int number = 0; number < messages; number++) CHECK(publisher.blocking_send_copy(number).expect("a send").delivered().has_value());
    });
    threads.emplace_back([&domain] {
      for (int number = 0; number < messages / 10; number++) {
        auto late = domain.subscriber().expect("a subscriber");
        auto set = made();
        auto guard = set.attach_deadline(late, 0ns).expect("a guard");
        CHECK(once(set).size() == 1);
        if (number % 2 != 0) late.close();
      }
    });
  }
  auto set = made();
  std::vector<WaitSetGuard> guards;
  std::vector<int> next(domains);
  int left = domains * messages;
  for (auto &subscriber : subscribers) guards.push_back(set.attach_notification(subscriber).expect("a guard"));
  auto ended = set.wait_and_process([&](WaitSetAttachmentId id) {
    for (std::size_t at = 0; at < domains; at++) {
      if (!id.has_event_from(guards[at])) continue;
      while (auto value = subscribers[at].receive_copy().expect("a receive")) {
        CHECK(*value == next[at]++);
        left--;
      }
      guards[at] = set.attach_notification(subscribers[at]).expect("a guard");
    }
    return left == 0 ? CallbackProgression::Stop : CallbackProgression::Continue;
  });
  CHECK(ended.value() == WaitSetRunResult::StopRequest);
  for (auto &thread : threads) thread.join();
}

} // namespace

int main() {
  const std::function<void()> tests[] = {
      subscribers_of_several_domains_have_events_while_messages_wait,
      a_set_that_sleeps_is_woken,
      what_comes_while_a_set_falls_asleep_is_not_missed,
      a_time_passes,
      nothing_attached_is_an_error,
      a_deadline_is_missed_where_no_message_came,
      a_deadline_begins_anew_with_each_message,
      a_message_that_is_late_for_its_deadline_is_an_event,
      ticks_that_were_due_meanwhile_are_one,
      the_longest_times_are_forever,
      what_is_detached_is_not_called,
      a_port_that_goes_is_not_called,
      a_publisher_that_is_closed_beside_a_blocked_send_is_not_called,
      a_close_wakes_a_set_that_has_nothing_else,
      guards_outlive_their_set_and_domains_their_handles,
      stopped_waits_end_once_no_port_has_an_event,
      an_event_after_a_stop_is_there_where_nothing_else_comes,
      events_after_a_stop_stay,
      a_publisher_has_an_event_when_a_loan_may_be_made,
      a_publisher_has_an_event_when_a_blocked_send_may_be_retried,
      a_function_may_wait,
      a_listener_does_not_wait,
      ids_are_keys,
      an_idle_set_asks_no_domain,
#ifdef __linux__
      an_idle_set_sleeps_on,
#endif
      each_message_is_received,
  };
  std::size_t passed = 0;
  for (auto &test : tests) {
    test();
    passed++;
  }
  std::printf("%zu tests passed\n", passed);
}
