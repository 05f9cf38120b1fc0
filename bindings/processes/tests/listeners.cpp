// SPDX-License-Identifier: Apache-2.0 OR MIT
/* Events in C++: processes notify each other, each event is told, and none is lost. */
#include "iox2_pubsub_wait_set.hpp"
#include "roles.hpp"
#include <atomic>
#include <optional>
#include <set>
#include <vector>

using Alone = iox2ps::Domain<Reading>;
using Shared = iox2ps::SharedDomain<Reading>;
using iox2ps::EventId;
using iox2ps::EventIds;

namespace {

const EventId question(1), answer(2);

std::vector<std::size_t> values(const EventIds &all) {
  std::vector<std::size_t> found;
  for (EventId one : all) found.push_back(one.as_value());
  CHECK(found.size() == all.size() && found.empty() == all.empty());
  return found;
}

/* ---- other roles */

template <typename L> void wait_for(L &listener, EventId wanted) {
  while (listener.blocking_wait_one().expect("an event") != wanted) {}
}
template <typename D> void answers(const std::string &name) {
  auto domain = open_by<D>(name);
  auto listener = domain.listener().expect("a listener");
  auto notifier = domain.notifier(answer).expect("a notifier");
  CHECK(notifier.notify().has_value()); /* it listens */
  for (std::uint64_t i = 0; i < messages; i++) {
    wait_for(listener, question);
    CHECK(*notifier.notify() == 2);
  }
}
void notifies_some(const std::string &name) {
  auto domain = open_by<Alone>(name);
  auto notifier = domain.notifier(EventId(7)).expect("a notifier");
  for (std::size_t id : {255u, 0u, 64u}) CHECK(*notifier.notify_with_custom_event_id(EventId(id)) == 1);
  for (int i = 0; i < 2; i++) CHECK(*notifier.notify() == 1);
}
void notifies_all(const std::string &name) {
  auto domain = open_by<Alone>(name);
  auto notifier = domain.notifier().expect("a notifier");
  for (std::size_t id = 0; id <= EventId::max_value; id++) CHECK(notifier.notify_with_custom_event_id(EventId(id)).has_value());
}
void sends_and_notifies(const std::string &name) {
  auto domain = open_by<Alone>(name);
  auto publisher = domain.publisher().expect("a publisher");
  auto notifier = domain.notifier().expect("a notifier");
  CHECK(publisher.send_copy({1, {}}).expect("a send").delivered() == 1u && notifier.notify().has_value());
  pause();
}

/* ---- tests */

/* Each waits for the other by turns. */
template <typename D> void by_turns(const char *role) {
  std::string name = name_of(role);
  auto domain = open_by<D>(name);
  auto listener = domain.listener().expect("a listener");
  auto notifier = domain.notifier(question).expect("a notifier");
  CHECK(notifier.default_event_id() == question);
  pid_t child = started(role, name);
  wait_for(listener, answer);
  for (std::uint64_t i = 0; i < messages; i++) {
    CHECK(*notifier.notify() == 2);
    wait_for(listener, answer);
  }
  CHECK(status_of(child) == 0);
}

/* Each once, in the order of their numbers; and by turns where one is taken. */
template <typename D> void events_are_a_set(const char *what) {
  std::string name = name_of(what);
  auto domain = open_by<D>(name);
  auto notifier = domain.notifier().expect("a notifier");
  CHECK(*notifier.notify() == 0);
  auto listener = domain.listener().expect("a listener"); /* of nothing before */
  CHECK(listener && listener.id() != iox2ps::Id{} && listener.try_wait_all()->empty() && !*listener.try_wait_one());
  CHECK(status_of(started("notifies_some", name)) == 0);
  auto all = listener.try_wait_all().expect("events");
  CHECK(values(all) == (std::vector<std::size_t>{0, 7, 64, 255}) && all.contains(EventId(64)) && !all.contains(EventId(65)) && !all.contains(EventId(256)));
  CHECK(listener.try_wait_all()->empty());
  for (std::size_t id : {200u, 3u}) CHECK(*notifier.notify_with_custom_event_id(EventId(id)) == 1);
  CHECK(*listener.timed_wait_one(1h) == EventId(3));
  CHECK(notifier.notify_with_custom_event_id(EventId(3)).has_value() && *listener.timed_wait_one(1h) == EventId(200));
  CHECK(*listener.try_wait_one() == EventId(3) && !*listener.timed_wait_one(1ms) && listener.timed_wait_all(1ms)->empty());
  std::set<std::size_t> left;
  for (std::size_t id = 0; id <= EventId::max_value; id++) left.insert(id);
  pid_t child = started("notifies_all", name);
  while (!left.empty()) {
    for (std::size_t id : values(listener.blocking_wait_all().expect("events"))) CHECK(left.erase(id) == 1);
  }
  CHECK(status_of(child) == 0);
}

/* Who is told of an event finds the message that was sent before it. */
void a_message_is_there() {
  std::string name = name_of("message");
  auto domain = open_by<Alone>(name);
  auto subscriber = domain.subscriber().expect("a subscriber");
  auto listener = domain.listener().expect("a listener");
  pid_t child = started("sends_and_notifies", name);
  CHECK(*listener.blocking_wait_one() == EventId() && subscriber.receive()->has_value());
  CHECK(*domain.timed_wait(iox2ps::WaitFor::Event, 0ms) && !*domain.timed_wait(iox2ps::WaitFor::Event, 1ms));
  kill_it(child);
}

/* Threads that wait at listeners of their own, and at one together; another closes one, and stops all waits. */
void threads_wait() {
  std::string name = name_of("threads");
  auto domain = open_by<Shared>(name);
  auto together = domain.listener().expect("a listener"), closed = domain.listener().expect("a listener"), stopped = domain.listener().expect("a listener");
  auto own = domain.listener().expect("a listener");
  std::thread first([&] { CHECK(together.blocking_wait_one()->has_value()); }), second([&] { CHECK(together.blocking_wait_one()->has_value()); });
  std::thread third([&] {
    std::size_t count = 0;
    while (count <= EventId::max_value) count += own.blocking_wait_all()->size();
    CHECK(count == EventId::max_value + 1);
  });
  pid_t child = started("notifies_all", name);
  first.join(), second.join(), third.join();
  CHECK(status_of(child) == 0);
  CHECK(closed.blocking_wait_all()->size() == EventId::max_value + 1 && stopped.blocking_wait_all()->size() == EventId::max_value + 1);
  std::thread fourth([&] { CHECK(closed.blocking_wait_one().error() == Error::NotLive); });
  std::thread fifth([&] { CHECK(!*stopped.blocking_wait_one()); });
  std::this_thread::sleep_for(20ms); /* mostly they sleep by then */
  closed.close();
  fourth.join();
  domain.stop_waits();
  fifth.join();
  CHECK(!closed && closed.try_wait_all().error() == Error::NotLive && stopped.try_wait_all()->empty());
}

/* A set has an event as long as one isn't taken, and of a listener that is closed nothing. */
void a_set_hears() {
  std::string name = name_of("set");
  auto domain = open_by<Shared>(name);
  auto listener = domain.listener().expect("a listener");
  auto set = iox2ps::WaitSet::create().expect("a set");
  auto guard = set.attach_notification(listener).expect("a guard");
  std::size_t count = 0;
  pid_t child = started("notifies_all", name);
  auto ended = set.wait_and_process([&](iox2ps::WaitSetAttachmentId id) {
    CHECK(id.has_event_from(guard) && *listener.try_wait_one());
    return ++count > EventId::max_value ? iox2ps::CallbackProgression::Stop : iox2ps::CallbackProgression::Continue;
  });
  CHECK(ended.value() == iox2ps::WaitSetRunResult::StopRequest && status_of(child) == 0);
  auto with_deadline = set.attach_deadline(listener, 1ms).expect("a guard");
  guard = std::move(with_deadline);
  CHECK(set.wait_and_process_once([&](iox2ps::WaitSetAttachmentId id) {
    CHECK(id.has_missed_deadline(guard));
    return iox2ps::CallbackProgression::Continue;
  }).has_value());
  listener.close();
  int missed = 0; /* by a set that keeps it, one each millisecond */
  auto none = set.wait_and_process([&](iox2ps::WaitSetAttachmentId) {
    CHECK(++missed < 1000);
    return iox2ps::CallbackProgression::Continue;
  });
  CHECK(none.error() == Error::NoAttachments);
}

/* Listeners of events and those of subscribers have numbers of their own. */
void numbers_are_told_apart() {
  auto domain = open_by<Shared>(name_of("numbers"));
  auto publisher = domain.publisher().expect("a publisher");
  std::atomic<int> called{0};
  std::vector<iox2ps::Subscriber<Reading, iox2ps::ManyThreads>> subscribers;
  for (int i = 0; i < 4; i++) {
    subscribers.push_back(domain.subscriber().expect("a subscriber"));
    CHECK(subscribers.back().set_listener([&called] { called++; }).has_value());
  }
  for (int i = 0; i < 8; i++) domain.listener().expect("a listener").close();
  called = 0;
  CHECK(publisher.send_copy({1, {}}).expect("a send").delivered() == 4u && called == 4);
}

template <typename D> void is_refused(const D &domain, Error error) {
  CHECK(domain.notifier().error() == error && domain.listener().error() == error);
}

/* Events that can't be, domains of one process, handles that are empty, and those of a parent. */
void bad_input() {
  std::string name = name_of("refused");
  auto domain = open_by<Alone>(name);
  auto notifier = domain.notifier(EventId(EventId::max_value)).expect("a notifier");
  auto listener = domain.listener().expect("a listener");
  CHECK(domain.notifier(EventId(256)).error() == Error::NotifyEventIdOutOfBounds && notifier.notify_with_custom_event_id(EventId(SIZE_MAX)).error() == Error::NotifyEventIdOutOfBounds);
  CHECK(listener.try_wait_all()->empty());
  pid_t child = fork_child();
  if (child == 0) {
    is_refused(domain, Error::AfterFork);
    CHECK(notifier.notify().error() == Error::AfterFork && listener.blocking_wait_one().error() == Error::AfterFork);
    _exit(0);
  }
  CHECK(status_of(child) == 0);
  auto moved = std::move(notifier);
  auto moved_too = std::move(listener);
  CHECK(!notifier && !listener && listener.id() == iox2ps::Id{} && notifier.notify().error() == Error::NotLive && listener.try_wait_one().error() == Error::NotLive);
  CHECK(*moved.notify() == 1 && *moved_too.try_wait_one() == EventId(EventId::max_value));
  moved_too = domain.listener().expect("a listener"); /* the one before is closed */
  CHECK(*moved.notify() == 1);
  auto taken = std::move(domain);
  is_refused(domain, Error::NotLive);
  is_refused(Alone::create(settings()).expect("a domain"), Error::ProcessesNotShared);
  is_refused(Shared::create(settings()).expect("a domain"), Error::ProcessesNotShared);
}

} // namespace

int main(int count, char **words) {
  if (has_played(count, words, {{"answers_alone", answers<Alone>}, {"answers_shared", answers<Shared>}, {"notifies_some", notifies_some}, {"notifies_all", notifies_all}, {"sends_and_notifies", sends_and_notifies}})) return 0;
  by_turns<Alone>("answers_shared");
  by_turns<Shared>("answers_alone");
  events_are_a_set<Alone>("alone");
  events_are_a_set<Shared>("shared");
  a_message_is_there();
  threads_wait();
  a_set_hears();
  numbers_are_told_apart();
  bad_input();
  std::puts("listeners in C++: each event is told");
}
