// SPDX-License-Identifier: Apache-2.0 OR MIT
/* A child of a process that has domains: each call on one of them is refused there, also where another thread had the lock when the
 * process was forked, and what the child drops touches neither the archive nor the descriptors. The parent goes on as if no child
 * were there, and the child has domains of its own. */
#include "iox2_pubsub_wait_set.hpp"
#include "endings.hpp"
#include <atomic>
#include <cstdio>
#include <fcntl.h>
#include <mutex>
#include <optional>
#include <poll.h>
#include <thread>

using namespace std::chrono_literals;
using iox2ps::Error;

#define CHECK(it) check((it), #it, __LINE__)

static void check(bool is_so, const char *what, int line) {
  if (is_so) return;
  std::fprintf(stderr, "cpp/forked.cpp:%d: %s\n", line, what);
  std::abort();
}

/* The lock of the domain that was made last, which a test may hold. */
class Reachable {
public:
  static inline Reachable *last = nullptr;
  static inline std::atomic<unsigned> taken{0};
  Reachable() { last = this; }
  void lock() {
    mutex_.lock();
    taken++;
  }
  void unlock() { mutex_.unlock(); }

private:
  std::mutex mutex_;
};

constexpr auto is_refused = [](const auto &result) { return !result.has_value() && result.error() == Error::AfterFork; };

/* All that a domain may have, and one that is blocked. */
template <typename M> struct Handles {
  iox2ps::Domain<int, M> domain;
  iox2ps::Publisher<int, M> publisher = domain.publisher().expect("a publisher");
  iox2ps::Publisher<int, M> full = domain.publisher().expect("a publisher");
  iox2ps::Subscriber<int, M> subscriber = domain.subscriber().expect("a subscriber");
  iox2ps::Loan<int, M> loan = publisher.loan(7).expect("a loan");
  std::optional<iox2ps::Sample<int, M>> sample;
  std::optional<iox2ps::BlockedSend<int, M>> blocked;

  explicit Handles(iox2ps::Domain<int, M> made) : domain(std::move(made)) {
    full.send_copy(1).expect("a send").delivered();
    sample = subscriber.receive().expect("a receive");
    full.send_copy(2).expect("a send").delivered();
    blocked = std::move(full.send_copy(3).expect("a send").blocked());
    CHECK(sample && blocked);
  }
};

template <typename M> iox2ps::Domain<int, M> made() {
  auto config = iox2ps::Config<int>(7).enable_safe_overflow(false).subscriber_max_buffer_size(1).record(100, 4);
  return iox2ps::Domain<int, M>::create(config).expect("a domain");
}

template <typename M> void all_is_refused(Handles<M> &its) {
  auto &[domain, publisher, full, subscriber, loan, sample, blocked] = its;
  CHECK(is_refused(domain.publisher()) && is_refused(domain.subscriber()));
  CHECK(is_refused(domain.config()) && is_refused(domain.recording()));
  CHECK(domain.connection_count() + domain.book_count() + domain.refused_connections() == 0 && domain.warnings().empty());
  CHECK(is_refused(publisher.loan()) && is_refused(publisher.loan(1)) && is_refused(publisher.loan_uninit()));
  CHECK(is_refused(publisher.send_copy(1)) && is_refused(publisher.update_connections()) && !full.is_blocked());
  CHECK(is_refused(publisher.get_connection_id_of(subscriber.id())) && is_refused(publisher.close_channel(0, 0, 0)));
  CHECK(is_refused(publisher.has_channel_state(0, 0, 0)) && is_refused(publisher.has_disconnect_hint(0, 0, 0)));
  CHECK(is_refused(subscriber.receive()) && is_refused(subscriber.receive_copy()) && is_refused(subscriber.has_samples()));
  CHECK(is_refused(subscriber.update_connections()) && is_refused(subscriber.set_channel_state(0, 0)));
  CHECK(is_refused(subscriber.close_channel(0, 0)) && is_refused(subscriber.set_disconnect_hint(0, 0)));
  CHECK(is_refused(subscriber.at_least_one_channel_has_state(0, 0)) && is_refused(sample->header()));
  CHECK(is_refused(blocked->subscriber()) && loan);
}

/* The same of calls that wait, for which there is nobody to wake them. */
template <typename M> void waits_are_refused(Handles<M> &its) {
  auto &[domain, publisher, full, subscriber, loan, sample, blocked] = its;
  CHECK(is_refused(subscriber.blocking_receive()) && is_refused(subscriber.timed_receive(1h)));
  CHECK(is_refused(subscriber.blocking_receive_copy()) && is_refused(subscriber.timed_receive_copy(1h)));
  CHECK(is_refused(subscriber.blocking_for_each([](const auto &) { return true; })));
  CHECK(is_refused(publisher.blocking_loan()) && is_refused(publisher.blocking_loan_uninit()) && is_refused(publisher.timed_loan(1h)));
  CHECK(is_refused(publisher.blocking_send_copy(1)) && is_refused(publisher.timed_send_copy(1, 1h)));
  CHECK(is_refused(subscriber.set_listener([] {})));
  subscriber.clear_listener();
  domain.stop_waits(false);
  CHECK(domain.waits_are_stopped());
}

/* A call that ends a handle leaves it empty in the child too. */
template <typename M, typename Send, typename End> void ends_refused(Handles<M> &its, Send send, End end) {
  CHECK(is_refused(send(its.loan)) && !its.loan);
  CHECK(is_refused(end(*its.blocked)) && !*its.blocked);
}

/* What was received lies in the child's memory too. */
template <typename M> void all_goes(Handles<M> &its) {
  CHECK(**its.sample == 1);
  its.publisher.close();
  its.subscriber.close();
  its.loan.discard();
  its.sample.reset();
  its.blocked.reset();
  auto other = std::move(its.domain);
}

static void a_child_has_domains_of_its_own() {
  auto domain = iox2ps::SharedDomain<int>::create(iox2ps::Config<int>(7)).expect("a domain");
  auto publisher = domain.publisher().expect("a publisher");
  auto subscriber = domain.subscriber().expect("a subscriber");
  CHECK(!subscriber.timed_receive(1ms).expect("a receive"));
  std::thread waits([&] { CHECK(subscriber.blocking_receive_copy().expect("a receive") == 7); });
  CHECK(publisher.send_copy(7).expect("a send").delivered() == 1u);
  waits.join();
}

static void for_one_thread() {
  Handles<iox2ps::OneThread> its(made<iox2ps::OneThread>());
  returns("a child of a domain for one thread", [&] {
    all_is_refused(its);
    std::thread([&] { all_is_refused(its); }).join();
    ends_refused(its, [](auto &loan) { return loan.send(); }, [](auto &blocked) { return blocked.retry(); });
    all_goes(its);
    a_child_has_domains_of_its_own();
  });
  returns("a child that gives up, and its child", [&] {
    returns("a child of a child", [&] {
      all_is_refused(its);
      all_goes(its);
    });
    ends_refused(its, [](auto &loan) { return loan.deliver_offset_to_connection(0, 0); }, [](auto &blocked) { return blocked.give_up(); });
    all_goes(its);
  });
  CHECK(its.loan.send().has_value() && its.subscriber.receive_copy().expect("a receive") == 2);
  CHECK(its.blocked->retry().expect("a retry") == 1u);
}

static void for_several() {
  using M = iox2ps::ManyThreadsWith<Reachable>;
  Handles<M> its(made<M>());
  std::thread calls([&] { CHECK(!its.domain.waits_are_stopped()); });
  calls.join();
  Reachable::last->lock(); /* as another thread may have it */
  unsigned before = Reachable::taken;
  returns("a child of a domain that threads share", [&] {
    all_is_refused(its);
    waits_are_refused(its);
    std::thread([&] {
      all_is_refused(its);
      waits_are_refused(its);
    }).join();
    ends_refused(its, [](auto &loan) { return loan.blocking_send(); }, [](auto &blocked) { return blocked.blocking_retry(); });
    all_goes(its);
    CHECK(Reachable::taken == before);
    a_child_has_domains_of_its_own();
  });
  returns("a child that tries for an hour", [&] {
    ends_refused(its, [](auto &loan) { return loan.timed_send(1h); }, [](auto &blocked) { return blocked.timed_retry(1h); });
  });
  returns("a child whose other thread drops all", [&] { std::thread([&] { all_goes(its); }).join(); });
  Reachable::last->unlock();
  CHECK(its.loan.send().has_value() && its.subscriber.receive_copy().expect("a receive") == 2);
  CHECK(its.blocked->retry().expect("a retry") == 1u);
}

#ifdef __linux__
static bool is_readable(const iox2ps::MessageFd &descriptor) {
  pollfd one = {descriptor.fd(), POLLIN, 0};
  return poll(&one, 1, 0) == 1;
}

static void a_descriptor_stays_the_parents() {
  std::optional domain = iox2ps::SharedDomain<int>::create(iox2ps::Config<int>(7)).expect("a domain");
  auto publisher = domain->publisher().expect("a publisher");
  std::optional subscriber = domain->subscriber().expect("a subscriber");
  std::optional descriptor = subscriber->message_fd().expect("a descriptor");
  descriptor->reset();
  CHECK(publisher.send_copy(1).expect("a send").delivered() == 1u && is_readable(*descriptor));
  returns("a child that resets a descriptor and drops it", [&] {
    int number = descriptor->fd();
    descriptor->reset();
    CHECK(is_readable(*descriptor) && is_refused(subscriber->message_fd()));
    descriptor.reset();
    subscriber.reset();
    domain.reset();
    CHECK(fcntl(number, F_GETFD) != -1);
  });
  CHECK(is_readable(*descriptor));
  descriptor->reset();
  CHECK(!is_readable(*descriptor));
  CHECK(publisher.send_copy(2).expect("a send").delivered() == 1u && is_readable(*descriptor));
}
#endif

/* Its parent's set waits for nothing there, has no member more, and is dropped with its guards. */
static void a_set_stays_the_parents() {
  auto domain = iox2ps::SharedDomain<int, Reachable>::create(iox2ps::Config<int>(7)).expect("a domain");
  auto publisher = domain.publisher().expect("a publisher");
  auto subscriber = domain.subscriber().expect("a subscriber");
  std::optional set = iox2ps::WaitSet::create().expect("a set");
  std::optional of_subscriber = set->attach_notification(subscriber).expect("a guard");
  std::optional of_time = set->attach_interval(1h).expect("a guard");
  auto stops = [](iox2ps::WaitSetAttachmentId) { return iox2ps::CallbackProgression::Stop; };
  Reachable::last->lock(); /* as another thread may have it */
  returns("a child of a set", [&] {
    CHECK(is_refused(set->wait_and_process(stops)) && is_refused(set->wait_and_process_once_with_timeout(stops, 1h)));
    CHECK(is_refused(set->attach_notification(subscriber)) && is_refused(set->attach_deadline(publisher, 1h)));
    of_subscriber.reset();
    set.reset();
    of_time.reset();
  });
  Reachable::last->unlock();
  CHECK(publisher.send_copy(1).expect("a send").delivered() == 1u);
  CHECK(set->wait_and_process(stops).value() == iox2ps::WaitSetRunResult::StopRequest);
}

/* A fork while threads of the parent wait, wake and send leaves the child nothing that it would wait for. */
static void children_of_busy_parents_end() {
  auto domain = iox2ps::SharedDomain<int>::create(iox2ps::Config<int>(7)).expect("a domain");
  auto publisher = domain.publisher().expect("a publisher");
  auto subscriber = domain.subscriber().expect("a subscriber");
  std::atomic<bool> goes_on{true};
  std::thread sends([&] {
    while (goes_on) publisher.send_copy(1).expect("a send").delivered();
  });
  std::thread waits([&] {
    while (goes_on) static_cast<void>(subscriber.timed_receive_copy(1ms).expect("a receive"));
  });
  for (int turn = 0; turn < 100; turn++) {
    returns("a child of a busy parent", [&] {
      CHECK(is_refused(subscriber.blocking_receive_copy()) && is_refused(publisher.send_copy(1)));
      subscriber.close();
    });
  }
  goes_on = false;
  sends.join();
  waits.join();
}

int main() {
  for_one_thread();
  for_several();
#ifdef __linux__
  a_descriptor_stays_the_parents();
#endif
  a_set_stays_the_parents();
  children_of_busy_parents_end();
  std::puts("a child has nothing of its parent's domains");
}
