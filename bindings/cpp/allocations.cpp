// SPDX-License-Identifier: Apache-2.0 OR MIT
/* No call on a message takes memory, also where a thread makes its first, waits, is told or tells others. Connections do, which are
 * made when a port is, or by an update. The functions of the C library are this program's here: each counts for the thread that asks
 * for it. */
#include "iox2_pubsub_wait_set.hpp"
#include <atomic>
#include <cstdio>
#include <cstdlib>
#include <thread>

// Volatile, since a compiler may take it that a function of this name neither reads nor changes them.
static thread_local volatile bool counts = false;
static thread_local volatile unsigned long taken = 0;

extern "C" {
void *__libc_malloc(std::size_t size);
void *__libc_calloc(std::size_t values, std::size_t size);
void *__libc_realloc(void *memory, std::size_t size);
void *__libc_memalign(std::size_t alignment, std::size_t size);

void *malloc(std::size_t size) { return taken = taken + counts, __libc_malloc(size); }
void *calloc(std::size_t values, std::size_t size) { return taken = taken + counts, __libc_calloc(values, size); }
void *realloc(void *memory, std::size_t size) { return taken = taken + counts, __libc_realloc(memory, size); }
void *aligned_alloc(std::size_t alignment, std::size_t size) { return taken = taken + counts, __libc_memalign(alignment, size); }
int posix_memalign(void **memory, std::size_t alignment, std::size_t size) {
  *memory = (taken = taken + counts, __libc_memalign(alignment, size));
  return *memory ? 0 : 12;
}
}

using namespace std::chrono_literals;
using Domain = iox2ps::SharedDomain<int>;
using Publisher = iox2ps::Publisher<int, iox2ps::ManyThreads>;
using Subscriber = iox2ps::Subscriber<int, iox2ps::ManyThreads>;

static std::atomic<unsigned> passed{0};

/* What a thread of its own does takes no memory. */
template <typename Calls> static void takes_none(const char *what, Calls calls) {
  unsigned long taken_there = 0;
  std::thread([&] {
    counts = true;
    calls();
    counts = false;
    taken_there = taken;
  }).join();
  if (taken_there > 0) {
    std::fprintf(stderr, "%s: %lu allocations\n", what, taken_there);
    std::exit(1);
  }
  passed++;
}

/* It is counted where memory is taken, or nothing here is shown. */
static void the_count_counts() {
  unsigned long before = taken;
  counts = true;
  int *volatile value = new int(7);
  void *volatile more = std::realloc(std::calloc(1, 8), 16);
  counts = false;
  delete value;
  std::free(more);
  if (taken - before != 3) std::abort();
}

static void check(bool is_so, const char *what) {
  if (is_so) return;
  std::fprintf(stderr, "%s\n", what);
  std::abort();
}
#define CHECK(it) check((it), #it)

static Domain domain_of(bool overflows) {
  return Domain::create(iox2ps::Config<int>(7).enable_safe_overflow(overflows).subscriber_max_buffer_size(1)).expect("a domain");
}

static void a_message_takes_none() {
  auto domain = domain_of(true);
  auto publisher = domain.publisher().expect("a publisher");
  auto subscriber = domain.subscriber().expect("a subscriber");
  takes_none("loan, send, receive, release", [&] {
    for (int value = 0; value < 3; value++) {
      CHECK(publisher.loan(value).expect("a loan").send().expect("a send").delivered() == 1u);
      CHECK(**subscriber.receive().expect("a receive") == value);
    }
  });
  takes_none("copies", [&] {
    CHECK(publisher.send_copy(7).expect("a send").delivered() == 1u);
    CHECK(subscriber.receive_copy().expect("a receive") == 7);
  });
  takes_none("a discarded loan", [&] { publisher.loan_uninit().expect("a loan").discard(); });
  takes_none("nothing to receive", [&] { CHECK(!subscriber.receive().expect("a receive") && !*subscriber.has_samples()); });
}

static void waits_take_none() {
  auto domain = domain_of(false);
  auto publisher = domain.publisher().expect("a publisher");
  auto subscriber = domain.subscriber().expect("a subscriber");
  takes_none("a wait for a message", [&] { CHECK(!subscriber.timed_receive(1ms).expect("a receive")); });
  takes_none("a wait for a copy", [&] { CHECK(!subscriber.timed_receive_copy(1ms).expect("a receive")); });
  CHECK(publisher.send_copy(1).expect("a send").delivered() == 1u);
  takes_none("a blocked send, which waits for room and is given up", [&] {
    auto sent = publisher.timed_send_copy(2, 1ms).expect("a send");
    CHECK(!sent.blocked()->retry().expect("a retry"));
    CHECK(publisher.timed_loan(1ms).error() == iox2ps::Error::PublisherIsBlocked);
    CHECK(sent.blocked()->give_up().expect("an end") == 0u);
  });
  takes_none("a blocked send that is dropped", [&] { CHECK(publisher.loan(3).expect("a loan").send().expect("a send").blocked().has_value()); });
  CHECK(subscriber.receive_copy().expect("a receive") == 1);
  auto first = publisher.loan().expect("a loan");
  auto second = publisher.loan().expect("a loan");
  takes_none("a wait for a loan", [&] { CHECK(publisher.timed_loan(1ms).error() == iox2ps::Error::LoanExceedsMaxLoans); });
}

/* Each has waited when the other has sent to it. */
static void threads_that_wake_each_other_take_none() {
  auto here = domain_of(false), there = domain_of(false);
  auto to = here.publisher().expect("a publisher"), fro = there.publisher().expect("a publisher");
  auto at_here = here.subscriber().expect("a subscriber"), at_there = there.subscriber().expect("a subscriber");
  std::thread answers([&] {
    takes_none("a thread that answers", [&] {
      auto answer = [&](const auto &sample) {
        CHECK(fro.blocking_send_copy(*sample + 1).expect("a send").delivered() == 1u);
        return *sample < 100;
      };
      CHECK(at_here.blocking_for_each(answer).has_value());
    });
  });
  takes_none("a thread that asks", [&] {
    for (int value = 1; value <= 100; value++) {
      CHECK(to.blocking_send_copy(value).expect("a send").delivered() == 1u);
      CHECK(at_there.blocking_receive_copy().expect("a receive") == value + 1);
    }
  });
  answers.join();
}

static void listeners_take_none() {
  auto domain = domain_of(true);
  auto publisher = domain.publisher().expect("a publisher");
  auto subscriber = domain.subscriber().expect("a subscriber");
  int heard = 0;
  CHECK(subscriber.set_listener([&] { heard += subscriber.receive_copy().expect("a receive") ? 1 : 0; }).has_value());
  takes_none("a send with a listener, which receives", [&] { CHECK(publisher.send_copy(1).expect("a send").delivered() == 1u); });
  CHECK(heard == 1);
#ifdef __linux__
  auto descriptor = subscriber.message_fd().expect("a descriptor");
  takes_none("a send with a descriptor, and its reset", [&] {
    CHECK(publisher.send_copy(1).expect("a send").delivered() == 1u);
    descriptor.reset();
  });
#endif
}

static void a_set_takes_none_where_it_waits() {
  auto domain = domain_of(true);
  auto publisher = domain.publisher().expect("a publisher");
  auto subscriber = domain.subscriber().expect("a subscriber");
  auto set = iox2ps::WaitSet::create().expect("a set");
  auto of_publisher = set.attach_notification(publisher).expect("a guard");
  auto of_subscriber = set.attach_deadline(subscriber, 1ms).expect("a guard");
  auto of_time = set.attach_interval(1ms).expect("a guard");
  unsigned events = 0, missed = 0;
  takes_none("waits for a message, a deadline and an interval", [&] {
    auto take = [&](iox2ps::WaitSetAttachmentId id) {
      if (id.has_event_from(of_subscriber)) CHECK(subscriber.receive_copy().expect("a receive") == 1);
      missed += id.has_missed_deadline(of_subscriber) ? 1 : 0;
      return ++events < 20 || missed == 0 ? iox2ps::CallbackProgression::Continue : iox2ps::CallbackProgression::Stop;
    };
    CHECK(publisher.send_copy(1).expect("a send").delivered() == 1u);
    CHECK(set.wait_and_process(take).value() == iox2ps::WaitSetRunResult::StopRequest);
  });
}

int main() {
  the_count_counts();
  a_message_takes_none();
  waits_take_none();
  threads_that_wake_each_other_take_none();
  listeners_take_none();
  a_set_takes_none_where_it_waits();
  std::printf("%u lists of calls take no memory\n", passed.load());
}
