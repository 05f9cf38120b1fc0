// SPDX-License-Identifier: Apache-2.0 OR MIT
/* Makes random calls on one domain from several threads, by the C++ handles: `random SEED CALLS THREADS SCRIPT REPLIES`, as
 * src/random.rs does by those of Rust. FAULT plants a fault that the race detectors have to see. */
#include "iox2_pubsub_shared.hpp"
#include <array>
#include <cstring>
#include <memory>
#include <string>
#include <thread>

extern "C" void lock_order_begin(const char *script, const char *replies);
extern "C" void lock_order_end(void);

using Message = std::array<std::uint64_t, 8>;

/* A lock under which a thread that waits sleeps at once: helgrind doesn't know atomics, which are looked at without it. */
class Lock {
public:
  static constexpr unsigned looks = 0;
  void lock() { mutex_.lock(); }
  void unlock() { mutex_.unlock(); }

private:
  std::mutex mutex_;
};

#ifdef NO_LOOKS
using D = iox2ps::SharedDomain<Message, Lock>;
using M = iox2ps::ManyThreadsWith<Lock>;
#else
using D = iox2ps::SharedDomain<Message>;
using M = iox2ps::ManyThreads;
#endif
using namespace std::chrono_literals;

namespace {

enum Fault { NONE, LATE_READ, LATE_WRITE };
Fault fault = NONE;

struct Random {
  std::uint64_t state;
  std::uint64_t next() {
    state += 0x9e3779b97f4a7c15u;
    std::uint64_t x = state;
    x = (x ^ (x >> 30)) * 0xbf58476d1ce4e5b9u;
    x = (x ^ (x >> 27)) * 0x94d049bb133111ebu;
    return x ^ (x >> 31);
  }
  std::size_t below(std::size_t limit) { return static_cast<std::size_t>(next() % limit); }
};

std::uint64_t read(const Message &message) {
  for (auto word : message) {
    if (word != message[0]) {
      std::fputs("a message is torn\n", stderr);
      std::abort();
    }
  }
  return message[0];
}

struct Things {
  std::vector<std::shared_ptr<iox2ps::Publisher<Message, M>>> publishers;
  std::vector<std::shared_ptr<iox2ps::Subscriber<Message, M>>> subscribers;
  std::vector<iox2ps::Loan<Message, M>> loans;
  std::vector<iox2ps::BlockedSend<Message, M>> blocked;
  std::vector<std::pair<iox2ps::Sample<Message, M>, std::uint64_t>> samples;
};

template <typename V> std::optional<V> take(Random &random, std::vector<V> &all) {
  if (all.empty()) return std::nullopt;
  std::swap(all[random.below(all.size())], all.back());
  std::optional<V> one(std::move(all.back()));
  all.pop_back();
  return one;
}
template <typename V> void move_one(Random &random, std::vector<V> &from, std::vector<V> &to) {
  if (auto one = take(random, from)) to.push_back(std::move(*one));
}
template <typename V> V pick(Random &random, const std::vector<V> &all) { return all.empty() ? V() : all[random.below(all.size())]; }

struct Pool {
  std::mutex mutex;
  Things things;
};

struct Worker {
  Random random;
  D domain;
  Pool &pool;
  std::uint64_t value;
  Things own = {};
  std::uint64_t reads = 0;

  void sent(iox2ps::Result<iox2ps::Sent<Message, M>> outcome) {
    if (!outcome || !outcome->blocked()) return;
    iox2ps::BlockedSend<Message, M> blocked = std::move(*outcome->blocked());
    outcome->blocked().reset();
    if (random.below(4) == 0) static_cast<void>(blocked.timed_retry(200us));
    if (blocked) own.blocked.push_back(std::move(blocked));
  }

  void read_all() {
    for (auto &[sample, number] : own.samples) {
      if (read(*sample) != number) std::abort();
      reads++;
    }
  }

  void exchange() {
    std::lock_guard<std::mutex> lock(pool.mutex);
    Things &all = pool.things;
    switch (random.below(6)) {
    case 0: move_one(random, all.samples, own.samples); break;
    case 1: move_one(random, own.samples, all.samples); break;
    case 2:
      move_one(random, all.loans, own.loans);
      move_one(random, own.blocked, all.blocked);
      break;
    case 3:
      move_one(random, own.loans, all.loans);
      move_one(random, all.blocked, own.blocked);
      break;
    case 4:
      if (auto one = pick(random, own.publishers)) all.publishers.push_back(one);
      move_one(random, all.publishers, own.publishers);
      break;
    default:
      if (auto one = pick(random, own.subscribers)) all.subscribers.push_back(one);
      move_one(random, all.subscribers, own.subscribers);
    }
  }

  void release() {
    auto one = take(random, own.samples);
    if (!one) return;
    const Message *at = &*one->first;
    one.reset();
    if (fault == LATE_READ && random.below(50) == 0) {
      std::this_thread::sleep_for(100us);
      volatile std::uint64_t late = *const_cast<const volatile std::uint64_t *>(at->data());
      static_cast<void>(late);
    }
  }

  void send() {
    auto loan = take(random, own.loans);
    if (!loan) return;
    Message *at = &**loan;
    std::uint64_t number = read(*at);
    if (number % 2 == 0) at->fill(number);
    if (random.below(4) == 0) {
      auto outcome = loan->timed_send(200us);
      if (!outcome && *loan) own.loans.push_back(std::move(*loan));
      sent(std::move(outcome));
    } else {
      auto outcome = loan->send();
      if (!outcome && *loan) own.loans.push_back(std::move(*loan));
      sent(std::move(outcome));
    }
    if (fault != LATE_WRITE || random.below(50)) return;
    std::this_thread::sleep_for(100us);
    *const_cast<volatile std::uint64_t *>(at->data()) = number;
  }

  void receive() {
    auto subscriber = pick(random, own.subscribers);
    if (!subscriber) return;
    switch (random.below(8)) {
    case 0: return take_in(subscriber->timed_receive(200us));
    case 1: return look_at(subscriber->receive_copy());
    case 2: return look_at(subscriber->timed_receive_copy(200us));
    default: return take_in(subscriber->receive());
    }
  }

  static void look_at(const iox2ps::Result<std::optional<Message>> &received) {
    if (received && *received) read(**received);
  }

  void take_in(iox2ps::Result<std::optional<iox2ps::Sample<Message, M>>> received) {
    if (!received || !*received) return;
    std::uint64_t number = read(***received);
    own.samples.emplace_back(std::move(**received), number);
  }

  void create_publisher() {
    iox2ps::PublisherOptions<Message> options;
    options.max_loaned_samples(random.below(4));
    options.backpressure_strategy(random.below(2) ? iox2ps::BackpressureStrategy::RetryUntilDelivered
                                                  : iox2ps::BackpressureStrategy::DiscardData);
    auto made = domain.publisher(options);
    if (made) own.publishers.push_back(std::make_shared<iox2ps::Publisher<Message, M>>(std::move(*made)));
  }

  void create_subscriber() {
    iox2ps::SubscriberOptions options;
    options.buffer_size(random.below(5));
    auto made = domain.subscriber(options);
    if (made) own.subscribers.push_back(std::make_shared<iox2ps::Subscriber<Message, M>>(std::move(*made)));
  }

  void end_blocked() {
    auto blocked = take(random, own.blocked);
    if (!blocked) return;
    switch (random.below(4)) {
    case 0: static_cast<void>(blocked->retry()); break;
    case 1: static_cast<void>(blocked->give_up()); break;
    case 2: static_cast<void>(blocked->timed_retry(200us)); break;
    default: return;
    }
    if (*blocked) own.blocked.push_back(std::move(*blocked));
  }

  void call() {
    std::size_t which = random.below(100);
    if (which < 4) create_publisher();
    else if (which < 8) create_subscriber();
    else if (which < 20) {
      auto publisher = pick(random, own.publishers);
      if (!publisher) return;
      auto loan = random.below(6) == 0 ? publisher->timed_loan(200us) : publisher->loan();
      if (!loan) return;
      (*loan)->fill(++value);
      own.loans.push_back(std::move(*loan));
    } else if (which < 32) send();
    else if (which < 42) {
      if (auto publisher = pick(random, own.publishers)) {
        Message message;
        message.fill(++value);
        sent(random.below(4) == 0 ? publisher->timed_send_copy(message, 200us) : publisher->send_copy(message));
      }
    } else if (which < 45) take(random, own.loans);
    else if (which < 53) end_blocked();
    else if (which < 73) receive();
    else if (which < 76) {
      if (auto subscriber = pick(random, own.subscribers)) static_cast<void>(subscriber->has_samples());
    } else if (which < 79) {
      if (random.below(2)) {
        if (auto publisher = pick(random, own.publishers)) static_cast<void>(publisher->update_connections());
      } else if (auto subscriber = pick(random, own.subscribers)) static_cast<void>(subscriber->update_connections());
    } else if (which < 84) exchange();
    else if (which < 97) release();
    else if (random.below(2)) take(random, own.publishers);
    else take(random, own.subscribers);
  }
};

} // namespace

int main(int count, char **words) {
  if (count < 6) return 2;
  if (const char *name = std::getenv("FAULT")) fault = !std::strcmp(name, "LATE_READ") ? LATE_READ : !std::strcmp(name, "LATE_WRITE") ? LATE_WRITE : NONE;
  std::uint64_t seed = std::stoull(words[1]);
  std::size_t calls = std::stoull(words[2]), threads = std::stoull(words[3]);
  Random random{seed};
  lock_order_begin(words[4], words[5]);
  std::uint64_t reads = 0;
  {
    iox2ps::Config<Message> config(1);
    config.max_publishers(1 + random.below(4)).max_subscribers(2 + random.below(4));
    config.subscriber_max_buffer_size(random.below(4)).subscriber_max_borrowed_samples(1 + random.below(3));
    config.history_size(random.below(4)).subscriber_expired_connection_buffer(random.below(4));
    config.enable_safe_overflow(random.below(3) == 0);
    auto domain = D::create(config).expect("a domain");
    Pool pool;
    std::vector<std::unique_ptr<Worker>> workers;
    std::vector<std::thread> running;
    for (std::size_t i = 0; i < threads; i++) {
      workers.push_back(std::make_unique<Worker>(Worker{Random{seed * 1000 + i}, domain, pool, (i + 1) << 40}));
    }
    for (auto &worker : workers) {
      running.emplace_back([&worker, calls, threads] {
        for (std::size_t i = 0; i < calls / threads; i++) {
          worker->call();
          if (worker->random.below(4) == 0) std::this_thread::yield();
          worker->read_all();
        }
        worker->own = Things();
      });
    }
    for (auto &thread : running) thread.join();
    for (auto &worker : workers) reads += worker->reads;
  }
  lock_order_end();
  std::fprintf(stderr, "%llu reads without the lock\n", static_cast<unsigned long long>(reads));
}
