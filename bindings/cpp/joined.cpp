// SPDX-License-Identifier: Apache-2.0 OR MIT
/* A domain of C++ that another language joins, which is C here: it has ports of its own, and its own way to wait. */
#include "iox2_pubsub_shared.hpp"
#include "endings.hpp"
#include <cstdio>
#include <cstdlib>
#include <functional>
#include <optional>
#include <thread>

using namespace std::chrono_literals;
using iox2ps::Error;
using Domain = iox2ps::SharedDomain<std::uint64_t>;

namespace {

#define CHECK(it) check((it), #it, __LINE__)

void check(bool is_so, const char *what, int line) {
  if (is_so) return;
  std::fprintf(stderr, "cpp/joined.cpp:%d: %s\n", line, what);
  std::abort();
}

/* The other language: it waits until it was told that something came which may help. */
class Other : iox2ps_joined_t {
public:
  explicit Other(iox2ps::Share given) : iox2ps_joined_t(), shared_(std::move(given)) {
    struct_size = sizeof(iox2ps_joined_t);
    wake = [](iox2ps_joined_t *joined, std::uint32_t brings) { static_cast<Other *>(joined)->note(brings); };
    connect = [](iox2ps_joined_t *joined, iox2ps_domain_t *domain) { static_cast<Other *>(joined)->connect_publisher(domain); };
    CHECK(iox2ps_shared_domain_join(shared_.get(), this) == IOX2PS_OK);
  }
  Other(const Other &) = delete;
  Other &operator=(const Other &) = delete;
  ~Other() { shared_->leave(shared_.get(), this); }

  template <typename Make> iox2ps_status_t calls(std::uint32_t brings, Make make) {
    auto made = [](iox2ps_domain_t *domain, void *what) -> iox2ps_status_t { return (*static_cast<Make *>(what))(domain); };
    return shared_->call(shared_.get(), brings, made, &make);
  }

  /* The same again, each time when it was told that this came, until it no longer has this code. */
  template <typename Make> iox2ps_status_t waits(std::uint32_t for_what, iox2ps_status_t on, std::uint32_t brings, Make make) {
    while (true) {
      bool is_over = false;
      iox2ps_status_t code = calls(brings, [&](iox2ps_domain_t *domain) {
        iox2ps_status_t made = make(domain);
        is_over = waits_are_stopped != 0;
        if (made == on) came_ &= ~for_what;
        return made;
      });
      if (code != on || is_over) return code;
      std::unique_lock<std::mutex> lock(mutex_);
      signal_.wait(lock, [&] { return (came_ & for_what) != 0; });
    }
  }

  void make_publisher() {
    CHECK(calls(IOX2PS_BRINGS_MESSAGE, [&](auto *domain) { return iox2ps_publisher_create(domain, &publisher_); }) == IOX2PS_OK);
    has_publisher_ = true;
  }
  void make_subscriber() {
    CHECK(calls(IOX2PS_BRINGS_SUBSCRIBER, [&](auto *domain) { return iox2ps_subscriber_create(domain, &subscriber_); }) == IOX2PS_OK);
  }

  /* The place of the message. */
  const void *send(std::uint64_t number) {
    iox2ps_loan_t loan;
    iox2ps_blocked_t blocked;
    void *bytes = nullptr;
    CHECK(calls(0, [&](auto *domain) { return iox2ps_publisher_loan(domain, &publisher_, sizeof number, &loan, &bytes); }) == IOX2PS_OK);
    std::memcpy(bytes, &number, sizeof number);
    auto sends = [&](auto *domain) { return iox2ps_loan_send(domain, &loan, nullptr, &blocked); };
    iox2ps_status_t code = calls(IOX2PS_BRINGS_MESSAGE | IOX2PS_BRINGS_LOAN, sends);
    if (code == IOX2PS_BLOCKED) {
      code = waits(IOX2PS_BRINGS_ROOM, IOX2PS_BLOCKED, IOX2PS_BRINGS_MESSAGE | IOX2PS_BRINGS_LOAN | IOX2PS_BRINGS_FREE, [&](auto *domain) {
        return iox2ps_blocked_retry(domain, &blocked, 0, nullptr);
      });
    }
    CHECK(code == IOX2PS_OK);
    return bytes;
  }

  /* The number of a message, and its place where that is asked for; none where none came and waits were stopped. */
  std::optional<std::uint64_t> receive(const void **place = nullptr) {
    iox2ps_sample_t sample;
    const void *bytes = nullptr;
    std::size_t len = 0;
    iox2ps_status_t code = waits(IOX2PS_BRINGS_MESSAGE, IOX2PS_NO_SAMPLE, IOX2PS_BRINGS_ROOM, [&](auto *domain) {
      return iox2ps_subscriber_receive(domain, &subscriber_, &sample, &bytes, &len);
    });
    if (code == IOX2PS_NO_SAMPLE) return std::nullopt;
    std::uint64_t number = 0;
    CHECK(code == IOX2PS_OK && len == sizeof number);
    std::memcpy(&number, bytes, len);
    if (place) *place = bytes;
    CHECK(calls(IOX2PS_BRINGS_LOAN, [&](auto *domain) { return iox2ps_sample_release(domain, &sample); }) == IOX2PS_OK);
    return number;
  }

  void stop(bool stopped) { shared_->stop_waits(shared_.get(), stopped ? 1 : 0); }

private:
  void note(std::uint32_t brings) {
    std::lock_guard<std::mutex> lock(mutex_);
    came_ |= brings;
    signal_.notify_all();
  }
  void connect_publisher(iox2ps_domain_t *domain) {
    if (has_publisher_) CHECK(iox2ps_publisher_update_connections(domain, &publisher_) == IOX2PS_OK);
  }

  iox2ps::Share shared_;
  iox2ps_publisher_t publisher_ = {};
  iox2ps_subscriber_t subscriber_ = {};
  bool has_publisher_ = false;
  std::mutex mutex_;
  std::condition_variable signal_;
  std::uint32_t came_ = 0;
};

Domain keeping(std::size_t buffer) {
  iox2ps::Config<std::uint64_t> config(7);
  config.enable_safe_overflow(false).subscriber_max_buffer_size(buffer);
  return Domain::create(config).expect("a domain");
}

void it_says_what_a_message_is() {
  auto one = keeping(1).share().expect("a share");
  CHECK(one->struct_size == sizeof *one && one->version == IOX2PS_VERSION && one->is_slice == 0);
  CHECK(one->element_size == 8 && one->element_alignment == 8);
  auto slices = iox2ps::SharedDomain<std::uint16_t[]>::create(iox2ps::Config<std::uint16_t[]>(7, 4)).expect("a domain");
  auto many = slices.share().expect("a share");
  CHECK(many->is_slice != 0 && many->element_size == 2 && many->element_alignment == 2);
}

void messages_cross_in_place_both_ways() {
  auto domain = keeping(2);
  Other other(domain.share().expect("a share"));
  auto publisher = domain.publisher().expect("a publisher");
  other.make_subscriber();
  auto loan = publisher.loan(11).expect("a loan");
  const void *sent = &*loan, *received = nullptr;
  CHECK(std::move(loan).send().expect("a send").delivered() == 1u);
  CHECK(other.receive(&received) == 11u && received == sent);

  auto subscriber = domain.subscriber().expect("a subscriber");
  other.make_publisher();
  sent = other.send(12);
  auto sample = subscriber.receive().expect("a receive");
  CHECK(sample && **sample == 12 && &**sample == sent);
}

constexpr std::uint64_t turns = 1000;

/* Each waits for the other's message. */
void each_wakes_the_other_for_messages() {
  auto asked = keeping(1), answered = keeping(1);
  Other asks(asked.share().expect("a share")), answers(answered.share().expect("a share"));
  auto publisher = asked.publisher().expect("a publisher");
  auto subscriber = answered.subscriber().expect("a subscriber");
  asks.make_subscriber();
  answers.make_publisher();
  std::thread there([&] {
    for (std::uint64_t turn = 0; turn < turns; turn++) answers.send(*asks.receive() + 1);
  });
  for (std::uint64_t turn = 0; turn < turns; turn++) {
    CHECK(publisher.send_copy(turn).expect("a send").delivered() == 1u);
    CHECK(**subscriber.blocking_receive().expect("a receive") == turn + 1);
  }
  there.join();
}

/* Each waits for room in the other's buffer, which is full nearly always. */
void each_wakes_the_other_for_room() {
  auto domain = keeping(1);
  Other other(domain.share().expect("a share"));
  {
    auto publisher = domain.publisher().expect("a publisher");
    other.make_subscriber();
    std::thread here([&] {
      for (std::uint64_t turn = 0; turn < turns; turn++) CHECK(publisher.blocking_send_copy(turn).expect("a send").delivered() == 1u);
    });
    for (std::uint64_t turn = 0; turn < turns; turn++) CHECK(other.receive() == turn);
    here.join();
  }
  auto back = keeping(1);
  Other sender(back.share().expect("a share"));
  auto subscriber = back.subscriber().expect("a subscriber");
  sender.make_publisher();
  std::thread there([&] {
    for (std::uint64_t turn = 0; turn < turns; turn++) sender.send(turn);
  });
  for (std::uint64_t turn = 0; turn < turns; turn++) CHECK(**subscriber.blocking_receive().expect("a receive") == turn);
  there.join();
}

void a_subscriber_gets_the_history_of_the_other_side() {
  auto domain = Domain::create(iox2ps::Config<std::uint64_t>(7).history_size(1)).expect("a domain");
  Other other(domain.share().expect("a share"));
  auto publisher = domain.publisher().expect("a publisher");
  CHECK(publisher.send_copy(5).expect("a send").delivered() == 0u);
  other.make_subscriber();
  CHECK(other.receive() == 5u);
  other.make_publisher();
  other.send(6);
  CHECK(other.receive() == 6u);
  auto subscriber = domain.subscriber().expect("a subscriber");
  std::uint64_t sum = 0;
  while (auto sample = subscriber.receive().expect("a receive")) sum += **sample;
  CHECK(sum == 11);
}

void waits_are_stopped_by_both() {
  auto domain = keeping(1);
  Other other(domain.share().expect("a share"));
  auto subscriber = domain.subscriber().expect("a subscriber");
  other.make_subscriber();
  for (bool by_cpp : {true, false}) {
    std::thread there([&] { CHECK(!other.receive()); });
    std::thread here([&] { CHECK(!subscriber.blocking_receive().expect("a receive")); });
    std::this_thread::sleep_for(10ms);
    if (by_cpp) domain.stop_waits();
    else other.stop(true);
    there.join();
    here.join();
    CHECK(domain.waits_are_stopped());
    Other later(domain.share().expect("a share"));
    later.make_subscriber();
    CHECK(!later.receive());
    other.stop(false);
    CHECK(!domain.waits_are_stopped());
  }
}

void a_share_keeps_the_domain() {
  std::optional<Other> other;
  {
    auto domain = keeping(2);
    auto share = domain.share().expect("a share");
    share->keep(share.get());
    const iox2ps_shared_domain_t *kept = share.get();
    other.emplace(std::move(share));
    kept->release(kept);
  }
  other->make_publisher();
  other->make_subscriber();
  other->send(3);
  CHECK(other->receive() == 3u);
}

void others_are_refused() {
  auto share = keeping(1).share().expect("a share");
  iox2ps_joined_t joined = {};
  CHECK(iox2ps_shared_domain_join(share.get(), &joined) == IOX2PS_INVALID_STRUCT_SIZE);
  joined.struct_size = sizeof joined;
  iox2ps_shared_domain_t other = *share;
  other.struct_size = sizeof other - 1;
  CHECK(iox2ps_shared_domain_join(&other, &joined) == IOX2PS_INVALID_STRUCT_SIZE);
  other = *share;
  other.version++;
  CHECK(iox2ps_shared_domain_join(&other, &joined) == IOX2PS_OTHER_VERSION);
  auto domain = keeping(1);
  auto kept = std::move(domain);
  CHECK(domain.share().error() == Error::NotLive && kept.share());
}

void a_child_has_nothing_of_it() {
  auto domain = keeping(1);
  Other other(domain.share().expect("a share"));
  other.make_publisher();
  auto share = domain.share().expect("a share");
  returns("a child of a process that shares a domain", [&] {
    iox2ps_joined_t joined = {};
    joined.struct_size = sizeof joined;
    CHECK(other.calls(0, [](auto *) { return IOX2PS_OK; }) == IOX2PS_AFTER_FORK);
    CHECK(iox2ps_shared_domain_join(share.get(), &joined) == IOX2PS_AFTER_FORK);
    CHECK(domain.share().error() == Error::AfterFork);
    other.stop(true);
    share->leave(share.get(), &joined);
    share.reset();
  });
  CHECK(!domain.waits_are_stopped() && other.calls(0, [](auto *) { return IOX2PS_OK; }) == IOX2PS_OK);
}

} // namespace

int main() {
  static_assert(IOX2PS_AFTER_FORK == static_cast<std::uint32_t>(Error::AfterFork));
  static_assert(IOX2PS_OTHER_VERSION == static_cast<std::uint32_t>(Error::OtherVersion));
  const std::function<void()> tests[] = {
      it_says_what_a_message_is,
      messages_cross_in_place_both_ways,
      each_wakes_the_other_for_messages,
      each_wakes_the_other_for_room,
      a_subscriber_gets_the_history_of_the_other_side,
      waits_are_stopped_by_both,
      a_share_keeps_the_domain,
      others_are_refused,
      a_child_has_nothing_of_it,
  };
  std::size_t passed = 0;
  for (auto &test : tests) {
    test();
    passed++;
  }
  std::printf("%zu tests passed\n", passed);
}
