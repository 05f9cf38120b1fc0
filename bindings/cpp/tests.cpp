// SPDX-License-Identifier: Apache-2.0 OR MIT
// The C++ header: values and slices in place, handles that are moved, blocked sends, refusals and limits. Prints
// each check that fails, and then "N passed, M failed".
#include "iox2_pubsub.hpp"
#include <cstdio>
#include <cstdlib>
#include <cstring>
#include <map>
#include <memory>
#include <new>
#include <set>
#include <sstream>
#include <string>
#include <system_error>
#include <type_traits>
#include <unordered_map>
#if __cplusplus >= 202002L
#include <span>
#endif

static int passed = 0, failed = 0;
#define CHECK(...)                                                 \
  do {                                                             \
    if (__VA_ARGS__) {                                             \
      passed++;                                                    \
    } else {                                                       \
      failed++;                                                    \
      std::printf("%s:%d: %s\n", __FILE__, __LINE__, #__VA_ARGS__); \
    }                                                              \
  } while (0)

using iox2ps::BackpressureStrategy;
using iox2ps::Config;
using iox2ps::Domain;
using iox2ps::Error;
using iox2ps::Id;
using iox2ps::PublisherOptions;
using iox2ps::Result;

struct Pose {
  double at[3];
  std::uint64_t stamp;
};

struct alignas(16) Block {
  unsigned char bytes[48];
};

/* Handles are moved and not copied, made by calls alone, and given back without an exception. */
template <typename H, typename... Parts> constexpr bool is_handle =
    !std::is_copy_constructible_v<H> && std::is_nothrow_move_constructible_v<H> && std::is_nothrow_move_assignable_v<H>
    && std::is_nothrow_destructible_v<H> && !std::is_default_constructible_v<H> && !std::is_constructible_v<H, Parts...>;
using Hold = iox2ps::detail::Hold<iox2ps::OneThread>;
static_assert(is_handle<iox2ps::Publisher<int>, Hold, std::unique_ptr<iox2ps::detail::Sender>>);
static_assert(is_handle<iox2ps::Subscriber<int>, Hold, iox2ps_subscriber_t>);
static_assert(is_handle<iox2ps::Loan<int>, Hold, iox2ps_loan_t>);
static_assert(is_handle<iox2ps::Sample<int>, Hold, iox2ps_sample_t, const int *, std::size_t>);
static_assert(is_handle<iox2ps::BlockedSend<int>, Hold, iox2ps_blocked_t>);
static_assert(is_handle<iox2ps::Sent<int>, std::size_t>);

/* A setting takes its own type. */
template <typename B> using Overflow = decltype(std::declval<Config<int> &>().enable_safe_overflow(std::declval<B>()));
template <typename B, typename = void> constexpr bool takes_overflow = false;
template <typename B> constexpr bool takes_overflow<B, std::void_t<Overflow<B>>> = true;
static_assert(takes_overflow<bool> && !takes_overflow<int> && !takes_overflow<iox2ps_backpressure_strategy_e>);
static_assert(!std::is_convertible_v<int, BackpressureStrategy>);

/* A check of threads takes nothing where it isn't asked for. */
static_assert(std::is_empty_v<iox2ps::detail::Threads<iox2ps::OneThread>>);

static_assert(iox2ps::detail::elapsed_of(std::chrono::nanoseconds(-1)) == 0);
static_assert(iox2ps::detail::elapsed_of(std::chrono::nanoseconds(7)) == 7);

/* How often memory was taken by new. Nothing here is inlined, so that valgrind sees each call of both kinds. */
static std::size_t taken = 0;
#define ALLOCATES __attribute__((noinline))
ALLOCATES void *operator new(std::size_t size) {
  taken++;
  if (void *memory = std::malloc(size)) return memory;
  std::abort();
}
ALLOCATES void *operator new(std::size_t size, const std::nothrow_t &) noexcept {
  taken++;
  return std::malloc(size);
}
ALLOCATES void operator delete(void *memory) noexcept { std::free(memory); }
ALLOCATES void operator delete(void *memory, std::size_t) noexcept { std::free(memory); }
ALLOCATES void operator delete(void *memory, const std::nothrow_t &) noexcept { std::free(memory); }

template <typename P> static Domain<P> made(const Config<P> &config) { return Domain<P>::create(config).expect("a domain"); }

static void a_value_is_written_and_read_in_place() {
  auto domain = made(Config<Pose>(1));
  auto publisher = domain.publisher().expect("a publisher");
  auto subscriber = domain.subscriber().expect("a subscriber");
  auto loan = publisher.loan().expect("a loan");
  CHECK(loan->stamp == 0 && loan->at[2] == 0);
  loan->stamp = 7;
  loan->at[1] = 0.5;
  const Pose *written = &*loan;
  Id number = loan.number();
  CHECK(loan.publisher() == publisher.id());
  auto sent = loan.send().expect("a send");
  CHECK(sent.delivered() == std::size_t(1) && !loan && !sent.blocked());
  CHECK(loan.send().error() == Error::NotLive);

  auto sample = subscriber.receive().expect("a receive");
  CHECK(sample && &**sample == written && (*sample)->stamp == 7 && (*sample)->at[1] == 0.5);
  CHECK(sample->origin() == publisher.id() && sample->subscriber() == subscriber.id() && sample->number() == number);
  CHECK(!subscriber.receive().expect("a receive"));
}

static void messages_stay_where_they_are() {
  Config<std::uint64_t> config(2);
  config.subscriber_max_buffer_size(4);
  auto domain = made(config);
  auto publisher = domain.publisher().expect("a publisher");
  auto subscriber = domain.subscriber().expect("a subscriber");
  for (std::uint64_t n = 0; n < 3; n++) CHECK(publisher.send_copy(n)->delivered() == std::size_t(1));
  auto first = *subscriber.receive().expect("a receive");
  auto second = *subscriber.receive().expect("a receive");
  CHECK(subscriber.receive().error() == Error::ReceiveExceedsMaxBorrows);
  CHECK(*subscriber.has_samples());
  const std::uint64_t *at = &*first;
  for (std::uint64_t n = 10; n < 200; n++) CHECK(publisher.send_copy(n).has_value());
  CHECK(*first == 0 && *second == 1 && &*first == at);
  second.release();
  CHECK(!second);
  auto third = *subscriber.receive().expect("a receive");
  CHECK(*third == 196);
  first = std::move(third);
  CHECK(*first == 196 && !third);
  CHECK(**subscriber.receive().expect("a receive") == 197);
}

static void slices_have_the_length_of_their_loan() {
  auto domain = made(Config<std::uint16_t[]>(3, 100));
  auto publisher = domain.publisher().expect("a publisher");
  auto subscriber = domain.subscriber().expect("a subscriber");
  CHECK(publisher.initial_max_slice_len() == 100 && publisher.backpressure_strategy() == BackpressureStrategy::RetryUntilDelivered);
  auto loan = publisher.loan_slice(3).expect("a loan");
  CHECK(loan.size() == 3 && loan[0] == 0 && loan[2] == 0);
  loan[1] = 5;
  CHECK(loan.send()->delivered() == std::size_t(1));
  auto unspecified = publisher.loan_slice_uninit(2).expect("a loan");
  CHECK(unspecified.size() == 2);
  unspecified[0] = unspecified[1] = 6;
  unspecified.discard();
  std::uint16_t many[100];
  for (std::size_t i = 0; i < 100; i++) many[i] = std::uint16_t(i * i);
  CHECK(publisher.send_copy(many, 100)->delivered() == std::size_t(1));
  auto sample = *subscriber.receive().expect("a receive");
  unsigned sum = 0;
  for (std::uint16_t value : sample) sum += value;
  CHECK(sample.size() == 3 && sum == 5);
  sample = *subscriber.receive().expect("a receive");
  CHECK(sample.size() == 100 && std::memcmp(sample.data(), many, sizeof many) == 0);
}

static void lengths_of_none_of_the_limit_and_beyond() {
  auto domain = made(Config<std::uint64_t[]>(4, 8));
  auto publisher = domain.publisher().expect("a publisher");
  auto subscriber = domain.subscriber().expect("a subscriber");
  std::uint64_t values[8] = {3, 3, 3, 3, 3, 3, 3, 3};
  CHECK(publisher.send_copy(nullptr, 0)->delivered() == std::size_t(1));
  CHECK(publisher.send_copy(values, 8)->delivered() == std::size_t(1));
  for (std::size_t len : {std::size_t(9), SIZE_MAX / 8, SIZE_MAX / 8 + 1, SIZE_MAX}) {
    CHECK(publisher.loan_slice(len).error() == Error::LoanExceedsMaxLoanSize);
  }
  CHECK(subscriber.receive().expect("a receive")->empty());
  CHECK(subscriber.receive().expect("a receive")->size() == 8);
  PublisherOptions<std::uint64_t[]> options;
  CHECK(domain.publisher(options.initial_max_slice_len(SIZE_MAX)).error() == Error::PublisherUnableToCreateDataSegment);
  options.initial_max_slice_len(1).degradation_handler(static_cast<iox2ps::DegradationAction>(77));
  CHECK(domain.publisher(options).error() == Error::InvalidDegradation);
  CHECK(domain.subscriber(iox2ps::SubscriberOptions().degradation_handler(static_cast<iox2ps::DegradationAction>(77))).error()
        == Error::InvalidDegradation);
}

static void alignments_are_kept() {
  auto domain = made(Config<Block>(5));
  auto publisher = domain.publisher().expect("a publisher");
  auto subscriber = domain.subscriber().expect("a subscriber");
  auto loan = publisher.loan().expect("a loan");
  CHECK(reinterpret_cast<std::uintptr_t>(&*loan) % 16 == 0);
  loan->bytes[47] = 9;
  CHECK(loan.send().has_value());
  CHECK((*subscriber.receive().expect("a receive"))->bytes[47] == 9);
}

static void handles_outlive_their_domain_and_make_room() {
  std::optional<iox2ps::Sample<int>> kept;
  {
    Config<int> config(6);
    config.max_publishers(1);
    auto domain = made(config);
    auto subscriber = domain.subscriber().expect("a subscriber");
    {
      auto publisher = domain.publisher().expect("a publisher");
      CHECK(domain.publisher().error() == Error::PublisherExceedsMaxSupportedPublishers);
      auto moved = std::move(publisher);
      CHECK(publisher.send_copy(1).error() == Error::NotLive);
      CHECK(moved.send_copy(4)->delivered() == std::size_t(1));
      kept = subscriber.receive().expect("a receive");
      auto loan = moved.loan(8).expect("a loan");
      moved.close();
      CHECK(loan.send().error() == Error::SendConnectionBrokenSinceSenderNoLongerExists && !loan);
    }
    CHECK(domain.publisher().has_value());
  }
  CHECK(kept && **kept == 4);
}

static void loans_are_counted() {
  Config<int> config(7);
  config.publisher_max_loaned_samples(1);
  auto domain = made(config);
  auto publisher = domain.publisher().expect("a publisher");
  {
    auto loan = publisher.loan().expect("a loan");
    CHECK(publisher.loan().error() == Error::LoanExceedsMaxLoans);
    CHECK(publisher.send_copy(1).error() == Error::LoanExceedsMaxLoans);
  }
  CHECK(publisher.send_copy(1)->delivered() == std::size_t(0));
}

static Config<int> keeping(std::uint64_t service_id) {
  Config<int> config(service_id);
  config.enable_safe_overflow(false);
  config.subscriber_max_buffer_size(1);
  return config;
}

static void a_blocked_send_is_tried_again_or_given_up() {
  auto domain = made(keeping(8));
  auto publisher = domain.publisher().expect("a publisher");
  auto subscriber = domain.subscriber().expect("a subscriber");
  CHECK(publisher.send_copy(1)->delivered() == std::size_t(1));
  auto waits = publisher.loan(3).expect("a loan");
  auto sent = publisher.send_copy(2).expect("a send");
  CHECK(!sent.delivered() && sent.blocked() && publisher.is_blocked());
  auto blocked = *std::move(sent.blocked());
  CHECK(publisher.loan().error() == Error::PublisherIsBlocked);
  CHECK(publisher.update_connections().error() == Error::PublisherIsBlocked);
  CHECK(waits.send().error() == Error::PublisherIsBlocked && waits);
  CHECK(!*blocked.retry(std::chrono::milliseconds(1)) && blocked);
  CHECK(**subscriber.receive().expect("a receive") == 1);
  CHECK(*blocked.retry() == std::size_t(1) && !blocked && !publisher.is_blocked());
  CHECK(blocked.retry().error() == Error::NotLive);
  CHECK(**subscriber.receive().expect("a receive") == 2);
  CHECK(waits.send()->delivered() == std::size_t(1));
  CHECK(publisher.send_copy(4).has_value()); // blocked, and given up at once
  CHECK(!publisher.is_blocked());
  CHECK(**subscriber.receive().expect("a receive") == 3);
  CHECK(!subscriber.receive().expect("a receive"));
}

/* One subscriber may lose messages, and another may not: who is full decides what becomes of the send. */
static void a_blocked_send_names_its_subscriber() {
  auto domain = made(Config<int>(3).enable_safe_overflow(false).subscriber_max_buffer_size(2));
  auto publisher = domain.publisher().expect("a publisher");
  auto recorder = domain.subscriber().expect("a recorder");
  auto display = domain.subscriber(iox2ps::SubscriberOptions().buffer_size(1)).expect("a display");
  CHECK(publisher.send_copy(1)->delivered() == std::size_t(2));
  auto sent = publisher.send_copy(2).expect("a send");
  CHECK(sent.blocked() && sent.blocked()->subscriber().expect("a subscriber") == display.id());
  CHECK(sent.blocked()->give_up().expect("an end") == std::size_t(1));
  CHECK(sent.blocked()->subscriber().error() == Error::NotLive);
  /* Now both are full, the recorder first. */
  auto both = publisher.send_copy(3).expect("a send");
  CHECK(both.blocked() && both.blocked()->subscriber().expect("a subscriber") == recorder.id());
  CHECK(*recorder.receive_copy().expect("a receive") == 1);
  CHECK(!both.blocked()->retry().expect("a retry") && both.blocked()->subscriber().expect("a subscriber") == display.id());
  display.close();
  CHECK(both.blocked()->retry().expect("a retry") == std::size_t(1));
  CHECK(*recorder.receive_copy().expect("a receive") == 2 && *recorder.receive_copy().expect("a receive") == 3);
}

static void a_domain_that_was_moved_from_is_empty() {
  auto domain = made(Config<int>(16));
  auto moved = std::move(domain);
  CHECK(!domain && moved);
  CHECK(domain.publisher().error() == Error::NotLive && domain.subscriber().error() == Error::NotLive);
  CHECK(domain.publisher(PublisherOptions<int>().max_loaned_samples(1)).error() == Error::NotLive);
  CHECK(domain.config().error() == Error::NotLive && domain.warnings().empty());
  CHECK(domain.connection_count() == 0 && domain.book_count() == 0 && domain.refused_connections() == 0);
  auto copy = moved;
  CHECK(copy.publisher().has_value() && moved.book_count() == 1);
  CHECK(moved.book_count() == 0);
  domain = moved;
  CHECK(domain.subscriber().has_value());
}

static void ports_that_were_moved_from_are_empty() {
  auto domain = made(Config<int>(1));
  auto publisher = domain.publisher().expect("a publisher");
  auto subscriber = domain.subscriber().expect("a subscriber");
  Id of_publisher = publisher.id(), of_subscriber = subscriber.id();
  auto sends = std::move(publisher);
  auto receives = std::move(subscriber);
  CHECK(!publisher && publisher.id() == Id{0, 0} && publisher.initial_max_slice_len() == 0 && !publisher.is_blocked());
  CHECK(publisher.loan().error() == Error::NotLive && publisher.update_connections().error() == Error::NotLive);
  CHECK(publisher.send_copy(1).error() == Error::NotLive && publisher.close_channel(0, 0, 0).error() == Error::NotLive);
  CHECK(publisher.get_connection_id_of(of_subscriber).error() == Error::NotLive);
  CHECK(!subscriber && subscriber.id() == Id{0, 0} && subscriber.buffer_size() == 0);
  CHECK(subscriber.receive().error() == Error::NotLive && subscriber.receive_copy().error() == Error::NotLive);
  CHECK(subscriber.has_samples().error() == Error::NotLive && subscriber.update_connections().error() == Error::NotLive);
  CHECK(sends && sends.id() == of_publisher && receives && receives.id() == of_subscriber && receives.buffer_size() > 0);
}

static void slices_that_are_gone_have_no_values() {
  auto domain = made(Config<int[]>(1, 5));
  auto publisher = domain.publisher().expect("a publisher");
  auto subscriber = domain.subscriber().expect("a subscriber");
  auto loan = publisher.loan_slice(3).expect("a loan");
  auto moved = std::move(loan);
  CHECK(!loan && loan.empty() && loan.data() == nullptr && loan.begin() == loan.end() && moved.size() == 3);
  loan = std::move(moved);
  CHECK(!moved && moved.empty() && moved.data() == nullptr && loan.size() == 3);
  Id number = loan.number();
  CHECK(loan.send()->delivered() == std::size_t(1));
  CHECK(!loan && loan.empty() && loan.data() == nullptr && loan.number() == number);
  loan = publisher.loan_slice(2).expect("a loan");
  loan.discard();
  CHECK(!loan && loan.empty() && loan.data() == nullptr);
  auto sample = *std::move(subscriber.receive().expect("a receive"));
  auto kept = std::move(sample);
  CHECK(!sample && sample.empty() && sample.data() == nullptr && kept.size() == 3);
  kept.release();
  CHECK(!kept && kept.empty() && kept.data() == nullptr && kept.number() == number);
}

static void settings_are_read_back() {
  Config<std::uint16_t[]> config(17, 5);
  config.service_id(Id{17, 3}).node_id(Id{1, 2}).max_publishers(3).max_subscribers(4).subscriber_max_buffer_size(5);
  config.subscriber_max_borrowed_samples(6).history_size(7).subscriber_expired_connection_buffer(8);
  config.publisher_max_loaned_samples(9).enable_safe_overflow(false).backpressure_strategy(BackpressureStrategy::DiscardData);
  auto read = made(config).config().expect("settings");
  CHECK(read.service_id() == Id{17, 3} && read.node_id() == Id{1, 2});
  CHECK(read.payload_size() == 10 && read.payload_alignment() == 2);
  CHECK(read.max_publishers() == 3 && read.max_subscribers() == 4 && read.subscriber_max_buffer_size() == 5);
  CHECK(read.subscriber_max_borrowed_samples() == 6 && read.history_size() == 7);
  CHECK(read.subscriber_expired_connection_buffer() == 8 && read.publisher_max_loaned_samples() == 9);
  CHECK(!read.enable_safe_overflow() && read.backpressure_strategy() == BackpressureStrategy::DiscardData);
  CHECK(Config<int>(17).enable_safe_overflow() && Config<int>(17, 9).payload_size() == sizeof(int));
}

static void options_are_as_the_domain_says_but_for_what_is_set() {
  auto domain = made(Config<int>(18).subscriber_max_buffer_size(3).publisher_max_loaned_samples(1));
  CHECK(domain.subscriber()->buffer_size() == 3);
  CHECK(domain.subscriber(iox2ps::SubscriberOptions().buffer_size(1))->buffer_size() == 1);
  CHECK(domain.subscriber(iox2ps::SubscriberOptions().buffer_size(4)).error() == Error::SubscriberBufferSizeExceedsMax);
  auto one = domain.publisher().expect("a publisher");
  auto two = domain.publisher(PublisherOptions<int>().max_loaned_samples(2)).expect("a publisher");
  auto first = one.loan().expect("a loan"), second = two.loan().expect("a loan");
  CHECK(one.loan().error() == Error::LoanExceedsMaxLoans && two.loan().has_value());
}

static void warnings_name_what_they_are_of() {
  auto domain = made(Config<int>(19).subscriber_expired_connection_buffer(1));
  CHECK(domain.warnings().empty());
  auto subscriber = domain.subscriber().expect("a subscriber");
  auto warnings = domain.warnings();
  CHECK(warnings.size() == 1 && warnings[0].kind == iox2ps::WarningKind::ExpiredBufferRaised);
  CHECK(warnings[0].subscriber == subscriber.id() && !warnings[0].publisher && !warnings[0].failure);
  CHECK(std::strstr(iox2ps::text(warnings[0].kind), "ExpiredBufferRaised") != nullptr);
}

static void results_are_read_in_several_ways() {
  Result<int> there(3), none(Error::NotLive);
  const Result<int> constant(4);
  CHECK(there.value() == 3 && *there == 3 && constant.value() == 4 && *constant == 4);
  CHECK(there.value_or(9) == 3 && none.value_or(9) == 9 && Result<int>(Error::NotLive).value_or(8) == 8);
  CHECK(Result<std::string>(std::string("text")).value_or("none") == "text");
  auto half = [](int value) { return value % 2 == 0 ? Result<int>(value / 2) : Result<int>(Error::NotLive); };
  CHECK(constant.and_then(half).value() == 2 && there.and_then(half).error() == Error::NotLive);
  CHECK(none.and_then(half).error() == Error::NotLive && *Result<int>(8).and_then(half).and_then(half) == 2);
  there.value() = 6;
  CHECK(*there.and_then([](int &value) { return Result<std::string>(std::to_string(value)); }) == "6");
  auto domain = made(Config<int>(20));
  auto sent = domain.publisher().and_then([](auto &&publisher) { return publisher.send_copy(1); });
  CHECK(sent.has_value() && sent->delivered() == std::size_t(0));
}

static void a_publisher_that_goes_takes_no_memory() {
  auto domain = made(keeping(21).max_publishers(2));
  auto subscriber = domain.subscriber().expect("a subscriber");
  std::optional<iox2ps::BlockedSend<int>> blocked[2];
  for (auto &waits : blocked) {
    auto publisher = domain.publisher().expect("a publisher");
    CHECK(publisher.send_copy(1).has_value());
    waits = std::move(publisher.send_copy(2)->blocked());
    std::size_t before = taken;
    publisher.close();
    CHECK(taken == before);
  }
  CHECK(domain.publisher().error() == Error::PublisherExceedsMaxSupportedPublishers);
  blocked[0].reset();
  CHECK(domain.publisher().has_value());
  auto other = domain.publisher().expect("a publisher");
  CHECK(domain.publisher().error() == Error::PublisherExceedsMaxSupportedPublishers);
  blocked[1].reset();
  CHECK(domain.publisher().has_value());
}

#if defined(__cpp_exceptions)
struct Fussy {
  int value;
  Fussy() : value(left) {
    if (left-- == 0) throw std::string("no value");
  }
  static int left;
};
int Fussy::left = 0;

static void a_loan_whose_values_throw_is_given_back() {
  auto domain = made(Config<Fussy[]>(22, 3).publisher_max_loaned_samples(1));
  auto publisher = domain.publisher().expect("a publisher");
  for (int i = 0; i < 3; i++) {
    Fussy::left = i;
    bool thrown = false;
    try {
      static_cast<void>(publisher.loan_slice(3).has_value());
    } catch (const std::string &) {
      thrown = true;
    }
    CHECK(thrown);
  }
  Fussy::left = 3;
  CHECK(publisher.loan_slice(3).expect("a loan")[2].value == 1);
}
#else
static void a_loan_whose_values_throw_is_given_back() {}
#endif

static void a_publisher_that_goes_while_it_is_blocked_closes_later() {
  auto config = keeping(9);
  config.max_publishers(1);
  auto domain = made(config);
  auto subscriber = domain.subscriber().expect("a subscriber");
  std::optional<iox2ps::BlockedSend<int>> blocked;
  {
    auto publisher = domain.publisher().expect("a publisher");
    CHECK(publisher.send_copy(1).has_value());
    blocked = std::move(publisher.send_copy(2)->blocked());
  }
  CHECK(blocked && !domain.publisher().has_value());
  CHECK(*blocked->give_up() == std::size_t(0));
  CHECK(domain.publisher().has_value());
}

static void full_buffers_are_passed_over_or_fail_the_send() {
  auto domain = made(keeping(10));
  auto options = PublisherOptions<int>().backpressure_strategy(BackpressureStrategy::DiscardData);
  auto discards = domain.publisher(options).expect("a publisher");
  options.backpressure_handler(iox2ps::BackpressureAction::DiscardDataAndFail);
  auto fails = domain.publisher(options).expect("a publisher");
  CHECK(discards.backpressure_strategy() == BackpressureStrategy::DiscardData);
  auto subscriber = domain.subscriber().expect("a subscriber");
  CHECK(discards.send_copy(1)->delivered() == std::size_t(1));
  CHECK(discards.send_copy(2)->delivered() == std::size_t(0));
  CHECK(fails.send_copy(1)->delivered() == std::size_t(1));
  CHECK(fails.send_copy(2).error() == Error::SendUnableToDeliver);
}

static void a_publisher_asks_for_fewer_slots() {
  auto domain = made(Config<int>(12));
  auto one_slot = domain.publisher(PublisherOptions<int>().preallocated_samples(1)).expect("a publisher");
  auto worst_case = domain.publisher().expect("a publisher");
  {
    auto first = one_slot.loan().expect("a loan");
    CHECK(one_slot.loan().error() == Error::LoanOutOfMemory);
    CHECK(worst_case.loan().has_value());
  }
  CHECK(one_slot.loan().has_value());
}

static void a_publisher_grows() {
  auto domain = Domain<int[]>::create(Config<int[]>(13, 2)).expect("a domain");
  auto subscriber = domain.subscriber().expect("a subscriber");
  auto fixed = domain.publisher().expect("a publisher");
  auto grows = PublisherOptions<int[]>().allocation_strategy(iox2ps::AllocationStrategy::PowerOfTwo).initial_max_slice_len(0);
  auto growing = domain.publisher(grows).expect("a publisher");
  CHECK(fixed.loan_slice(3).error() == Error::LoanExceedsMaxLoanSize);
  const int values[] = {1, 2, 3, 4, 5};
  CHECK(growing.send_copy(values, 5)->delivered() == std::size_t(1));
  auto sample = subscriber.receive().expect("a receive");
  CHECK(growing.loan_slice(100).has_value());
  CHECK(growing.loan_slice(std::size_t(-1)).error() == Error::LoanInternalFailure);
  CHECK(sample && sample->size() == 5 && (*sample)[4] == 5);
}

static void a_late_subscriber_gets_the_history() {
  Config<int> config(11);
  config.history_size(1);
  auto domain = made(config);
  auto publisher = domain.publisher().expect("a publisher");
  for (int n : {1, 2}) CHECK(publisher.send_copy(n)->delivered() == std::size_t(0));
  auto subscriber = domain.subscriber().expect("a subscriber");
  CHECK(publisher.update_connections().has_value() && subscriber.update_connections().has_value());
  CHECK(**subscriber.receive().expect("a receive") == 2);
}

/* Without overflow a history is to be less than a buffer. */
static void a_history_that_fills_a_buffer_blocks_the_next_send() {
  for (std::size_t kept : {1, 2}) {
    auto domain = made(Config<int>(11).history_size(kept).subscriber_max_buffer_size(2).enable_safe_overflow(false));
    auto publisher = domain.publisher().expect("a publisher");
    for (int n : {1, 2}) CHECK(publisher.send_copy(n)->delivered() == std::size_t(0));
    auto subscriber = domain.subscriber().expect("a subscriber");
    auto sent = publisher.send_copy(3).expect("a send");
    CHECK(sent.blocked().has_value() == (kept == 2));
    CHECK(subscriber.receive_copy().expect("a receive") == (kept == 2 ? 1 : 2));
  }
}

#if __cplusplus >= 202002L
static void slices_are_spans() {
  auto domain = made(Config<int[]>(1, 5));
  auto publisher = domain.publisher().expect("a publisher");
  auto subscriber = domain.subscriber().expect("a subscriber");
  auto loan = publisher.loan_slice(3).expect("a loan");
  std::span<int> written(loan);
  for (int &value : written) value = 7;
  CHECK(loan.send().expect("a send").delivered() == std::size_t(1));
  auto sample = *std::move(subscriber.receive().expect("a receive"));
  std::span<const int> read(sample);
  CHECK(read.size() == 3 && read.data() == written.data() && read[2] == 7);
}
#endif

static void a_header_says_where_a_message_comes_from() {
  Config<std::uint16_t[]> config(13, 3);
  config.node_id(Id{6, 5});
  auto domain = made(config);
  auto first = domain.publisher().expect("a publisher");
  auto second = domain.publisher().expect("a publisher");
  auto subscriber = domain.subscriber().expect("a subscriber");
  const std::uint16_t values[3] = {1, 2, 3};
  for (auto *publisher : {&first, &second}) {
    CHECK(publisher->send_copy(values, 3).has_value());
    auto sample = *subscriber.receive().expect("a receive");
    auto header = sample.header().expect("a header");
    CHECK(header.node_id == Id{6, 5} && header.publisher == publisher->id() && header.number_of_elements == 3);
    sample.release();
    CHECK(sample.header().error() == Error::NotLive);
  }
}

static void connections_and_books_are_counted() {
  auto domain = made(Config<int>(14));
  CHECK(domain.connection_count() == 0 && domain.book_count() == 0);
  auto publisher = domain.publisher().expect("a publisher");
  auto subscriber = domain.subscriber().expect("a subscriber");
  CHECK(publisher.send_copy(1).has_value());
  CHECK(domain.connection_count() == 1 && domain.book_count() == 1);
  auto sample = *subscriber.receive().expect("a receive");
  publisher.close();
  CHECK(!subscriber.receive().expect("a receive") && domain.book_count() == 1);
  sample.release();
  subscriber.close();
  CHECK(domain.connection_count() == 0 && domain.book_count() == 0 && domain.refused_connections() == 0);
}

/* A port has its connections after its own update alone, which its creation makes too. */
static void channels_are_asked_about() {
  constexpr auto open = iox2ps::channel_state_open, closed = iox2ps::channel_state_closed;
  auto domain = made(Config<int>(23));
  auto publisher = domain.publisher().expect("a publisher");
  auto subscriber = domain.subscriber().expect("a subscriber");
  CHECK(*subscriber.at_least_one_channel_has_state(0, open) && !*subscriber.at_least_one_channel_has_state(0, closed));
  CHECK(!*publisher.get_connection_id_of(subscriber.id()) && !*publisher.has_channel_state(0, 0, open));
  CHECK(publisher.update_connections().has_value());
  CHECK(*publisher.get_connection_id_of(subscriber.id()) == std::size_t(0));
  CHECK(!*publisher.get_connection_id_of(Id{subscriber.id().low, 1}));
  CHECK(*publisher.has_channel_state(0, 0, open) && !*publisher.has_channel_state(0, 0, 3) && !*publisher.has_channel_state(0, 1, open));
  CHECK(!*publisher.has_disconnect_hint(0, 0, open));
  CHECK(publisher.has_channel_state(1, 0, open).error() == Error::NoSuchChannel);
  CHECK(publisher.has_disconnect_hint(SIZE_MAX, 0, open).error() == Error::NoSuchChannel);
  CHECK(subscriber.at_least_one_channel_has_state(1, open).error() == Error::NoSuchChannel);
  auto moved = std::move(publisher);
  CHECK(publisher.get_connection_id_of(subscriber.id()).error() == Error::NotLive);
  CHECK(publisher.has_channel_state(0, 0, open).error() == Error::NotLive && *moved.has_channel_state(0, 0, open));
}

static void closed_channels_take_no_messages() {
  constexpr auto open = iox2ps::channel_state_open, closed = iox2ps::channel_state_closed;
  Config<int> config(26);
  config.max_subscribers(1).subscriber_max_buffer_size(1).subscriber_max_borrowed_samples(1).number_of_channels(2);
  config.enable_safe_overflow(false).backpressure_strategy(iox2ps::BackpressureStrategy::DiscardData);
  auto domain = made(config);
  auto subscriber = domain.subscriber().expect("a subscriber");
  auto publisher = domain.publisher().expect("a publisher");
  CHECK(*subscriber.set_channel_state(0, 9) && !*subscriber.at_least_one_channel_has_state(0, open));
  CHECK(subscriber.update_connections().has_value() && *publisher.get_connection_id_of(subscriber.id()) == std::size_t(0));
  CHECK(!*publisher.get_connection_id_of(Id{7, 0}) && *subscriber.at_least_one_channel_has_state(1, open));
  CHECK(subscriber.close_channel(0, 5).has_value() && *publisher.has_channel_state(0, 0, open));
  CHECK(subscriber.close_channel(0, open).has_value() && *publisher.has_channel_state(0, 0, closed));
  CHECK(publisher.send_copy(1)->delivered() == std::size_t(0) && !subscriber.receive().expect("a receive"));
  CHECK(*subscriber.set_channel_state(0, 7) && publisher.send_copy(2)->delivered() == std::size_t(1));
  CHECK(subscriber.set_disconnect_hint(0, open).has_value() && !*publisher.has_disconnect_hint(0, 0, 7));
  CHECK(subscriber.set_disconnect_hint(0, 7).has_value() && *publisher.has_disconnect_hint(0, 0, 7));
  CHECK(!*subscriber.set_channel_state(0, 3) && *publisher.has_channel_state(0, 0, 7) && *publisher.has_disconnect_hint(0, 0, 7));
  CHECK(publisher.close_channel(0, 0, 7).has_value() && !*publisher.has_disconnect_hint(0, 0, closed));
  CHECK(**subscriber.receive().expect("a receive") == 2);
  auto sent_to = [&](int value, std::size_t channel, std::size_t connection) {
    auto loan = publisher.loan().expect("a loan");
    *loan = value;
    return loan.deliver_offset_to_connection(channel, connection)->delivered();
  };
  CHECK(sent_to(3, 1, 0) == std::size_t(1) && sent_to(4, 1, 0) == std::size_t(0) && sent_to(5, 1, 5) == std::size_t(0));
  CHECK(!*subscriber.has_samples());
}

/* A message to one connection waits for its subscriber alone, and the loan stays where nothing is done. */
static void a_message_goes_to_one_connection() {
  auto domain = made(Config<int>(27).subscriber_max_buffer_size(1).enable_safe_overflow(false));
  auto first = domain.subscriber().expect("a subscriber"), second = domain.subscriber().expect("a subscriber");
  auto publisher = domain.publisher().expect("a publisher");
  auto loan = publisher.loan().expect("a loan");
  *loan = 1;
  CHECK(loan.deliver_offset_to_connection(1, 1).error() == Error::NoSuchChannel && loan);
  CHECK(loan.deliver_offset_to_connection(0, 1)->delivered() == std::size_t(1) && !loan);
  CHECK(loan.deliver_offset_to_connection(0, 1).error() == Error::NotLive);
  auto later = publisher.loan().expect("a loan");
  *later = 2;
  auto sent = later.deliver_offset_to_connection(0, 1).expect("a send");
  CHECK(sent.blocked() && !*sent.blocked()->retry());
  CHECK(**second.receive().expect("a receive") == 1 && **sent.blocked()->retry() == std::size_t(1));
  CHECK(**second.receive().expect("a receive") == 2 && !first.receive().expect("a receive"));
}

/* Messages go to channel 0 alone, and no call on one channel changes another. */
static void further_channels_have_states_of_their_own() {
  constexpr auto open = iox2ps::channel_state_open, closed = iox2ps::channel_state_closed;
  auto domain = made(Config<int>(25).number_of_channels(3));
  CHECK(domain.config()->number_of_channels() == 3);
  auto subscriber = domain.subscriber().expect("a subscriber");
  auto publisher = domain.publisher().expect("a publisher");
  CHECK(subscriber.update_connections().has_value() && subscriber.close_channel(2, open).has_value());
  CHECK(*publisher.has_channel_state(0, 0, open) && *publisher.has_channel_state(1, 0, open));
  CHECK(*publisher.has_channel_state(2, 0, closed) && publisher.send_copy(1)->delivered() == std::size_t(1));
  CHECK(subscriber.set_disconnect_hint(1, open).has_value());
  CHECK(*publisher.has_disconnect_hint(1, 0, open) && !*publisher.has_disconnect_hint(0, 0, open));
  CHECK(publisher.close_channel(1, 0, open).has_value() && !*subscriber.at_least_one_channel_has_state(0, closed));
  CHECK(*subscriber.set_channel_state(2, 5) && !*subscriber.set_channel_state(0, 5));
  CHECK(subscriber.at_least_one_channel_has_state(3, open).error() == Error::NoSuchChannel);
  CHECK(subscriber.close_channel(0, open).has_value() && publisher.send_copy(2)->delivered() == std::size_t(0));
}

static void channels_are_closed_opened_and_hinted() {
  constexpr auto open = iox2ps::channel_state_open, closed = iox2ps::channel_state_closed;
  auto domain = made(Config<int>(24));
  auto first = domain.subscriber().expect("a subscriber"), second = domain.subscriber().expect("a subscriber");
  auto publisher = domain.publisher().expect("a publisher");
  CHECK(first.close_channel(0, open).has_value()); // it has no connection yet
  CHECK(publisher.send_copy(1)->delivered() == std::size_t(2));
  CHECK(first.update_connections().has_value() && first.close_channel(0, 5).has_value());
  CHECK(*publisher.has_channel_state(0, 0, open));
  CHECK(first.close_channel(0, open).has_value());
  CHECK(*publisher.has_channel_state(0, 0, closed) && *publisher.has_channel_state(0, 1, open));
  CHECK(publisher.send_copy(2)->delivered() == std::size_t(1));
  CHECK(**first.receive().expect("a receive") == 1 && !first.receive().expect("a receive"));
  CHECK(*first.set_channel_state(0, 7) && publisher.send_copy(3)->delivered() == std::size_t(2));
  CHECK(**first.receive().expect("a receive") == 3);

  CHECK(first.set_disconnect_hint(0, open).has_value() && !*publisher.has_disconnect_hint(0, 0, 7));
  CHECK(first.set_disconnect_hint(0, 7).has_value() && *publisher.has_disconnect_hint(0, 0, 7));
  CHECK(!*first.set_channel_state(0, 8) && *publisher.has_disconnect_hint(0, 0, 7));
  CHECK(publisher.close_channel(0, 0, open).has_value() && publisher.close_channel(0, 2, 7).has_value());
  CHECK(*publisher.has_channel_state(0, 0, 7));
  CHECK(publisher.close_channel(0, 0, 7).has_value() && !*publisher.has_disconnect_hint(0, 0, closed));
  CHECK(publisher.send_copy(4)->delivered() == std::size_t(1));

  CHECK(publisher.close_channel(1, 0, open).error() == Error::NoSuchChannel);
  CHECK(first.set_channel_state(1, open).error() == Error::NoSuchChannel);
  CHECK(first.close_channel(1, open).error() == Error::NoSuchChannel);
  CHECK(first.set_disconnect_hint(1, open).error() == Error::NoSuchChannel);
  auto moved = std::move(first);
  CHECK(first.set_channel_state(0, open).error() == Error::NotLive && first.close_channel(0, open).error() == Error::NotLive);
  CHECK(first.set_disconnect_hint(0, open).error() == Error::NotLive && *moved.set_channel_state(0, open));
}

static void a_blocked_send_goes_past_a_closed_channel() {
  auto domain = made(keeping(25));
  auto subscriber = domain.subscriber().expect("a subscriber");
  auto publisher = domain.publisher().expect("a publisher");
  CHECK(publisher.send_copy(1)->delivered() == std::size_t(1));
  auto blocked = *std::move(publisher.send_copy(2)->blocked());
  CHECK(publisher.close_channel(0, 0, iox2ps::channel_state_open).has_value());
  CHECK(*blocked.retry() == std::size_t(0) && **subscriber.receive().expect("a receive") == 1);
}

static void settings_say_how_many_slots_a_publisher_has() {
  Config<int> config(15);
  config.max_subscribers(2);
  config.subscriber_max_buffer_size(3);
  config.subscriber_max_borrowed_samples(4);
  config.history_size(5);
  config.publisher_max_loaned_samples(6);
  CHECK(config.worst_case_slots() == std::size_t(2 * (3 + 4) + 5 + 6));
  CHECK(config.worst_case_slots(1) == std::size_t(2 * (3 + 4) + 5 + 1));
  config.max_subscribers(SIZE_MAX);
  CHECK(!config.worst_case_slots());
}

template <typename T> static std::string written(const T &value) {
  std::ostringstream out;
  out << value;
  return out.str();
}

static void an_id_is_a_key_and_a_number() {
  constexpr std::uint64_t greatest = UINT64_MAX;
  CHECK(written(Id{0, 0}) == "0" && written(Id{7, 0}) == "7" && written(Id{greatest, 0}) == "18446744073709551615");
  CHECK(written(Id{0, 1}) == "18446744073709551616" && written(Id{greatest, greatest}) == "340282366920938463463374607431768211455");
  Id one = {1, 0}, two = {2, 0}, high = {0, 1};
  CHECK(one < two && two < high && !(two < one) && !(one < one) && one <= one && one <= two && high > two && high >= high);
  CHECK(!(high < one) && !(one > two) && !(one >= two) && !(high <= two));
  std::map<Id, int> ordered = {{high, 3}, {one, 1}, {two, 2}};
  CHECK(ordered.begin()->second == 1 && ordered.rbegin()->second == 3 && ordered.at({2, 0}) == 2);
  std::unordered_map<Id, int> hashed = {{one, 1}, {high, 2}};
  CHECK(hashed.at({1, 0}) == 1 && hashed.at({0, 1}) == 2 && hashed.count(two) == 0);
  /* The numbers of ports come one after the other, and those of services may differ in their high half alone. */
  std::set<std::size_t> hashes;
  for (std::uint64_t at = 0; at < 1000; at++) hashes.insert({std::hash<Id>()({at, 0}), std::hash<Id>()({0, at})});
  CHECK(hashes.size() == 1999);
}

static void a_const_handle_answers() {
  const auto domain = made(Config<int>(1));
  const auto publisher = domain.publisher().expect("a publisher");
  const auto subscriber = domain.subscriber().expect("a subscriber");
  CHECK(subscriber.has_samples().value_or(true) == false && !publisher.is_blocked());
  CHECK(publisher.has_channel_state(0, 0, 0).has_value() && subscriber.at_least_one_channel_has_state(0, 0).has_value());
}

static void an_error_is_an_error_code() {
  std::error_code code = Error::LoanExceedsMaxLoans;
  CHECK(code && code == Error::LoanExceedsMaxLoans && code != Error::OutOfMemory && code.category() == iox2ps::error_category());
  CHECK(code.message() == iox2ps::text(Error::LoanExceedsMaxLoans) && std::string(code.category().name()) == "iox2_pubsub");
  code = Error::ReceiveConnectionOutOfMemory;
  CHECK(code == std::errc::not_enough_memory && code != std::errc::invalid_argument);
  CHECK(std::error_code(Error::InvalidDegradation) == std::errc::invalid_argument);
  CHECK(std::error_code(Error::NoDescriptor) == std::errc::too_many_files_open && std::error_code(Error::NotLive) != std::errc::not_enough_memory);
  CHECK(written(Error::OtherVersion) == iox2ps::text(Error::OtherVersion));
}

static void errors_say_what_helps() {
  auto domain = made(Config<int>(1).publisher_max_loaned_samples(1));
  auto publisher = domain.publisher().expect("a publisher");
  auto loan = publisher.loan().expect("a loan");
  std::string refused = iox2ps::text(publisher.loan().error());
  CHECK(refused.find("ExceedsMaxLoans") != refused.npos && refused.find("publisher_max_loaned_samples") != refused.npos);
  auto moved = std::move(loan);
  CHECK(std::string(iox2ps::text(loan.send().error())).find("moved from") != std::string::npos);
}

static void errors_have_texts() {
  for (std::uint32_t code = 0; code < 130; code++) CHECK(std::strlen(iox2ps::text(static_cast<Error>(code))) > 0);
  CHECK(std::string(iox2ps::text(Error::NotLive)) != iox2ps::text(Error::OutOfMemory));
}

int main() {
  a_domain_that_was_moved_from_is_empty();
  ports_that_were_moved_from_are_empty();
  slices_that_are_gone_have_no_values();
  settings_are_read_back();
  options_are_as_the_domain_says_but_for_what_is_set();
  warnings_name_what_they_are_of();
  results_are_read_in_several_ways();
  a_publisher_that_goes_takes_no_memory();
  a_loan_whose_values_throw_is_given_back();
  a_value_is_written_and_read_in_place();
  messages_stay_where_they_are();
  slices_have_the_length_of_their_loan();
  lengths_of_none_of_the_limit_and_beyond();
  alignments_are_kept();
  handles_outlive_their_domain_and_make_room();
  loans_are_counted();
  a_blocked_send_is_tried_again_or_given_up();
  a_blocked_send_names_its_subscriber();
  a_publisher_that_goes_while_it_is_blocked_closes_later();
  full_buffers_are_passed_over_or_fail_the_send();
  a_publisher_asks_for_fewer_slots();
  a_publisher_grows();
  a_late_subscriber_gets_the_history();
  a_history_that_fills_a_buffer_blocks_the_next_send();
#if __cplusplus >= 202002L
  slices_are_spans();
#endif
  a_header_says_where_a_message_comes_from();
  connections_and_books_are_counted();
  channels_are_asked_about();
  channels_are_closed_opened_and_hinted();
  closed_channels_take_no_messages();
  a_message_goes_to_one_connection();
  further_channels_have_states_of_their_own();
  a_blocked_send_goes_past_a_closed_channel();
  settings_say_how_many_slots_a_publisher_has();
  an_id_is_a_key_and_a_number();
  a_const_handle_answers();
  an_error_is_an_error_code();
  errors_say_what_helps();
  errors_have_texts();
  std::printf("%d passed, %d failed\n", passed, failed);
  return failed != 0;
}
