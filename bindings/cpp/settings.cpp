// SPDX-License-Identifier: Apache-2.0 OR MIT
// Each setting and each answer of the C++ header by what it changes, so that one which is dropped, or exchanged with another of
// its type, fails a check. bindings/settings.toml names the test of each. Prints each check that fails, and then
// "N passed, M failed".
#include "iox2_pubsub.hpp"
#include <cstdio>

static int passed = 0, failed = 0;
#define CHECK(...)                                                 \
  do {                                                             \
    if (__VA_ARGS__) {                                             \
      passed++;                                                    \
    } else {                                                       \
      failed++;                                                    \
      std::printf("%s:%d: %s\n", __FILE__, __LINE__, #__VA_ARGS__); \
    }                                                              \
  } while (0)

using iox2ps::AllocationStrategy;
using iox2ps::BackpressureAction;
using iox2ps::BackpressureStrategy;
using iox2ps::Config;
using iox2ps::DegradationAction;
using iox2ps::Domain;
using iox2ps::Error;
using iox2ps::Id;
using iox2ps::PublisherOptions;
using iox2ps::SubscriberOptions;
using iox2ps::WarningKind;
using Byte = std::uint8_t;

/* A connection with a buffer of this length needs more memory than there are addresses. */
constexpr std::size_t too_long = std::size_t(1) << 50;

/* With the address sanitizer such memory is refused too, and doesn't end the program. */
extern "C" const char *__asan_default_options() { return "allocator_may_return_null=1"; }

template <typename P> static Domain<P> made(const Config<P> &config) { return Domain<P>::create(config).expect("a domain"); }

/* The byte that is received, or 0 where none waits. */
static Byte received(iox2ps::Subscriber<Byte> &subscriber) {
  auto sample = subscriber.receive().expect("a receive");
  return sample ? **sample : Byte(0);
}

// ---- a domain's settings

/* Settings of which no two are equal. */
static Config<Byte> all_different() {
  Config<Byte> config(7);
  config.max_publishers(3).max_subscribers(4).subscriber_max_buffer_size(5).subscriber_max_borrowed_samples(6);
  config.history_size(2).number_of_channels(7).subscriber_expired_connection_buffer(9).publisher_max_loaned_samples(8);
  return config;
}

static void as_many_ports_as_the_settings_say() {
  Config<Byte> config = all_different();
  auto domain = made(config);
  std::vector<iox2ps::Publisher<Byte>> publishers;
  while (publishers.size() < config.max_publishers()) publishers.push_back(domain.publisher().expect("a publisher"));
  CHECK(domain.publisher().error() == Error::PublisherExceedsMaxSupportedPublishers && publishers.size() == 3);
  std::vector<iox2ps::Subscriber<Byte>> subscribers;
  while (subscribers.size() < config.max_subscribers()) subscribers.push_back(domain.subscriber().expect("a subscriber"));
  CHECK(domain.subscriber().error() == Error::SubscriberExceedsMaxSupportedSubscribers && subscribers.size() == 4);
}

static void as_many_messages_as_the_settings_say() {
  Config<Byte> config = all_different();
  auto domain = made(config);
  auto publisher = domain.publisher().expect("a publisher"), other = domain.publisher().expect("a publisher");
  std::vector<iox2ps::Loan<Byte>> loans;
  while (loans.size() < config.publisher_max_loaned_samples()) loans.push_back(publisher.loan().expect("a loan"));
  CHECK(publisher.loan().error() == Error::LoanExceedsMaxLoans && loans.size() == 8);
  loans.clear();
  for (Byte byte = 1; byte <= 9; byte++) CHECK(publisher.send_copy(byte).has_value());
  auto subscriber = domain.subscriber().expect("a subscriber");
  CHECK(publisher.update_connections().has_value() && subscriber.buffer_size() == 5);
  CHECK(config.history_size() == 2 && received(subscriber) == 8 && received(subscriber) == 9 && received(subscriber) == 0);
  for (Byte byte = 1; byte <= 10; byte++) CHECK(other.send_copy(byte).has_value());
  for (Byte byte = 6; byte <= 10; byte++) CHECK(received(subscriber) == byte);
  CHECK(received(subscriber) == 0 && config.subscriber_max_buffer_size() == 5);
  std::vector<iox2ps::Sample<Byte>> samples;
  while (samples.size() < config.subscriber_max_borrowed_samples()) {
    CHECK(other.send_copy(1).has_value());
    samples.push_back(*subscriber.receive().expect("a receive"));
  }
  CHECK(other.send_copy(1).has_value() && subscriber.receive().error() == Error::ReceiveExceedsMaxBorrows && samples.size() == 6);
  CHECK(config.worst_case_slots() == std::size_t(4 * 7 * (5 + 6) + 2 + 8));
}

static void as_many_channels_as_the_settings_say() {
  auto domain = made(all_different());
  auto subscriber = domain.subscriber().expect("a subscriber");
  auto publisher = domain.publisher().expect("a publisher");
  CHECK(subscriber.update_connections().has_value() && all_different().number_of_channels() == 7);
  for (std::size_t channel = 0; channel < 9; channel++) {
    auto is_open = subscriber.at_least_one_channel_has_state(channel, iox2ps::channel_state_open);
    CHECK(is_open.has_value() == (channel < 7));
  }
}

/* Samples of closed publishers are kept, of one publisher more than is open at a time. */
static void as_many_closed_publishers_as_the_settings_say() {
  for (std::size_t kept = 1; kept <= 3; kept++) {
    Config<Byte> config(7);
    config.max_publishers(1).subscriber_max_borrowed_samples(1).subscriber_expired_connection_buffer(kept);
    CHECK(config.subscriber_expired_connection_buffer() == kept);
    auto domain = made(config);
    auto subscriber = domain.subscriber().expect("a subscriber");
    std::vector<iox2ps::Sample<Byte>> samples;
    for (std::size_t closed = 1; closed <= kept + 1; closed++) {
      auto publisher = domain.publisher().expect("a publisher");
      CHECK(publisher.send_copy(1).has_value());
      samples.push_back(*subscriber.receive().expect("a receive"));
      publisher.close();
      auto updated = subscriber.update_connections();
      CHECK(closed <= kept ? updated.has_value() : updated.error() == Error::ConnectionExpiredBufferFull);
    }
  }
}

static void a_domain_and_its_node_have_their_numbers() {
  Config<Byte> config(7);
  config.service_id(Id{7, 11}).node_id(Id{12, 13});
  CHECK(config.service_id() == Id{7, 11} && config.node_id() == Id{12, 13});
  auto domain = made(config);
  CHECK(domain.config()->service_id() == Id{7, 11});
  auto publisher = domain.publisher().expect("a publisher");
  auto subscriber = domain.subscriber().expect("a subscriber");
  CHECK(publisher.send_copy(1).has_value());
  CHECK((*subscriber.receive().expect("a receive")).header()->node_id == Id{12, 13});
}

static void payloads_are_as_long_and_aligned_as_their_type() {
  Config<std::uint32_t[]> config(7, 12);
  CHECK(config.payload_size() == 48 && config.payload_alignment() == 4);
  auto domain = made(config);
  auto publisher = domain.publisher().expect("a publisher");
  CHECK(publisher.loan_slice(12).has_value() && publisher.loan_slice(13).error() == Error::LoanExceedsMaxLoanSize);
}

/* What a domain has recorded of a message of two bytes. */
static iox2ps::Recording recording_of(const Config<std::uint16_t> &config) {
  auto domain = made(config);
  auto subscriber = domain.subscriber().expect("a subscriber");
  CHECK(domain.publisher()->send_copy(0x0201).has_value() && **subscriber.receive().expect("a receive") == 0x0201);
  return domain.recording().expect("a recording");
}

static void as_much_is_recorded_as_the_settings_say() {
  Config<std::uint16_t> config(7);
  CHECK(recording_of(config).text.empty());
  auto has_second_byte = [](const iox2ps::Recording &recording) { return recording.text.find(" 1 = value 2\n") != std::string::npos; };
  auto one_byte = recording_of(config.record(20, 1)), two_bytes = recording_of(config.record(20, 2));
  CHECK(!one_byte.text.empty() && one_byte.missed == 0 && !has_second_byte(one_byte) && has_second_byte(two_bytes));
  CHECK(recording_of(config.record(2, 20)).missed > 0);
}

// ---- full buffers

/* What a publisher with these options sends to a buffer of one that is full. */
struct Second {
  std::optional<Error> error;
  bool is_blocked;
  std::optional<std::size_t> receivers;
  Byte first;
};

static Second second_send(Config<Byte> config, const PublisherOptions<Byte> &options) {
  auto domain = made(config.subscriber_max_buffer_size(1));
  auto publisher = domain.publisher(options).expect("a publisher");
  auto subscriber = domain.subscriber().expect("a subscriber");
  CHECK(publisher.send_copy(1)->delivered() == std::size_t(1));
  auto sent = publisher.send_copy(2);
  if (!sent) return {sent.error(), false, {}, received(subscriber)};
  return {{}, sent->blocked().has_value(), sent->delivered(), received(subscriber)};
}

static void a_full_buffer_loses_a_message_where_it_overflows() {
  CHECK(Config<Byte>(7).enable_safe_overflow(true).enable_safe_overflow() && !Config<Byte>(7).enable_safe_overflow(false).enable_safe_overflow());
  auto overflows = second_send(Config<Byte>(7).enable_safe_overflow(true), {});
  CHECK(overflows.receivers == std::size_t(1) && overflows.first == 2);
  auto keeps = second_send(Config<Byte>(7).enable_safe_overflow(false), {});
  CHECK(keeps.is_blocked && keeps.first == 1);
}

static Config<Byte> keeping(BackpressureStrategy strategy) {
  return Config<Byte>(7).enable_safe_overflow(false).backpressure_strategy(strategy);
}

static bool is_discarded(const Second &sent) { return sent.receivers == std::size_t(0) && sent.first == 1; }

static void each_strategy_answers_at_a_full_buffer() {
  auto retry = BackpressureStrategy::RetryUntilDelivered, discard = BackpressureStrategy::DiscardData;
  CHECK(keeping(retry).backpressure_strategy() == retry && keeping(discard).backpressure_strategy() == discard);
  CHECK(second_send(keeping(retry), {}).is_blocked && is_discarded(second_send(keeping(discard), {})));
  CHECK(second_send(keeping(discard), PublisherOptions<Byte>().backpressure_strategy(retry)).is_blocked);
  CHECK(is_discarded(second_send(keeping(retry), PublisherOptions<Byte>().backpressure_strategy(discard))));
}

static void each_handler_answers_at_a_full_buffer() {
  for (auto strategy : {BackpressureStrategy::RetryUntilDelivered, BackpressureStrategy::DiscardData}) {
    auto sent = [&](BackpressureAction action) {
      return second_send(keeping(strategy), PublisherOptions<Byte>().backpressure_handler(action));
    };
    auto follows = sent(BackpressureAction::FollowStrategy);
    CHECK(strategy == BackpressureStrategy::DiscardData ? is_discarded(follows) : follows.is_blocked);
    CHECK(sent(BackpressureAction::Retry).is_blocked);
    CHECK(is_discarded(sent(BackpressureAction::DiscardData)));
    CHECK(sent(BackpressureAction::DiscardDataAndFail).error == Error::SendUnableToDeliver);
  }
}

// ---- ports' options

static void a_publisher_has_what_its_options_say() {
  auto domain = made(Config<std::uint16_t[]>(7, 1));
  PublisherOptions<std::uint16_t[]> options;
  options.max_loaned_samples(4).initial_max_slice_len(5);
  auto publisher = domain.publisher(options).expect("a publisher");
  std::vector<iox2ps::Loan<std::uint16_t[]>> loans;
  for (int i = 0; i < 4; i++) loans.push_back(publisher.loan_slice(5).expect("a loan"));
  CHECK(publisher.loan_slice(5).error() == Error::LoanExceedsMaxLoans);
  loans.clear();
  CHECK(publisher.loan_slice(6).error() == Error::LoanExceedsMaxLoanSize);
  auto few_slots = domain.publisher(options.preallocated_samples(3)).expect("a publisher");
  for (int i = 0; i < 3; i++) loans.push_back(few_slots.loan_slice(5).expect("a loan"));
  CHECK(few_slots.loan_slice(5).error() == Error::LoanOutOfMemory);
}

/* How long a message is refused that is a value longer than the one before. */
static std::size_t refused_length(AllocationStrategy strategy) {
  auto domain = made(Config<Byte[]>(7, 1));
  auto publisher = domain.publisher(PublisherOptions<Byte[]>().allocation_strategy(strategy)).expect("a publisher");
  std::size_t len = 1;
  while (len < 600 && publisher.loan_slice(len).has_value()) len++;
  return len;
}

/* Memory grows 254 times at most, by BestFit for each longer message, and by PowerOfTwo for those past a power of two. */
static void memory_grows_as_the_options_say() {
  CHECK(refused_length(AllocationStrategy::Static) == 2);
  CHECK(refused_length(AllocationStrategy::BestFit) == 256);
  CHECK(refused_length(AllocationStrategy::PowerOfTwo) == 600);
}

static void a_subscriber_has_the_buffer_that_its_options_say() {
  auto domain = made(Config<Byte>(7).subscriber_max_buffer_size(9));
  auto subscriber = domain.subscriber(SubscriberOptions().buffer_size(3)).expect("a subscriber");
  auto publisher = domain.publisher().expect("a publisher");
  for (Byte byte = 1; byte <= 5; byte++) CHECK(publisher.send_copy(byte).has_value());
  for (Byte byte = 3; byte <= 5; byte++) CHECK(received(subscriber) == byte);
  CHECK(received(subscriber) == 0);
}

static void a_publishers_options_are_read_back() {
  using Options = PublisherOptions<std::uint32_t[]>;
  auto domain = made(Config<std::uint32_t[]>(7, 4).publisher_max_loaned_samples(5).max_publishers(9).backpressure_strategy(
      BackpressureStrategy::DiscardData));
  Options plain = domain.publisher().expect("a publisher").options();
  CHECK(plain.max_loaned_samples() == 5u && plain.initial_max_slice_len() == 4u && plain.preallocated_samples() == 0u);
  CHECK(plain.backpressure_strategy() == BackpressureStrategy::DiscardData && !plain.backpressure_handler());
  CHECK(plain.degradation_handler() == DegradationAction::Warn && plain.allocation_strategy() == AllocationStrategy::Static);
  for (auto handler : {BackpressureAction::FollowStrategy, BackpressureAction::Retry, BackpressureAction::DiscardData,
                       BackpressureAction::DiscardDataAndFail}) {
    bool is_even = static_cast<std::uint32_t>(handler) % 2 == 0;
    auto degradation = is_even ? DegradationAction::Ignore : DegradationAction::DegradeAndFail;
    auto strategy = is_even ? AllocationStrategy::BestFit : AllocationStrategy::PowerOfTwo;
    auto given = Options().max_loaned_samples(3).initial_max_slice_len(7).preallocated_samples(2).allocation_strategy(strategy);
    given.backpressure_strategy(BackpressureStrategy::RetryUntilDelivered).backpressure_handler(handler).degradation_handler(degradation);
    auto publisher = domain.publisher(given).expect("a publisher");
    Options read = publisher.options();
    CHECK(read.max_loaned_samples() == 3u && read.initial_max_slice_len() == 7u && read.preallocated_samples() == 2u);
    CHECK(read.backpressure_strategy() == BackpressureStrategy::RetryUntilDelivered && read.backpressure_handler() == handler);
    CHECK(read.degradation_handler() == degradation && read.allocation_strategy() == strategy);
    publisher.close();
    CHECK(!publisher.options().max_loaned_samples());
  }
}

static void a_subscribers_options_are_read_back() {
  auto domain = made(Config<Byte>(7).subscriber_max_buffer_size(5));
  auto plain = domain.subscriber().expect("a subscriber").options();
  CHECK(plain.buffer_size() == 5u && plain.degradation_handler() == DegradationAction::Warn);
  auto given = SubscriberOptions().buffer_size(0).degradation_handler(DegradationAction::Ignore);
  auto subscriber = domain.subscriber(given).expect("a subscriber");
  CHECK(subscriber.options().buffer_size() == 1u && subscriber.options().degradation_handler() == DegradationAction::Ignore);
  auto moved = std::move(subscriber);
  CHECK(moved.options().buffer_size() == 1u && !subscriber.options().buffer_size()); // NOLINT(bugprone-use-after-move)
}

// ---- connections that aren't made, and warnings

/* The warnings of a domain whose last port is refused its connection, and answers this. */
static std::vector<WarningKind> warnings_of_a_refusal(const PublisherOptions<Byte> &publishing, const SubscriberOptions &subscribing,
                                                      bool publisher_is_last) {
  auto domain = made(Config<Byte>(7).subscriber_max_buffer_size(too_long));
  std::optional<iox2ps::Subscriber<Byte>> subscriber;
  if (publisher_is_last) subscriber = domain.subscriber(subscribing).expect("a subscriber");
  auto publisher = domain.publisher(publishing).expect("a publisher");
  if (!publisher_is_last) subscriber = domain.subscriber(subscribing).expect("a subscriber");
  CHECK(domain.refused_connections() == 1);
  std::vector<WarningKind> kinds;
  for (auto &warning : domain.warnings()) kinds.push_back(warning.kind);
  return kinds;
}

static void a_refused_connection_is_ignored_warned_of_or_fails_the_call() {
  using Kinds = std::vector<WarningKind>;
  auto of_publisher = [](DegradationAction action) {
    return warnings_of_a_refusal(PublisherOptions<Byte>().preallocated_samples(1).degradation_handler(action), {}, true);
  };
  CHECK(of_publisher(DegradationAction::Ignore).empty());
  CHECK(of_publisher(DegradationAction::Warn) == Kinds{WarningKind::ConnectionNotMade});
  CHECK(of_publisher(DegradationAction::DegradeAndFail) == Kinds{WarningKind::PublisherPartlyConnected});
  auto of_subscriber = [](DegradationAction action) {
    auto publishing = PublisherOptions<Byte>().preallocated_samples(1);
    return warnings_of_a_refusal(publishing, SubscriberOptions().degradation_handler(action), false);
  };
  CHECK(of_subscriber(DegradationAction::Ignore).empty());
  CHECK(of_subscriber(DegradationAction::Warn) == Kinds{WarningKind::ConnectionNotMade});
  CHECK(of_subscriber(DegradationAction::DegradeAndFail) == Kinds{WarningKind::SubscriberPartlyConnected});
}

static void less_room_than_borrowed_samples_is_warned_of() {
  for (std::size_t borrowed : {3, 4}) {
    auto domain = made(Config<Byte>(7).subscriber_expired_connection_buffer(3).subscriber_max_borrowed_samples(borrowed));
    auto subscriber = domain.subscriber().expect("a subscriber");
    auto warnings = domain.warnings();
    CHECK(borrowed == 3 ? warnings.empty() : warnings.size() == 1 && warnings[0].kind == WarningKind::ExpiredBufferRaised);
  }
}

/* There is room for one closed publisher, and what waits of two of them. */
static void lost_messages_of_closed_publishers_are_warned_of() {
  Config<Byte> config(7);
  config.max_publishers(1).subscriber_max_borrowed_samples(1).subscriber_expired_connection_buffer(1);
  auto domain = made(config);
  auto subscriber = domain.subscriber().expect("a subscriber");
  for (int i = 0; i < 3; i++) {
    auto publisher = domain.publisher().expect("a publisher");
    CHECK(subscriber.update_connections().has_value());
    if (i < 2) CHECK(publisher.send_copy(1).has_value());
  }
  auto warnings = domain.warnings();
  CHECK(warnings.size() == 1 && warnings[0].kind == WarningKind::ExpiredDataDiscarded);
}

int main() {
  as_many_ports_as_the_settings_say();
  as_many_messages_as_the_settings_say();
  as_many_channels_as_the_settings_say();
  as_many_closed_publishers_as_the_settings_say();
  a_domain_and_its_node_have_their_numbers();
  payloads_are_as_long_and_aligned_as_their_type();
  as_much_is_recorded_as_the_settings_say();
  a_full_buffer_loses_a_message_where_it_overflows();
  each_strategy_answers_at_a_full_buffer();
  each_handler_answers_at_a_full_buffer();
  a_publisher_has_what_its_options_say();
  memory_grows_as_the_options_say();
  a_subscriber_has_the_buffer_that_its_options_say();
  a_publishers_options_are_read_back();
  a_subscribers_options_are_read_back();
  a_refused_connection_is_ignored_warned_of_or_fails_the_call();
  less_room_than_borrowed_samples_is_warned_of();
  lost_messages_of_closed_publishers_are_warned_of();
  std::printf("%d passed, %d failed\n", passed, failed);
  return failed != 0;
}
