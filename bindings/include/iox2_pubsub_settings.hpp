// SPDX-License-Identifier: Apache-2.0 OR MIT
/** @file
 * The settings of domains and ports, and what a domain says of itself, for iox2_pubsub.hpp. It is included there.
 *
 * Each setting is set by a call of its name, and read by the same call without an argument:
 *
 *     Config<Pose> config(7);
 *     config.max_subscribers(2).history_size(1).enable_safe_overflow(false);
 *     auto strategy = config.backpressure_strategy();
 */
#ifndef IOX2_PUBSUB_SETTINGS_HPP
#define IOX2_PUBSUB_SETTINGS_HPP

#include "iox2_pubsub_results.hpp"

#include <array>
#include <cstddef>
#include <functional>
#include <limits>
#include <optional>
#include <string>

namespace iox2ps {

/** The number of a domain, a port or a message, which no other of its domain has. It may be the key of a std::map or a
 * std::unordered_map, and is written to a stream as a decimal number. */
struct Id {
  std::uint64_t low;  /**< the number modulo 2 to the 64th */
  std::uint64_t high; /**< the rest of it */
  friend bool operator==(Id a, Id b) { return a.low == b.low && a.high == b.high; } /**< whether it is the same */
  friend bool operator!=(Id a, Id b) { return !(a == b); }                          /**< whether it is another */
  friend bool operator<(Id a, Id b) { return a.high != b.high ? a.high < b.high : a.low < b.low; } /**< whether it is less */
  friend bool operator>(Id a, Id b) { return b < a; }                               /**< whether it is greater */
  friend bool operator<=(Id a, Id b) { return !(b < a); }                           /**< whether it isn't greater */
  friend bool operator>=(Id a, Id b) { return !(a < b); }                           /**< whether it isn't less */
};

namespace detail {

/* The decimal digits of a number, which has 39 at most, and a zero byte: filled from behind, by a division of its quarters. */
class Digits {
public:
  explicit Digits(Id id)
      : quarters_{static_cast<std::uint32_t>(id.high >> 32), static_cast<std::uint32_t>(id.high),
                  static_cast<std::uint32_t>(id.low >> 32), static_cast<std::uint32_t>(id.low)} {
    do all_[--first_] = static_cast<char>('0' + last_digit());
    while (quarters_ != std::array<std::uint32_t, 4>{});
  }
  [[nodiscard]] const char *text() const { return &all_[first_]; }

private:
  std::uint32_t last_digit() {
    std::uint64_t rest = 0;
    for (std::uint32_t &quarter : quarters_) {
      rest = rest << 32 | quarter;
      quarter = static_cast<std::uint32_t>(rest / 10);
      rest %= 10;
    }
    return static_cast<std::uint32_t>(rest);
  }

  std::array<std::uint32_t, 4> quarters_;
  std::array<char, 40> all_{};
  std::size_t first_ = 39;
};

} // namespace detail

/** Writes the number to a stream. */
template <typename Traits> std::basic_ostream<char, Traits> &operator<<(std::basic_ostream<char, Traits> &out, Id id) {
  return out << detail::Digits(id).text();
}

/** What a publisher does where a subscriber's buffer is full and the domain doesn't overflow. */
enum class BackpressureStrategy : std::uint32_t {
  RetryUntilDelivered = IOX2PS_RETRY_UNTIL_DELIVERED, /**< the send is blocked: it is tried again, or given up */
  DiscardData = IOX2PS_DISCARD_DATA                   /**< the subscriber doesn't get the message */
};

/** What a publisher's handler always answers where a buffer is full. */
enum class BackpressureAction : std::uint32_t {
  FollowStrategy = IOX2PS_BACKPRESSURE_FOLLOW_STRATEGY,         /**< do as the strategy says */
  Retry = IOX2PS_BACKPRESSURE_RETRY,                            /**< the send is blocked */
  DiscardData = IOX2PS_BACKPRESSURE_DISCARD_DATA,               /**< the subscriber doesn't get the message */
  DiscardDataAndFail = IOX2PS_BACKPRESSURE_DISCARD_DATA_AND_FAIL /**< the same, and the send fails in the end */
};

/** What a port does where memory for a connection is refused. */
enum class DegradationAction : std::uint32_t {
  Ignore = IOX2PS_DEGRADATION_IGNORE,      /**< go on without it */
  Warn = IOX2PS_DEGRADATION_WARN,          /**< and the domain warns of it */
  DegradeAndFail = IOX2PS_DEGRADATION_FAIL /**< let the call fail */
};

/** How a publisher's memory grows where a loan doesn't fit. */
enum class AllocationStrategy : std::uint32_t {
  Static = IOX2PS_ALLOCATION_STATIC,          /**< it doesn't: the loan is refused */
  BestFit = IOX2PS_ALLOCATION_BEST_FIT,       /**< by slots for messages as long as the longest so far */
  PowerOfTwo = IOX2PS_ALLOCATION_POWER_OF_TWO /**< by slots as long as the next power of two */
};

namespace detail {

template <typename P> using Element = std::remove_extent_t<P>;

template <typename P> constexpr bool is_slice = std::is_array_v<P>;

template <typename P> constexpr void check() {
  using T = Element<P>;
  static_assert(!is_slice<P> || std::extent_v<P> == 0, "a slice is T[], without a number");
  static_assert(std::is_object_v<T> && !std::is_const_v<T> && !std::is_volatile_v<T>, "a message is of a plain type");
  static_assert(std::is_trivially_copyable_v<T>, "a message is trivially copyable: nothing of it is ever destroyed");
  static_assert(alignof(T) <= 16, "the alignment of a message is at most 16");
}

/* How many bytes this number of values has, or the greatest number that there can be. */
template <typename T> constexpr std::size_t bytes_of(std::size_t values) {
  constexpr std::size_t greatest = (std::numeric_limits<std::size_t>::max)();
  return values > greatest / sizeof(T) ? greatest - greatest % alignof(T) : values * sizeof(T);
}

inline Id id_of(iox2ps_wide_t wide) { return Id{wide.low, wide.high}; }

/* What C has behind settings and domains, for the headers and the gateway alone. */
struct Raw {
  template <typename S> static auto &of(S &settings) { return settings.raw_; }
  template <typename O> static auto options(const O &options, const iox2ps_config_t &config) { return options.raw(config); }
  template <typename O, typename... Words> static O made_with(const Words &...words) { return O::made_with(words...); }
  template <typename C> static auto create(const C &config, iox2ps_domain_t *domain) { return config.create(domain); }
  template <typename D, typename... Words> static auto call(const D &domain, Words &&...words) {
    return domain.call(std::forward<Words>(words)...);
  }
  template <typename D, typename... Words> static auto wait(const D &domain, Words &&...words) {
    return domain.wait(std::forward<Words>(words)...);
  }
  template <typename D, typename... Words> static auto create_by(Words &&...words) { return D::create_by(std::forward<Words>(words)...); }
  template <typename D> static void connect_publishers(const D &domain) { domain.connect_publishers(); }
  template <typename D, typename Do> static auto hand(const D &domain, Do &&with) { return domain.hand(std::forward<Do>(with)); }
  template <typename D, typename S> static auto join(const D &domain, S &sender) { return domain.join(sender); }
  template <typename D, typename S> static void leave(const D &domain, S &sender) { domain.leave(sender); }
  template <typename P> static const auto &hold(const P &port) { return port.hold_; }
  template <typename P> static const auto &port(const P &port) { return port.port_; }
};

} // namespace detail

/** The settings of a domain, whatever its messages are. */
class ServiceConfig {
public:
  [[nodiscard]] Id service_id() const { return detail::id_of(raw_.service_id); } /**< names the domain */
  [[nodiscard]] Id node_id() const { return detail::id_of(raw_.node_id); }       /**< what the header of each message names */
  [[nodiscard]] std::size_t payload_size() const { return raw_.payload_size; }   /**< how many bytes a message may have */
  [[nodiscard]] std::size_t payload_alignment() const { return raw_.payload_alignment; } /**< to how many bytes each is aligned */
  [[nodiscard]] std::size_t max_publishers() const { return raw_.max_publishers; }       /**< how many may be open at a time */
  /** How many subscribers there may be at a time. Each counts in the memory of each publisher. */
  [[nodiscard]] std::size_t max_subscribers() const { return raw_.max_subscribers; }
  /** How many messages of one publisher may wait for a subscriber. */
  [[nodiscard]] std::size_t subscriber_max_buffer_size() const { return raw_.subscriber_max_buffer_size; }
  /** How many samples of one publisher a subscriber may hold. */
  [[nodiscard]] std::size_t subscriber_max_borrowed_samples() const { return raw_.subscriber_max_borrowed_samples; }
  /** How many messages a publisher keeps for later subscribers. */
  [[nodiscard]] std::size_t history_size() const { return raw_.history_size; }
  /** How many channels each connection has; 0 counts as 1. */
  [[nodiscard]] std::size_t number_of_channels() const { return raw_.number_of_channels; }
  /** How many connections to closed publishers are kept. */
  [[nodiscard]] std::size_t subscriber_expired_connection_buffer() const { return raw_.subscriber_expired_connection_buffer; }
  /** How many loans of a publisher may be out at a time. */
  [[nodiscard]] std::size_t publisher_max_loaned_samples() const { return raw_.publisher_max_loaned_samples; }
  /** Whether a full buffer lets its oldest message go. */
  [[nodiscard]] bool enable_safe_overflow() const { return raw_.enable_safe_overflow != 0; }
  /** What a publisher does at a full buffer where that isn't so. */
  [[nodiscard]] BackpressureStrategy backpressure_strategy() const { return static_cast<BackpressureStrategy>(raw_.backpressure_strategy); }

  /** How many slots a publisher has that is made without options, or none where the number doesn't fit. */
  [[nodiscard]] std::optional<std::size_t> worst_case_slots() const { return worst_case_slots(raw_.publisher_max_loaned_samples); }

  /** The same of one with this number of loans. */
  [[nodiscard]] std::optional<std::size_t> worst_case_slots(std::size_t loans) const {
    std::size_t slots = 0;
    if (iox2ps_worst_case_slots(&raw_, loans, &slots) != IOX2PS_OK) return std::nullopt;
    return slots;
  }

protected:
  ServiceConfig() = default; /**< of no domain */

  iox2ps_config_t raw_ = {}; /**< what C has of it */

private:
  friend struct detail::Raw;
};

/** The settings of a domain whose messages are of the type P, which begin as the defaults that
 * iox2ps_config_defaults() says. */
template <typename P> class Config : public ServiceConfig {
public:
  using Element = detail::Element<P>; /**< a value; a message has one or more */

  /** The defaults of the domain with this number. The second number is how many values a slice may have, and counts for
   * nothing where a message is one value. */
  explicit Config(std::uint64_t id, std::size_t max_slice_len = 1) {
    detail::check<P>();
    std::size_t values = detail::is_slice<P> ? max_slice_len : 1;
    iox2ps_config_defaults(&raw_, id, detail::bytes_of<Element>(values), alignof(Element));
  }

  using ServiceConfig::backpressure_strategy;
  using ServiceConfig::enable_safe_overflow;
  using ServiceConfig::history_size;
  using ServiceConfig::max_publishers;
  using ServiceConfig::max_subscribers;
  using ServiceConfig::node_id;
  using ServiceConfig::number_of_channels;
  using ServiceConfig::publisher_max_loaned_samples;
  using ServiceConfig::service_id;
  using ServiceConfig::subscriber_expired_connection_buffer;
  using ServiceConfig::subscriber_max_borrowed_samples;
  using ServiceConfig::subscriber_max_buffer_size;

  /** Names the domain by more than 64 bits. */
  Config &service_id(Id id) { return set(raw_.service_id, {id.low, id.high}); }
  /** What the header of each message names. */
  Config &node_id(Id id) { return set(raw_.node_id, {id.low, id.high}); }
  /** How many publishers may be open at a time. */
  Config &max_publishers(std::size_t value) { return set(raw_.max_publishers, value); }
  /** How many subscribers there may be at a time. Each counts in the memory of each publisher. */
  Config &max_subscribers(std::size_t value) { return set(raw_.max_subscribers, value); }
  /** How many messages of one publisher may wait for a subscriber; 0 counts as 1. */
  Config &subscriber_max_buffer_size(std::size_t value) { return set(raw_.subscriber_max_buffer_size, value); }
  /** How many samples of one publisher a subscriber may hold. */
  Config &subscriber_max_borrowed_samples(std::size_t value) { return set(raw_.subscriber_max_borrowed_samples, value); }
  /** How many messages a publisher keeps for later subscribers, which get them at its next send or update,
   * and at once where threads share the domain. Without overflow keep it below the buffer's size, or that send may block. */
  Config &history_size(std::size_t value) { return set(raw_.history_size, value); }
  /** How many channels each connection has; 0 counts as 1. Each takes slots in the memory of each publisher. */
  Config &number_of_channels(std::size_t value) { return set(raw_.number_of_channels, value); }
  /** How many connections to closed publishers are kept. */
  Config &subscriber_expired_connection_buffer(std::size_t value) {
    return set(raw_.subscriber_expired_connection_buffer, value);
  }
  /** How many loans of a publisher may be out at a time. */
  Config &publisher_max_loaned_samples(std::size_t value) { return set(raw_.publisher_max_loaned_samples, value); }
  /** Whether a full buffer lets its oldest message go. It takes a bool and nothing that only converts to one. */
  template <typename B, std::enable_if_t<std::is_same_v<B, bool>, int> = 0> Config &enable_safe_overflow(B value) {
    return set(raw_.enable_safe_overflow, value ? 1u : 0u);
  }
  /** What a publisher does at a full buffer where that isn't so. */
  Config &backpressure_strategy(BackpressureStrategy value) {
    return set(raw_.backpressure_strategy, static_cast<std::uint32_t>(value));
  }
  /** Keeps a recording of the domain's first calls, of this number of commands, with this number of bytes of each message:
   * iox2ps_domain_create_recorded() says more. Domain::recording() gives it. */
  Config &record(std::size_t commands, std::size_t bytes) {
    recorded_ = {commands, bytes};
    return *this;
  }

private:
  friend struct detail::Raw;

  template <typename T> Config &set(T &field, std::common_type_t<T> value) {
    field = value;
    return *this;
  }

  iox2ps_status_t create(iox2ps_domain_t *domain) const {
    if (!recorded_) return iox2ps_domain_create(domain, &raw_);
    return iox2ps_domain_create_recorded(domain, &raw_, recorded_->commands, recorded_->bytes);
  }

  struct Room {
    std::size_t commands, bytes;
  };
  std::optional<Room> recorded_;
};

/** What was recorded of a domain. */
struct Recording {
  std::string text;     /**< the recording, as docs/RECORDINGS.md says; empty where nothing is recorded */
  std::uint64_t missed; /**< how many commands aren't in it; a call may make several. It ends before the first one */
};

/** What one publisher has other than its domain's settings say. What isn't set is as in the domain. */
template <typename P> class PublisherOptions {
public:
  /** How many loans may be out at a time. */
  PublisherOptions &max_loaned_samples(std::size_t value) { return set(max_loaned_samples_, value); }
  /** How many values a message may have, as long as memory isn't to grow. Where it may grow, 0 counts as 1. */
  template <typename Q = P, std::enable_if_t<detail::is_slice<Q>, int> = 0>
  PublisherOptions &initial_max_slice_len(std::size_t values) {
    return set(initial_max_slice_len_, detail::bytes_of<detail::Element<P>>(values));
  }
  /** Slots to allocate, capped at Config::worst_case_slots(); 0 means the cap. */
  PublisherOptions &preallocated_samples(std::size_t value) { return set(preallocated_samples_, value); }
  /** What it does at a full buffer where the domain doesn't overflow. */
  PublisherOptions &backpressure_strategy(BackpressureStrategy value) { return set(backpressure_strategy_, value); }
  /** What always answers there in place of the strategy. */
  PublisherOptions &backpressure_handler(BackpressureAction value) { return set(backpressure_handler_, value); }
  /** What it does where memory for a connection is refused. */
  PublisherOptions &degradation_handler(DegradationAction value) { return set(degradation_, value); }
  /** How its memory grows where a loan doesn't fit. */
  PublisherOptions &allocation_strategy(AllocationStrategy value) { return set(allocation_strategy_, value); }

  /* What was set; of a publisher's options() all is there. */
  [[nodiscard]] std::optional<std::size_t> max_loaned_samples() const { return max_loaned_samples_; } /**< as it was set */
  [[nodiscard]] std::optional<std::size_t> initial_max_slice_len() const {                            /**< as it was set */
    if (!initial_max_slice_len_) return std::nullopt;
    return *initial_max_slice_len_ / sizeof(detail::Element<P>);
  }
  [[nodiscard]] std::optional<std::size_t> preallocated_samples() const { return preallocated_samples_; }            /**< as it was set */
  [[nodiscard]] std::optional<BackpressureStrategy> backpressure_strategy() const { return backpressure_strategy_; } /**< as it was set */
  /** As it was set; none where the strategy answers. */
  [[nodiscard]] std::optional<BackpressureAction> backpressure_handler() const { return backpressure_handler_; }
  [[nodiscard]] std::optional<DegradationAction> degradation_handler() const { return degradation_; }          /**< as it was set */
  [[nodiscard]] std::optional<AllocationStrategy> allocation_strategy() const { return allocation_strategy_; } /**< as it was set */

private:
  friend struct detail::Raw;

  /* All of them, as C was told. */
  static PublisherOptions made_with(const iox2ps_publisher_options_t &raw) {
    PublisherOptions all;
    all.max_loaned_samples_ = raw.max_loaned_samples;
    all.initial_max_slice_len_ = raw.initial_max_slice_len;
    all.preallocated_samples_ = raw.preallocated_samples;
    all.backpressure_strategy_ = static_cast<BackpressureStrategy>(raw.backpressure_strategy);
    if (raw.backpressure_handler != IOX2PS_BACKPRESSURE_NONE)
      all.backpressure_handler_ = static_cast<BackpressureAction>(raw.backpressure_handler);
    all.degradation_ = static_cast<DegradationAction>(raw.degradation);
    all.allocation_strategy_ = static_cast<AllocationStrategy>(raw.allocation_strategy);
    return all;
  }

  template <typename T> PublisherOptions &set(std::optional<T> &field, T value) {
    field = value;
    return *this;
  }

  iox2ps_publisher_options_t raw(const iox2ps_config_t &config) const {
    iox2ps_publisher_options_t raw;
    iox2ps_publisher_options_of(&config, &raw);
    raw.max_loaned_samples = max_loaned_samples_.value_or(raw.max_loaned_samples);
    raw.initial_max_slice_len = initial_max_slice_len_.value_or(raw.initial_max_slice_len);
    raw.preallocated_samples = preallocated_samples_.value_or(raw.preallocated_samples);
    put(raw.backpressure_strategy, backpressure_strategy_);
    put(raw.backpressure_handler, backpressure_handler_);
    put(raw.degradation, degradation_);
    put(raw.allocation_strategy, allocation_strategy_);
    bool grows = raw.allocation_strategy != IOX2PS_ALLOCATION_STATIC;
    if (grows && raw.initial_max_slice_len == 0) raw.initial_max_slice_len = sizeof(detail::Element<P>);
    return raw;
  }

  template <typename E> static void put(std::uint32_t &field, const std::optional<E> &value) {
    if (value) field = static_cast<std::uint32_t>(*value);
  }

  std::optional<std::size_t> max_loaned_samples_, initial_max_slice_len_, preallocated_samples_;
  std::optional<BackpressureStrategy> backpressure_strategy_;
  std::optional<BackpressureAction> backpressure_handler_;
  std::optional<DegradationAction> degradation_;
  std::optional<AllocationStrategy> allocation_strategy_;
};

/** What one subscriber has other than its domain's settings say. What isn't set is as in the domain. */
class SubscriberOptions {
public:
  /** How many messages of one publisher may wait; 0 counts as 1. */
  SubscriberOptions &buffer_size(std::size_t value) {
    buffer_size_ = value;
    return *this;
  }
  /** What it does where memory for a connection is refused. */
  SubscriberOptions &degradation_handler(DegradationAction value) {
    degradation_ = value;
    return *this;
  }

  [[nodiscard]] std::optional<std::size_t> buffer_size() const { return buffer_size_; }               /**< as it was set */
  [[nodiscard]] std::optional<DegradationAction> degradation_handler() const { return degradation_; } /**< as it was set */

private:
  friend struct detail::Raw;

  /* All of them, as C was told; but for a buffer of 0, which counted as 1. */
  static SubscriberOptions made_with(const iox2ps_subscriber_options_t &raw, const iox2ps_subscriber_t &port) {
    SubscriberOptions all;
    all.buffer_size_ = port.buffer_size;
    all.degradation_ = static_cast<DegradationAction>(raw.degradation);
    return all;
  }

  iox2ps_subscriber_options_t raw(const iox2ps_config_t &config) const {
    iox2ps_subscriber_options_t raw;
    iox2ps_subscriber_options_of(&config, &raw);
    raw.buffer_size = buffer_size_.value_or(raw.buffer_size);
    if (degradation_) raw.degradation = static_cast<std::uint32_t>(*degradation_);
    return raw;
  }

  std::optional<std::size_t> buffer_size_;
  std::optional<DegradationAction> degradation_;
};

/** Where a message comes from. */
struct Header {
  Id node_id;                     /**< that of the settings */
  Id publisher;                   /**< that of the publisher that sent it */
  std::size_t number_of_elements; /**< how many values it has */
};

/** What a warning is of. */
enum class WarningKind : std::uint32_t {
  /** There is less room for closed publishers than samples that may be borrowed, which is taken in its place. */
  ExpiredBufferRaised = IOX2PS_WARNING_EXPIRED_BUFFER_RAISED,
  /** A publisher was made, and its first update of connections failed. */
  PublisherPartlyConnected = IOX2PS_WARNING_PUBLISHER_PARTLY_CONNECTED,
  /** A subscriber was made, and its first update of connections failed. */
  SubscriberPartlyConnected = IOX2PS_WARNING_SUBSCRIBER_PARTLY_CONNECTED,
  /** Memory for a connection was refused. */
  ConnectionNotMade = IOX2PS_WARNING_CONNECTION_NOT_MADE,
  /** Messages of a closed publisher were lost before they were received, since there was no room for its connection. */
  ExpiredDataDiscarded = IOX2PS_WARNING_EXPIRED_DATA_DISCARDED
};

/** The kind in words: a static text. */
[[nodiscard]] inline const char *text(WarningKind kind) { return iox2ps_error_text(static_cast<std::uint32_t>(kind)); }

/** Something that a domain did or left undone without failing the call. */
struct Warning {
  WarningKind kind;             /**< what it is of */
  std::optional<Id> publisher;  /**< the publisher that it names */
  std::optional<Id> subscriber; /**< the subscriber that it names */
  std::optional<Error> failure; /**< how an update of connections failed, as ConnectionOutOfMemory */
};

namespace detail {

inline Warning warning_of(const iox2ps_warning_t &raw) {
  auto named = [](iox2ps_wide_t id) { return id_of(id) == Id{0, 0} ? std::optional<Id>() : id_of(id); };
  return Warning{static_cast<WarningKind>(raw.kind), named(raw.publisher), named(raw.subscriber),
                 raw.failure == 0 ? std::optional<Error>() : error_of(raw.failure)};
}

} // namespace detail

} // namespace iox2ps

namespace std {

/** Lets an Id be the key of a std::unordered_map. */
template <> struct hash<iox2ps::Id> {
  /** Of both halves. */
  [[nodiscard]] size_t operator()(iox2ps::Id id) const noexcept { return hash<uint64_t>()(id.low ^ id.high * 0x9e3779b97f4a7c15u); }
};

} // namespace std

#endif
