// SPDX-License-Identifier: Apache-2.0 OR MIT
/** @file
 * What calls of iox2_pubsub.hpp return: a value, or why there is none. It is included there. */
#ifndef IOX2_PUBSUB_RESULTS_HPP
#define IOX2_PUBSUB_RESULTS_HPP

#include "iox2_pubsub.h"

#include <cstdint>
#include <cstdio>
#include <cstdlib>
#include <functional>
#include <iosfwd>
#include <string>
#include <system_error>
#include <type_traits>
#include <utility>
#include <variant>

/** All names of the C++ headers. */
namespace iox2ps {

/** Why a call was refused. Each has the number that iox2_pubsub.h says, and text() says it in words. */
enum class Error : std::uint32_t {
  NotLive = IOX2PS_NOT_LIVE,                        /**< the handle is empty: it was moved from, sent or ended */
  OutOfMemory = IOX2PS_OUT_OF_MEMORY,               /**< there is no memory for the domain or the handle */
  HasDomain = IOX2PS_HAS_DOMAIN,                    /**< the process has a domain, of the memory that is to change */
  PublisherIsBlocked = IOX2PS_PUBLISHER_IS_BLOCKED, /**< an earlier send of the publisher waits, and nothing was done */

  LoanOutOfMemory = IOX2PS_LOAN_ERROR_OUT_OF_MEMORY,                   /**< each slot is in use, or memory may not grow further */
  LoanExceedsMaxLoans = IOX2PS_LOAN_ERROR_EXCEEDS_MAX_LOANS,           /**< as many loans are out as may be */
  LoanExceedsMaxLoanSize = IOX2PS_LOAN_ERROR_EXCEEDS_MAX_LOAN_SIZE,    /**< too long, and memory doesn't grow */
  LoanInternalFailure = IOX2PS_LOAN_ERROR_INTERNAL_FAILURE,            /**< memory is to grow and can't, or no number is left */

  /** The loan's publisher is closed. */
  SendConnectionBrokenSinceSenderNoLongerExists = IOX2PS_SEND_ERROR_CONNECTION_BROKEN_SINCE_SENDER_NO_LONGER_EXISTS,
  SendConnectionCorrupted = IOX2PS_SEND_ERROR_CONNECTION_CORRUPTED, /**< never returned */
  SendUnableToDeliver = IOX2PS_SEND_ERROR_UNABLE_TO_DELIVER,        /**< a handler failed it; others may have the message */
  SendInternalError = IOX2PS_SEND_ERROR_INTERNAL_ERROR,             /**< never returned */
  /** Never returned. */
  SendConnectionIncompatibleBufferSize = IOX2PS_SEND_ERROR_CONNECTION_INCOMPATIBLE_BUFFER_SIZE,
  /** As ConnectionOutOfMemory, and nobody has the message. */
  SendConnectionOutOfMemory = IOX2PS_SEND_ERROR_CONNECTION_OUT_OF_MEMORY,
  SendConnectionExpiredBufferFull = IOX2PS_SEND_ERROR_CONNECTION_EXPIRED_BUFFER_FULL, /**< never returned */
  SendConnectionUnableToMap = IOX2PS_SEND_ERROR_CONNECTION_UNABLE_TO_MAP, /**< never returned */

  /** Messages wait, but of each of their publishers as many samples are held as may be. */
  ReceiveExceedsMaxBorrows = IOX2PS_RECEIVE_ERROR_EXCEEDS_MAX_BORROWS,
  /** Never returned. */
  ReceiveConnectionIncompatibleBufferSize = IOX2PS_RECEIVE_ERROR_CONNECTION_INCOMPATIBLE_BUFFER_SIZE,
  /** As ConnectionOutOfMemory, and nothing was received. */
  ReceiveConnectionOutOfMemory = IOX2PS_RECEIVE_ERROR_CONNECTION_OUT_OF_MEMORY,
  /** As ConnectionExpiredBufferFull, and nothing was received. */
  ReceiveConnectionExpiredBufferFull = IOX2PS_RECEIVE_ERROR_CONNECTION_EXPIRED_BUFFER_FULL,
  ReceiveConnectionUnableToMap = IOX2PS_RECEIVE_ERROR_CONNECTION_UNABLE_TO_MAP, /**< never returned */

  ConnectionIncompatibleBufferSize = IOX2PS_CONNECTION_FAILURE_INCOMPATIBLE_BUFFER_SIZE, /**< never returned */
  ConnectionOutOfMemory = IOX2PS_CONNECTION_FAILURE_OUT_OF_MEMORY, /**< memory was refused to a port that fails then */
  /** The subscriber has samples of more closed publishers than there is room for. */
  ConnectionExpiredBufferFull = IOX2PS_CONNECTION_FAILURE_EXPIRED_BUFFER_FULL,
  ConnectionUnableToMap = IOX2PS_CONNECTION_FAILURE_UNABLE_TO_MAP, /**< never returned */

  /** As many publishers are open as the domain allows. */
  PublisherExceedsMaxSupportedPublishers = IOX2PS_PUBLISHER_CREATE_ERROR_EXCEEDS_MAX_SUPPORTED_PUBLISHERS,
  /** Memory for its messages was refused, or there can't be that much. */
  PublisherUnableToCreateDataSegment = IOX2PS_PUBLISHER_CREATE_ERROR_UNABLE_TO_CREATE_DATA_SEGMENT,
  /** Other memory was refused. */
  PublisherFailedToDeployThreadsafetyPolicy = IOX2PS_PUBLISHER_CREATE_ERROR_FAILED_TO_DEPLOY_THREADSAFETY_POLICY,
  /** No id is left for a port. */
  PublisherUnableToCreatePortTag = IOX2PS_PUBLISHER_CREATE_ERROR_UNABLE_TO_CREATE_PORT_TAG,

  /** As many subscribers are there as the domain allows; a closed one counts until its last sample is released. */
  SubscriberExceedsMaxSupportedSubscribers = IOX2PS_SUBSCRIBER_CREATE_ERROR_EXCEEDS_MAX_SUPPORTED_SUBSCRIBERS,
  /** A larger buffer than the domain allows. */
  SubscriberBufferSizeExceedsMax = IOX2PS_SUBSCRIBER_CREATE_ERROR_BUFFER_SIZE_EXCEEDS_MAX,
  /** Memory was refused. */
  SubscriberFailedToDeployThreadsafetyPolicy = IOX2PS_SUBSCRIBER_CREATE_ERROR_FAILED_TO_DEPLOY_THREADSAFETY_POLICY,
  /** No id is left for a port. */
  SubscriberUnableToCreatePortTag = IOX2PS_SUBSCRIBER_CREATE_ERROR_UNABLE_TO_CREATE_PORT_TAG,

  NoSuchChannel = IOX2PS_NO_SUCH_CHANNEL, /**< a connection has no channel with this number */

  InvalidStructSize = IOX2PS_INVALID_STRUCT_SIZE,                     /**< the archive isn't of these headers */
  InvalidPayloadSize = IOX2PS_INVALID_PAYLOAD_SIZE,                   /**< no multiple of the alignment */
  InvalidPayloadAlignment = IOX2PS_INVALID_PAYLOAD_ALIGNMENT,         /**< not 1, 2, 4, 8 or 16 */
  InvalidBackpressureStrategy = IOX2PS_INVALID_BACKPRESSURE_STRATEGY, /**< no BackpressureStrategy */
  InvalidBackpressureHandler = IOX2PS_INVALID_BACKPRESSURE_HANDLER,   /**< no BackpressureAction */
  InvalidDegradation = IOX2PS_INVALID_DEGRADATION,                    /**< no DegradationAction */
  InvalidAllocationStrategy = IOX2PS_INVALID_ALLOCATION_STRATEGY,     /**< no AllocationStrategy */
  InvalidInitialMaxSliceLen = IOX2PS_INVALID_INITIAL_MAX_SLICE_LEN,   /**< never returned */
  InvalidReserved = IOX2PS_INVALID_RESERVED,                          /**< never returned */
  WorstCaseTooLarge = IOX2PS_WORST_CASE_TOO_LARGE,                    /**< never returned */

  /* Of domains that processes share by a name: iox2_pubsub_processes.hpp. */
  OpenDoesNotExist = 200u,                /**< no process has a domain with this name */
  OpenIncompatibleTypes = 201u,           /**< those who have it have messages of another type, size or alignment */
  OpenIncompatibleSettings = 202u,        /**< they have other settings */
  OpenVersionMismatch = 203u,             /**< they have another version or build of the library */
  OpenInsufficientPermissions = 204u,     /**< another user has the files, or left them */
  OpenServiceInCorruptedState = 205u,     /**< a file with this name is another program's, or was written over or cut short */
  OpenExceedsMaxNumberOfNodes = 206u,     /**< as many processes as there may be have it */
  OpenAddressInUse = 207u,                /**< this process has something at the address where the domain lies, as the domain itself */
  OpenInvalidArgument = 208u,             /**< a name or an option that can't be */
  OpenInternalFailure = 209u,             /**< the system refuses, as for want of memory */
  CreateAlreadyExists = 210u,             /**< there is a domain with this name */
  ProcessesDamaged = 220u,                /**< the files were written over, or this process was left behind for too long */
  ProcessesDiverged = 221u,               /**< the domain of another process has replied otherwise than this one */
  NotifyEventIdOutOfBounds = 225u,        /**< the number of an event is above EventId::max_value */
  ProcessesNotShared = 224u,              /**< the domain is of one process, where nobody else is there and can bring anything */

  /** No other language joins a domain that processes share. */
  OfProcesses = 0xfffffffbu,
  /** Nothing is attached to the WaitSet that is to wait. */
  NoAttachments = 0xfffffffcu,
  /** The domain is that of the process that was forked, and this is its child. A domain of its own is made here. */
  AfterFork = 0xfffffffdu,
  /** The system has no file descriptor left. */
  NoDescriptor = 0xfffffffeu,
  /** The program is linked to the archive of another version than that of these headers. */
  OtherVersion = 0xffffffffu
};

/** An error in words: a static text. */
[[nodiscard]] inline const char *text(Error error) {
  switch (error) {
  case Error::NotLive: return "NotLive: the handle is empty: it was moved from, sent, given back or closed";
  case Error::LoanExceedsMaxLoans:
    return "LoanError::ExceedsMaxLoans: as many loans of the publisher are out as may be: send or discard one, or allow more "
           "by publisher_max_loaned_samples of the domain or max_loaned_samples of the publisher";
  case Error::OfProcesses: return "OfProcesses: no other language of the process joins a domain that processes share: another process opens it by its name";
  case Error::NoAttachments: return "NoAttachments: the WaitSet has nothing to wait for: attach something first, and keep its guard";
  case Error::AfterFork: return "AfterFork: the domain belongs to the process that was forked: make one in this process";
  case Error::NoDescriptor: return "NoDescriptor: the system has no file descriptor left";
  case Error::OtherVersion: return "OtherVersion: the archive isn't of the headers' version";
  default: return iox2ps_error_text(static_cast<std::uint32_t>(error));
  }
}

/** Writes the error in words to a stream. */
template <typename Traits> std::basic_ostream<char, Traits> &operator<<(std::basic_ostream<char, Traits> &out, Error error) {
  return out << text(error);
}

namespace detail {

class ErrorCategory final : public std::error_category {
public:
  const char *name() const noexcept override { return "iox2_pubsub"; }
  std::string message(int code) const override { return text(static_cast<Error>(code)); }
  std::error_condition default_error_condition(int code) const noexcept override {
    switch (static_cast<Error>(code)) {
    case Error::OutOfMemory:
    case Error::SendConnectionOutOfMemory:
    case Error::ReceiveConnectionOutOfMemory:
    case Error::ConnectionOutOfMemory: return std::errc::not_enough_memory;
    case Error::InvalidPayloadSize:
    case Error::InvalidPayloadAlignment:
    case Error::InvalidBackpressureStrategy:
    case Error::InvalidBackpressureHandler:
    case Error::InvalidDegradation:
    case Error::InvalidAllocationStrategy:
    case Error::InvalidInitialMaxSliceLen:
    case Error::OpenInvalidArgument: return std::errc::invalid_argument;
    case Error::OpenInsufficientPermissions: return std::errc::permission_denied;
    case Error::NoDescriptor: return std::errc::too_many_files_open;
    default: return {code, *this};
    }
  }
};

/* Ends the program. */
[[noreturn]] inline void end(const char *words, const char *why) {
  std::fprintf(stderr, "iox2_pubsub: %s: %s\n", words, why);
  std::abort();
}

} // namespace detail

/** What the codes of make_error_code() belong to. */
[[nodiscard]] inline const std::error_category &error_category() noexcept {
  static const detail::ErrorCategory category;
  return category;
}

/** The error as the standard library's: `std::error_code code = result.error();`. Those of memory, settings and descriptors compare
 * equal to the std::errc that says the same. */
[[nodiscard]] inline std::error_code make_error_code(Error error) noexcept { return {static_cast<int>(error), error_category()}; }

/** A value, or why there is none. What asks for a value that isn't there ends the program, and says why on standard
 * error: value(), *, -> and expect(). */
template <typename V> class [[nodiscard]] Result {
public:
  /** a value; of what is copied bit by bit g++ 12 warns where it is taken by a reference */
  Result(std::conditional_t<std::is_trivially_copyable_v<V>, V, V &&> value) : held_(std::in_place_index<0>, std::move(value)) {}
  /** a value, copied */
  template <typename U, std::enable_if_t<std::is_same_v<U, V> && !std::is_trivially_copyable_v<U>, int> = 0>
  Result(const U &value) : held_(std::in_place_index<0>, value) {}
  /** a value, made where it is kept */
  template <typename... Args> explicit Result(std::in_place_t, Args &&...args) : held_(std::in_place_index<0>, std::forward<Args>(args)...) {}
  Result(Error error) : held_(std::in_place_index<1>, error) {} /**< none */

  [[nodiscard]] bool has_value() const noexcept { return held_.index() == 0; }       /**< whether there is a value */
  /** The same, but not of a Result<bool>: `if (subscriber.has_samples())` would ask whether there is an answer, and not what it is.
   * So that is refused when it is compiled: read the answer by *, or by value_or(). */
  template <typename U = V, std::enable_if_t<!std::is_same_v<U, bool>, int> = 0>
  [[nodiscard]] explicit operator bool() const noexcept {
    return has_value();
  }
  template <typename U = V, std::enable_if_t<std::is_same_v<U, bool>, int> = 0>
  explicit operator bool() const = delete; /**< as said there */

  [[nodiscard]] V &value() & { return there("no value"); }                     /**< the value */
  [[nodiscard]] const V &value() const & { return there("no value"); }         /**< the value */
  [[nodiscard]] V &&value() && { return std::move(there("no value")); }        /**< the value */
  [[nodiscard]] V &operator*() & { return value(); }                           /**< the value */
  [[nodiscard]] const V &operator*() const & { return value(); }               /**< the value */
  [[nodiscard]] V &&operator*() && { return std::move(*this).value(); }        /**< the value */
  V *operator->() { return &value(); }                                         /**< the value's members */
  const V *operator->() const { return &value(); }                             /**< the value's members */

  /** The value; where there is none the program ends, and says these words and the error's. */
  V expect(const char *words) && { return std::move(there(words)); }
  /** Refused when it is compiled: of a Result with a name value() is read, or the value is moved out. */
  template <typename Words> V expect(Words) const & {
    static_assert(!std::is_same_v<Words, Words>,
                  "expect() takes the value out of its Result: write std::move(result).expect(..), or read it by result.value()");
  }

  /** The value, or this one where there is none. */
  template <typename U> [[nodiscard]] V value_or(U &&other) const & {
    return has_value() ? value() : static_cast<V>(std::forward<U>(other));
  }
  /** The value, moved out, or this one where there is none. */
  template <typename U> [[nodiscard]] V value_or(U &&other) && {
    return has_value() ? std::move(*this).value() : static_cast<V>(std::forward<U>(other));
  }

  /** What a function makes of the value, which is a Result too; or the error, where there is no value. */
  template <typename F> auto and_then(F &&next) & { return then(*this, std::forward<F>(next)); }
  /** The same. */
  template <typename F> auto and_then(F &&next) const & { return then(*this, std::forward<F>(next)); }
  /** The same, with the value moved out. */
  template <typename F> auto and_then(F &&next) && { return then(std::move(*this), std::forward<F>(next)); }

  /** Why there is no value. Where there is one the program ends. */
  [[nodiscard]] Error error() const {
    if (has_value()) detail::end("error() of a value", "there is a value");
    return *std::get_if<1>(&held_);
  }

private:
  template <typename Self, typename F> static auto then(Self &&self, F &&next) {
    using Next = std::decay_t<decltype(std::invoke(std::forward<F>(next), *std::forward<Self>(self)))>;
    if (!self.has_value()) return Next(self.error());
    return Next(std::invoke(std::forward<F>(next), *std::forward<Self>(self)));
  }

  V &there(const char *words) {
    if (!has_value()) detail::end(words, text(error()));
    return *std::get_if<0>(&held_);
  }
  const V &there(const char *words) const {
    if (!has_value()) detail::end(words, text(error()));
    return *std::get_if<0>(&held_);
  }

  std::variant<V, Error> held_;
};

/** Nothing, or why a call was refused. */
using Done = Result<std::monostate>;

namespace detail {

inline Error error_of(iox2ps_status_t code) { return static_cast<Error>(code); }

inline Done done(iox2ps_status_t code) {
  if (code == IOX2PS_OK) return std::monostate{};
  return error_of(code);
}

} // namespace detail

} // namespace iox2ps

/** Lets a std::error_code be made of an Error. */
template <> struct std::is_error_code_enum<iox2ps::Error> : std::true_type {};

#endif
