// SPDX-License-Identifier: Apache-2.0 OR MIT
/** @file
 * Domains that several processes share by a name, for C++17: the classes of iox2_pubsub.hpp, opened otherwise.
 *
 * iox2_pubsub_processes.h says what a domain of several processes is, iox2_pubsub_nodes.hpp who has it, and iox2_pubsub_listener.hpp how they
 * notify each other.
 *
 *     struct Reading {
 *       std::uint64_t number;
 *       double celsius;
 *     };
 *     template <> struct iox2ps::ZeroCopySend<Reading> : iox2ps::Fields<&Reading::number, &Reading::celsius> {};
 *
 *     auto domain = iox2ps::SharedDomain<Reading>::open_or_create("My/Service", iox2ps::Config<Reading>(7)).expect("a domain");
 *     auto subscriber = domain.subscriber().expect("a subscriber");
 *     auto sample = subscriber.blocking_receive().expect("a receive");
 *
 *     g++ -std=c++17 -I <headers> subscriber.cpp -liox2_pubsub_processes -liox2_pubsub -pthread
 *
 * Each process has the same settings, as Config says them, and the same build of the library. Calls that wait, listeners, descriptors
 * and wait sets are those of SharedDomain, and hear of what other processes bring. One thread that waits sleeps for all of its process;
 * where there are listeners or wait sets, a thread of the library's does. Domain has the calls that wait too, for its only thread.
 * What is otherwise than in a domain of one process:
 *
 *  - a subscriber gets the history of publishers of other processes at their next send or update;
 *  - each call may also return Error::ProcessesDamaged or Error::ProcessesDiverged. Then the domain can only be given back;
 *  - share() is refused, and Config::record() records nothing;
 *  - the last handle of a domain with listeners, as it goes, waits for one that is being called. */
#ifndef IOX2_PUBSUB_PROCESSES_HPP
#define IOX2_PUBSUB_PROCESSES_HPP

#include "iox2_pubsub_listener.hpp"
#include "iox2_pubsub_nodes.hpp"
#include "iox2_pubsub_processes.h"
#include "iox2_pubsub_shared.hpp"

#include <array>
#include <cstddef>
#include <cstring>
#include <string>
#include <string_view>
#include <type_traits>
#include <vector>

#include <pthread.h>
#include <signal.h>

namespace iox2ps {

/* ---- types */

/** Whether processes may share values of this type: plain bytes, which mean the same in each process, without a pointer. iox2_pubsub.hpp
 * asks nothing of this. Numbers, enumerations, and arrays of such values are. A program says it of a struct of its own, by its fields:
 *
 *     template <> struct iox2ps::ZeroCopySend<Reading> : iox2ps::Fields<&Reading::number, &Reading::celsius> {};
 *
 * or, where they can't be named, as those of a union, by std::true_type, for which it answers itself. What is a pointer or a reference,
 * or has a destructor, is refused when it is compiled, also where a program says so of it. */
template <typename T, typename = void>
struct ZeroCopySend : std::bool_constant<std::is_arithmetic_v<T> || std::is_enum_v<T>> {};
/** Of its values. */
template <typename T, std::size_t N> struct ZeroCopySend<T[N]> : ZeroCopySend<T> {};
/** Of its values. */
template <typename T, std::size_t N> struct ZeroCopySend<std::array<T, N>> : ZeroCopySend<T> {};

namespace detail {

template <typename Field> struct FieldOf;
template <typename T, typename F> struct FieldOf<F T::*> {
  using Type = F;
  using Of = T;
};

/* Where the next field ends, if fields lie as the standard layout has them. */
constexpr std::size_t end_of_field(std::size_t from, std::size_t size, std::size_t alignment) {
  return (from + alignment - 1) / alignment * alignment + size;
}

template <typename T, typename... Fields> constexpr bool are_all_fields() {
  std::size_t end = 0;
  ((end = end_of_field(end, sizeof(Fields), alignof(Fields))), ...);
  return end_of_field(end, 0, alignof(T)) == sizeof(T);
}

template <typename T, typename... F> constexpr bool has_plain_fields() {
  static_assert((ZeroCopySend<F>::value && ...), "a field is no plain bytes: ZeroCopySend isn't so for its type");
  static_assert(std::is_standard_layout_v<T> && are_all_fields<T, F...>(), "these aren't all fields of the type");
  return true;
}

} // namespace detail

/** Whether these are all fields of a struct, as far as its size tells, each of a type that processes may share; anything else is refused
 * when it is compiled. */
template <auto First, auto... Others>
struct Fields : std::bool_constant<detail::has_plain_fields<typename detail::FieldOf<decltype(First)>::Of, typename detail::FieldOf<decltype(First)>::Type,
                                                            typename detail::FieldOf<decltype(Others)>::Type...>()> {};

namespace detail {

/* A text of the compile time. */
template <std::size_t N> struct Text {
  char all[N + 1] = {};
};
template <std::size_t N> constexpr Text<N> text_of(std::string_view words) {
  Text<N> text;
  for (std::size_t at = 0; at < N; at++) text.all[at] = words[at];
  return text;
}
template <std::size_t A, std::size_t B, std::size_t C> constexpr Text<A + B + C> joined(const Text<A> &a, const Text<B> &b, const Text<C> &c) {
  Text<A + B + C> text;
  for (std::size_t at = 0; at < A; at++) text.all[at] = a.all[at];
  for (std::size_t at = 0; at < B; at++) text.all[A + at] = b.all[at];
  for (std::size_t at = 0; at < C; at++) text.all[A + B + at] = c.all[at];
  return text;
}

constexpr std::size_t digits_of(std::size_t number) { return number < 10 ? 1 : 1 + digits_of(number / 10); }
template <std::size_t Number> constexpr auto decimal() {
  Text<digits_of(Number)> text;
  std::size_t rest = Number;
  for (std::size_t at = digits_of(Number); at > 0; rest /= 10) text.all[--at] = static_cast<char>('0' + rest % 10);
  return text;
}

/* What a compiler calls the type. */
template <typename T> constexpr std::string_view compilers_name() {
  std::string_view all = __PRETTY_FUNCTION__;
  std::size_t from = all.find("T = ") + 4, to = all.find_first_of(";]", from);
  return all.substr(from, to - from);
}

template <typename T, typename = void> constexpr bool has_type_name = false;
template <typename T> constexpr bool has_type_name<T, std::void_t<decltype(T::IOX2_TYPE_NAME)>> = true;

/* By which name processes compare a type: numbers have those of Rust, so that other languages name the same. */
template <typename T> struct Named {
  static constexpr auto name() {
    if constexpr (std::is_same_v<T, bool>) return text_of<4>("bool");
    else if constexpr (std::is_arithmetic_v<T>) {
      constexpr char letter = std::is_floating_point_v<T> ? 'f' : std::is_signed_v<T> ? 'i' : 'u';
      constexpr char first[] = {letter, 0};
      return joined(text_of<1>(first), decimal<sizeof(T) * 8>(), Text<0>());
    } else if constexpr (has_type_name<T>) {
      constexpr std::string_view own = T::IOX2_TYPE_NAME;
      return text_of<own.size()>(own);
    } else {
      constexpr std::string_view its = compilers_name<T>();
      return text_of<its.size()>(its);
    }
  }
};
template <typename T, std::size_t N> struct Named<T[N]> {
  static constexpr auto name() { return joined(joined(text_of<1>("["), Named<T>::name(), text_of<2>("; ")), decimal<N>(), text_of<1>("]")); }
};
template <typename T, std::size_t N> struct Named<std::array<T, N>> : Named<T[N]> {};
template <typename T> struct Named<T[]> {
  static constexpr auto name() { return joined(text_of<1>("["), Named<T>::name(), text_of<1>("]")); }
};

template <typename P> inline constexpr auto type_name_of = Named<P>::name();

template <typename P> constexpr void check_shared() {
  using T = Element<P>;
  static_assert(!std::is_pointer_v<T> && !std::is_member_pointer_v<T> && !std::is_null_pointer_v<T> && !std::is_reference_v<T>,
                "processes share no pointers and no references");
  static_assert(std::is_trivially_copyable_v<T> && std::is_trivially_destructible_v<T>, "processes share no values that have to be destroyed");
  static_assert(std::is_standard_layout_v<T>, "processes share values of standard layout: without a reference or a virtual function in them");
  static_assert(ZeroCopySend<T>::value, "processes share plain bytes without pointers: say so of a struct by "
                                        "template <> struct iox2ps::ZeroCopySend<T> : iox2ps::Fields<&T::one, &T::other> {};");
  static_assert(sizeof(type_name_of<P>.all) <= 128, "the name of a type has 127 bytes at most: give it one by IOX2_TYPE_NAME");
}

} // namespace detail

/** By which name processes compare messages of this type: of a struct its static member IOX2_TYPE_NAME, a text, and else what the
 * compiler calls it; of numbers that of Rust, as "u64"; of arrays "[u64; 8]", and of slices "[u64]". */
template <typename P> [[nodiscard]] constexpr const char *type_name() { return detail::type_name_of<P>.all; }

/* ---- options */

/** What the process that creates a domain decides, and the last two each for itself. What isn't set is as
 * iox2ps_processes_options_t says. */
class ProcessesOptions {
public:
  /** How many processes may have the domain at a time, 64 at most. */
  ProcessesOptions &max_processes(std::uint32_t value) { return set(max_processes_, value); }
  /** How many calls the list keeps, a power of two from 8 to 8192. */
  ProcessesOptions &calls(std::uint32_t value) { return set(calls_, value); }
  /** Bytes for the book-keeping of ports. */
  ProcessesOptions &book_room(std::size_t value) { return set(book_room_, value); }
  /** Bytes for payloads. */
  ProcessesOptions &payload_room(std::size_t value) { return set(payload_room_, value); }
  /** Those of the files, as 0600. */
  ProcessesOptions &permissions(std::uint32_t value) { return set(permissions_, value); }
  /** How often a process that waits looks for dead ones. */
  ProcessesOptions &reap_every(std::chrono::milliseconds value) { return set(reap_every_ms_, static_cast<std::uint32_t>(value.count())); }
  /** How often a thread that waits looks for calls of others before it sleeps. */
  ProcessesOptions &spins(std::uint32_t value) { return set(spins_, value); }

private:
  template <typename P, typename M, typename> friend struct detail::ByName;

  template <typename T> ProcessesOptions &set(std::optional<T> &field, T value) {
    field = value;
    return *this;
  }

  /* Of settings that are invalid there are none. */
  [[nodiscard]] std::optional<iox2ps_processes_options_t> raw(const iox2ps_config_t &config) const {
    iox2ps_processes_options_t raw;
    iox2ps_processes_options_of(&config, &raw);
    if (raw.struct_size == 0) return std::nullopt;
    raw.max_processes = max_processes_.value_or(raw.max_processes);
    raw.calls = calls_.value_or(raw.calls);
    raw.book_room = book_room_.value_or(raw.book_room);
    raw.payload_room = payload_room_.value_or(raw.payload_room);
    raw.permissions = permissions_.value_or(raw.permissions);
    raw.reap_every_ms = reap_every_ms_.value_or(raw.reap_every_ms);
    raw.spins = spins_.value_or(raw.spins);
    return raw;
  }

  std::optional<std::uint32_t> max_processes_, calls_, permissions_, reap_every_ms_, spins_;
  std::optional<std::size_t> book_room_, payload_room_;
};

/** Why the last call of this thread that opens a domain was refused, in more words than text() of its error. Static until the next. */
[[nodiscard]] inline const char *why_refused() { return iox2ps_processes_why(); }

/* ---- what there is */

/** A domain that processes share. */
struct ServiceInfo {
  std::string name;              /**< its name */
  std::string type_name;         /**< the name of its messages' type: type_name() */
  std::size_t payload_size;      /**< how many bytes a message may have */
  std::size_t payload_alignment; /**< to how many bytes each is aligned */
  std::uint32_t max_processes;   /**< how many processes may have it at a time */
  std::uint32_t processes;       /**< how many have it */
};

/** The domains that processes share, as far as this one may read their files. Error::OpenInternalFailure where the system refuses. */
inline Result<std::vector<ServiceInfo>> list_services() {
  std::vector<ServiceInfo> all;
  iox2ps_domain_list_t *add = [](const iox2ps_domain_info_t *info, void *to) {
    static_cast<std::vector<ServiceInfo> *>(to)->push_back({info->name, info->type_name, info->payload_size, info->payload_alignment, info->max_processes, info->processes});
    return 0;
  };
  iox2ps_status_t code = iox2ps_domain_list(add, &all);
  if (code != IOX2PS_OK) return detail::error_of(code);
  return all;
}

/* ---- waits of one thread */

/** What other processes bring that Domain::wait() is for, by itself or added by |. */
enum class WaitFor : std::uint32_t {
  Message = IOX2PS_BRINGS_MESSAGE,    /**< a message, or a publisher that goes */
  Room = IOX2PS_BRINGS_ROOM,          /**< room in a subscriber's buffer */
  Loan = IOX2PS_BRINGS_LOAN,          /**< a slot that may be lent again */
  DeadNode = IOX2PS_BRINGS_DEAD_NODE, /**< that a process died, and what it had is given back */
  Event = IOX2PS_BRINGS_EVENT         /**< a notification */
};
/** Both. */
constexpr WaitFor operator|(WaitFor one, WaitFor other) { return static_cast<WaitFor>(static_cast<std::uint32_t>(one) | static_cast<std::uint32_t>(other)); }

namespace detail {

/* Whether a call that waits for this tries again after this code: where another process may help. What the thread's own handles keep from
 * it nobody else gives it. */
inline bool others_may_help(Waits what, iox2ps_status_t code) {
  switch (what) {
  case Waits::Message: return code == IOX2PS_NO_SAMPLE;
  case Waits::Room: return code == IOX2PS_BLOCKED;
  case Waits::Loan: return code == IOX2PS_LOAN_ERROR_OUT_OF_MEMORY;
  case Waits::Nothing:
  case Waits::Event:
  case Waits::Free: break;
  }
  return false;
}

template <> struct WaitsAlone<OneThread> {
  /* Makes calls as long as their code says that another process may help, each time when one may have done so. */
  template <typename Call> static iox2ps_status_t wait(Shared<OneThread> &shared, Waits what, Until until, Call &&make) {
    iox2ps_status_t waited = IOX2PS_OK;
    while (waited == IOX2PS_OK || waited == IOX2PS_PROCESSES_TIMED_OUT) {
      std::uint64_t seen = 0;
      iox2ps_status_t code = shared.threads.call(0, [&] {
        iox2ps_status_t asked = iox2ps_domain_brought(&shared.domain, helped_by(what), &seen);
        return asked == IOX2PS_OK ? make() : asked;
      });
      std::uint64_t left = left_until(until);
      if (!others_may_help(what, code) || left == 0) return code;
      waited = iox2ps_domain_wait(&shared.domain, helped_by(what), seen, left);
    }
    return waited;
  }

  static Result<bool> wait(Shared<OneThread> &shared, WaitFor what, Until until) {
    const auto brings = static_cast<std::uint32_t>(what);
    while (true) {
      bool has_come = false;
      std::uint64_t seen = 0;
      iox2ps_status_t code = shared.threads.call(0, [&] { return look(shared, brings, seen, has_come); });
      std::uint64_t left = left_until(until);
      if (code == IOX2PS_OK && !has_come && left > 0) code = iox2ps_domain_wait(&shared.domain, brings, seen, left);
      if (code != IOX2PS_OK && code != IOX2PS_PROCESSES_TIMED_OUT) return error_of(code);
      if (has_come || left == 0) return has_come;
    }
  }

private:
  /* What all have brought, and then whether others have brought something since the last time: so nothing comes unseen between the two. */
  static iox2ps_status_t look(Shared<OneThread> &shared, std::uint32_t brings, std::uint64_t &seen, bool &has_come) {
    iox2ps_status_t code = iox2ps_domain_brought(&shared.domain, brings, &seen);
    for (std::size_t which = 0; which < shared.seen.size() && code == IOX2PS_OK; which++) {
      std::uint64_t &before = shared.seen[which];
      std::uint64_t count = before;
      if ((brings >> which & 1) != 0) code = iox2ps_domain_brought_by_others(&shared.domain, 1u << which, &count);
      has_come |= std::exchange(before, count) != count;
    }
    return code;
  }
};

} // namespace detail

/* ---- domains */

namespace detail {

static_assert(static_cast<std::uint32_t>(Error::OpenDoesNotExist) == IOX2PS_OPEN_ERROR_DOES_NOT_EXIST
                  && static_cast<std::uint32_t>(Error::OpenIncompatibleTypes) == IOX2PS_OPEN_ERROR_INCOMPATIBLE_TYPES
                  && static_cast<std::uint32_t>(Error::OpenIncompatibleSettings) == IOX2PS_OPEN_ERROR_INCOMPATIBLE_SETTINGS
                  && static_cast<std::uint32_t>(Error::OpenVersionMismatch) == IOX2PS_OPEN_ERROR_VERSION_MISMATCH
                  && static_cast<std::uint32_t>(Error::OpenInsufficientPermissions) == IOX2PS_OPEN_ERROR_INSUFFICIENT_PERMISSIONS
                  && static_cast<std::uint32_t>(Error::OpenServiceInCorruptedState) == IOX2PS_OPEN_ERROR_SERVICE_IN_CORRUPTED_STATE
                  && static_cast<std::uint32_t>(Error::OpenExceedsMaxNumberOfNodes) == IOX2PS_OPEN_ERROR_EXCEEDS_MAX_NUMBER_OF_NODES
                  && static_cast<std::uint32_t>(Error::OpenAddressInUse) == IOX2PS_OPEN_ERROR_ADDRESS_IN_USE
                  && static_cast<std::uint32_t>(Error::OpenInvalidArgument) == IOX2PS_OPEN_ERROR_INVALID_ARGUMENT
                  && static_cast<std::uint32_t>(Error::OpenInternalFailure) == IOX2PS_OPEN_ERROR_INTERNAL_FAILURE
                  && static_cast<std::uint32_t>(Error::CreateAlreadyExists) == IOX2PS_CREATE_ERROR_ALREADY_EXISTS
                  && static_cast<std::uint32_t>(Error::ProcessesDamaged) == IOX2PS_PROCESSES_DAMAGED
                  && static_cast<std::uint32_t>(Error::ProcessesDiverged) == IOX2PS_PROCESSES_DIVERGED
                  && static_cast<std::uint32_t>(Error::ProcessesNotShared) == IOX2PS_PROCESSES_NOT_SHARED
                  && static_cast<std::uint32_t>(Error::NotifyEventIdOutOfBounds) == IOX2PS_NOTIFIER_NOTIFY_ERROR_EVENT_ID_OUT_OF_BOUNDS
                  && only(Waits::Event) == IOX2PS_BRINGS_EVENT,
              "the errors of iox2_pubsub_results.hpp are those of iox2_pubsub_processes.h");

/* The name as C has it. One that C would take for a shorter one is none. */
class Name {
public:
  explicit Name(std::string_view name) {
    if (name.find('\0') == std::string_view::npos) name.copy(all_, sizeof all_ - 1);
  }
  [[nodiscard]] const char *text() const { return all_; }

private:
  char all_[512] = {}; /* longer ones are refused as this one is */
};

/* The other processes of a domain that threads of this one share. */
template <typename Lock> class NamedProcesses<ManyThreadsWith<Lock>> final : public OtherProcesses {
public:
  using M = ManyThreadsWith<Lock>;
  using Deaths = DeadNodes<Lock>;

  /* Nobody is told of what came before. */
  NamedProcesses(Shared<M> &shared, unsigned looks) : shared_(shared), looks_(looks) {
    static_cast<void>(!iox2ps_domain_brought_each(domain(), counts_.data()));
  }

  Brings news(std::shared_ptr<Due> &deaths) override {
    Counts counts;
    if (iox2ps_domain_brought_each(domain(), counts.data()) != IOX2PS_OK) return everything; /* each call says why */
    Brings brings = 0;
    for (unsigned which = 0; which < counts.size(); which++) brings |= counts[which] != counts_[which] ? 1u << which : 0u;
    if ((brings & IOX2PS_BRINGS_DEAD_NODE) != 0 && deaths_) {
      note_deaths(counts_[dead_nodes], counts[dead_nodes]);
      deaths = deaths_;
    }
    counts_ = counts;
    return brings & everything;
  }

  std::uint64_t begin_sleep(Brings brings) override {
    std::uint64_t begun = 0;
    if (deaths_) brings |= IOX2PS_BRINGS_DEAD_NODE;
    static_cast<void>(!iox2ps_domain_sleep_begin(domain(), brings, &begun)); /* where it is refused, there are news */
    return begun;
  }

  /* This is told of processes that die from now on, or nobody is. Gives back what was told before. */
  void tell_of_deaths(std::shared_ptr<Deaths> &listener) { std::swap(deaths_, listener); }

  void sleep(std::uint64_t begun, Until until) override {
    std::uint64_t most = until ? elapsed_of(*until - std::chrono::steady_clock::now()) : UINT64_MAX;
    static_cast<void>(!iox2ps_domain_sleep(domain(), begun, most));
  }

  void ring() override { static_cast<void>(!iox2ps_domain_sleep_end(domain())); }

  std::uint64_t calls() override { return iox2ps_domain_calls(domain()); }
  unsigned looks() const override { return looks_; }
  bool are_ahead(std::uint64_t calls) const override { return iox2ps_domain_has_more_calls(&shared_.domain, calls) != 0; }

  bool watch() override {
    std::lock_guard<std::mutex> lock(starts_);
    if (!is_watched_) is_watched_ = start();
    return is_watched_;
  }

  bool may_go() override {
    if (own() != this) return true;
    goes_here_ = true; /* as soon as the listener that has dropped all returns */
    end_watch();
    return false;
  }

  void end() override {
    if (!is_watched_ || own() == this) return;
    end_watch();
    pthread_join(thread_, nullptr);
  }

private:
  using Counts = std::array<std::uint64_t, 6>;
  static constexpr std::size_t dead_nodes = 4;
  static_assert(1u << dead_nodes == IOX2PS_BRINGS_DEAD_NODE);

  iox2ps_domain_t *domain() { return &shared_.domain; }

  /* Those from this number on up to that one. */
  void note_deaths(std::uint64_t from, std::uint64_t to) {
    iox2ps_node_t node;
    for (std::uint64_t index = from; index < to; index++)
      if (iox2ps_domain_dead_node(domain(), index, &node) == IOX2PS_OK) deaths_->note(node_of(node));
  }

  /* Those for which this thread sleeps, where it is theirs. */
  static NamedProcesses *&own() {
    static thread_local NamedProcesses *own = nullptr;
    return own;
  }

  void end_watch() {
    is_over_.store(true, std::memory_order_relaxed);
    shared_.threads.end_watch();
  }

  /* A thread that gets no signals of the program's. */
  bool start() {
    sigset_t all, before;
    sigfillset(&all);
    if (pthread_sigmask(SIG_SETMASK, &all, &before) != 0) return false;
    auto run = [](void *of) -> void * {
      static_cast<NamedProcesses *>(of)->sleep_for_all();
      return nullptr;
    };
    bool is_started = pthread_create(&thread_, nullptr, run, this) == 0;
    pthread_sigmask(SIG_SETMASK, &before, nullptr);
    return is_started;
  }

  void sleep_for_all() {
    own() = this;
    static_cast<void>(shared_.threads.wait(Waits::Nothing, Id{0, 0}, 0, std::nullopt, [this]() -> iox2ps_status_t {
      return is_over_.load(std::memory_order_relaxed) ? IOX2PS_OK : IOX2PS_NO_SAMPLE;
    }));
    if (!goes_here_) return;
    pthread_detach(pthread_self());
    delete &shared_;
  }

  Shared<M> &shared_;
  const unsigned looks_;
  Counts counts_ = {};
  std::shared_ptr<Deaths> deaths_;
  std::mutex starts_;
  bool is_watched_ = false;
  pthread_t thread_ = {};
  std::atomic<bool> is_over_{false};
  bool goes_here_ = false;
};

template <typename P, typename M> struct ByName<P, M, std::enable_if_t<std::is_object_v<Element<P>>>> {
  using Options = ProcessesOptions;

  static Result<Domain<P, M>> make(Opens opens, std::string_view name, const Config<P> &config, const Options &options) {
    check_shared<P>();
    return Raw::create_by<Domain<P, M>>(config, [&](Shared<M> &shared) -> iox2ps_status_t {
      const iox2ps_config_t &settings = Raw::of(config);
      auto raw = options.raw(settings);
      iox2ps_status_t code = open(opens, Name(name).text(), &shared.domain, settings, raw ? &*raw : nullptr);
      return code == IOX2PS_OK && is_shared<M> ? meet(shared, raw->spins) : code;
    });
  }

  static Result<bool> exists(std::string_view name) {
    std::uint32_t exists = 0;
    iox2ps_status_t code = iox2ps_domain_exists(Name(name).text(), &exists);
    if (code != IOX2PS_OK) return error_of(code);
    return exists != 0;
  }

private:
  static iox2ps_status_t open(Opens opens, const char *name, iox2ps_domain_t *domain, const iox2ps_config_t &settings, const iox2ps_processes_options_t *options) {
    switch (opens) {
    case Opens::Open: return iox2ps_domain_open(domain, name, type_name<P>(), &settings, options);
    case Opens::Create: return iox2ps_domain_create_named(domain, name, type_name<P>(), &settings, options);
    case Opens::OpenOrCreate: break;
    }
    return iox2ps_domain_open_or_create(domain, name, type_name<P>(), &settings, options);
  }

  static iox2ps_status_t meet(Shared<M> &shared, unsigned looks) {
    if constexpr (is_shared<M>) {
      std::unique_ptr<OtherProcesses> others(new (std::nothrow) NamedProcesses<M>(shared, looks));
      if (!others) return IOX2PS_OUT_OF_MEMORY;
      shared.threads.meet(std::move(others));
    }
    return IOX2PS_OK;
  }
};

} // namespace detail

} // namespace iox2ps

#endif
