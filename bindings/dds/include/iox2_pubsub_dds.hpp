// SPDX-License-Identifier: Apache-2.0 OR MIT
/* Gateways between domains of iox2_pubsub and topics of DDS, for C++17: the calls of iox2_pubsub_dds.h with types.
 *
 * A gateway is used on its domain's thread, which polls it: forward() never waits, wait() waits for the topic alone. With
 * iox2_pubsub_shared.hpp, start() gives it threads of its own. Waker::wake alone may be called on any thread.
 *
 * What was moved from is empty: it moves, counts and knows nothing, and waits for nothing. */
#ifndef IOX2_PUBSUB_DDS_HPP
#define IOX2_PUBSUB_DDS_HPP

#include "iox2_pubsub.hpp"
#include "iox2_pubsub_dds.h"

#include <algorithm>
#include <memory>
#include <string>

namespace iox2ps::dds {

/* Whether any bytes are a value of T, so that bytes of another process may be read as one. It holds of integers, floats,
 * std::byte and arrays of them; a program says so of its structs: no bool, enum, pointer or reference in them.
 *   template <> inline constexpr bool iox2ps::dds::any_bytes<Reading> = true; */
template <typename T>
inline constexpr bool any_bytes = (std::is_arithmetic_v<T> && !std::is_same_v<T, bool>) || std::is_same_v<T, std::byte>;
template <typename T, std::size_t N> inline constexpr bool any_bytes<T[N]> = any_bytes<T>;

enum class Reliability : std::uint32_t { Reliable = IOX2PS_DDS_RELIABLE, BestEffort = IOX2PS_DDS_BEST_EFFORT };

/* The fields are those of iox2ps_dds_settings_t, and of iox2ps_dds_gateways_open. */
struct Settings {
  std::string topic{};     // "": iox2/ and the service_id in 32 hexadecimal digits
  std::string type_name{}; // "": the type's own name without namespaces, as f64 for a double
  Reliability reliability = Reliability::Reliable;
  bool volatile_reader = false;
  bool only_known = false;
  std::size_t reader_limit = 64;
  std::uint32_t dds_domain = 0;     // where it isn't opened in Gateways
  std::size_t max_message_size = 0; // the same; and at least the domain's payload_size
};

using Forwarded = iox2ps_dds_forwarded_t;
using Counts = iox2ps_dds_counts_t;
using Peers = iox2ps_dds_peers_t;

/* Which node, and which publisher in its process, sent a message that came from elsewhere. */
struct Origin {
  Id node, publisher;
};

namespace detail {

/* The name of a type as both languages and all compilers say it: without namespaces. */
template <typename T> std::string name_of() {
  if constexpr (std::is_arithmetic_v<T> || std::is_same_v<T, std::byte>) {
    const char *kind = std::is_floating_point_v<T> ? "f" : std::is_signed_v<T> ? "i" : "u";
    return kind + std::to_string(sizeof(T) * 8);
  } else {
    std::string all = __PRETTY_FUNCTION__, name;
    std::size_t begin = all.find("T = ") + 4;
    for (char letter : all.substr(begin, all.find_first_of(";]", begin) - begin)) {
      bool ends_a_namespace = letter == ':';
      if (!ends_a_namespace) name += letter;
      else while (!name.empty() && name.back() != '<' && name.back() != ',') name.pop_back();
    }
    return name;
  }
}

template <typename Handle, void (*close)(Handle *)> struct Closes {
  void operator()(Handle *handle) const { close(handle); }
};

using GroupHandle = std::shared_ptr<iox2ps_dds_gateways_t>;

inline GroupHandle open_group(std::uint32_t dds_domain, std::size_t max_message_size, std::string &why) {
  char words[256] = "";
  iox2ps_dds_gateways_t *group = nullptr;
  if (iox2ps_dds_gateways_open(dds_domain, max_message_size, &group, words, sizeof words) != IOX2PS_OK) why = words;
  return group ? GroupHandle(group, iox2ps_dds_gateways_close) : nullptr;
}

inline std::uint64_t nanoseconds(std::chrono::nanoseconds timeout) {
  return static_cast<std::uint64_t>((std::max)(timeout.count(), std::chrono::nanoseconds::rep(0)));
}

/* The lock of a domain that threads share. */
template <typename P, typename M> struct Lock {
  static std::uint32_t call(void *domain, iox2ps_domain_t *, std::uint32_t brings, iox2ps_dds_make_t make, void *what) {
    auto made = [&](iox2ps_domain_t *its) { return make(its, what); };
    return iox2ps::detail::Raw::call(*static_cast<Domain<P, M> *>(domain), brings, made);
  }
  static std::uint32_t wait(void *domain, iox2ps_domain_t *, std::uint32_t waits, iox2ps_wide_t port, std::uint32_t brings,
                            std::uint64_t timeout, iox2ps_dds_make_t make, void *what) {
    auto made = [&](iox2ps_domain_t *its) { return make(its, what); };
    Until until = std::chrono::steady_clock::now() + std::chrono::nanoseconds(timeout);
    auto &shared = *static_cast<Domain<P, M> *>(domain);
    return iox2ps::detail::Raw::wait(shared, static_cast<iox2ps::detail::Waits>(waits), Id{port.low, port.high}, brings, until, made);
  }
};

/* The publisher of a gateway among those of a domain that threads share, so that a subscriber that is made later has what it keeps. */
template <typename P, typename M> class Joined {
public:
  using Sender = iox2ps::detail::Sender;

  Joined() = default;
  Joined(const Domain<P, M> &domain, std::unique_ptr<Sender> sender) : domain_(&domain), sender_(std::move(sender)) {
    if (iox2ps::detail::Raw::join(domain, *sender_) != IOX2PS_OK) sender_.reset();
  }
  Joined(Joined &&) noexcept = default;
  Joined &operator=(Joined &&other) noexcept {
    end();
    domain_ = other.domain_;
    sender_ = std::move(other.sender_);
    return *this;
  }
  ~Joined() { end(); }

private:
  void end() noexcept {
    if (sender_) iox2ps::detail::Raw::leave(*domain_, *sender_);
  }

  const Domain<P, M> *domain_ = nullptr;
  std::unique_ptr<Sender> sender_;
};
template <typename P> class Joined<P, OneThread> {};

} // namespace detail

/* Ends a wait from any thread. */
class Waker {
public:
  explicit Waker(detail::GroupHandle group) : group_(std::move(group)) {}
  void wake() const {
    if (group_) iox2ps_dds_wake(group_.get());
  }

private:
  detail::GroupHandle group_;
};

/* What gateways have together that were opened together. */
class Polled {
public:
  /* Moves what is there, for each gateway at most this number of messages each way, and never waits. */
  Forwarded forward(std::size_t most = 1024) {
    Forwarded now = {};
    if (group_) iox2ps_dds_forward(group_.get(), most, &now);
    return now;
  }

  /* The same, and where nothing is there waits for the topics so long at most. It doesn't wait while a message of a topic
   * waits for a subscriber, which this thread alone can let receive. */
  Forwarded wait(std::chrono::nanoseconds timeout, std::size_t most = 1024) {
    Forwarded now = {};
    if (group_) iox2ps_dds_wait(group_.get(), detail::nanoseconds(timeout), most, &now);
    return now;
  }

  /* Waits until the topics' readers have what was sent, as a program does before it ends. False where the time passed before, and
   * where messages were sent and no reader of their type was met so far. */
  bool flush(std::chrono::nanoseconds timeout) {
    return group_ && iox2ps_dds_flush(group_.get(), detail::nanoseconds(timeout)) == IOX2PS_OK;
  }

  [[nodiscard]] Waker waker() const { return Waker(group_); }

protected:
  explicit Polled(detail::GroupHandle group) : group_(std::move(group)) {}
  detail::GroupHandle group_;
};

class Gateways;

/* Joins one domain to one topic. */
template <typename P, typename M = OneThread> class Gateway : public Polled {
  using Element = iox2ps::detail::Element<P>;
  static_assert(any_bytes<Element>, "bytes of another process become values: say any_bytes of the type, where it holds");

public:
  /* A gateway that is polled alone. Nothing where a port or an entity of DDS was refused, and why says which. */
  [[nodiscard]] static std::optional<Gateway> open(Domain<P, M> domain, const Settings &settings, std::string &why) {
    auto config = domain.config();
    if (!config) return why = text(config.error()), std::nullopt;
    std::size_t longest = (std::max)(config->payload_size(), settings.max_message_size);
    auto group = detail::open_group(settings.dds_domain, longest, why);
    if (!group) return std::nullopt;
    return open_in(std::move(group), std::move(domain), settings, why);
  }

  Gateway(Gateway &&) noexcept = default;
  Gateway &operator=(Gateway &&other) noexcept {
    gateway_ = std::move(other.gateway_); // one that was there is closed while its domain lives
    joined_ = std::move(other.joined_);
    domain_ = std::move(other.domain_);
    group_ = std::move(other.group_);
    return *this;
  }

  [[nodiscard]] Counts counts() const {
    Counts counts = {};
    if (gateway_) iox2ps_dds_counts(gateway_.get(), &counts);
    return counts;
  }
  [[nodiscard]] Peers peers() const {
    Peers peers = {};
    if (gateway_) iox2ps_dds_peers(gateway_.get(), &peers);
    return peers;
  }

  /* The origin of all that came from elsewhere, in this domain. */
  [[nodiscard]] Id publisher() const { return gateway_ ? iox2ps::detail::id_of(iox2ps_dds_publisher(gateway_.get())) : Id{0, 0}; }

  /* Who sent a message elsewhere, or nothing where it came from this process. */
  [[nodiscard]] std::optional<Origin> origin(const Sample<P, M> &sample) const {
    if (!gateway_) return std::nullopt;
    iox2ps_dds_origin_t origin;
    iox2ps_wide_t number{sample.number().low, sample.number().high};
    if (iox2ps_dds_origin(gateway_.get(), number, &origin) != IOX2PS_OK) return std::nullopt;
    return Origin{iox2ps::detail::id_of(origin.node), iox2ps::detail::id_of(origin.publisher)};
  }

  /* For several threads alone: gives the gateway two threads, one for each way, until it is stopped or goes. */
  [[nodiscard]] bool start() { return gateway_ && iox2ps_dds_start(gateway_.get()) == IOX2PS_OK; }
  void stop() {
    if (gateway_) iox2ps_dds_stop(gateway_.get());
  }

private:
  friend class Gateways;
  using Handle = std::unique_ptr<iox2ps_dds_gateway_t, detail::Closes<iox2ps_dds_gateway_t, iox2ps_dds_gateway_close>>;

  Gateway(detail::GroupHandle group, std::unique_ptr<Domain<P, M>> domain, detail::Joined<P, M> joined, Handle gateway)
      : Polled(std::move(group)), domain_(std::move(domain)), joined_(std::move(joined)), gateway_(std::move(gateway)) {}

  static iox2ps_dds_settings_t settings_of(const Settings &settings, const std::string &name, Domain<P, M> *domain) {
    iox2ps_dds_settings_t plain;
    iox2ps_dds_settings_defaults(&plain, sizeof(Element), iox2ps::detail::is_slice<P>);
    plain.topic = settings.topic.c_str();
    plain.type_name = name.c_str();
    plain.reliability = static_cast<std::uint32_t>(settings.reliability);
    plain.volatile_reader = settings.volatile_reader;
    plain.only_known = settings.only_known;
    plain.reader_limit = settings.reader_limit;
    if constexpr (iox2ps::detail::is_shared<M>) plain.lock = {detail::Lock<P, M>::call, detail::Lock<P, M>::wait, domain};
    return plain;
  }

  static std::optional<Gateway> open_in(detail::GroupHandle group, Domain<P, M> domain, const Settings &settings,
                                        std::string &why) {
    auto kept = std::make_unique<Domain<P, M>>(std::move(domain));
    iox2ps_domain_t *place = nullptr;
    iox2ps_wide_t service_id{};
    auto find = [&](iox2ps_domain_t *its) {
      iox2ps_config_t config;
      std::uint32_t code = iox2ps_domain_config(place = its, &config);
      if (code == IOX2PS_OK) service_id = config.service_id;
      return code;
    };
    auto found = iox2ps::detail::Raw::call(*kept, 0, find);
    if (found != IOX2PS_OK) return why = text(iox2ps::detail::error_of(found)), std::nullopt;
    std::unique_ptr<iox2ps::detail::Sender> sender;
    if constexpr (iox2ps::detail::is_shared<M>) {
      sender.reset(new (std::nothrow) iox2ps::detail::Sender);
      if (!sender) return why = text(iox2ps::detail::error_of(IOX2PS_OUT_OF_MEMORY)), std::nullopt;
    }
    std::string name = settings.type_name.empty() ? detail::name_of<Element>() : settings.type_name;
    iox2ps_dds_settings_t plain = settings_of(settings, name, kept.get());
    iox2ps_dds_gateway_t *gateway = nullptr;
    char words[256] = "";
    if (iox2ps_dds_gateway_open(group.get(), place, &plain, &gateway, words, sizeof words) != IOX2PS_OK) {
      why = words;
      return std::nullopt;
    }
    detail::Joined<P, M> joined;
    if constexpr (iox2ps::detail::is_shared<M>) {
      sender->port.service_id = service_id;
      sender->port.id = iox2ps_dds_publisher(gateway);
      joined = {*kept, std::move(sender)};
    }
    return Gateway(std::move(group), std::move(kept), std::move(joined), Handle(gateway));
  }

  std::unique_ptr<Domain<P, M>> domain_; // which outlives the others
  detail::Joined<P, M> joined_;
  Handle gateway_;
};

/* Gateways for several domains, which are polled together. All gateways of a process share one participant for each DDS
 * domain. */
class Gateways : public Polled {
public:
  /* For messages of at most this number of bytes: DDS throws longer ones away before it takes memory. */
  [[nodiscard]] static std::optional<Gateways> open(std::uint32_t dds_domain, std::size_t max_message_size, std::string &why) {
    auto group = detail::open_group(dds_domain, max_message_size, why);
    if (!group) return std::nullopt;
    return Gateways(std::move(group));
  }

  /* A gateway that is polled with these. */
  template <typename P, typename M>
  [[nodiscard]] std::optional<Gateway<P, M>> add(Domain<P, M> domain, const Settings &settings, std::string &why) {
    if (!group_) return why = text(Error::NotLive), std::nullopt;
    return Gateway<P, M>::open_in(group_, std::move(domain), settings, why);
  }

private:
  explicit Gateways(detail::GroupHandle group) : Polled(std::move(group)) {}
};

} // namespace iox2ps::dds

#endif
