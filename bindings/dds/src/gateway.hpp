// SPDX-License-Identifier: Apache-2.0 OR MIT
/* One domain joined to one topic, and the gateways of a thread together. */
#ifndef IOX2_PUBSUB_DDS_GATEWAY_HPP
#define IOX2_PUBSUB_DDS_GATEWAY_HPP

#include "incoming.hpp"
#include "outgoing.hpp"

#include <optional>
#include <thread>

namespace iox2ps::dds::detail {

class Gateway;

/* What became of what was sent. */
enum class Flushed { All, TimedOut, NoPeer };

/* Gateways that one thread polls, and what it waits at for all of them. */
class Group {
public:
  static std::shared_ptr<Group> open(std::uint32_t dds_domain, std::size_t max_message_size, std::string &why);
  ~Group();
  Group(const Group &) = delete;
  Group &operator=(const Group &) = delete;

  const std::shared_ptr<Participant> &participant() const { return participant_; }
  void add(Gateway &gateway);
  void remove(Gateway &gateway);

  /* Whether a wait ends for it. */
  void attach(Gateway &gateway);
  void detach(Gateway &gateway);

  /* Of those without threads. */
  iox2ps_dds_forwarded_t forward(std::size_t most);
  iox2ps_dds_forwarded_t wait(Nanoseconds timeout, std::size_t most);
  Flushed flush(Nanoseconds timeout);
  void wake() { dds_set_guardcondition(guard_, true); }

private:
  Group() = default;
  bool make(std::string &why);
  Gateway *first_held();

  std::shared_ptr<Participant> participant_;
  dds_entity_t guard_ = 0, waitset_ = 0;
  std::vector<Gateway *> gateways_;
};

/* Waits until one of the waitset's conditions is there, and takes the guard's. */
void wait_at(dds_entity_t waitset, dds_entity_t guard, Nanoseconds timeout);

class Gateway {
public:
  static std::uint32_t open(std::shared_ptr<Group> group, iox2ps_domain_t *domain, const iox2ps_dds_settings_t &settings,
                            std::unique_ptr<Gateway> &gateway, std::string &why);
  ~Gateway();
  Gateway(const Gateway &) = delete;
  Gateway &operator=(const Gateway &) = delete;

  void forward(iox2ps_dds_forwarded_t &now, std::size_t most);
  std::size_t held() const { return outgoing_->held(); }
  bool has_threads() const { return in_thread_.joinable(); }
  /* Whether it has sent messages that nobody was there for. */
  bool lacks_peer() const { return counts_.sent.value() > 0 && !topic_->has_met_reader(); }
  bool is_done() const { return has_threads() ? outgoing_->is_done() : held() == 0; }
  dds_entity_t condition() const { return topic_->condition(); }
  Topic &topic() { return *topic_; }
  Incoming &incoming() { return *incoming_; }
  const Counts &counts() const { return counts_; }
  iox2ps_wide_t publisher() const { return publisher_.id; }

  std::uint32_t start();
  void stop();

private:
  Gateway(std::shared_ptr<Group> group, iox2ps_domain_t *domain, const iox2ps_dds_settings_t &settings)
      : group_(std::move(group)), caller_(domain, settings.lock) {}
  std::uint32_t make(const iox2ps_dds_settings_t &settings, std::string &why);
  std::uint32_t make_ports(std::string &why);
  void close_ports();
  bool make_waitset();
  void run_out();
  void run_in();

  std::shared_ptr<Group> group_;
  Caller caller_;
  bool has_domain_ = false, has_subscriber_ = false, has_publisher_ = false, is_added_ = false;
  iox2ps_subscriber_t subscriber_{};
  iox2ps_publisher_t publisher_{};
  ValueType type_{};
  Counts counts_;
  std::unique_ptr<Topic> topic_;
  std::unique_ptr<Outgoing> outgoing_;
  std::unique_ptr<Incoming> incoming_;

  std::atomic<bool> stops_{false};
  dds_entity_t guard_ = 0, waitset_ = 0; // the incoming thread waits there
  std::thread out_thread_, in_thread_;
};

} // namespace iox2ps::dds::detail

#endif
