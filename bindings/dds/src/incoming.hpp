// SPDX-License-Identifier: Apache-2.0 OR MIT
/* From the topic to the domain. */
#ifndef IOX2_PUBSUB_DDS_INCOMING_HPP
#define IOX2_PUBSUB_DDS_INCOMING_HPP

#include "caller.hpp"
#include "counts.hpp"
#include "origins.hpp"
#include "topic.hpp"

namespace iox2ps::dds::detail {

class Incoming {
public:
  Incoming(const Caller &caller, const iox2ps_publisher_t &publisher, const ValueType &type, Topic &topic, Counts &counts)
      : caller_(caller), publisher_(publisher), type_(type), topic_(topic), counts_(counts) {}
  ~Incoming();
  Incoming(const Incoming &) = delete;
  Incoming &operator=(const Incoming &) = delete;

  /* Takes and sends at most that many, until nothing is there or a send is blocked. */
  void forward(iox2ps_dds_forwarded_t &now, std::size_t most);

  bool is_blocked() const { return is_blocked_; }

  /* Whether the send that was blocked has ended. */
  bool retry(iox2ps_dds_forwarded_t &now);

  /* Tries it so long, whenever there may be room; for a domain that threads share. */
  void wait(iox2ps_dds_forwarded_t &now, Nanoseconds timeout, const std::atomic<bool> &stops);

  bool origin(iox2ps_wide_t number, iox2ps_dds_origin_t &origin) { return origins_.get(number, origin); }

private:
  bool fits(const Taken &taken, iox2ps_dds_forwarded_t &now);
  void pass(const Taken &taken, iox2ps_dds_forwarded_t &now);
  void end(std::uint32_t code, iox2ps_dds_forwarded_t &now);
  std::uint32_t retried(iox2ps_domain_t *domain);
  static void drop(Count &why, iox2ps_dds_forwarded_t &now) {
    why.add();
    now.dropped++;
  }

  const Caller &caller_;
  iox2ps_publisher_t publisher_;
  const ValueType &type_;
  Topic &topic_;
  Counts &counts_;
  Origins origins_;
  iox2ps_blocked_t blocked_{};
  bool is_blocked_ = false;
  std::chrono::steady_clock::time_point since_;
};

} // namespace iox2ps::dds::detail

#endif
