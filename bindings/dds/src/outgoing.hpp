// SPDX-License-Identifier: Apache-2.0 OR MIT
/* From the domain to the topic. */
#ifndef IOX2_PUBSUB_DDS_OUTGOING_HPP
#define IOX2_PUBSUB_DDS_OUTGOING_HPP

#include "caller.hpp"
#include "counts.hpp"
#include "topic.hpp"

#include <deque>

namespace iox2ps::dds::detail {

class Outgoing {
public:
  Outgoing(const Caller &caller, const iox2ps_subscriber_t &subscriber, std::size_t element_size, Topic &topic, Counts &counts)
      : caller_(caller), subscriber_(subscriber), element_size_(element_size), topic_(topic), counts_(counts) {}
  ~Outgoing();
  Outgoing(const Outgoing &) = delete;
  Outgoing &operator=(const Outgoing &) = delete;

  /* What this publisher sends is the gateway's own. */
  void pass_over(iox2ps_wide_t publisher) { publisher_ = publisher; }

  /* Receives until nothing waits or may be borrowed. The gateway's own messages are always taken out, so that its publisher
   * never waits for its own subscriber. */
  void forward(iox2ps_dds_forwarded_t &now, std::size_t most);

  /* Waits for a message so long, and takes it with what came since; for a domain that threads share. Returns whether one came. */
  bool wait(iox2ps_dds_forwarded_t &now, Nanoseconds timeout, const std::atomic<bool> &stops);

  std::size_t held() const { return held_.size() + (topic_.has_begun() ? 1 : 0); }

  /* Whether all that was sent in the domain was handed to the topic. */
  bool is_done() const;

private:
  struct Held {
    iox2ps_sample_t sample;
    const void *bytes = nullptr;
    std::size_t len = 0;
  };
  std::uint32_t receive(iox2ps_domain_t *domain, Held &got);
  void take(const Held &got);
  bool write_held(iox2ps_dds_forwarded_t &now);
  bool begin_next(iox2ps_dds_forwarded_t &now);
  void fail(iox2ps_dds_forwarded_t &now);
  void release(const iox2ps_sample_t &sample);

  const Caller &caller_;
  iox2ps_subscriber_t subscriber_;
  iox2ps_wide_t publisher_{};
  std::size_t element_size_;
  Topic &topic_;
  Counts &counts_;
  std::deque<Held> held_;
  std::atomic<bool> has_some_{false}; // between a receive and the message's end, for who asks on another thread
};

} // namespace iox2ps::dds::detail

#endif
