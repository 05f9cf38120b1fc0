// SPDX-License-Identifier: Apache-2.0 OR MIT
/* What a gateway has counted. Each number is raised by one thread, and read by any. */
#ifndef IOX2_PUBSUB_DDS_COUNTS_HPP
#define IOX2_PUBSUB_DDS_COUNTS_HPP

#include "iox2_pubsub_dds.h"

#include <atomic>
#include <cstdint>

namespace iox2ps::dds::detail {

class Count {
public:
  void add(std::uint64_t more = 1) { value_.store(value() + more, std::memory_order_relaxed); }
  std::uint64_t value() const { return value_.load(std::memory_order_relaxed); }

private:
  std::atomic<std::uint64_t> value_{0};
};

struct Counts {
  Count sent, received, own, too_long, other_size, other_type, malformed, no_loan, not_sent, missed, take_failed,
      write_failed, receive_failed;
  std::atomic<std::int64_t> last_dds_code{0};

  iox2ps_dds_counts_t read() const {
    return {sent.value(),        received.value(),   own.value(),     too_long.value(), other_size.value(),
            other_type.value(),  malformed.value(),  no_loan.value(), not_sent.value(), missed.value(),
            take_failed.value(), write_failed.value(), receive_failed.value(), last_dds_code.load()};
  }
};

} // namespace iox2ps::dds::detail

#endif
