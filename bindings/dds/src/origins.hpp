// SPDX-License-Identifier: Apache-2.0 OR MIT
/* Where the messages came from that a gateway has sent in its domain. */
#ifndef IOX2_PUBSUB_DDS_ORIGINS_HPP
#define IOX2_PUBSUB_DDS_ORIGINS_HPP

#include "caller.hpp"

#include <mutex>
#include <vector>

namespace iox2ps::dds::detail {

/* One for each slot of the publisher: a slot has another message when nobody has the one before any more. */
class Origins {
public:
  void set(const iox2ps_loan_t &loan, const iox2ps_dds_origin_t &origin) {
    std::lock_guard<std::mutex> lock(mutex_);
    if (loan.slot_ >= entries_.size()) entries_.resize(loan.slot_ + 1);
    entries_[loan.slot_] = {loan.number, origin, true};
  }

  bool get(iox2ps_wide_t number, iox2ps_dds_origin_t &origin) {
    std::lock_guard<std::mutex> lock(mutex_);
    for (std::size_t tries = 0; tries < entries_.size(); tries++, next_++) { // messages come in the order of slots, mostly
      if (next_ >= entries_.size()) next_ = 0;
      const Entry &entry = entries_[next_];
      if (!entry.is_set || !same(entry.number, number)) continue;
      origin = entry.origin;
      return true;
    }
    return false;
  }

private:
  struct Entry {
    iox2ps_wide_t number{};
    iox2ps_dds_origin_t origin{};
    bool is_set = false;
  };
  std::mutex mutex_;
  std::vector<Entry> entries_;
  std::size_t next_ = 0;
};

} // namespace iox2ps::dds::detail

#endif
