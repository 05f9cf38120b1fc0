// SPDX-License-Identifier: Apache-2.0 OR MIT
/* Makes the calls of one domain: at once, or by its lock. */
#ifndef IOX2_PUBSUB_DDS_CALLER_HPP
#define IOX2_PUBSUB_DDS_CALLER_HPP

#include "iox2_pubsub_dds.h"

#include <cstdint>
#include <type_traits>
#include <utility>

namespace iox2ps::dds::detail {

class Caller {
public:
  Caller(iox2ps_domain_t *domain, const iox2ps_dds_lock_t &lock) : domain_(domain), lock_(lock) {}

  bool may_wait() const { return lock_.call && lock_.wait; }
  iox2ps_domain_t *domain() const { return domain_; }

  /* Makes calls that may bring what `brings` says to those who wait. */
  template <typename Make> std::uint32_t call(std::uint32_t brings, Make &&make) const {
    if (!lock_.call) return make(domain_);
    return lock_.call(lock_.context, domain_, brings, made_by<Make>, &make);
  }

  /* The same of calls that bring nothing to anybody. */
  template <typename Make> std::uint32_t ask(Make &&make) const { return call(0, std::forward<Make>(make)); }

  /* Again, as long as the code says that the port still waits, or until the time has passed. */
  template <typename Make>
  std::uint32_t wait(std::uint32_t waits, iox2ps_wide_t port, std::uint32_t brings, std::uint64_t nanoseconds, Make &&make) const {
    return lock_.wait(lock_.context, domain_, waits, port, brings, nanoseconds, made_by<Make>, &make);
  }

private:
  template <typename Make> static std::uint32_t made_by(iox2ps_domain_t *domain, void *what) {
    return (*static_cast<std::remove_reference_t<Make> *>(what))(domain);
  }

  iox2ps_domain_t *domain_;
  iox2ps_dds_lock_t lock_;
};

inline bool same(iox2ps_wide_t a, iox2ps_wide_t b) { return a.low == b.low && a.high == b.high; }

} // namespace iox2ps::dds::detail

#endif
