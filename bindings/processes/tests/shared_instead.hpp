// SPDX-License-Identifier: Apache-2.0 OR MIT
/* Included before a test of C++ that knows nothing of several processes, whose calls of create() are replaced by create_shared: each
 * domain that it makes is one that others could open. */
#ifndef IOX2PS_SHARED_INSTEAD_HPP
#define IOX2PS_SHARED_INSTEAD_HPP

#include "iox2_pubsub_processes.hpp"
#include <algorithm>
#include <atomic>
#include <cstdio>
#include <cstdlib>
#include <unistd.h>

namespace instead {

template <typename T> constexpr bool is_array = false;
template <typename T, std::size_t N> constexpr bool is_array<std::array<T, N>> = true;

/* A name that no other domain has. */
class Name {
public:
  Name() { std::snprintf(text_, sizeof text_, "test_instead.%d.%u", static_cast<int>(getpid()), made_.fetch_add(1)); }
  operator std::string_view() const { return text_; }

private:
  inline static std::atomic<unsigned> made_{0};
  char text_[64];
};

/* Where each of its publishers is to grow. */
inline iox2ps::ProcessesOptions options(const iox2ps_config_t &config) {
  iox2ps_processes_options_t usual;
  iox2ps_processes_options_of(&config, &usual);
  iox2ps::ProcessesOptions options;
  /* A short list, so that copies are made often. No thread looks for others before it sleeps, nor for the dead, since tests count how
   * often it takes the lock. */
  options.max_processes(2).calls(64).spins(0).reap_every(std::chrono::hours(1));
  if (usual.struct_size == 0) return options;
  return options.book_room(std::max<std::size_t>(usual.book_room, 1 << 20)).payload_room(std::max<std::size_t>(usual.payload_room, 2 << 20));
}

} // namespace instead

/* Any struct of a test is plain bytes. */
template <typename T> struct iox2ps::ZeroCopySend<T, std::enable_if_t<std::is_class_v<T> && !instead::is_array<T>>> : std::true_type {};

template <typename D, typename P> iox2ps::Result<D> create_shared(const iox2ps::Config<P> &config) {
  auto domain = D::create(instead::Name(), config, instead::options(iox2ps::detail::Raw::of(config)));
  /* What no domain of several processes can be: ports without number. */
  bool is_too_large = !domain && (domain.error() == iox2ps::Error::WorstCaseTooLarge || domain.error() == iox2ps::Error::OpenInvalidArgument);
  if (is_too_large) return D::create(config);
  bool is_of_processes = !domain && static_cast<std::uint32_t>(domain.error()) >= 200 && static_cast<std::uint32_t>(domain.error()) < 300;
  if (is_of_processes) std::fprintf(stderr, "%s: %s\n", text(domain.error()), iox2ps::why_refused()), std::abort();
  return domain;
}

#endif
