// SPDX-License-Identifier: Apache-2.0 OR MIT
#ifndef CELSIUS_HPP
#define CELSIUS_HPP

#include "iox2_pubsub_processes.hpp"

// Plain bytes, by a name that programs in other languages say too.
struct Celsius {
  static constexpr const char *IOX2_TYPE_NAME = "celsius";
  double value;
};
template <> struct iox2ps::ZeroCopySend<Celsius> : iox2ps::Fields<&Celsius::value> {};

// All processes of a domain have the same settings. It loses nothing: what finds no room is sent anew.
inline iox2ps::Config<Celsius> settings() {
  return iox2ps::Config<Celsius>(7).enable_safe_overflow(false).backpressure_strategy(iox2ps::BackpressureStrategy::DiscardData);
}

#endif
