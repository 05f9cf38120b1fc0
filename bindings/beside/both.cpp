// SPDX-License-Identifier: Apache-2.0 OR MIT
// One program that uses the classes of this library, those of the stand-in for iceoryx2, and iceoryx's C binding where
// that is there.
#include "iceoryx2.h"
#include "iox2_pubsub.hpp"
#include "iox2_pubsub_shared.hpp"
#include <cstdio>
#ifdef ICEORYX
extern "C" { // which its headers leave to whoever includes them
#include <iceoryx_binding_c/api.h>
}
#endif

template <typename Domain> static bool passes_a_message(Domain domain) {
  auto publisher = domain.publisher().expect("a publisher");
  auto subscriber = domain.subscriber().expect("a subscriber");
  if (publisher.send_copy(7).expect("a send").delivered() != std::size_t(1)) return false;
  auto sample = subscriber.receive().expect("a receive");
  return sample && **sample == 7;
}

static bool calls_the_stand_in() {
  iox2_subscriber_t one;
  iox2_subscriber_t *subscriber = &one;
  bool has_samples = false;
  iox2::Publisher<int> publisher;
  return iox2_subscriber_has_samples(&subscriber, &has_samples) == 102 && has_samples && publisher.send_copy(5) == 5
      && static_cast<int>(iox2::BackpressureStrategy::DiscardData) == static_cast<int>(iox2ps::BackpressureStrategy::DiscardData);
}

static bool calls_iceoryx() {
#ifdef ICEORYX
  iox_sub_options_t options;
  iox_sub_options_init(&options);
  return iox_sub_options_is_initialized(&options);
#else
  return true;
#endif
}

int main() {
  auto plain = iox2ps::Domain<int>::create(iox2ps::Config<int>(1)).expect("a domain");
  auto shared = iox2ps::SharedDomain<int>::create(iox2ps::Config<int>(2)).expect("a domain");
  if (!passes_a_message(plain) || !passes_a_message(shared) || !calls_the_stand_in() || !calls_iceoryx()) return 1;
  std::puts("both answer");
  return 0;
}
