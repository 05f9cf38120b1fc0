// SPDX-License-Identifier: Apache-2.0 OR MIT
/* Lends messages of 64 KB as often as the first word says: tools/bindings counts that each is set to its default value once, where it
 * lies. */
#include "iox2_pubsub.hpp"
#include <cstdlib>

struct Image {
  unsigned char pixels[65536];
};

int main(int, char **words) {
  auto domain = iox2ps::Domain<Image>::create(iox2ps::Config<Image>(7).max_subscribers(1)).expect("a domain");
  auto publisher = domain.publisher().expect("a publisher");
  for (int left = std::atoi(words[1]); left > 0; left--) {
    auto loan = publisher.loan().expect("a loan");
    loan->pixels[left & 255] = 1;
  }
}
