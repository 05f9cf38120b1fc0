// SPDX-License-Identifier: Apache-2.0 OR MIT
/* What becomes of a program that is linked to the archive of another version: the linker takes the function below for the archive's
 * (-Wl,--wrap=iox2ps_version). */
#include "iox2_pubsub_shared.hpp"
#include <cstdio>
#include <cstring>

extern "C" std::uint32_t __wrap_iox2ps_version() { return IOX2PS_VERSION + 1; }

int main() {
  auto one = iox2ps::Domain<int>::create(iox2ps::Config<int>(1));
  auto shared = iox2ps::SharedDomain<int>::create(iox2ps::Config<int>(1));
  if (one || one.error() != iox2ps::Error::OtherVersion) return 1;
  if (shared || shared.error() != iox2ps::Error::OtherVersion) return 1;
  if (std::strcmp(text(one.error()), "OtherVersion: the archive isn't of the headers' version") != 0) return 1;
  std::printf("no domain is made\n");
}
