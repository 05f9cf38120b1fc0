// SPDX-License-Identifier: Apache-2.0 OR MIT
// A board of last values: each publisher keeps one, and whoever comes reads them. What was read stays as it was.
#include "iox2_pubsub_shared.hpp"
#include <cstdio>
#include <utility>

enum { Left, Right };
struct Speed {
  unsigned wheel, rpm;
};

// The last value of each wheel, where it lies. A subscriber of a shared domain has them at once.
static auto read_all(const iox2ps::SharedDomain<Speed> &domain) {
  auto reader = domain.subscriber().expect("a reader");
  auto left = reader.receive().expect("a value"), right = reader.receive().expect("a value");
  if ((*left)->wheel != Left) std::swap(left, right);
  return std::pair(std::move(*left), std::move(*right));
}

int main() {
  auto domain = iox2ps::SharedDomain<Speed>::create(iox2ps::Config<Speed>(7).history_size(1)).expect("a domain");
  auto left = domain.publisher().expect("a publisher");
  auto right = domain.publisher().expect("a publisher");
  for (unsigned rpm : {12u, 31u}) (void)left.send_copy({Left, rpm}).expect("a send");
  (void)right.send_copy({Right, 42}).expect("a send");
  auto before = read_all(domain);
  std::printf("left %u rpm, right %u rpm\n", before.first->rpm, before.second->rpm);
  (void)left.send_copy({Left, 99}).expect("a send");
  auto now = read_all(domain);
  std::printf("left %u rpm now, and %u where it was read before\n", now.first->rpm, before.first->rpm);
}
