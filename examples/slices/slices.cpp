// SPDX-License-Identifier: Apache-2.0 OR MIT
// Messages of different lengths: a scan has up to 4 ranges. A publisher whose memory grows lends longer ones, too.
#include "iox2_pubsub.hpp"
#include <cstdio>

static void scan(iox2ps::Publisher<float[]> &publisher, std::size_t count) {
  auto loan = publisher.loan_slice(count);
  if (!loan && loan.error() == iox2ps::Error::LoanExceedsMaxLoanSize) {
    std::printf("%zu ranges are too many\n", count);
    return;
  }
  auto ranges = std::move(loan).expect("a loan");
  float range = 0;
  for (float &each : ranges) each = range += 0.5f;
  (void)ranges.send().expect("a send");
}

static void show(iox2ps::Subscriber<float[]> &subscriber) {
  while (auto ranges = subscriber.receive().expect("a receive"))
    std::printf("read %zu ranges, the last is %.1f m\n", ranges->size(), *(ranges->end() - 1));
}

int main() {
  auto domain = iox2ps::Domain<float[]>::create(iox2ps::Config<float[]>(7, 4)).expect("a domain");
  auto publisher = domain.publisher().expect("a publisher");
  auto subscriber = domain.subscriber().expect("a subscriber");
  for (std::size_t count : {3, 1, 1000}) scan(publisher, count);
  show(subscriber);
  auto grows = iox2ps::PublisherOptions<float[]>().allocation_strategy(iox2ps::AllocationStrategy::PowerOfTwo);
  auto growing = domain.publisher(grows).expect("a publisher");
  scan(growing, 1000);
  show(subscriber);
}
