// SPDX-License-Identifier: Apache-2.0 OR MIT
/* A loan that was sent, discarded or moved from, and a sample that was released or moved from, point nowhere: a program that writes
 * or reads there ends. */
#include "iox2_pubsub.hpp"
#include "endings.hpp"
#include <cstdio>
#include <cstdlib>

static unsigned ended = 0;

template <typename Use> static void ends(const char *what, Use use) {
  ends(what, "was moved from", use);
  ended++;
}

static void values_are_gone() {
  auto domain = iox2ps::Domain<int>::create(iox2ps::Config<int>(1)).expect("a domain");
  auto publisher = domain.publisher().expect("a publisher");
  auto subscriber = domain.subscriber().expect("a subscriber");
  auto loan = publisher.loan().expect("a loan");
  loan.discard();
  ends("a discarded loan is written", [&] { *loan = 1; });
  loan = publisher.loan(7).expect("a loan");
  auto moved = std::move(loan);
  ends("a loan that was moved from is written", [&] { *loan = 1; });
  loan = std::move(moved);
  ends("a loan that was moved from is read", [&] { static_cast<void>(*moved == 7 ? std::puts("7") : 0); });
  loan.send().expect("a send").delivered();
  ends("a sent loan is written", [&] { *loan = 13; });
  auto sample = *std::move(subscriber.receive().expect("a receive"));
  if (*sample != 7) std::exit(1);
  auto kept = std::move(sample);
  ends("a sample that was moved from is read", [&] { static_cast<void>(*sample == 7 ? std::puts("7") : 0); });
  kept.release();
  ends("a released sample is read", [&] { static_cast<void>(*kept == 7 ? std::puts("7") : 0); });
}

static void slices_are_gone() {
  auto domain = iox2ps::Domain<int[]>::create(iox2ps::Config<int[]>(1, 5)).expect("a domain");
  auto publisher = domain.publisher().expect("a publisher");
  auto loan = publisher.loan_slice(3).expect("a loan");
  loan.send().expect("a send").delivered();
  ends("a sent slice is written", [&] { loan[0] = 1; });
}

int main() {
  values_are_gone();
  slices_are_gone();
  std::printf("%u uses of what is gone end the program\n", ended);
}
