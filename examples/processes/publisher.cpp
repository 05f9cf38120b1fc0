// SPDX-License-Identifier: Apache-2.0 OR MIT
// publisher [NAME]: sends readings to who runs in other terminals, until it is ended.
#include "celsius.hpp"
#include <thread>

int main(int count, char **words) {
  auto domain = iox2ps::Domain<Celsius>::open_or_create(count > 1 ? words[1] : "thermometer", settings()).expect("a domain");
  auto publisher = domain.publisher().expect("a publisher");
  for (double celsius = 20.0;; std::this_thread::sleep_for(std::chrono::milliseconds(100))) {
    auto loan = publisher.loan().expect("a loan");
    loan->value = celsius; // written in its slot, where the subscriber reads it
    if (loan.send().expect("a send").delivered() > 0u) celsius++;
  }
}
