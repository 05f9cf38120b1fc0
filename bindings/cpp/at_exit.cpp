// SPDX-License-Identifier: Apache-2.0 OR MIT
/* Waits in destructors at the end of a thread and of the program, after what a thread keeps for its waits is gone. */
#include "iox2_pubsub_shared.hpp"
#include <cstdio>
#include <cstdlib>
#include <thread>

using namespace std::chrono_literals;

static unsigned drained = 0;

/* Its destructor receives what waits, and waits for more. */
struct Node {
  iox2ps::SharedDomain<int> domain = iox2ps::SharedDomain<int>::create(iox2ps::Config<int>(7)).expect("a domain");
  iox2ps::Publisher<int, iox2ps::ManyThreads> out = domain.publisher().expect("a publisher");
  iox2ps::Subscriber<int, iox2ps::ManyThreads> in = domain.subscriber().expect("a subscriber");

  ~Node() {
    while (in.timed_receive(5ms).expect("a receive")) drained++;
  }
};

/* The threads' waits begin after these are made, so what they keep for them goes before. */
static void sends_and_waits(Node &node) {
  if (node.in.timed_receive(5ms).expect("a receive")) std::abort();
  node.out.send_copy(1).expect("a send").delivered();
}

struct Last {
  unsigned wanted;
  ~Last() {
    if (drained != wanted) std::abort();
    std::puts("drained");
  }
};

static Last last = {2};
static Node node;

int main() {
  std::thread([] {
    static thread_local Node own;
    sends_and_waits(own);
  }).join();
  if (drained != 1) std::abort();
  sends_and_waits(node);
}
