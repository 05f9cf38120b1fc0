// SPDX-License-Identifier: Apache-2.0 OR MIT
/** One subscriber may lose messages, another may not. The domain has no overflow, and a display closes its channel while it is
 * busy, so that sends pass it over. A send still waits for it if two messages arrive between its opening and its next receive.
 * Fails if a recorder misses a frame. */
#include "iox2_pubsub_shared.hpp"
#include <cstdio>
#include <thread>

using namespace std::chrono_literals;

struct Frame {
  int number;
};

/** Shows one frame after the other, and what is sent meanwhile is none of them. */
template <typename Subscriber> static void show(Subscriber &display) {
  while (auto frame = display.blocking_receive().expect("a frame")) {
    display.close_channel(0, iox2ps::channel_state_open).expect("a closed channel"); // busy: sends pass it over
    std::this_thread::sleep_for(5ms);                                                // draws the frame
    frame->release();
    (void)display.set_channel_state(0, iox2ps::channel_state_open).expect("an open channel"); // ready for the next one
  }
}

/** How many frames came, each with the next number. */
template <typename Subscriber> static int record(Subscriber &recorder) {
  int next = 0;
  while (auto frame = recorder.blocking_receive().expect("a frame")) {
    if ((*frame)->number != next)
      return next;
    next++;
  }
  return next;
}

int main() {
  constexpr int frames = 100;
  auto config = iox2ps::Config<Frame>(7).enable_safe_overflow(false).subscriber_max_buffer_size(8);
  auto domain = iox2ps::SharedDomain<Frame>::create(config).expect("a domain");
  auto recorder = domain.subscriber().expect("a recorder");
  auto display = domain.subscriber(iox2ps::SubscriberOptions().buffer_size(1)).expect("a display");
  auto camera = domain.publisher().expect("a camera");
  int recorded = 0;
  std::thread shows([&] { show(display); });
  std::thread records([&] { recorded = record(recorder); });
  for (int number = 0; number < frames; number++) {
    (void)camera.blocking_send_copy({number}).expect("a send");
    std::this_thread::sleep_for(1ms);
  }
  domain.stop_waits();
  shows.join();
  records.join();
  std::printf("recorded %d of %d frames\n", recorded, frames);
  return recorded == frames ? 0 : 1;
}
