// SPDX-License-Identifier: Apache-2.0 OR MIT
/* A camera in C++, which Python loads: it has a domain that both use. Each frame says where it was written, so that who reads it sees
 * whether it still lies there. */
#define PY_SSIZE_T_CLEAN
#include <Python.h>

#include "iox2_pubsub_shared.hpp"

#include <optional>

struct Frame {
  std::uint64_t place, number;
};

using Domain = iox2ps::SharedDomain<Frame>;

namespace {

struct Camera {
  Domain domain;
  iox2ps::Publisher<Frame, iox2ps::ManyThreads> publisher;
  std::optional<iox2ps::Subscriber<Frame, iox2ps::ManyThreads>> subscriber;
};

std::optional<Camera> camera;

} // namespace

/* Called with the GIL: a capsule for Domain.join. */
extern "C" PyObject *camera_open(std::size_t buffer, std::size_t history) {
  iox2ps::Config<Frame> config(7);
  config.enable_safe_overflow(false).subscriber_max_buffer_size(buffer).history_size(history);
  auto domain = Domain::create(config).expect("a domain");
  auto publisher = domain.publisher().expect("a publisher");
  camera.emplace(Camera{domain, std::move(publisher), std::nullopt});
  return iox2ps_shared_domain_capsule(domain.share().expect("a share").get());
}

/* All others are called without it. */
extern "C" void camera_subscribe() { camera->subscriber = camera->domain.subscriber().expect("a subscriber"); }
extern "C" void camera_close() { camera.reset(); }
extern "C" void camera_stop_waits(int stopped) { camera->domain.stop_waits(stopped != 0); }
extern "C" int camera_waits_are_stopped() { return camera->domain.waits_are_stopped() ? 1 : 0; }

/* Sends frames with the numbers from first on, and waits for room. How many weren't sent. */
extern "C" std::uint64_t camera_send(std::uint64_t first, std::uint64_t count) {
  for (std::uint64_t number = first; number < first + count; number++) {
    auto loan = camera->publisher.blocking_loan_uninit().expect("a loan");
    *loan = Frame{reinterpret_cast<std::uint64_t>(&*loan), number};
    if (!std::move(loan).blocking_send().expect("a send").delivered()) return first + count - number;
  }
  return 0;
}

/* Waits for frames with these numbers. How many it didn't get, or that were copied on their way. */
extern "C" std::uint64_t camera_receive(std::uint64_t first, std::uint64_t count) {
  std::uint64_t missed = 0;
  for (std::uint64_t number = first; number < first + count; number++) {
    auto sample = camera->subscriber->blocking_receive().expect("a receive");
    if (!sample) return missed + first + count - number;
    if ((*sample)->number != number || (*sample)->place != reinterpret_cast<std::uint64_t>(&**sample)) missed++;
  }
  return missed;
}
