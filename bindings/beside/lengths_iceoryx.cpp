// SPDX-License-Identifier: Apache-2.0 OR MIT
/* lengths.h by iceoryx 2.0.3 and its C binding, with its broker RouDi in the same process. */
#include "lengths.h"

#include <chrono>
#include <cstring>
#include <iceoryx_posh/iceoryx_posh_types.hpp>
#include <iceoryx_posh/internal/roudi/roudi.hpp>
#include <iceoryx_posh/roudi/iceoryx_roudi_components.hpp>
#include <iceoryx_posh/runtime/posh_runtime_single_process.hpp>
#include <memory>
#include <thread>

extern "C" {
#include <iceoryx_binding_c/api.h> // which doesn't say so itself
}

namespace {

/* Room for some messages of this length, and for nothing else. */
iox::RouDiConfig_t config_of(std::uint32_t len) {
  iox::mepoo::MePooConfig pools;
  pools.addMemPool({(len + 64 + 63) / 64 * 64, 8});
  const auto group = iox::posix::PosixGroup::getGroupOfCurrentProcess().getName();
  iox::RouDiConfig_t config;
  config.m_sharedMemorySegments.push_back({group, group, pools});
  return config;
}

struct World {
  explicit World(std::uint32_t len)
      : components(config_of(len)), broker(components.rouDiMemoryManager, components.portManager,
                                           iox::roudi::RouDi::RoudiStartupParameters{iox::roudi::MonitoringMode::OFF, false}),
        runtime("lengths"), length(len) {}

  iox::roudi::IceOryxRouDiComponents components;
  iox::roudi::RouDi broker;
  iox::runtime::PoshRuntimeSingleProcess runtime;
  std::uint32_t length;
  iox_pub_storage_t publisher_place{};
  iox_sub_storage_t subscriber_place{};
  iox_pub_t publisher = nullptr;
  iox_sub_t subscriber = nullptr;
};

std::unique_ptr<World> world;

bool connected() {
  for (int tries = 0; tries < 1000; tries++) {
    if (iox_sub_get_subscription_state(world->subscriber) == SubscribeState_SUBSCRIBED) return true;
    std::this_thread::sleep_for(std::chrono::milliseconds(10));
  }
  return false;
}

} // namespace

int begin(size_t len) {
  iox_set_loglevel(Iceoryx_LogLevel_Error);
  world = std::make_unique<World>(static_cast<std::uint32_t>(len));
  world->publisher = iox_pub_init(&world->publisher_place, "lengths", "bytes", "word", nullptr);
  world->subscriber = iox_sub_init(&world->subscriber_place, "lengths", "bytes", "word", nullptr);
  return connected();
}

int pass(uint64_t word) {
  void *bytes = nullptr;
  const void *received = nullptr;
  if (iox_pub_loan_chunk(world->publisher, &bytes, world->length) != AllocationResult_SUCCESS) return 0;
  std::memcpy(bytes, &word, sizeof word);
  iox_pub_publish_chunk(world->publisher, bytes);
  if (iox_sub_take_chunk(world->subscriber, &received) != ChunkReceiveResult_SUCCESS) return 0;
  uint64_t read = 0;
  std::memcpy(&read, received, sizeof read);
  iox_sub_release_chunk(world->subscriber, received);
  return read == word;
}

int end(void) {
  iox_sub_deinit(world->subscriber);
  iox_pub_deinit(world->publisher);
  world.reset();
  return 1;
}
