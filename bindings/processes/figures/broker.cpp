// SPDX-License-Identifier: Apache-2.0 OR MIT
/* iceoryx' broker RouDi with room for so many messages of so many bytes, until it is ended: broker BYTES MESSAGES. It says when it is ready. */
#include <csignal>
#include <cstdio>
#include <cstdlib>
#include <iceoryx_posh/iceoryx_posh_types.hpp>
#include <iceoryx_posh/internal/roudi/roudi.hpp>
#include <iceoryx_posh/roudi/iceoryx_roudi_components.hpp>

int main(int count, char **words) {
  if (count != 3) return 2;
  sigset_t ends;
  sigemptyset(&ends);
  sigaddset(&ends, SIGTERM);
  sigprocmask(SIG_BLOCK, &ends, nullptr);
  iox::mepoo::MePooConfig pools;
  pools.addMemPool({static_cast<std::uint32_t>((std::strtoul(words[1], nullptr, 10) + 64 + 63) / 64 * 64), static_cast<std::uint32_t>(std::atoi(words[2]))});
  const auto group = iox::posix::PosixGroup::getGroupOfCurrentProcess().getName();
  iox::RouDiConfig_t config;
  config.m_sharedMemorySegments.push_back({group, group, pools});
  iox::roudi::IceOryxRouDiComponents components(config);
  iox::roudi::RouDi broker(components.rouDiMemoryManager, components.portManager, iox::roudi::RouDi::RoudiStartupParameters{iox::roudi::MonitoringMode::OFF, false});
  std::puts("ready");
  std::fflush(stdout);
  int which;
  sigwait(&ends, &which);
}
