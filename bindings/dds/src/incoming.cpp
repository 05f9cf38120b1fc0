// SPDX-License-Identifier: Apache-2.0 OR MIT
#include "incoming.hpp"

#include <cstring>

namespace iox2ps::dds::detail {

namespace {

/* What the end of a blocked send brings, and each subscriber that it reaches on its way. */
constexpr std::uint32_t ended = IOX2PS_DDS_MESSAGE | IOX2PS_DDS_FREE | IOX2PS_DDS_LOAN;

} // namespace

/* A send that waits is given up at each subscriber that is full. */
Incoming::~Incoming() {
  std::uint32_t code = is_blocked_ ? IOX2PS_BLOCKED : IOX2PS_OK;
  std::size_t count = 0;
  while (code == IOX2PS_BLOCKED) {
    code = caller_.call(ended, [&](iox2ps_domain_t *domain) { return iox2ps_blocked_give_up(domain, &blocked_, &count); });
  }
}

void Incoming::forward(iox2ps_dds_forwarded_t &now, std::size_t most) {
  for (std::size_t taken = 0; !is_blocked_ && taken < most; taken++) {
    Taken one;
    Take took = topic_.take(one);
    if (took == Take::Failed) {
      counts_.take_failed.add();
      counts_.last_dds_code = topic_.last_code();
    }
    if (took != Take::One) return;
    pass(one, now);
  }
}

bool Incoming::fits(const Taken &taken, iox2ps_dds_forwarded_t &now) {
  const Frame &frame = taken.frame;
  std::size_t most = type_.is_slice ? publisher_.initial_max_slice_len : type_.size;
  bool is_whole = frame.len % type_.size == 0 && frame.len / type_.size == frame.elements;
  if (!taken.is_of_type) drop(counts_.other_type, now);
  else if (!taken.is_frame) drop(counts_.malformed, now);
  else if (frame.len > most) drop(counts_.too_long, now);
  else if (!is_whole || (!type_.is_slice && frame.elements != 1)) drop(counts_.other_size, now);
  else return true;
  return false;
}

void Incoming::pass(const Taken &taken, iox2ps_dds_forwarded_t &now) {
  if (!fits(taken, now)) return;
  counts_.missed.add(taken.missed);
  const Frame &frame = taken.frame;
  iox2ps_loan_t loan;
  void *place = nullptr;
  std::uint32_t code = caller_.ask([&](iox2ps_domain_t *domain) {
    return iox2ps_publisher_loan_uninit(domain, &publisher_, frame.len, &loan, &place);
  });
  if (code != IOX2PS_OK) return drop(counts_.no_loan, now);
  if (frame.len > 0) std::memcpy(place, frame.bytes, frame.len);
  origins_.set(loan, {frame.node, frame.publisher});
  std::size_t receivers = 0;
  code = caller_.call(IOX2PS_DDS_MESSAGE | IOX2PS_DDS_LOAN, [&](iox2ps_domain_t *domain) {
    return iox2ps_loan_send(domain, &loan, &receivers, &blocked_);
  });
  since_ = std::chrono::steady_clock::now();
  is_blocked_ = code == IOX2PS_BLOCKED;
  if (!is_blocked_) end(code, now);
}

void Incoming::end(std::uint32_t code, iox2ps_dds_forwarded_t &now) {
  if (code != IOX2PS_OK) return drop(counts_.not_sent, now);
  counts_.received.add();
  now.received++;
}

std::uint32_t Incoming::retried(iox2ps_domain_t *domain) {
  std::size_t receivers = 0;
  auto elapsed = std::chrono::duration_cast<Nanoseconds>(std::chrono::steady_clock::now() - since_);
  return iox2ps_blocked_retry(domain, &blocked_, static_cast<std::uint64_t>(elapsed.count()), &receivers);
}

bool Incoming::retry(iox2ps_dds_forwarded_t &now) {
  std::uint32_t code = caller_.call(ended, [&](iox2ps_domain_t *domain) { return retried(domain); });
  if (code == IOX2PS_BLOCKED) return false;
  is_blocked_ = false;
  end(code, now);
  return true;
}

void Incoming::wait(iox2ps_dds_forwarded_t &now, Nanoseconds timeout, const std::atomic<bool> &stops) {
  std::uint32_t code = IOX2PS_BLOCKED;
  caller_.wait(IOX2PS_DDS_ROOM, publisher_.id, ended, static_cast<std::uint64_t>(timeout.count()),
               [&](iox2ps_domain_t *domain) {
                 if (stops) return static_cast<std::uint32_t>(IOX2PS_OK);
                 return code = retried(domain);
               });
  if (code == IOX2PS_BLOCKED) return;
  is_blocked_ = false;
  end(code, now);
}

} // namespace iox2ps::dds::detail
