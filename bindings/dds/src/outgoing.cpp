// SPDX-License-Identifier: Apache-2.0 OR MIT
#include "outgoing.hpp"

namespace iox2ps::dds::detail {

Outgoing::~Outgoing() {
  for (const Held &one : held_) release(one.sample);
}

std::uint32_t Outgoing::receive(iox2ps_domain_t *domain, Held &got) {
  std::uint32_t code = iox2ps_subscriber_receive(domain, &subscriber_, &got.sample, &got.bytes, &got.len);
  if (code == IOX2PS_OK) has_some_ = true;
  return code;
}

void Outgoing::release(const iox2ps_sample_t &sample) {
  caller_.call(IOX2PS_DDS_LOAN, [&](iox2ps_domain_t *domain) { return iox2ps_sample_release(domain, &sample); });
}

void Outgoing::take(const Held &got) {
  if (!same(got.sample.origin, publisher_)) return held_.push_back(got);
  counts_.own.add();
  release(got.sample);
}

void Outgoing::forward(iox2ps_dds_forwarded_t &now, std::size_t most) {
  bool full = !write_held(now);
  for (std::size_t before = now.sent; now.sent - before < most;) {
    Held got;
    std::uint32_t code = caller_.call(IOX2PS_DDS_ROOM, [&](iox2ps_domain_t *domain) { return receive(domain, got); });
    if (code != IOX2PS_OK) {
      if (code != IOX2PS_NO_SAMPLE && code != IOX2PS_RECEIVE_ERROR_EXCEEDS_MAX_BORROWS) counts_.receive_failed.add();
      break;
    }
    take(got);
    if (!full) full = !write_held(now);
  }
  if (held() == 0) has_some_ = false;
}

bool Outgoing::wait(iox2ps_dds_forwarded_t &now, Nanoseconds timeout, const std::atomic<bool> &stops) {
  Held got;
  bool has_got = false;
  caller_.wait(IOX2PS_DDS_MESSAGE, subscriber_.id, IOX2PS_DDS_ROOM, static_cast<std::uint64_t>(timeout.count()),
               [&](iox2ps_domain_t *domain) {
                 if (stops) return static_cast<std::uint32_t>(IOX2PS_OK);
                 std::uint32_t code = receive(domain, got);
                 has_got = code == IOX2PS_OK;
                 return code;
               });
  if (has_got) take(got);
  forward(now, 1024);
  return has_got;
}

/* The message's bytes are in the frame then, and the domain has its slot back. */
bool Outgoing::begin_next(iox2ps_dds_forwarded_t &now) {
  Held next = held_.front();
  held_.pop_front();
  Write begun = topic_.begin(next.sample.origin, next.len / element_size_, next.bytes, next.len);
  release(next.sample);
  if (begun == Write::Ok) return true;
  fail(now);
  return false;
}

void Outgoing::fail(iox2ps_dds_forwarded_t &now) {
  counts_.write_failed.add();
  counts_.last_dds_code = topic_.last_code();
  now.dropped++;
}

/* Whether all is written. */
bool Outgoing::write_held(iox2ps_dds_forwarded_t &now) {
  while (held() > 0) {
    if (!topic_.has_begun() && !begin_next(now)) continue;
    Write written = topic_.write();
    if (written == Write::Full) return false;
    if (written == Write::Failed) {
      fail(now);
      continue;
    }
    now.sent++;
    counts_.sent.add();
  }
  return true;
}

/* The domain is asked first: what it doesn't have any more was received before. */
bool Outgoing::is_done() const {
  std::uint32_t waits = 0;
  caller_.ask([&](iox2ps_domain_t *domain) { return iox2ps_subscriber_has_samples(domain, &subscriber_, &waits); });
  return waits == 0 && !has_some_;
}

} // namespace iox2ps::dds::detail
