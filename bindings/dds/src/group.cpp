// SPDX-License-Identifier: Apache-2.0 OR MIT
#include "gateway.hpp"

#include <algorithm>

namespace iox2ps::dds::detail {

std::shared_ptr<Group> Group::open(std::uint32_t dds_domain, std::size_t max_message_size, std::string &why) {
  std::shared_ptr<Group> group(new Group);
  group->participant_ = Participant::of(dds_domain, max_message_size, why);
  return group->participant_ && group->make(why) ? group : nullptr;
}

bool Group::make(std::string &why) {
  guard_ = dds_create_guardcondition(participant_->entity());
  waitset_ = dds_create_waitset(participant_->entity());
  if (guard_ > 0 && waitset_ > 0 && dds_waitset_attach(waitset_, guard_, 0) == DDS_RETCODE_OK) return true;
  why = "a waitset was refused";
  return false;
}

Group::~Group() {
  dds_entity_t guard = guard_, waitset = waitset_;
  if (participant_) participant_->delete_later([guard, waitset] {
    if (waitset > 0) dds_delete(waitset);
    if (guard > 0) dds_delete(guard);
  });
}

void Group::attach(Gateway &gateway) { dds_waitset_attach(waitset_, gateway.condition(), 0); }
void Group::detach(Gateway &gateway) { dds_waitset_detach(waitset_, gateway.condition()); }

void Group::add(Gateway &gateway) {
  gateways_.push_back(&gateway);
  attach(gateway);
}

void Group::remove(Gateway &gateway) {
  detach(gateway);
  gateways_.erase(std::remove(gateways_.begin(), gateways_.end(), &gateway), gateways_.end());
}

iox2ps_dds_forwarded_t Group::forward(std::size_t most) {
  iox2ps_dds_forwarded_t now{};
  for (Gateway *gateway : gateways_)
    if (!gateway->has_threads()) gateway->forward(now, most);
  return now;
}

Gateway *Group::first_held() {
  for (Gateway *gateway : gateways_)
    if (!gateway->has_threads() && gateway->held() > 0) return gateway;
  return nullptr;
}

void wait_at(dds_entity_t waitset, dds_entity_t guard, Nanoseconds timeout) {
  dds_attach_t which[2];
  bool woken = false;
  if (dds_waitset_wait(waitset, which, 2, timeout.count()) > 0) dds_take_guardcondition(guard, &woken);
}

/* No condition of DDS says that a writer has room again, so that a wait for it is short, and the topics are looked at. */
iox2ps_dds_forwarded_t Group::wait(Nanoseconds timeout, std::size_t most) {
  iox2ps_dds_forwarded_t now = forward(most);
  if (now.sent + now.received + now.dropped > 0 || now.blocked > 0) return now;
  Gateway *held = first_held();
  if (held) held->topic().wait_for_room(std::min<Nanoseconds>(timeout, std::chrono::milliseconds(1)));
  else wait_at(waitset_, guard_, timeout);
  return forward(most);
}

Flushed Group::flush(Nanoseconds timeout) {
  auto end = std::chrono::steady_clock::now() + timeout;
  auto rest = [&] { return std::max<Nanoseconds>(end - std::chrono::steady_clock::now(), Nanoseconds(0)); };
  auto is_done = [](Gateway *gateway) { return gateway->is_done(); };
  while (forward(1024).sent > 0 || !std::all_of(gateways_.begin(), gateways_.end(), is_done)) {
    if (rest() == Nanoseconds(0)) return Flushed::TimedOut;
    Gateway *held = first_held();
    if (held) held->topic().wait_for_room(std::chrono::milliseconds(1));
    else dds_sleepfor(DDS_MSECS(1));
  }
  auto has_room = [&](Gateway *gateway) { return gateway->topic().wait_for_room(rest()); };
  if (!std::all_of(gateways_.begin(), gateways_.end(), has_room)) return Flushed::TimedOut;
  auto lacks_peer = [](const Gateway *gateway) { return gateway->lacks_peer(); };
  return std::any_of(gateways_.begin(), gateways_.end(), lacks_peer) ? Flushed::NoPeer : Flushed::All;
}

} // namespace iox2ps::dds::detail
