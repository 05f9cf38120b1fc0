// SPDX-License-Identifier: Apache-2.0 OR MIT
#include "participant.hpp"

#include "frame_type.hpp"

#include <cstdlib>
#include <map>

namespace iox2ps::dds::detail {

namespace {

std::mutex all_mutex;
std::map<std::uint32_t, std::weak_ptr<Participant>> all;

/* What Cyclone DDS is told: how long a message may be that it reads, and that it may put as many of a long message's pieces into
 * one datagram as there is room for, which takes half the processor time that its own 14,720 bytes do. The pieces stay as short
 * as they are, and those that are lost are sent again one by one. The user's own settings, which come last, hold where they say
 * something else. */
std::string configuration(std::size_t max_message_size) {
  std::string bytes = std::to_string(max_message_size + frame_head);
  std::string ours = "<CycloneDDS><Domain Id='any'><General><MaxMessageSize>65500B</MaxMessageSize></General><Internal>"
                     "<MaxSampleSize>" + bytes + "B</MaxSampleSize></Internal></Domain></CycloneDDS>";
  const char *theirs = std::getenv("CYCLONEDDS_URI");
  return theirs && *theirs ? ours + "," + theirs : ours;
}

} // namespace

std::shared_ptr<Participant> Participant::of(std::uint32_t dds_domain, std::size_t max_message_size, std::string &why) {
  constexpr std::size_t least = std::size_t{1} << 20, most = 0x7fffffff - frame_head;
  if (max_message_size > most) {
    why = "a message of DDS has less than 2 GiB";
    return nullptr;
  }
  std::lock_guard<std::mutex> lock(all_mutex);
  std::shared_ptr<Participant> there = all[dds_domain].lock();
  if (there) return there;
  std::shared_ptr<Participant> made(new Participant);
  made->max_message_size_ = max_message_size > least ? max_message_size : least;
  if (!made->open(dds_domain, why)) return nullptr;
  all[dds_domain] = made;
  return made;
}

bool Participant::open(std::uint32_t dds_domain, std::string &why) {
  domain_ = dds_create_domain(dds_domain, configuration(max_message_size_).c_str());
  if (domain_ == DDS_RETCODE_PRECONDITION_NOT_MET) domain_ = 0; // the program has made it, with settings of its own
  entity_ = domain_ < 0 ? domain_ : dds_create_participant(dds_domain, nullptr, nullptr);
  if (entity_ > 0) {
    deleter_ = std::thread([this] { delete_all(); });
    return true;
  }
  why = "participant in the DDS domain " + std::to_string(dds_domain) + ": " + dds_strretcode(entity_);
  return false;
}

/* The domain goes with its last participant: the program may have some of its own in it. */
Participant::~Participant() {
  {
    std::lock_guard<std::mutex> lock(mutex_);
    ends_ = true;
  }
  changed_.notify_all();
  if (deleter_.joinable()) deleter_.join();
  std::lock_guard<std::mutex> lock(all_mutex);
  if (entity_ > 0) dds_delete(entity_);
  if (domain_ > 0 && dds_get_children(domain_, nullptr, 0) <= 0) dds_delete(domain_);
}

bool Participant::take_topic(const std::string &name) {
  std::lock_guard<std::mutex> lock(mutex_);
  return topics_.insert(name).second;
}

void Participant::give_back_topic(const std::string &name) {
  std::lock_guard<std::mutex> lock(mutex_);
  topics_.erase(name);
}

void Participant::delete_later(std::function<void()> deletion) {
  std::lock_guard<std::mutex> lock(mutex_);
  deletions_.push_back(std::move(deletion));
  changed_.notify_all();
}

void Participant::delete_all() {
  std::unique_lock<std::mutex> lock(mutex_);
  for (;;) {
    changed_.wait(lock, [this] { return ends_ || !deletions_.empty(); });
    if (deletions_.empty()) return;
    std::function<void()> deletion = std::move(deletions_.front());
    deletions_.pop_front();
    lock.unlock();
    deletion();
    deletion = nullptr; // which may delete too
    lock.lock();
  }
}

dds_entity_t Participant::list(dds_entity_t &place, dds_entity_t topic) {
  std::lock_guard<std::mutex> lock(mutex_);
  if (place == 0) place = dds_create_reader(entity_, topic, nullptr, nullptr);
  return place;
}

dds_entity_t Participant::writers() { return list(writers_, DDS_BUILTIN_TOPIC_DCPSPUBLICATION); }
dds_entity_t Participant::readers() { return list(readers_, DDS_BUILTIN_TOPIC_DCPSSUBSCRIPTION); }

} // namespace iox2ps::dds::detail
