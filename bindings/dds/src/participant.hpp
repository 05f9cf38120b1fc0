// SPDX-License-Identifier: Apache-2.0 OR MIT
/* A process's participant in one DDS domain, which all gateways of that domain share. */
#ifndef IOX2_PUBSUB_DDS_PARTICIPANT_HPP
#define IOX2_PUBSUB_DDS_PARTICIPANT_HPP

#include <condition_variable>
#include <cstddef>
#include <cstdint>
#include <dds/dds.h>
#include <deque>
#include <functional>
#include <memory>
#include <mutex>
#include <set>
#include <string>
#include <thread>

namespace iox2ps::dds::detail {

class Participant {
public:
  /* The one that there is, or a new one. */
  static std::shared_ptr<Participant> of(std::uint32_t dds_domain, std::size_t max_message_size, std::string &why);
  ~Participant();
  Participant(const Participant &) = delete;
  Participant &operator=(const Participant &) = delete;

  dds_entity_t entity() const { return entity_; }

  /* How long a message may be. */
  std::size_t max_message_size() const { return max_message_size_; }

  /* Whether no gateway has the topic yet, which is then taken until it is given back. */
  bool take_topic(const std::string &name);
  void give_back_topic(const std::string &name);

  /* Makes a deletion on a thread of its own, and returns at once. A deletion in DDS waits for threads that deliver, and these
   * wait for readers that are full, which the caller's thread alone may empty. */
  void delete_later(std::function<void()> deletion);

  /* Readers of all known writers and readers, which stay. */
  dds_entity_t writers();
  dds_entity_t readers();

private:
  Participant() = default;
  bool open(std::uint32_t dds_domain, std::string &why);
  void delete_all();
  dds_entity_t list(dds_entity_t &place, dds_entity_t topic);

  dds_entity_t domain_ = 0, entity_ = 0, writers_ = 0, readers_ = 0;
  std::size_t max_message_size_ = 0;
  std::mutex mutex_;
  std::condition_variable changed_;
  std::set<std::string> topics_;
  std::deque<std::function<void()>> deletions_;
  std::thread deleter_;
  bool ends_ = false;
};

} // namespace iox2ps::dds::detail

#endif
