// SPDX-License-Identifier: Apache-2.0 OR MIT
/* The side of DDS: a writer and a reader of one topic. */
#ifndef IOX2_PUBSUB_DDS_TOPIC_HPP
#define IOX2_PUBSUB_DDS_TOPIC_HPP

#include "frame_type.hpp"
#include "iox2_pubsub_dds.h"
#include "participant.hpp"

#include <atomic>
#include <chrono>
#include <map>

namespace iox2ps::dds::detail {

using Nanoseconds = std::chrono::nanoseconds;

/* The bytes of one value, as both sides have to have them. */
struct ValueType {
  std::size_t size, alignment;
  bool is_slice;
  std::string name;
  std::string text() const;
};

/* A frame that was taken. Its bytes lie there as long as this. */
class Taken {
public:
  Taken() = default;
  Taken(const Taken &) = delete;
  Taken &operator=(const Taken &) = delete;
  ~Taken() { let_go(data_); }
  void hold(ddsi_serdata *data) {
    let_go(data_);
    data_ = data;
  }
  Frame frame;
  bool is_frame = false, is_of_type = false;
  std::uint64_t missed = 0; // how many frames of its writer before it never came

private:
  ddsi_serdata *data_ = nullptr;
};

enum class Take { None, One, Failed };
enum class Write { Ok, Full, Failed };

class Topic {
public:
  static std::unique_ptr<Topic> open(std::shared_ptr<Participant> participant, const iox2ps_dds_settings_t &settings,
                                     const iox2ps_config_t &domain, const ValueType &type, std::string &why);
  ~Topic();
  Topic(const Topic &) = delete;
  Topic &operator=(const Topic &) = delete;

  const std::string &name() const { return name_; }
  dds_entity_t condition() const { return ends_->condition; }
  std::int64_t last_code() const { return last_code_; }

  /* Serialises the message, which is the next to be written. There is none yet. */
  Write begin(iox2ps_wide_t publisher, std::size_t elements, const void *bytes, std::size_t len);
  bool has_begun() const { return next_ != nullptr; }
  Write write();
  void flush() { dds_write_flush(ends_->writer); }

  Take take(Taken &taken);
  bool wait_for_room(Nanoseconds timeout);
  /* Whether a reader that takes these messages was met: of the same type, or of another program, which says none. */
  bool has_met_reader() const { return ends_->has_met_reader; }
  iox2ps_dds_peers_t peers();

private:
  /* What DDS has of this topic, and what its threads look at, until they have all been deleted. */
  struct Ends {
    dds_entity_t written_topic = 0, read_topic = 0, writer = 0, reader = 0, condition = 0;
    std::atomic<bool> closes{false};
    std::string type;                                // what a writer of the same says
    bool only_known = false;
    std::mutex mutex;
    std::map<dds_instance_handle_t, bool> is_of_type; // of each writer that was met
    std::atomic<bool> has_met_reader{false};
    ~Ends();
    /* Looks at the type of a reader that the writer meets. */
    void meet_reader(dds_entity_t by, dds_instance_handle_t of);
    /* Looks at the type of a writer that the reader meets, and says whether it is the same. */
    bool meet(dds_entity_t by, dds_instance_handle_t from);
  };

  Topic() : ends_(std::make_shared<Ends>()) {}
  bool make(const iox2ps_dds_settings_t &settings, const iox2ps_config_t &domain, std::string &why);
  bool make_topics(std::string &why);
  bool make_ends(const iox2ps_dds_settings_t &settings, const iox2ps_config_t &domain, std::string &why);
  bool made(dds_entity_t entity, dds_entity_t &place, const char *what, std::string &why);
  void look_for_types(dds_entity_t list, iox2ps_dds_peers_t &peers) const;
  std::uint64_t count_missed(dds_instance_handle_t from, std::uint64_t number);

  std::shared_ptr<Participant> participant_;
  std::shared_ptr<Ends> ends_;
  std::string name_;
  iox2ps_wide_t node_{};
  const ddsi_sertype *type_ = nullptr;
  ddsi_serdata *next_ = nullptr;
  bool full_ = false; // the writer had no room for it
  std::uint64_t number_ = 0;
  std::atomic<std::int64_t> last_code_{0};
  dds_instance_handle_t last_writer_ = 0; // whose frame was taken last, and what is known of it
  bool last_is_of_type_ = false;
  std::uint64_t *last_number_ = nullptr;
  std::map<dds_instance_handle_t, std::uint64_t> numbers_; // what each writer's last frame was numbered
};

} // namespace iox2ps::dds::detail

#endif
