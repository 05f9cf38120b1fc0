// SPDX-License-Identifier: Apache-2.0 OR MIT
#include "topic.hpp"

#include "quality.hpp"

#include <cstdio>
#include <cstring>
#include <dds/ddsi/ddsi_sertype.h>

namespace iox2ps::dds::detail {

namespace {

std::string default_name(const iox2ps_wide_t &service) {
  char digits[64];
  std::snprintf(digits, sizeof digits, "iox2/%016llx%016llx", static_cast<unsigned long long>(service.high),
                static_cast<unsigned long long>(service.low));
  return digits;
}

/* Whether the reader still takes samples: arg is whether it closes. */
bool accepts(const dds_sample_info_t *, void *arg) { return !static_cast<std::atomic<bool> *>(arg)->load(); }

/* What an endpoint's program says of its type, or nothing. */
std::string type_of(const dds_builtintopic_endpoint_t *endpoint) {
  void *bytes = nullptr;
  std::size_t len = 0;
  std::string text;
  if (endpoint && dds_qget_userdata(endpoint->qos, &bytes, &len) && bytes) text.assign(static_cast<char *>(bytes), len);
  dds_free(bytes);
  return text.compare(0, 7, "iox2ps:") == 0 ? text : std::string();
}

} // namespace

std::string ValueType::text() const {
  return "iox2ps:1;size=" + std::to_string(size) + ";alignment=" + std::to_string(alignment) +
         ";slice=" + (is_slice ? "1" : "0") + ";order=little;name=" + name;
}

/* ---- what DDS has */

Topic::Ends::~Ends() {
  for (dds_entity_t entity : {condition, reader, writer, read_topic, written_topic})
    if (entity > 0) dds_delete(entity);
}

bool Topic::Ends::meet(dds_entity_t by, dds_instance_handle_t from) {
  dds_builtintopic_endpoint_t *endpoint = dds_get_matched_publication_data(by, from);
  std::string its = type_of(endpoint);
  if (endpoint) dds_builtintopic_free_endpoint(endpoint);
  bool same = its.empty() ? !only_known : its == type;
  std::lock_guard<std::mutex> lock(mutex);
  if (is_of_type.size() > 4096) is_of_type.clear(); // writers come and go
  return is_of_type[from] = same;
}

void Topic::Ends::meet_reader(dds_entity_t by, dds_instance_handle_t of) {
  dds_builtintopic_endpoint_t *endpoint = dds_get_matched_subscription_data(by, of);
  std::string its = type_of(endpoint);
  if (endpoint) dds_builtintopic_free_endpoint(endpoint);
  if (its.empty() || its == type) has_met_reader = true;
}

bool Topic::made(dds_entity_t entity, dds_entity_t &place, const char *what, std::string &why) {
  place = entity;
  if (entity > 0) return true;
  why = std::string(what) + " of " + name_ + ": " + dds_strretcode(entity);
  return false;
}

/* Two topic entities: one that is written may have no filter. */
bool Topic::make_topics(std::string &why) {
  ddsi_sertype *written = new_frame_type();
  if (!made(dds_create_topic_sertype(participant_->entity(), name_.c_str(), &written, nullptr, nullptr, nullptr),
            ends_->written_topic, "topic", why)) {
    ddsi_sertype_unref(written);
    return false;
  }
  type_ = written;
  ddsi_sertype *read = new_frame_type();
  if (!made(dds_create_topic_sertype(participant_->entity(), name_.c_str(), &read, nullptr, nullptr, nullptr),
            ends_->read_topic, "topic", why)) {
    ddsi_sertype_unref(read);
    return false;
  }
  dds_topic_filter filter{};
  filter.mode = DDS_TOPIC_FILTER_SAMPLEINFO_ARG;
  filter.f.sampleinfo_arg = accepts;
  filter.arg = &ends_->closes;
  if (dds_set_topic_filter_extended(ends_->read_topic, &filter) == DDS_RETCODE_OK) return true;
  why = "filter of " + name_;
  return false;
}

bool Topic::make_ends(const iox2ps_dds_settings_t &settings, const iox2ps_config_t &domain, std::string &why) {
  dds_qos_t *out = quality_of(settings, domain, false), *in = quality_of(settings, domain, true);
  dds_qset_userdata(out, ends_->type.data(), ends_->type.size());
  dds_qset_userdata(in, ends_->type.data(), ends_->type.size());
  /* A writer is looked at when it is met: when its frames are taken it may be gone. */
  dds_listener_t *listener = dds_create_listener(ends_.get());
  dds_lset_subscription_matched(listener, [](dds_entity_t reader, dds_subscription_matched_status_t status, void *arg) {
    if (status.current_count_change > 0) static_cast<Ends *>(arg)->meet(reader, status.last_publication_handle);
  });
  dds_lset_publication_matched(listener, [](dds_entity_t writer, dds_publication_matched_status_t status, void *arg) {
    if (status.current_count_change > 0) static_cast<Ends *>(arg)->meet_reader(writer, status.last_subscription_handle);
  });
  bool both = made(dds_create_reader(participant_->entity(), ends_->read_topic, in, listener), ends_->reader, "reader", why) &&
              made(dds_create_writer(participant_->entity(), ends_->written_topic, out, listener), ends_->writer, "writer", why);
  dds_delete_listener(listener);
  dds_delete_qos(out);
  dds_delete_qos(in);
  return both && made(dds_create_readcondition(ends_->reader, DDS_ANY_STATE), ends_->condition, "condition", why);
}

/* The node of the frames is the domain's, or the participant's GUID where the domain names none. */
bool Topic::make(const iox2ps_dds_settings_t &settings, const iox2ps_config_t &domain, std::string &why) {
  if (!make_topics(why) || !make_ends(settings, domain, why)) return false;
  node_ = domain.node_id;
  dds_guid_t guid;
  if (node_.low == 0 && node_.high == 0 && dds_get_guid(participant_->entity(), &guid) == DDS_RETCODE_OK)
    std::memcpy(&node_, guid.v, sizeof node_);
  return true;
}

std::unique_ptr<Topic> Topic::open(std::shared_ptr<Participant> participant, const iox2ps_dds_settings_t &settings,
                                   const iox2ps_config_t &domain, const ValueType &type, std::string &why) {
  std::string name = settings.topic && *settings.topic ? settings.topic : default_name(domain.service_id);
  if (!participant->take_topic(name)) {
    why = "this process has a gateway for the topic " + name;
    return nullptr;
  }
  std::unique_ptr<Topic> topic(new Topic);
  topic->participant_ = std::move(participant);
  topic->name_ = name;
  topic->ends_->type = type.text();
  topic->ends_->only_known = settings.only_known != 0;
  return topic->make(settings, domain, why) ? std::move(topic) : nullptr;
}

/* A thread of DDS that can't deliver to a full reader tries until it can. So the reader first takes nothing more, and is
 * emptied; then it may be deleted. */
Topic::~Topic() {
  let_go(next_);
  ends_->closes = true;
  Taken taken;
  while (ends_->reader > 0 && take(taken) == Take::One) {}
  participant_->give_back_topic(name_);
  participant_->delete_later([ends = std::move(ends_)]() mutable { ends.reset(); }); // nobody else has them
}

/* ---- out */

Write Topic::begin(iox2ps_wide_t publisher, std::size_t elements, const void *bytes, std::size_t len) {
  if (len > participant_->max_message_size() || elements > 0xffffffffu) {
    last_code_ = DDS_RETCODE_BAD_PARAMETER;
    return Write::Failed;
  }
  Frame frame;
  frame.node = node_;
  frame.publisher = publisher;
  frame.number = number_ + 1;
  frame.elements = static_cast<std::uint32_t>(elements);
  frame.bytes = static_cast<const std::uint8_t *>(bytes);
  frame.len = len;
  next_ = frame_of(type_, frame);
  if (next_) return Write::Ok;
  last_code_ = DDS_RETCODE_OUT_OF_RESOURCES;
  return Write::Failed;
}

/* A writer that had no room has some when all it has written arrived. */
Write Topic::write() {
  if (full_ && dds_wait_for_acks(ends_->writer, 0) == DDS_RETCODE_TIMEOUT) return Write::Full;
  dds_return_t code = dds_writecdr(ends_->writer, one_more(next_));
  full_ = code == DDS_RETCODE_TIMEOUT;
  if (full_) return Write::Full;
  let_go(next_);
  next_ = nullptr;
  if (code == DDS_RETCODE_OK) {
    number_++;
    return Write::Ok;
  }
  last_code_ = code;
  return Write::Failed;
}

bool Topic::wait_for_room(Nanoseconds timeout) {
  return dds_wait_for_acks(ends_->writer, timeout.count()) == DDS_RETCODE_OK;
}

/* ---- in */

std::uint64_t Topic::count_missed(dds_instance_handle_t from, std::uint64_t number) {
  if (!last_number_ || from != last_writer_) {
    if (numbers_.size() > 4096) numbers_.clear(); // writers come and go
    last_number_ = &numbers_[from];
    last_writer_ = from;
    std::unique_lock<std::mutex> lock(ends_->mutex);
    auto met = ends_->is_of_type.find(from);
    if (met != ends_->is_of_type.end()) {
      last_is_of_type_ = met->second;
    } else {
      lock.unlock();
      last_is_of_type_ = ends_->meet(ends_->reader, from);
    }
  }
  std::uint64_t before = *last_number_;
  if (number == 0) return 0;
  *last_number_ = number;
  return before > 0 && number > before ? number - before - 1 : 0;
}

Take Topic::take(Taken &taken) {
  for (;;) {
    ddsi_serdata *data = nullptr;
    dds_sample_info_t info;
    dds_return_t count = dds_takecdr(ends_->reader, &data, 1, &info, DDS_ANY_STATE);
    if (count < 0) last_code_ = count;
    if (count <= 0) return count < 0 ? Take::Failed : Take::None;
    taken.hold(data);
    if (!info.valid_data) continue; // which says that a writer went
    taken.frame = Frame{};
    taken.is_frame = read_frame(data, taken.frame);
    taken.missed = count_missed(info.publication_handle, taken.is_frame ? taken.frame.number : 0);
    taken.is_of_type = last_is_of_type_;
    return Take::One;
  }
}

/* ---- who is there */

/* Endpoints of the topic with another type, among those that are known. */
void Topic::look_for_types(dds_entity_t list, iox2ps_dds_peers_t &peers) const {
  constexpr std::size_t most = 256;
  void *samples[most] = {};
  dds_sample_info_t infos[most];
  dds_return_t count = dds_read_mask(list, samples, infos, most, most,
                                     DDS_ANY_SAMPLE_STATE | DDS_ANY_VIEW_STATE | DDS_ALIVE_INSTANCE_STATE);
  for (dds_return_t at = 0; at < count; at++) {
    auto *endpoint = static_cast<dds_builtintopic_endpoint_t *>(samples[at]);
    if (!infos[at].valid_data || name_ != endpoint->topic_name) continue;
    bool is_frame = std::strcmp(endpoint->type_name, frame_type_name) == 0;
    std::string type = is_frame ? type_of(endpoint) : endpoint->type_name;
    if (is_frame && (type.empty() || type == ends_->type)) continue;
    peers.other_types++;
    std::snprintf(peers.other_type, sizeof peers.other_type, "%s", type.c_str());
  }
  if (count > 0) dds_return_loan(list, samples, count);
}

iox2ps_dds_peers_t Topic::peers() {
  iox2ps_dds_peers_t peers{};
  dds_publication_matched_status_t readers{};
  dds_subscription_matched_status_t writers{};
  dds_offered_incompatible_qos_status_t offered{};
  dds_requested_incompatible_qos_status_t requested{};
  dds_sample_lost_status_t lost{};
  dds_get_publication_matched_status(ends_->writer, &readers);
  dds_get_subscription_matched_status(ends_->reader, &writers);
  dds_get_offered_incompatible_qos_status(ends_->writer, &offered);
  dds_get_requested_incompatible_qos_status(ends_->reader, &requested);
  dds_get_sample_lost_status(ends_->reader, &lost);
  peers.readers = readers.current_count;
  peers.writers = writers.current_count;
  peers.incompatible_readers = offered.total_count;
  peers.incompatible_writers = requested.total_count;
  peers.lost = lost.total_count;
  look_for_types(participant_->writers(), peers);
  look_for_types(participant_->readers(), peers);
  return peers;
}

} // namespace iox2ps::dds::detail
