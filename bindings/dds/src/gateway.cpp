// SPDX-License-Identifier: Apache-2.0 OR MIT
#include "gateway.hpp"

#include <limits>
#include <set>

namespace iox2ps::dds::detail {

namespace {

std::mutex domains_mutex;
std::set<iox2ps_domain_t *> domains; // which have a gateway of this process

bool take_domain(iox2ps_domain_t *domain) {
  std::lock_guard<std::mutex> lock(domains_mutex);
  return domains.insert(domain).second;
}

void give_back_domain(iox2ps_domain_t *domain) {
  std::lock_guard<std::mutex> lock(domains_mutex);
  domains.erase(domain);
}

std::uint32_t refuse(std::string &why, const std::string &words) {
  why = words;
  return IOX2PS_DDS_REFUSED;
}

} // namespace

std::uint32_t Gateway::open(std::shared_ptr<Group> group, iox2ps_domain_t *domain, const iox2ps_dds_settings_t &settings,
                            std::unique_ptr<Gateway> &gateway, std::string &why) {
  std::unique_ptr<Gateway> made(new Gateway(std::move(group), domain, settings));
  std::uint32_t code = made->make(settings, why);
  if (code == IOX2PS_OK) gateway = std::move(made);
  return code;
}

/* Two gateways for a domain would hand on to each topic what came from the other. */
std::uint32_t Gateway::make(const iox2ps_dds_settings_t &settings, std::string &why) {
  iox2ps_config_t config;
  std::uint32_t code = caller_.ask([&](iox2ps_domain_t *domain) { return iox2ps_domain_config(domain, &config); });
  if (code != IOX2PS_OK) return why = iox2ps_error_text(code), code;
  if (settings.element_size == 0 || (settings.is_slice ? config.payload_size % settings.element_size != 0
                                                       : config.payload_size != settings.element_size))
    return refuse(why, "element_size doesn't fit the domain's payload_size");
  if (config.payload_size > group_->participant()->max_message_size())
    return refuse(why, "messages of " + std::to_string(config.payload_size) + " bytes are longer than the " +
                           std::to_string(group_->participant()->max_message_size()) +
                           " that the DDS domain was joined for: open the gateways for longer ones first");
  has_domain_ = take_domain(caller_.domain());
  if (!has_domain_) return refuse(why, "this process has a gateway for the domain");
  type_ = {settings.element_size, config.payload_alignment, settings.is_slice != 0, settings.type_name ? settings.type_name : ""};
  code = make_ports(why);
  if (code != IOX2PS_OK) return code;
  topic_ = Topic::open(group_->participant(), settings, config, type_, why);
  if (!topic_) return IOX2PS_DDS_REFUSED;
  outgoing_ = std::make_unique<Outgoing>(caller_, subscriber_, settings.element_size, *topic_, counts_);
  incoming_ = std::make_unique<Incoming>(caller_, publisher_, type_, *topic_, counts_);
  outgoing_->pass_over(publisher_.id);
  group_->add(*this);
  is_added_ = true;
  return IOX2PS_OK;
}

std::uint32_t Gateway::make_ports(std::string &why) {
  std::uint32_t code = caller_.ask([&](iox2ps_domain_t *domain) {
    std::uint32_t made = iox2ps_subscriber_create(domain, &subscriber_);
    has_subscriber_ = made == IOX2PS_OK;
    return made;
  });
  if (code == IOX2PS_OK) code = caller_.call(IOX2PS_DDS_MESSAGE, [&](iox2ps_domain_t *domain) {
    std::uint32_t made = iox2ps_publisher_create(domain, &publisher_);
    has_publisher_ = made == IOX2PS_OK;
    return made;
  });
  if (code != IOX2PS_OK) why = std::string(has_subscriber_ ? "publisher: " : "subscriber: ") + iox2ps_error_text(code);
  return code;
}

Gateway::~Gateway() {
  stop();
  if (is_added_) group_->remove(*this);
  incoming_.reset();
  outgoing_.reset();
  close_ports();
  topic_.reset();
  dds_entity_t guard = guard_, waitset = waitset_;
  if (waitset > 0) group_->participant()->delete_later([guard, waitset] {
    dds_delete(waitset);
    dds_delete(guard);
  });
  if (has_domain_) give_back_domain(caller_.domain());
}

void Gateway::close_ports() {
  caller_.call(IOX2PS_DDS_MESSAGE | IOX2PS_DDS_ROOM | IOX2PS_DDS_LOAN, [&](iox2ps_domain_t *domain) {
    std::uint32_t code = IOX2PS_OK;
    if (has_publisher_) code = iox2ps_publisher_close(domain, &publisher_);
    if (has_subscriber_) code = iox2ps_subscriber_close(domain, &subscriber_);
    return code;
  });
}

/* What the gateway itself has sent may be what is full, so that it is taken out before a second try. */
void Gateway::forward(iox2ps_dds_forwarded_t &now, std::size_t most) {
  outgoing_->forward(now, most);
  if (incoming_->is_blocked() && !incoming_->retry(now)) {
    outgoing_->forward(now, std::numeric_limits<std::size_t>::max());
    incoming_->retry(now);
  }
  incoming_->forward(now, most);
  topic_->flush();
  now.held += held();
  now.blocked += incoming_->is_blocked() ? 1 : 0;
}

/* ---- threads */

bool Gateway::make_waitset() {
  if (waitset_ > 0) return true;
  dds_entity_t participant = group_->participant()->entity();
  if (guard_ <= 0) guard_ = dds_create_guardcondition(participant);
  waitset_ = dds_create_waitset(participant);
  return guard_ > 0 && waitset_ > 0 && dds_waitset_attach(waitset_, guard_, 0) == DDS_RETCODE_OK &&
         dds_waitset_attach(waitset_, topic_->condition(), 0) == DDS_RETCODE_OK;
}

std::uint32_t Gateway::start() {
  if (has_threads()) return IOX2PS_DDS_HAS_THREADS;
  if (!caller_.may_wait() || !make_waitset()) return IOX2PS_DDS_REFUSED;
  stops_ = false;
  group_->detach(*this);
  try {
    in_thread_ = std::thread([this] { run_in(); });
    out_thread_ = std::thread([this] { run_out(); });
  } catch (...) {
    if (has_threads()) stop();
    else group_->attach(*this);
    throw;
  }
  return IOX2PS_OK;
}

void Gateway::stop() {
  if (!has_threads()) return;
  stops_ = true;
  dds_set_guardcondition(guard_, true);
  caller_.call(IOX2PS_DDS_MESSAGE | IOX2PS_DDS_ROOM, [](iox2ps_domain_t *) { return static_cast<std::uint32_t>(IOX2PS_OK); });
  if (out_thread_.joinable()) out_thread_.join();
  in_thread_.join();
  group_->attach(*this);
}

/* Both threads sleep until something comes: a message, room, data of the topic, or the end. Where the domain's waits were stopped they
 * return at once, and something else has to take time. */
constexpr Nanoseconds for_good{std::int64_t{1} << 60};
constexpr auto moment = std::chrono::milliseconds(1);

void Gateway::run_out() {
  while (!stops_) {
    iox2ps_dds_forwarded_t now{};
    outgoing_->forward(now, 1024);
    topic_->flush();
    if (stops_) return;
    if (outgoing_->held() > 0) {
      topic_->wait_for_room(moment);
      continue;
    }
    bool came = outgoing_->wait(now, for_good, stops_);
    topic_->flush();
    if (!came && !stops_) std::this_thread::sleep_for(moment);
  }
}

void Gateway::run_in() {
  while (!stops_) {
    iox2ps_dds_forwarded_t now{};
    if (!incoming_->is_blocked()) incoming_->forward(now, 1024);
    if (stops_) return;
    if (!incoming_->is_blocked()) wait_at(waitset_, guard_, for_good);
    else incoming_->wait(now, for_good, stops_);
    if (incoming_->is_blocked() && !stops_) std::this_thread::sleep_for(moment);
  }
}

} // namespace iox2ps::dds::detail
