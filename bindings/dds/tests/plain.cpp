// SPDX-License-Identifier: Apache-2.0 OR MIT
/* The same traffic by plain Cyclone DDS, to compare with, and what a bad peer sends.
 *   plain send|receive|ping|pong|bad|hostile|participants|other NAME VALUE .. */
#include "iox2_frame.h"
#include "iox2_other.h"
#include "peer.hpp"

#include <dds/dds.h>

using FrameType = iox2_msgs_msg_dds__Frame_;

namespace {

struct Plain {
  dds_entity_t participant, topic, writer, reader, condition, waitset;
  FrameType taken{};

  Plain(const Options &options, const dds_topic_descriptor_t *type) {
    participant = dds_create_participant(DDS_DOMAIN_DEFAULT, nullptr, nullptr);
    topic = dds_create_topic(participant, type, options.word("topic", "iox2/00000000000000000000000000000007").c_str(), nullptr, nullptr);
    dds_qos_t *qos = dds_create_qos();
    dds_qset_reliability(qos, DDS_RELIABILITY_RELIABLE, DDS_SECS(patience.count()));
    if (options.word("mode", "overflow") == "overflow") {
      dds_qset_history(qos, DDS_HISTORY_KEEP_LAST, static_cast<int32_t>(options.number("buffer", 16)));
    } else {
      dds_qset_history(qos, DDS_HISTORY_KEEP_ALL, 0);
      dds_qset_resource_limits(qos, static_cast<int32_t>(options.number("limit", 64)), DDS_LENGTH_UNLIMITED, DDS_LENGTH_UNLIMITED);
    }
    dds_qset_ignorelocal(qos, DDS_IGNORELOCAL_PARTICIPANT);
    reader = dds_create_reader(participant, topic, qos, nullptr);
    dds_qset_resource_limits(qos, DDS_LENGTH_UNLIMITED, DDS_LENGTH_UNLIMITED, DDS_LENGTH_UNLIMITED);
    writer = dds_create_writer(participant, topic, qos, nullptr);
    dds_delete_qos(qos);
    condition = dds_create_readcondition(reader, DDS_ANY_STATE);
    waitset = dds_create_waitset(participant);
    dds_waitset_attach(waitset, condition, 0);
  }
  ~Plain() {
    std::free(taken.payload._buffer);
    dds_delete(participant);
  }
  bool wait_for_peers() {
    dds_publication_matched_status_t readers{};
    dds_subscription_matched_status_t writers{};
    for (auto start = Clock::now(); is_patient(start);) {
      dds_get_publication_matched_status(writer, &readers);
      dds_get_subscription_matched_status(reader, &writers);
      if (readers.current_count > 0 && writers.current_count > 0) return true;
      dds_sleepfor(DDS_MSECS(50));
    }
    return false;
  }
  bool write(const std::uint8_t *bytes, std::size_t len, std::uint32_t elements) {
    FrameType frame{};
    frame.number_of_elements = elements;
    frame.payload._maximum = frame.payload._length = static_cast<std::uint32_t>(len);
    frame.payload._buffer = const_cast<std::uint8_t *>(bytes);
    return dds_write(writer, &frame) == DDS_RETCODE_OK;
  }
  bool take() {
    void *samples[1] = {&taken};
    dds_sample_info_t info;
    return dds_take(reader, samples, &info, 1, 1) == 1 && info.valid_data;
  }
  void wait() {
    dds_attach_t which;
    dds_waitset_wait(waitset, &which, 1, DDS_MSECS(10));
  }
};

int send_role(const Options &options) {
  Plain plain(options, &iox2_msgs_msg_dds__Frame__desc);
  if (!plain.wait_for_peers()) return 4;
  std::size_t len = options.number("len", 64);
  std::vector<std::uint8_t> bytes(len);
  std::uint64_t each = options.number("each", 1), failed = 0;
  auto start = Clock::now();
  double cpu = cpu_seconds();
  for (std::uint64_t number = 1; number <= options.number("count", 1000); number++) {
    fill(bytes.data(), len, Head{static_cast<std::uint64_t>(getpid()), 0, number});
    failed += !plain.write(bytes.data(), len, static_cast<std::uint32_t>(len));
    if (number % each == 0) dds_write_flush(plain.writer);
  }
  dds_write_flush(plain.writer);
  bool acknowledged = dds_wait_for_acks(plain.writer, DDS_SECS(patience.count())) == DDS_RETCODE_OK;
  std::printf("{\"all_s\": %.3f, \"cpu_s\": %.4f, \"failed\": %llu, \"acknowledged\": %d}\n", seconds_since(start), cpu_seconds() - cpu, static_cast<unsigned long long>(failed), acknowledged);
  return 0;
}

int receive_role(const Options &options) {
  Plain plain(options, &iox2_msgs_msg_dds__Frame__desc);
  options.tell("ready");
  Checks checks;
  auto last = Clock::now(), first = last;
  double cpu = 0;
  while (checks.good < options.number("expect", 1000) && is_patient(last)) {
    plain.wait();
    while (plain.take()) {
      checks.see(plain.taken.payload._buffer, plain.taken.payload._length);
      last = Clock::now();
      if (checks.good == 1) first = last, cpu = cpu_seconds();
    }
  }
  std::printf("{\"receiving_s\": %.3f, \"cpu_s\": %.4f, ", std::chrono::duration<double>(last - first).count(), cpu_seconds() - cpu);
  checks.print();
  std::printf("}\n");
  return 0;
}

int ping_role(const Options &options) {
  Plain plain(options, &iox2_msgs_msg_dds__Frame__desc);
  if (!plain.wait_for_peers()) return 4;
  std::size_t len = options.number("len", 64);
  std::vector<std::uint8_t> bytes(len);
  std::vector<double> times;
  for (std::uint64_t number = 1; number <= options.number("count", 1000); number++) {
    auto start = Clock::now();
    fill(bytes.data(), len, Head{static_cast<std::uint64_t>(getpid()), 0, number});
    plain.write(bytes.data(), len, static_cast<std::uint32_t>(len));
    dds_write_flush(plain.writer);
    for (bool back = false; !back && seconds_since(start) < 2;) {
      while (plain.take()) {
        Head head;
        std::memcpy(&head, plain.taken.payload._buffer, sizeof head);
        if (head.number == number) back = true;
      }
      if (!back) plain.wait();
      else times.push_back(seconds_since(start) * 1e6);
    }
  }
  print_latencies(times);
  return 0;
}

int pong_role(const Options &options) {
  Plain plain(options, &iox2_msgs_msg_dds__Frame__desc);
  std::uint64_t answered = 0;
  auto last = Clock::now();
  while (answered < options.number("count", 1000) && seconds_since(last) < 10) {
    plain.wait();
    while (plain.take()) {
      plain.write(plain.taken.payload._buffer, plain.taken.payload._length, plain.taken.number_of_elements);
      dds_write_flush(plain.writer);
      last = Clock::now();
      answered++;
    }
  }
  dds_wait_for_acks(plain.writer, DDS_SECS(2));
  return 0;
}

/* Frames that fit no domain of 64 bytes, round by round, with a good one in each: of 7 frames 2 are too long and 2 of
 * another size, where messages are bytes. */
int bad_role(const Options &options) {
  Plain plain(options, &iox2_msgs_msg_dds__Frame__desc);
  if (!plain.wait_for_peers()) return 4;
  std::vector<std::uint8_t> bytes(4096);
  std::uint64_t rounds = options.number("count", 10), written = 0;
  for (std::uint64_t number = 1; number <= rounds; number++) {
    fill(bytes.data(), 64, Head{1, 0, number});
    written += plain.write(bytes.data(), 64, 64);
    written += plain.write(bytes.data(), 65, 65);
    written += plain.write(bytes.data(), 4096, 64);
    written += plain.write(bytes.data(), 63, 64);
    written += plain.write(bytes.data(), 8, 0xffffffffu);
    written += plain.write(bytes.data(), 0, 0);
    written += plain.write(bytes.data(), 16, 1);
    dds_write_flush(plain.writer);
    dds_wait_for_acks(plain.writer, DDS_SECS(patience.count())); // so that keep-last keeps all
    dds_sleepfor(DDS_MSECS(20));
  }
  std::printf("{\"written\": %llu}\n", static_cast<unsigned long long>(written));
  return 0;
}

/* Long ones, and a good one after each. */
int hostile_role(const Options &options) {
  Plain plain(options, &iox2_msgs_msg_dds__Frame__desc);
  if (!plain.wait_for_peers()) return 4;
  std::vector<std::uint8_t> bytes(options.number("len", 50000000));
  for (std::uint64_t number = 1; number <= options.number("count", 4); number++) {
    plain.write(bytes.data(), bytes.size(), 64);
    fill(bytes.data(), 64, Head{1, 0, number});
    plain.write(bytes.data(), 64, 64);
    dds_write_flush(plain.writer);
    dds_wait_for_acks(plain.writer, DDS_SECS(patience.count()));
  }
  std::printf("{}\n");
  return 0;
}

/* How many participants of DDS there are, once there are that many. */
int participants_role(const Options &options) {
  Plain plain(options, &iox2_msgs_msg_dds__Frame__desc);
  dds_entity_t list = dds_create_reader(plain.participant, DDS_BUILTIN_TOPIC_DCPSPARTICIPANT, nullptr, nullptr);
  auto start = Clock::now();
  dds_return_t count = 0;
  while (count < static_cast<dds_return_t>(options.number("count", 3)) && is_patient(start)) {
    void *samples[64] = {};
    dds_sample_info_t infos[64];
    dds_sleepfor(DDS_MSECS(500));
    count = dds_read_mask(list, samples, infos, 64, 64, DDS_ANY_SAMPLE_STATE | DDS_ANY_VIEW_STATE | DDS_ALIVE_INSTANCE_STATE);
    if (count > 0) dds_return_loan(list, samples, count);
  }
  std::printf("{\"participants\": %d}\n", count);
  return 0;
}

int other_role(const Options &options) {
  Plain plain(options, &other_Thing_desc);
  char words[] = "another type";
  Flag until = options.flag("until");
  auto start = Clock::now();
  for (std::int32_t at = 0; is_patient(start) && !until.is_up(); at++) {
    other_Thing thing{at, words};
    dds_write(plain.writer, &thing);
    dds_sleepfor(DDS_MSECS(50));
  }
  return 0;
}

} // namespace

int main(int count, char **words) {
  Options options(count, words);
  std::string role = count > 1 ? words[1] : "";
  if (role == "send") return send_role(options);
  if (role == "receive") return receive_role(options);
  if (role == "ping") return ping_role(options);
  if (role == "pong") return pong_role(options);
  if (role == "bad") return bad_role(options);
  if (role == "hostile") return hostile_role(options);
  if (role == "participants") return participants_role(options);
  if (role == "other") return other_role(options);
  std::fprintf(stderr, "no such role\n");
  return 2;
}
