// SPDX-License-Identifier: Apache-2.0 OR MIT
/* Bytes that are no frame, as anybody on the network may send them: each is refused, and nothing beyond it is read. The
 * sanitizers and valgrind see a read beyond. Prints `N checks`. */
#include "../src/frame_type.hpp"

#include <cstdio>
#include <cstdlib>
#include <cstring>
#include <dds/dds.h>
#include <dds/ddsi/ddsi_serdata.h>
#include <dds/ddsi/ddsi_sertype.h>
#include <random>
#include <vector>

using namespace iox2ps::dds::detail;
using Bytes = std::vector<std::uint8_t>;

namespace {

std::size_t checks = 0;

void check(bool holds, const char *what) {
  checks++;
  if (holds) return;
  std::printf("FAILED: %s\n", what);
  std::exit(1);
}

ddsi_sertype *type = new_frame_type();

/* What came in one piece or, as fragments do, in two. */
bool is_frame(const Bytes &bytes, Frame &frame, std::size_t cut = 0) {
  ddsrt_iovec_t pieces[2] = {{const_cast<std::uint8_t *>(bytes.data()), cut},
                             {const_cast<std::uint8_t *>(bytes.data()) + cut, bytes.size() - cut}};
  ddsi_serdata *data = ddsi_serdata_from_ser_iov(type, SDK_DATA, 2, pieces, bytes.size());
  bool is = read_frame(data, frame);
  if (is) check(frame.len == 0 || std::memcmp(frame.bytes, bytes.data() + frame_head, frame.len) == 0, "the payload is there");
  let_go(data);
  return is;
}

Bytes good_frame(std::size_t len) {
  Bytes payload(len, 7), bytes(frame_head + len);
  Frame frame;
  frame.node = {1, 2};
  frame.publisher = {3, 4};
  frame.number = 5;
  frame.elements = static_cast<std::uint32_t>(len);
  frame.bytes = payload.data();
  frame.len = len;
  ddsi_serdata *data = frame_of(type, frame);
  ddsi_serdata_to_ser(data, 0, bytes.size(), bytes.data());
  check(ddsi_serdata_size(data) == bytes.size(), "the size");
  let_go(data);
  return bytes;
}

/* Each cut of a frame but the whole is refused, and so is one that goes on. */
void lengths() {
  for (std::size_t len : {0, 1, 3, 4, 64, 100000}) {
    Bytes bytes = good_frame(len);
    Frame frame;
    check(is_frame(bytes, frame) && frame.len == len && frame.number == 5 && frame.node.high == 2 && frame.publisher.low == 3, "a frame");
    check(is_frame(bytes, frame, bytes.size() / 2), "in two pieces");
    for (std::size_t less = 1; less <= bytes.size() && less < 200; less++) {
      Bytes shorter(bytes.begin(), bytes.end() - static_cast<std::ptrdiff_t>(less));
      check(!is_frame(shorter, frame), "cut");
    }
    bytes.resize((bytes.size() + 3) / 4 * 4);
    check(is_frame(bytes, frame), "with what fills the last four bytes");
    bytes.resize(bytes.size() + 4);
    check(!is_frame(bytes, frame), "more than that");
  }
}

/* Encodings: plain and little-endian alone. */
void encodings() {
  for (unsigned first = 0; first < 256; first++) {
    for (unsigned second = 0; second < 256; second++) {
      Bytes bytes = good_frame(8);
      Frame frame;
      bytes[0] = static_cast<std::uint8_t>(first);
      bytes[1] = static_cast<std::uint8_t>(second);
      check(is_frame(bytes, frame) == (first == 0 && (second == 1 || second == 7)), "an encoding");
    }
  }
}

/* A length says how many bytes follow; any other is refused. */
void hostile_lengths() {
  std::mt19937 random(1);
  Bytes bytes = good_frame(64);
  for (int turn = 0; turn < 100000; turn++) {
    std::uint32_t len = turn < 200 ? static_cast<std::uint32_t>(turn) : static_cast<std::uint32_t>(random());
    if (turn % 1000 == 999) len = 0xffffffffu - static_cast<std::uint32_t>(turn / 1000);
    std::memcpy(bytes.data() + frame_head - 4, &len, sizeof len);
    Frame frame;
    check(is_frame(bytes, frame) == (len > 60 && len <= 64), "a length");
  }
}

void random_bytes() {
  std::mt19937 random(2);
  for (int turn = 0; turn < 100000; turn++) {
    Bytes bytes(random() % 120);
    for (auto &byte : bytes) byte = static_cast<std::uint8_t>(random() % 3);
    Frame frame;
    if (is_frame(bytes, frame)) check(frame.len <= bytes.size() - frame_head, "within");
    else check(true, "refused");
  }
}

} // namespace

int main() {
  lengths();
  encodings();
  hostile_lengths();
  random_bytes();
  ddsi_sertype_unref(type);
  std::printf("%zu checks\n", checks);
}
