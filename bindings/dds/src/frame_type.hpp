// SPDX-License-Identifier: Apache-2.0 OR MIT
/* How a frame lies on the wire, and how Cyclone DDS reads and makes one.
 *
 * The frame is that of idl/iox2_frame.idl: node_id, publisher_id, number, number_of_elements, payload. Its bytes are written
 * and read here in place of code made from the IDL, so that a message is copied once on each side: from the domain's slot into
 * what is sent, and from what was received into the domain's slot. That takes ddsi_sertype.h and ddsi_serdata.h, which Cyclone
 * DDS installs for bindings and doesn't keep stable; those of 0.10 are meant. */
#ifndef IOX2_PUBSUB_DDS_FRAME_TYPE_HPP
#define IOX2_PUBSUB_DDS_FRAME_TYPE_HPP

#include "iox2_pubsub.h"

#include <cstddef>
#include <cstdint>

struct ddsi_serdata;
struct ddsi_sertype;

namespace iox2ps::dds::detail {

/* The type's name, as ROS 2 gives it to iox2_msgs/msg/Frame. */
constexpr const char *frame_type_name = "iox2_msgs::msg::dds_::Frame_";

/* What a frame has before the payload's bytes, with DDS's four bytes that say the encoding. */
constexpr std::size_t frame_head = 4 + 16 + 16 + 8 + 4 + 4;

struct Frame {
  iox2ps_wide_t node{}, publisher{};
  std::uint64_t number = 0;
  std::uint32_t elements = 0;
  const std::uint8_t *bytes = nullptr;
  std::size_t len = 0;
};

/* A new type for one more topic entity, which takes it. */
ddsi_sertype *new_frame_type();

/* A frame with a copy of the bytes, or null where there is no memory. Its holder lets it go by let_go. */
ddsi_serdata *frame_of(const ddsi_sertype *type, const Frame &frame);

/* Whether these are the bytes of a frame of this machine's byte order. The frame's bytes are in the data. */
bool read_frame(const ddsi_serdata *data, Frame &frame);

ddsi_serdata *one_more(ddsi_serdata *data);
void let_go(ddsi_serdata *data);

} // namespace iox2ps::dds::detail

#endif
