// SPDX-License-Identifier: Apache-2.0 OR MIT
#include "frame_type.hpp"

#include "blocks.hpp"

#include <cstring>
#include <dds/dds.h>
#include <dds/ddsi/ddsi_serdata.h>
#include <dds/ddsi/ddsi_sertype.h>
#include <dds/ddsi/q_radmin.h>
#include <new>

namespace iox2ps::dds::detail {

namespace {

static_assert(__BYTE_ORDER__ == __ORDER_LITTLE_ENDIAN__, "frames are written as little-endian machines have them");

/* The bytes of a sample, with the four before them that say the encoding. They follow this in one piece of memory. */
struct Data : ddsi_serdata {
  std::size_t size = 0, room = 0;
  std::uint8_t *bytes() { return reinterpret_cast<std::uint8_t *>(this + 1); }
  const std::uint8_t *bytes() const { return reinterpret_cast<const std::uint8_t *>(this + 1); }
};

Data *of(ddsi_serdata *data) { return static_cast<Data *>(data); }
const Data *of(const ddsi_serdata *data) { return static_cast<const Data *>(data); }

/* What is sent is read up to a multiple of four bytes. */
std::size_t padded(std::size_t size) { return (size + 3) & ~std::size_t{3}; }

Data *new_data(const ddsi_sertype *type, ddsi_serdata_kind kind, std::size_t size) {
  std::size_t room = 0;
  void *memory = take_block(sizeof(Data) + padded(size), room);
  if (!memory) return nullptr;
  Data *data = new (memory) Data;
  ddsi_serdata_init(data, type, kind);
  data->size = size;
  data->room = room;
  std::memset(data->bytes() + (padded(size) >= 4 ? padded(size) - 4 : 0), 0, padded(size) >= 4 ? 4 : 0);
  return data;
}

void free_data(ddsi_serdata *data) {
  std::size_t room = of(data)->room;
  of(data)->~Data();
  give_block(of(data), room);
}

std::uint32_t size_of(const ddsi_serdata *data) { return static_cast<std::uint32_t>(of(data)->size); }

/* Fragments come in order and may overlap. */
ddsi_serdata *from_fragments(const ddsi_sertype *type, ddsi_serdata_kind kind, const nn_rdata *fragment, std::size_t size) {
  Data *data = new_data(type, kind, size);
  if (!data) return nullptr;
  std::uint32_t next = 0;
  for (; fragment; fragment = fragment->nextfrag) {
    if (fragment->maxp1 <= next || fragment->min > next || fragment->maxp1 > size) continue;
    const unsigned char *payload = NN_RMSG_PAYLOADOFF(fragment->rmsg, NN_RDATA_PAYLOAD_OFF(fragment));
    std::memcpy(data->bytes() + next, payload + (next - fragment->min), fragment->maxp1 - next);
    next = fragment->maxp1;
  }
  if (next < size) data->size = next; // which read_frame finds too short
  return data;
}

ddsi_serdata *from_pieces(const ddsi_sertype *type, ddsi_serdata_kind kind, ddsrt_msg_iovlen_t count, const ddsrt_iovec_t *pieces,
                          std::size_t size) {
  Data *data = new_data(type, kind, size);
  if (!data) return nullptr;
  std::size_t next = 0;
  for (ddsrt_msg_iovlen_t at = 0; at < count && next < size; at++) {
    std::size_t len = pieces[at].iov_len < size - next ? pieces[at].iov_len : size - next;
    std::memcpy(data->bytes() + next, pieces[at].iov_base, len);
    next += len;
  }
  data->size = next;
  return data;
}

/* A topic without keys has one instance. */
ddsi_serdata *from_key(const ddsi_sertype *type, const ddsi_keyhash *) { return new_data(type, SDK_KEY, 0); }

ddsi_serdata *to_untyped(const ddsi_serdata *typed) {
  Data *data = new_data(typed->type, SDK_KEY, 0);
  if (data) data->type = nullptr;
  return data;
}

ddsi_serdata *from_sample(const ddsi_sertype *type, ddsi_serdata_kind kind, const void *sample) {
  if (kind != SDK_DATA) return new_data(type, kind, 0);
  return frame_of(type, *static_cast<const Frame *>(sample));
}

void copy_out(const ddsi_serdata *data, std::size_t from, std::size_t len, void *to) {
  std::memcpy(to, of(data)->bytes() + from, len);
}

ddsi_serdata *lend_out(const ddsi_serdata *data, std::size_t from, std::size_t len, ddsrt_iovec_t *where) {
  where->iov_base = const_cast<std::uint8_t *>(of(data)->bytes() + from);
  where->iov_len = len;
  return ddsi_serdata_ref(data);
}

void take_back(ddsi_serdata *data, const ddsrt_iovec_t *) { ddsi_serdata_unref(data); }

/* Frames are taken as they came, so that nobody asks for samples. */
bool no_sample(const ddsi_serdata *, void *, void **, void *) { return false; }
bool no_untyped_sample(const ddsi_sertype *, const ddsi_serdata *, void *, void **, void *) { return true; }
bool same_instance(const ddsi_serdata *, const ddsi_serdata *) { return true; }

std::size_t print_nothing(const ddsi_sertype *, const ddsi_serdata *, char *to, std::size_t room) {
  if (room > 0) to[0] = 0;
  return 0;
}

void no_key(const ddsi_serdata *, ddsi_keyhash *key, bool) { std::memset(key->value, 0, sizeof key->value); }

#ifdef DDS_HAS_SHM
std::uint32_t size_of_sample(const ddsi_serdata *data) { return size_of(data); }
ddsi_serdata *from_shared_memory(const ddsi_sertype *, ddsi_serdata_kind, void *, void *) { return nullptr; }
#endif

ddsi_serdata_ops make_data_calls() {
  ddsi_serdata_ops calls{};
  calls.eqkey = same_instance;
  calls.get_size = size_of;
  calls.from_ser = from_fragments;
  calls.from_ser_iov = from_pieces;
  calls.from_keyhash = from_key;
  calls.from_sample = from_sample;
  calls.to_ser = copy_out;
  calls.to_ser_ref = lend_out;
  calls.to_ser_unref = take_back;
  calls.to_sample = no_sample;
  calls.to_untyped = to_untyped;
  calls.untyped_to_sample = no_untyped_sample;
  calls.free = free_data;
  calls.print = print_nothing;
  calls.get_keyhash = no_key;
#ifdef DDS_HAS_SHM
  calls.get_sample_size = size_of_sample;
  calls.from_iox_buffer = from_shared_memory;
#endif
  return calls;
}

const ddsi_serdata_ops data_calls = make_data_calls();

void free_type(ddsi_sertype *type) {
  ddsi_sertype_fini(type);
  delete type;
}

void zero_samples(const ddsi_sertype *, void *, std::size_t) {}
void realloc_samples(void **, const ddsi_sertype *, void *, std::size_t, std::size_t) {}
void free_samples(const ddsi_sertype *, void **, std::size_t, dds_free_op_t) {}
bool equal(const ddsi_sertype *, const ddsi_sertype *) { return true; }
std::uint32_t hash(const ddsi_sertype *) { return 0; }

/* Without information on the type: it is matched by its name, as ROS 2's are. */
ddsi_sertype_ops make_type_calls() {
  ddsi_sertype_ops calls{};
  calls.version = ddsi_sertype_v0;
  calls.free = free_type;
  calls.zero_samples = zero_samples;
  calls.realloc_samples = realloc_samples;
  calls.free_samples = free_samples;
  calls.equal = equal;
  calls.hash = hash;
  return calls;
}

const ddsi_sertype_ops type_calls = make_type_calls();

template <typename Number> std::uint8_t *put(std::uint8_t *to, Number number) {
  std::memcpy(to, &number, sizeof number);
  return to + sizeof number;
}

template <typename Number> const std::uint8_t *get(const std::uint8_t *from, Number &number) {
  std::memcpy(&number, from, sizeof number);
  return from + sizeof number;
}

/* Plain encodings of this byte order, of the first and the second kind: they lay a frame out alike. */
bool is_known_encoding(const std::uint8_t *bytes) { return bytes[0] == 0 && (bytes[1] == 1 || bytes[1] == 7); }

} // namespace

ddsi_sertype *new_frame_type() {
  ddsi_sertype *type = new ddsi_sertype{};
  ddsi_sertype_init(type, frame_type_name, &type_calls, &data_calls, true);
  type->allowed_data_representation = DDS_DATA_REPRESENTATION_FLAG_XCDR1 | DDS_DATA_REPRESENTATION_FLAG_XCDR2;
  return type;
}

ddsi_serdata *frame_of(const ddsi_sertype *type, const Frame &frame) {
  Data *data = new_data(type, SDK_DATA, frame_head + frame.len);
  if (!data) return nullptr;
  static const std::uint8_t encoding[4] = {0, 1, 0, 0};
  std::uint8_t *to = data->bytes();
  std::memcpy(to, encoding, sizeof encoding);
  to = put(to + sizeof encoding, frame.node.low);
  to = put(to, frame.node.high);
  to = put(to, frame.publisher.low);
  to = put(to, frame.publisher.high);
  to = put(to, frame.number);
  to = put(to, frame.elements);
  to = put(to, static_cast<std::uint32_t>(frame.len));
  if (frame.len > 0) std::memcpy(to, frame.bytes, frame.len);
  return data;
}

bool read_frame(const ddsi_serdata *data, Frame &frame) {
  std::size_t size = of(data)->size;
  const std::uint8_t *from = of(data)->bytes();
  if (size < frame_head || !is_known_encoding(from)) return false;
  from = get(from + 4, frame.node.low);
  from = get(from, frame.node.high);
  from = get(from, frame.publisher.low);
  from = get(from, frame.publisher.high);
  from = get(from, frame.number);
  from = get(from, frame.elements);
  std::uint32_t len = 0;
  frame.bytes = get(from, len);
  frame.len = len;
  return len <= size - frame_head && padded(len) >= size - frame_head;
}

ddsi_serdata *one_more(ddsi_serdata *data) { return ddsi_serdata_ref(data); }
void let_go(ddsi_serdata *data) {
  if (data) ddsi_serdata_unref(data);
}

} // namespace iox2ps::dds::detail
