// SPDX-License-Identifier: Apache-2.0 OR MIT
/* Memory for long frames, which is used again.
 *
 * A frame of a megabyte is made by one thread and let go by another, each time. The C library gives such memory back to the
 * system and takes it anew, page by page, which costs as much as the copy of the frame. */
#ifndef IOX2_PUBSUB_DDS_BLOCKS_HPP
#define IOX2_PUBSUB_DDS_BLOCKS_HPP

#include <cstddef>

namespace iox2ps::dds::detail {

/* Memory of this size at least, or null; room says how much there is. */
void *take_block(std::size_t size, std::size_t &room);
void give_block(void *block, std::size_t room);

} // namespace iox2ps::dds::detail

#endif
