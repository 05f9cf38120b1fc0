// SPDX-License-Identifier: Apache-2.0 OR MIT
#include "blocks.hpp"

#include <cstdlib>
#include <mutex>

namespace iox2ps::dds::detail {

namespace {

constexpr std::size_t long_from = std::size_t{64} << 10, most = 8;

/* A few blocks that nobody has. What is more goes back. */
class Kept {
public:
  ~Kept() {
    while (count_ > 0) std::free(blocks_[--count_].block);
  }

  /* One that isn't much longer than it is to be. */
  void *take(std::size_t size, std::size_t &room) {
    std::lock_guard<std::mutex> lock(mutex_);
    for (std::size_t at = count_; at-- > 0;) {
      Block found = blocks_[at];
      if (found.room < size || found.room / 2 > size) continue;
      blocks_[at] = blocks_[--count_];
      room = found.room;
      return found.block;
    }
    return nullptr;
  }

  bool give(void *block, std::size_t room) {
    std::lock_guard<std::mutex> lock(mutex_);
    if (count_ == most) return false;
    blocks_[count_++] = {block, room};
    return true;
  }

private:
  struct Block {
    void *block;
    std::size_t room;
  };
  std::mutex mutex_;
  Block blocks_[most];
  std::size_t count_ = 0;
};

Kept kept;

} // namespace

void *take_block(std::size_t size, std::size_t &room) {
  room = size;
  void *block = size < long_from ? nullptr : kept.take(size, room);
  return block ? block : std::malloc(size);
}

void give_block(void *block, std::size_t room) {
  if (room < long_from || !kept.give(block, room)) std::free(block);
}

} // namespace iox2ps::dds::detail
