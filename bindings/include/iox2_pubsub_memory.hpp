// SPDX-License-Identifier: Apache-2.0 OR MIT
/** @file
 * The library's memory from a std::pmr::memory_resource, for C++17: of a static region, for example.
 *
 *     static std::byte region[1 << 20];
 *     static std::pmr::monotonic_buffer_resource bytes(region, sizeof region, std::pmr::null_memory_resource());
 *     static std::pmr::synchronized_pool_resource pool(&bytes);
 *     iox2ps::set_memory_resource(&pool).expect("no domain yet"); */
#ifndef IOX2_PUBSUB_MEMORY_HPP
#define IOX2_PUBSUB_MEMORY_HPP

#include "iox2_pubsub_results.hpp"

#include <algorithm>
#include <cstddef>
#include <cstring>
#include <memory_resource>
#include <new>

namespace iox2ps {

namespace detail {

/* The functions that the library calls, over a resource. That is told the size and the alignment of what is given back, so each block
 * has them before its bytes. */
class OverResource {
public:
  static iox2ps_allocator_t functions(std::pmr::memory_resource *resource) { return {allocate, reallocate, deallocate, resource}; }

private:
  struct Head {
    std::size_t size, alignment;
  };

  static std::pmr::memory_resource &resource(void *context) { return *static_cast<std::pmr::memory_resource *>(context); }
  static Head *head_of(void *block) { return static_cast<Head *>(block) - 1; }

  static void *allocate(void *context, std::size_t size, std::size_t alignment) noexcept {
    std::size_t aligned = (std::max)(alignment, sizeof(Head));
    auto *start = static_cast<unsigned char *>(taken(resource(context), size + aligned, aligned));
    if (!start) return nullptr;
    new (head_of(start + aligned)) Head{size + aligned, aligned};
    return start + aligned;
  }

  static void *reallocate(void *context, void *block, std::size_t kept, std::size_t size, std::size_t alignment) noexcept {
    void *other = allocate(context, size, alignment);
    if (!other) return nullptr;
    std::memcpy(other, block, (std::min)(kept, size));
    deallocate(context, block);
    return other;
  }

  static void deallocate(void *context, void *block) noexcept {
    Head head = *head_of(block);
    resource(context).deallocate(static_cast<unsigned char *>(block) - head.alignment, head.size, head.alignment);
  }

  /* Null where the resource throws, which mustn't pass through the library. */
  static void *taken(std::pmr::memory_resource &resource, std::size_t size, std::size_t alignment) noexcept {
#ifdef __cpp_exceptions
    try {
      return resource.allocate(size, alignment);
    } catch (...) {
      return nullptr;
    }
#else
    return resource.allocate(size, alignment);
#endif
  }
};

} // namespace detail

/** Takes the library's memory of this resource from now on, or of the C library again: null. That is all memory of domains, ports,
 * messages and their handles; what warnings() and recording() return, listeners and wait sets are of the C++ library. What the
 * resource throws where it has no more is the error of the call that asked, as Error::OutOfMemory.
 *
 * Error::HasDomain while the process has a domain, or another thread makes one, and then nothing changes. The resource has to live as
 * long as it is in use, and to bear calls of as many threads as use different domains. */
inline Done set_memory_resource(std::pmr::memory_resource *resource) {
  iox2ps_allocator_t functions = detail::OverResource::functions(resource);
  return detail::done(iox2ps_set_allocator(resource ? &functions : nullptr));
}

} // namespace iox2ps

#endif
