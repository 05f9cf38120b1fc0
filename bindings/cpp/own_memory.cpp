// SPDX-License-Identifier: Apache-2.0 OR MIT
/* Domains whose memory is a std::pmr::memory_resource's, over a static region: all of the library's and of its handles, and none of the
 * heap. What the resource throws is an error of the call. */
#include "iox2_pubsub_memory.hpp"
#include "iox2_pubsub_shared.hpp"
#include <cstdio>
#include <cstdlib>

static unsigned long heap_calls = 0;

extern "C" {
void *__libc_malloc(std::size_t size);
void *__libc_calloc(std::size_t values, std::size_t size);
void *__libc_realloc(void *memory, std::size_t size);
void *__libc_memalign(std::size_t alignment, std::size_t size);

void *malloc(std::size_t size) { return heap_calls++, __libc_malloc(size); }
void *calloc(std::size_t values, std::size_t size) { return heap_calls++, __libc_calloc(values, size); }
void *realloc(void *memory, std::size_t size) { return heap_calls++, __libc_realloc(memory, size); }
void *aligned_alloc(std::size_t alignment, std::size_t size) { return heap_calls++, __libc_memalign(alignment, size); }
int posix_memalign(void **memory, std::size_t alignment, std::size_t size) {
  *memory = (heap_calls++, __libc_memalign(alignment, size));
  return *memory ? 0 : 12;
}
}

static unsigned passed = 0;
static void check(bool is_so, const char *what, int line) {
  passed++;
  if (is_so) return;
  std::fprintf(stderr, "%d: %s\n", line, what);
  std::abort();
}
#define CHECK(it) check((it), #it, __LINE__)

alignas(16) static unsigned char region[1 << 20];
static bool is_in_region(const void *at) { return at >= region && at < region + sizeof region; }

/* Counts what is out, and holds each block that comes back to the size and the alignment that it was asked for with. */
class Counted final : public std::pmr::memory_resource {
public:
  std::size_t asked = 0, blocks = 0, bytes = 0, refused_at = 0;

private:
  void *do_allocate(std::size_t size, std::size_t alignment) override {
    if (++asked == refused_at) throw std::bad_alloc();
    void *block = in_region_.allocate(size, alignment);
    blocks++, bytes += size + alignment;
    return block;
  }
  void do_deallocate(void *block, std::size_t size, std::size_t alignment) override {
    blocks--, bytes -= size + alignment;
    in_region_.deallocate(block, size, alignment);
  }
  bool do_is_equal(const memory_resource &other) const noexcept override { return this == &other; }

  std::pmr::monotonic_buffer_resource bytes_{region, sizeof region, std::pmr::null_memory_resource()};
  std::pmr::unsynchronized_pool_resource in_region_{&bytes_};
};

/* A domain, its ports, a message that grows memory, a send that waits, a late subscriber. */
template <typename M> static void live() {
  auto settings = iox2ps::Config<int[]>(7, 4).enable_safe_overflow(false).subscriber_max_buffer_size(1).history_size(1);
  auto domain = iox2ps::Domain<int[], M>::create(settings).expect("a domain");
  CHECK(iox2ps::set_memory_resource(nullptr).error() == iox2ps::Error::HasDomain);
  auto growing = iox2ps::PublisherOptions<int[]>().allocation_strategy(iox2ps::AllocationStrategy::BestFit);
  auto publisher = domain.publisher(growing).expect("a publisher");
  auto subscriber = domain.subscriber().expect("a subscriber");
  auto loan = publisher.loan_slice(1000).expect("a loan");
  CHECK(is_in_region(&loan[0]) && is_in_region(&loan[999]));
  loan[999] = 7;
  CHECK(loan.send().expect("a send").delivered() == 1u);
  auto waits = publisher.loan_slice(1).expect("a loan").send().expect("a send");
  auto late = domain.subscriber().expect("a late subscriber");
  auto sample = *subscriber.receive().expect("a receive");
  CHECK(is_in_region(&sample[999]) && sample[999] == 7);
  CHECK(!waits.blocked()->retry().expect("a retry") || true);
}

/* Each block is refused in turn, and what was made before comes back. */
static iox2ps::Error refused(Counted &memory, std::size_t at) {
  memory.asked = 0, memory.refused_at = at;
  auto domain = iox2ps::Domain<int>::create(iox2ps::Config<int>(7));
  if (!domain) return domain.error();
  auto publisher = domain->publisher();
  if (!publisher) return publisher.error();
  auto subscriber = domain->subscriber();
  return subscriber ? iox2ps::Error::NotLive : subscriber.error();
}

static void refusals_are_errors(Counted &memory) {
  std::size_t at = 1;
  CHECK(refused(memory, at) == iox2ps::Error::OutOfMemory);
  for (; at < 1000 && refused(memory, at) != iox2ps::Error::NotLive; at++) CHECK(memory.blocks == 0 && memory.bytes == 0);
  CHECK(at > 10 && at < 1000);
  memory.refused_at = 0;
}

int main() {
  Counted memory;
  CHECK(iox2ps::set_memory_resource(&memory).has_value());
  heap_calls = 0;
  live<iox2ps::OneThread>();
  CHECK(memory.asked > 20 && memory.blocks == 0 && memory.bytes == 0);
  live<iox2ps::ManyThreads>();
  CHECK(memory.blocks == 0 && memory.bytes == 0 && heap_calls == 0);
  refusals_are_errors(memory);
  std::size_t before = memory.asked;
  CHECK(iox2ps::set_memory_resource(nullptr).has_value());
  heap_calls = 0;
  CHECK(iox2ps::Domain<int>::create(iox2ps::Config<int>(7)).has_value());
  CHECK(memory.asked == before && heap_calls > 0);
  std::printf("%u passed\n", passed);
}
