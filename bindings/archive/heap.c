// SPDX-License-Identifier: Apache-2.0 OR MIT
/* Where the proved code takes memory from: three functions, over those that a program hands in, and else over those of memory.c or of the
 * program's own in its place.
 *
 * The kit's compiler, which brings no headers, compiles this file, so that the archive's bytes are made by the kit alone. */
typedef __SIZE_TYPE__ heap_size_t;

/* As iox2_pubsub.h says them. */
enum { OK = 0, HAS_DOMAIN = 5 };
typedef struct {
  void *(*allocate)(void *context, heap_size_t size, heap_size_t alignment);
  void *(*reallocate)(void *context, void *block, heap_size_t kept, heap_size_t size, heap_size_t alignment);
  void (*deallocate)(void *context, void *block);
  void *context;
} allocator_t;
void *iox2ps_memory_allocate(heap_size_t size, heap_size_t alignment);
void *iox2ps_memory_reallocate(void *block, heap_size_t kept, heap_size_t size, heap_size_t alignment);
void iox2ps_memory_deallocate(void *block);

/* What a call that asks for memory returns, in two registers: whether there is some, and where. */
typedef struct {
  __UINT64_TYPE__ is_there;
  void *block;
} heap_result_t;

/* Where a refused call points, since Rattle's pointers are never null. Nothing is read or written there. */
static char nothing[16] __attribute__((aligned(16)));

/* What was handed in; no functions where nothing was. The last bit of `uses` says which is in use, and the other bits how many blocks of it
 * are out, or being asked for. Each domain has one at least. */
static allocator_t handed_in[2];
static heap_size_t uses;
enum { ONE_BLOCK = 2 };

static heap_result_t result_of(void *block) { return (heap_result_t){block != 0, block ? block : nothing}; }

/* Of 0 bytes an allocator may return null, which would look as if memory were lacking. */
static heap_size_t at_least_one(heap_size_t size, heap_size_t alignment) { return size ? size : alignment; }

/* The allocator of the blocks that are out, which is another one only when none is. */
static const allocator_t *of_blocks(heap_size_t read) { return &handed_in[read & 1]; }
static const allocator_t *own(void) { return of_blocks(__atomic_load_n(&uses, __ATOMIC_RELAXED)); }

/* Takes size bytes. */
heap_result_t rattle_alloc(heap_size_t size, heap_size_t alignment) {
  size = at_least_one(size, alignment);
  const allocator_t *of = of_blocks(__atomic_fetch_add(&uses, ONE_BLOCK, __ATOMIC_ACQUIRE));
  void *block = of->allocate ? of->allocate(of->context, size, alignment) : iox2ps_memory_allocate(size, alignment);
  if (!block) __atomic_fetch_sub(&uses, ONE_BLOCK, __ATOMIC_RELEASE);
  return result_of(block);
}

/* Makes a block larger or smaller, and keeps its first bytes. A refused call leaves the block as it is. */
heap_result_t rattle_realloc(void *block, heap_size_t kept, heap_size_t size, heap_size_t alignment) {
  size = at_least_one(size, alignment);
  const allocator_t *of = own();
  return result_of(of->allocate ? of->reallocate(of->context, block, kept, size, alignment)
                                : iox2ps_memory_reallocate(block, kept, size, alignment));
}

/* Gives a block back. */
void rattle_dealloc(void *block) {
  const allocator_t *of = own();
  if (of->allocate) of->deallocate(of->context, block);
  else iox2ps_memory_deallocate(block);
  __atomic_fetch_sub(&uses, ONE_BLOCK, __ATOMIC_RELEASE);
}

void *iox2ps_allocate(heap_size_t size, heap_size_t alignment) {
  heap_result_t got = rattle_alloc(size, alignment);
  return got.is_there ? got.block : 0;
}

void iox2ps_deallocate(void *block) {
  if (block) rattle_dealloc(block);
}

/* The new one is written where no block is of, and is in use if none is out then. */
unsigned iox2ps_set_allocator(const allocator_t *allocator) {
  static char is_changing;
  if (__atomic_exchange_n(&is_changing, 1, __ATOMIC_ACQUIRE)) return HAS_DOMAIN;
  heap_size_t without_blocks = __atomic_load_n(&uses, __ATOMIC_RELAXED) & 1, other = !without_blocks;
  handed_in[other] = allocator ? *allocator : (allocator_t){0, 0, 0, 0};
  int is_changed = __atomic_compare_exchange_n(&uses, &without_blocks, other, 0, __ATOMIC_ACQ_REL, __ATOMIC_RELAXED);
  __atomic_store_n(&is_changing, 0, __ATOMIC_RELEASE);
  return is_changed ? OK : HAS_DOMAIN;
}
