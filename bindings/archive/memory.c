// SPDX-License-Identifier: Apache-2.0 OR MIT
/* The memory of a program that says nothing else: that of the C library. It is an object of its own, so that a program that defines these
 * three functions is linked without it, and without malloc.
 *
 * The kit's compiler, which brings no headers, compiles this file. */
typedef __SIZE_TYPE__ memory_size_t;

void *malloc(memory_size_t size);
void *realloc(void *block, memory_size_t size);
int posix_memalign(void **block, memory_size_t alignment, memory_size_t size);
void free(void *block);

/* What each block of malloc is aligned to on these processors. */
enum { OF_MALLOC = 16 };

void *iox2ps_memory_allocate(memory_size_t size, memory_size_t alignment) {
  void *block;
  if (alignment <= OF_MALLOC) return malloc(size);
  return posix_memalign(&block, alignment, size) ? 0 : block;
}

void *iox2ps_memory_reallocate(void *block, memory_size_t kept, memory_size_t size, memory_size_t alignment) {
  if (alignment <= OF_MALLOC) return realloc(block, size);
  void *other = iox2ps_memory_allocate(size, alignment);
  if (!other) return 0;
  __builtin_memcpy(other, block, kept < size ? kept : size);
  free(block);
  return other;
}

void iox2ps_memory_deallocate(void *block) { free(block); }
