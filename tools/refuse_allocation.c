// SPDX-License-Identifier: Apache-2.0 OR MIT
/* Refuses the allocation with the number in REFUSED, counted from 1, of a program that it is preloaded to. Where COUNTED names a
   file, the number of allocations that were asked for is written there as the program ends. */
#define _GNU_SOURCE
#include <dlfcn.h>
#include <errno.h>
#include <fcntl.h>
#include <stdio.h>
#include <stdlib.h>
#include <unistd.h>

static long refused = -1, count = 0;

__attribute__((constructor)) static void start(void) {
  const char *number = getenv("REFUSED");
  refused = number ? atol(number) : -1;
  count = 0;
}

__attribute__((destructor)) static void end(void) {
  const char *file = getenv("COUNTED");
  char text[32];
  int length = snprintf(text, sizeof text, "%ld\n", count);
  int to = file ? open(file, O_WRONLY | O_CREAT | O_TRUNC, 0600) : -1;
  if (to < 0) return;
  if (write(to, text, length) != length) abort();
  close(to);
}

static int is_refused(void) {
  count++;
  if (count == refused) errno = ENOMEM;
  return count == refused;
}

void *malloc(size_t size) {
  static void *(*next)(size_t);
  if (!next) next = dlsym(RTLD_NEXT, "malloc");
  return is_refused() ? NULL : next(size);
}

void *realloc(void *old, size_t size) {
  static void *(*next)(void *, size_t);
  if (!next) next = dlsym(RTLD_NEXT, "realloc");
  return is_refused() ? NULL : next(old, size);
}

void *aligned_alloc(size_t alignment, size_t size) {
  static void *(*next)(size_t, size_t);
  if (!next) next = dlsym(RTLD_NEXT, "aligned_alloc");
  return is_refused() ? NULL : next(alignment, size);
}

int posix_memalign(void **found, size_t alignment, size_t size) {
  static int (*next)(void **, size_t, size_t);
  if (!next) next = dlsym(RTLD_NEXT, "posix_memalign");
  return is_refused() ? ENOMEM : next(found, alignment, size);
}
