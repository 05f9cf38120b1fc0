// SPDX-License-Identifier: Apache-2.0 OR MIT
/* Counts the allocations of a program that is linked with -Wl,--wrap=malloc -Wl,--wrap=realloc, and fails those that a test says. */
#ifndef IOX2PS_ALLOCATIONS_H
#define IOX2PS_ALLOCATIONS_H

#include <stdlib.h>

/* How many were asked for, and which of them fails, counted from 1. */
static size_t allocations, refused_at;
/* Whether all fail. */
static int is_refused;

void *__real_malloc(size_t size);
void *__real_realloc(void *old, size_t size);
void *__wrap_malloc(size_t size);
void *__wrap_realloc(void *old, size_t size);

static int next_fails(void) { return ++allocations == refused_at || is_refused; }

void *__wrap_malloc(size_t size) { return next_fails() ? NULL : __real_malloc(size); }
void *__wrap_realloc(void *old, size_t size) { return next_fails() ? NULL : __real_realloc(old, size); }

#endif
