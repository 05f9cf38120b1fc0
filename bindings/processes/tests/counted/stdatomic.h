// SPDX-License-Identifier: Apache-2.0 OR MIT
/* The compiler's header, with a call before each atomic access, by which a test counts them, or ends or stops the process. */
#ifndef IOX2PS_COUNTED_STDATOMIC_H
#define IOX2PS_COUNTED_STDATOMIC_H

#pragma GCC system_header /* for include_next */
#include_next <stdatomic.h>
#include <stdint.h>

void before_access(void);

#undef atomic_load_explicit
#undef atomic_store_explicit
#undef atomic_compare_exchange_strong_explicit
#undef atomic_compare_exchange_weak_explicit
#undef atomic_fetch_add_explicit
#undef atomic_fetch_or_explicit
#undef atomic_fetch_and_explicit
/* All words are of this type; the functions below take no atomic ones. */
#define COUNTED(at) ((uint64_t *)(at))
#define atomic_load_explicit(at, order) (before_access(), __atomic_load_n(COUNTED(at), (order)))
#define atomic_store_explicit(at, value, order) (before_access(), __atomic_store_n(COUNTED(at), (value), (order)))
#define atomic_compare_exchange_strong_explicit(at, expected, desired, success, failure) \
  (before_access(), __atomic_compare_exchange_n(COUNTED(at), (expected), (desired), 0, (success), (failure)))
#define atomic_compare_exchange_weak_explicit atomic_compare_exchange_strong_explicit
#define atomic_fetch_add_explicit(at, value, order) (before_access(), __atomic_fetch_add(COUNTED(at), (value), (order)))
#define atomic_fetch_or_explicit(at, value, order) (before_access(), __atomic_fetch_or(COUNTED(at), (value), (order)))
#define atomic_fetch_and_explicit(at, value, order) (before_access(), __atomic_fetch_and(COUNTED(at), (value), (order)))

#endif
