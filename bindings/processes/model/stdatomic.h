// SPDX-License-Identifier: Apache-2.0 OR MIT
/* In the place of the compiler's header: atomic accesses go to the memory of the model, so the model explores the list's
 * sources as they are. */
#ifndef IOX2PS_MODEL_STDATOMIC_H
#define IOX2PS_MODEL_STDATOMIC_H

#include <stdbool.h>
#include <stdint.h>

typedef enum memory_order { memory_order_relaxed, memory_order_acquire, memory_order_release, memory_order_acq_rel, memory_order_seq_cst } memory_order;

uint64_t model_load(const _Atomic uint64_t *at, memory_order order);
void model_store(_Atomic uint64_t *at, uint64_t value, memory_order order);
bool model_compare_exchange(_Atomic uint64_t *at, uint64_t *expected, uint64_t desired, memory_order order);
typedef enum model_operation_t { MODEL_ADD, MODEL_OR, MODEL_AND } model_operation_t;
uint64_t model_fetch(_Atomic uint64_t *at, model_operation_t operation, uint64_t with, memory_order order);
void model_fence(memory_order order);

#define atomic_load_explicit(at, order) model_load((at), (order))
#define atomic_store_explicit(at, value, order) model_store((at), (value), (order))
#define atomic_compare_exchange_strong_explicit(at, expected, desired, success, failure) model_compare_exchange((at), (expected), (desired), (success))
#define atomic_compare_exchange_weak_explicit atomic_compare_exchange_strong_explicit
#define atomic_fetch_add_explicit(at, with, order) model_fetch((at), MODEL_ADD, (with), (order))
#define atomic_fetch_or_explicit(at, with, order) model_fetch((at), MODEL_OR, (with), (order))
#define atomic_fetch_and_explicit(at, with, order) model_fetch((at), MODEL_AND, (with), (order))
#define atomic_thread_fence(order) model_fence(order)

#endif
