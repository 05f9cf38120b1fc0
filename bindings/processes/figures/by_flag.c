// SPDX-License-Identifier: Apache-2.0 OR MIT
#define _GNU_SOURCE
/* A bare flag each way, and no message: what two processors need at least. Spinning round trips alone. */
#include "figures.h"
#include <stdatomic.h>
#include <stdlib.h>
#include <sys/mman.h>

enum { FORTH, BACK, WAYS };

static struct { _Alignas(128) _Atomic uint64_t number; } *flags;
static uint64_t received;
static int sends_on;

void carrier_begin(const traffic_t *traffic) {
  flags = mmap(NULL, WAYS * sizeof *flags, PROT_READ | PROT_WRITE, MAP_SHARED | MAP_ANONYMOUS, -1, 0);
  if (flags == MAP_FAILED || traffic->is_one_way || traffic->sleeps) exit(2);
}
void carrier_open(uint32_t process) { sends_on = process == 0 ? FORTH : BACK; }
void carrier_send(uint64_t number) { atomic_store_explicit(&flags[sends_on].number, number + 1, memory_order_release); }
uint64_t carrier_receive(void) {
  uint64_t number;
  while ((number = atomic_load_explicit(&flags[!sends_on].number, memory_order_acquire)) == received) {}
  return (received = number) - 1;
}
void carrier_close(void) {}
