// SPDX-License-Identifier: Apache-2.0 OR MIT
/* What counts_beside.c counts, and each language has: a publisher and a subscriber of a domain that processes share, by one process. */
#ifndef IOX2PS_PASSED_BESIDE_H
#define IOX2PS_PASSED_BESIDE_H

#include <stdbool.h>

#ifdef __cplusplus
extern "C" {
#endif

/* Of one thread, or whose calls may wait. */
void *beside_open(const char *name, bool with_threads);
/* A message of 64 bytes, from loan to release. */
void beside_pass(void *of);
void beside_close(void *of);

#ifdef __cplusplus
}
#endif
#endif
