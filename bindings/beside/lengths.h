// SPDX-License-Identifier: Apache-2.0 OR MIT
/* Messages by their length, through one library: each is lent, one word of it written, sent, received, read and released.
 *   PROGRAM LEN count        passes some hundred messages, the last ones by `counted`
 *   PROGRAM LEN time         prints how many nanoseconds a message took, of many
 * A library has these three functions; each returns 0 where something fails. */
#ifndef LENGTHS_H
#define LENGTHS_H

#include <stddef.h>
#include <stdint.h>

#ifdef __cplusplus
extern "C" {
#endif

/* Makes what passes messages of `len` bytes, at least 8. */
int begin(size_t len);

/* Passes one message with this word, and finds the word in it. */
int pass(uint64_t word);

int end(void);

#ifdef __cplusplus
}
#endif

#endif
