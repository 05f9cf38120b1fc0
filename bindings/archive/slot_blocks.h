// SPDX-License-Identifier: Apache-2.0 OR MIT
/* Which of the blocks that an archive asks its heap for are payloads. It promises, and tests hold it to that on each processor:
 *
 *  - The calls that make a publisher or lend are the only ones that ask for payloads: slot by slot, and only where they make slots.
 *  - A slot is asked for as three blocks, one right behind the other: SLOT_CELL_SIZE bytes for its cell; its payload, with as many bytes
 *    as a message there may have; and one that says where the two are. The first two are aligned to 1, the third to more.
 *  - Apart from that, no two blocks that are aligned to 1 are asked for one behind the other.
 *  - Payloads are read by the calls that copy out of them, and written by send_copy, and by the two that lend: iox2ps_publisher_loan
 *    fills them by memset. Each other call leaves them alone, and none of C touches a cell. */
#ifndef IOX2PS_SLOT_BLOCKS_H
#define IOX2PS_SLOT_BLOCKS_H

#include <stdbool.h>
#include <stddef.h>

enum { SLOT_CELL_SIZE = 2, SLOT_ALIGNMENT = 1 };

/* Whether the block that was asked for last is a cell. */
typedef struct slot_blocks_t { bool is_cell; } slot_blocks_t;

/* Whether this block is a payload, which is asked for next. */
static inline bool slot_blocks_is_payload(slot_blocks_t *last, size_t size, size_t alignment) {
  bool is_payload = last->is_cell && alignment == SLOT_ALIGNMENT;
  last->is_cell = size == SLOT_CELL_SIZE && alignment == SLOT_ALIGNMENT;
  return is_payload;
}

#endif
