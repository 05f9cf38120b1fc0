// SPDX-License-Identifier: Apache-2.0 OR MIT
/* Nonsense over parts of the files that processes share. */
#ifndef IOX2PS_NONSENSE_H
#define IOX2PS_NONSENSE_H

#include "random.h"
#include "shared_header.h"

/* Of a harmless one nobody is told: no call depends on it. */
typedef struct part_t { const char *name; char *at; size_t size; bool is_harmless; } part_t;

/* A little of it at a time, and all of it. */
static void write_nonsense(part_t part, uint64_t *random) {
  size_t count = next_random(random) % 64 == 0 ? part.size : 1 + next_random(random) % 8;
  for (size_t i = 0; i < count; i++) ((volatile char *)part.at)[next_random(random) % part.size] = (char)next_random(random);
}

/* One of the parts; without a name if there are no more. */
static part_t part_of(const shared_files_t *is, uint32_t which) {
  shared_header_t *header = is->header;
  char *order = (char *)is->list.order, *entries = (char *)is->list.entries, *heads = (char *)is->copies.newest, *buffers = (char *)is->copies.buffers, *end = (char *)header + is->size;
  const part_t parts[] = {
    {"payloads", is->payloads, is->payload_size, true},
    {"the settings in the header", (char *)header, offsetof(shared_header_t, who), false},
    {"the places", (char *)&header->who, sizeof header->who, false},
    {"those who sleep", (char *)is->sleepers, sizeof *is->sleepers, true},
    {"announcements", (char *)is->list.announcements, (size_t)(order - (char *)is->list.announcements), false},
    {"order", order, is->list.length * sizeof(uint64_t), false},
    {"entries", entries, (size_t)(heads - entries), false},
    {"heads of copies", heads, (size_t)(buffers - heads), false},
    {"copies", buffers, (size_t)(end - buffers), false},
    {"all of it", (char *)header, is->size, false}
  };
  return which < sizeof parts / sizeof *parts ? parts[which] : (part_t){NULL, NULL, 0, false};
}

#endif
