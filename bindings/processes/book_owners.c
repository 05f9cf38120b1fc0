// SPDX-License-Identifier: Apache-2.0 OR MIT
#include "book_owners.h"
#include "domain_calls.h"
#include <string.h>

enum { FIRST_ROOM = 8 };

bool book_owners_reserve(book_owners_t *it, region_heap_t *heap, size_t books) {
  if (books < it->room) return true;
  size_t room = it->room == 0 ? FIRST_ROOM : 2 * it->room, size = room * sizeof *it->all;
  book_owner_t *all = it->all == NULL ? region_heap_take(heap, size) : region_heap_resize(heap, it->all, size);
  if (all == NULL) return false;
  memset(all + it->room, 0, (room - it->room) * sizeof *all);
  it->all = all, it->room = room;
  return true;
}

void book_owners_note_other(book_owners_t *it, const live_handles_t *handles, const uint64_t publisher[HANDLE_WORDS], uint64_t book) {
  const live_handle_t *handle = live_handles_find(handles, HANDLE_PUBLISHER, publisher);
  if (handle != NULL) it->all[book] = (book_owner_t){publisher[0], handle->words[NODE_WORD]};
}

uint64_t book_owners_process(const book_owners_t *it, uint64_t book) { return book < it->room ? it->all[book].process : 0; }
