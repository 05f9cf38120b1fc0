// SPDX-License-Identifier: Apache-2.0 OR MIT
/* Which process made the publisher of each book of slots. A book stays where it is as long as anybody has a message of it, also if its
 * publisher is closed or its process has died. The table lies in a heap, and follows from the calls. */
#ifndef IOX2PS_BOOK_OWNERS_H
#define IOX2PS_BOOK_OWNERS_H

#include "live_handles.h"

typedef struct book_owner_t { uint64_t publisher, process; } book_owner_t;

typedef struct book_owners_t {
  book_owner_t *all;
  size_t room;
} book_owners_t;

/* Makes room for one more book than there are, so that a publisher may be made. */
bool book_owners_reserve(book_owners_t *it, region_heap_t *heap, size_t books);
/* A loan of another publisher than before lies in this book: the process is that of the publisher's handle. */
void book_owners_note_other(book_owners_t *it, const live_handles_t *handles, const uint64_t publisher[HANDLE_WORDS], uint64_t book);
/* A loan of the publisher lies in this book. */
static inline void book_owners_note(book_owners_t *it, const live_handles_t *handles, const uint64_t publisher[HANDLE_WORDS], uint64_t book) {
  if (book < it->room && it->all[book].publisher != publisher[0]) book_owners_note_other(it, handles, publisher, book);
}
/* The number of the process, or 0. */
uint64_t book_owners_process(const book_owners_t *it, uint64_t book);

#endif
