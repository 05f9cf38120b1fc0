// SPDX-License-Identifier: Apache-2.0 OR MIT
#include "views.h"
#include <stdio.h>
#include <stdlib.h>
#include <string.h>

enum { VIEWS = 1 << 20, PLACES = 1 << 21 };

static uint8_t seen[VIEWS][LOCATIONS];
static uint32_t count = 1; /* the first has seen nothing */
static uint32_t table[PLACES];

static uint64_t hash_of(const uint8_t *view) {
  uint64_t hash = 0, word;
  for (int i = 0; i < LOCATIONS; i += 8) {
    memcpy(&word, view + i, sizeof word);
    hash = (hash ^ word) * UINT64_C(0x9e3779b97f4a7c15);
    hash ^= hash >> 32;
  }
  return hash;
}

static view_t number_of(const uint8_t *view) {
  uint64_t hash = hash_of(view), at = hash % PLACES;
  if (hash == 0) return 0;
  for (; table[at] != 0; at = (at + 1) % PLACES)
    if (memcmp(seen[table[at]], view, LOCATIONS) == 0) return table[at];
  if (count == VIEWS) {
    fprintf(stderr, "the model has no room for more views\n");
    exit(2);
  }
  memcpy(seen[count], view, LOCATIONS);
  return table[at] = count++;
}

uint8_t view_of(view_t view, uint32_t location) { return seen[view][location]; }

/* What was asked lately. */
enum { REMEMBERED = 1 << 14 };
typedef struct answer_t { uint64_t question; view_t view; } answer_t;

static answer_t *answer_to(answer_t *answers, uint64_t question) { return &answers[(question * UINT64_C(0x9e3779b97f4a7c15)) >> 50]; }

view_t view_with(view_t view, uint32_t location, uint8_t so_far) {
  static answer_t answers[REMEMBERED];
  if (seen[view][location] >= so_far) return view;
  uint64_t question = (uint64_t)view << 32 | location << 8 | so_far;
  answer_t *answer = answer_to(answers, question);
  if (answer->question == question) return answer->view;
  uint8_t next[LOCATIONS];
  memcpy(next, seen[view], LOCATIONS);
  next[location] = so_far;
  *answer = (answer_t){question, number_of(next)};
  return answer->view;
}

view_t view_join(view_t one, view_t other) {
  static answer_t answers[REMEMBERED];
  if (one == other || other == 0) return one;
  if (one == 0) return other;
  uint64_t question = (uint64_t)one << 32 | other;
  answer_t *answer = answer_to(answers, question);
  if (answer->question == question) return answer->view;
  uint8_t next[LOCATIONS];
  for (int i = 0; i < LOCATIONS; i++) next[i] = seen[one][i] > seen[other][i] ? seen[one][i] : seen[other][i];
  *answer = (answer_t){question, number_of(next)};
  return answer->view;
}
