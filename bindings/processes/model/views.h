// SPDX-License-Identifier: Apache-2.0 OR MIT
/* Views: how far each location has been seen. Equal views have equal numbers; 0 has seen nothing but what there was at first. */
#ifndef IOX2PS_MODEL_VIEWS_H
#define IOX2PS_MODEL_VIEWS_H

#include <stdint.h>

enum { LOCATIONS = 224 };

typedef uint32_t view_t;

uint8_t view_of(view_t view, uint32_t location);
/* The view with this location seen at least so far. */
view_t view_with(view_t view, uint32_t location, uint8_t seen);
/* What either has seen. */
view_t view_join(view_t one, view_t other);

#endif
