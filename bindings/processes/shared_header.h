// SPDX-License-Identifier: Apache-2.0 OR MIT
/* How the file with the list begins. */
#ifndef IOX2PS_SHARED_HEADER_H
#define IOX2PS_SHARED_HEADER_H

#include "places.h"
#include "shared_files.h"

enum { PAGE = 4096, LAYOUT = 4, IS_READY = 1 };
#define MAGIC "iox2ps\x01" /* eight bytes with the last 0 */

typedef struct shared_header_kind_t {
  uint64_t payload_size, payload_alignment, config_size;
  char type_name[SHARED_TYPE_NAME_MAX + 1];
  unsigned char config[SHARED_CONFIG_MAX];
} shared_header_kind_t;

typedef struct shared_header_t {
  char magic[8];
  uint32_t layout, version;
  uint64_t build, size, payload_room;
  uint64_t room;
  uint32_t places, length;
  uint64_t domains;
  shared_header_kind_t kinds[SHARED_DOMAINS_MAX];
  uint64_t created; /* when, in ns */
  char name[SHARED_NAME_MAX + 1];
  uint64_t base; /* where the object lies in each process */
  _Atomic uint64_t is_ready;
  _Alignas(64) places_shared_t who;
} shared_header_t;
_Static_assert(sizeof(shared_header_t) <= PAGE, "the header is a page");

#endif
