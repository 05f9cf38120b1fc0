// SPDX-License-Identifier: Apache-2.0 OR MIT
#define _GNU_SOURCE
#include "shared_paths.h"
#include <stdint.h>
#include <stdio.h>
#include <string.h>

/* How many bytes the character has that begins here, or 0 where it isn't one of UTF-8. */
static size_t length_of_character(const unsigned char *at) {
  static const uint32_t least[] = {0, 0, 0x80, 0x800, 0x10000}; /* what a shorter one says */
  if (*at < 0x80) return 1;
  size_t length = *at >> 5 == 0x06 ? 2 : *at >> 4 == 0x0e ? 3 : *at >> 3 == 0x1e ? 4 : 0;
  uint32_t value = *at & (0x7fu >> length);
  for (size_t i = 1; i < length; i++) {
    if (at[i] >> 6 != 2) return 0;
    value = value << 6 | (at[i] & 0x3f);
  }
  return value < least[length] || value > 0x10ffff || value >> 11 == 0x1b ? 0 : length;
}

static bool is_utf8(const char *name) {
  size_t length = 1;
  for (const unsigned char *at = (const unsigned char *)name; *at != 0 && length != 0; at += length) length = length_of_character(at);
  return length != 0;
}

/* As a path it would lead elsewhere, so whoever writes such a name means something else. */
static bool has_dots(const char *name) {
  for (const char *part = name; part != NULL; part = strchr(part, '/')) {
    if (*part == '/') part++;
    size_t length = strcspn(part, "/");
    if ((length == 1 || length == 2) && strspn(part, ".") == length) return true;
  }
  return false;
}

bool shared_name_is_good(const char *name) {
  size_t length = strnlen(name, SHARED_NAME_MAX + 1);
  return length != 0 && length <= SHARED_NAME_MAX && is_utf8(name) && !has_dots(name);
}

static bool is_plain(const char *name, size_t at) {
  unsigned char byte = (unsigned char)name[at];
  return byte > ' ' && byte != 0x7f && byte != '/' && byte != '%' && (byte != '.' || at != 0);
}

static uint64_t sum_of(const char *name) {
  uint64_t sum = UINT64_C(0xcbf29ce484222325); /* FNV-1a */
  for (; *name != 0; name++) sum = (sum ^ (unsigned char)*name) * UINT64_C(0x100000001b3);
  return sum;
}

void shared_file_name(const char *name, char file[SHARED_FILE_MAX + 1]) {
  enum { SUM = 18, KEPT = SHARED_FILE_MAX - SUM }; /* "%-" is no '%' with digits, and so the sum no end of another name */
  size_t length = 0, kept = 0, at = 0;
  for (; name[at] != 0 && length + 3 <= SHARED_FILE_MAX; at++) {
    if (is_plain(name, at)) file[length++] = name[at];
    else length += (size_t)sprintf(file + length, "%%%02x", (unsigned char)name[at]);
    if (length <= KEPT) kept = length;
  }
  file[length] = 0;
  if (name[at] != 0) sprintf(file + kept, "%%-%016llx", (unsigned long long)sum_of(name));
}

void shared_path(const char *name, const char *suffix, char path[SHARED_PATH_MAX]) {
  char file[SHARED_FILE_MAX + 1];
  shared_file_name(name, file);
  snprintf(path, SHARED_PATH_MAX, SHARED_FOLDER "/" SHARED_PREFIX "%s%s", file, suffix);
}
