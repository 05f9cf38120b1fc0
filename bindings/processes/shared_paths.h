// SPDX-License-Identifier: Apache-2.0 OR MIT
/* Names, and how the files are called that belong to them. A name may have '/' and be as long as a file's name at most, so that not
 * each is one itself. */
#ifndef IOX2PS_SHARED_PATHS_H
#define IOX2PS_SHARED_PATHS_H

#include <stdbool.h>
#include <stddef.h>

#define SHARED_FOLDER "/dev/shm"
#define SHARED_PREFIX "iox2ps."
#define SHARED_SUFFIX ".calls"
#define SHARED_PAYLOADS_SUFFIX ".payloads"

enum { SHARED_NAME_MAX = 255, SHARED_FILE_MAX = 200, SHARED_PATH_MAX = SHARED_FILE_MAX + 32 };

/* Whether it has 1 to SHARED_NAME_MAX bytes of UTF-8 and no part '.' or '..' between two '/'. */
bool shared_name_is_good(const char *name);
/* What the names of its files have between prefix and suffix. What a file's name can't have, or would hide it, is written as '%' and two
 * digits. Where that is too long, its end is a sum of the whole name: two names may then have the same files, so the header says whose
 * they are. */
void shared_file_name(const char *name, char file[SHARED_FILE_MAX + 1]);
/* The path of a file of this name. */
void shared_path(const char *name, const char *suffix, char path[SHARED_PATH_MAX]);

#endif
