// SPDX-License-Identifier: Apache-2.0 OR MIT
/* What the system says of an open file. */
#ifndef IOX2PS_FILE_STATUS_H
#define IOX2PS_FILE_STATUS_H

#include <stdbool.h>
#include <sys/stat.h>

/* Whether it says it. Errno as fstat's. */
bool file_status(int fd, struct stat *status);

#endif
