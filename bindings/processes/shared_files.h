// SPDX-License-Identifier: Apache-2.0 OR MIT
/* What processes share by a name: a file with the list of calls, copies and places, and a file with payloads, which a process
 * that writes none maps read-only, so that a stray write there ends the writer and changes no message. */
#ifndef IOX2PS_SHARED_FILES_H
#define IOX2PS_SHARED_FILES_H

#include "places.h"
#include "replica.h"
#include "shared_paths.h"
#include "sleepers.h"
#include <sys/types.h>

enum { SHARED_TYPE_NAME_MAX = 127, SHARED_CONFIG_MAX = 256, SHARED_DOMAINS_MAX = 4 };

typedef enum shared_mode_t { SHARED_OPEN, SHARED_CREATE, SHARED_OPEN_OR_CREATE } shared_mode_t;

/* What one of the objects that lie together passes on, and how. */
typedef struct shared_kind_t {
  const char *type_name;
  size_t payload_size, payload_alignment;
  const void *config;           /* all other settings, byte for byte */
  size_t config_size;
} shared_kind_t;

/* What has to be the same in all processes, and what the creator decides. */
typedef struct shared_settings_t {
  const char *name;
  uint32_t version;
  uint64_t build;               /* tells builds of the library apart: copies pass between processes */
  uint32_t domains;             /* how many `kinds` there are */
  shared_kind_t kinds[SHARED_DOMAINS_MAX];
  uint32_t places, length;      /* processes; calls of the list, a power of two */
  size_t room, payload_room;    /* bytes of a copy, and of all payloads */
  mode_t permissions;
  bool writes_payloads;
} shared_settings_t;

typedef enum shared_status_t {
  SHARED_OK,
  SHARED_BAD_SETTINGS,
  SHARED_NO_SUCH,      /* nobody has the name */
  SHARED_EXISTS,       /* somebody has the name that is to be created */
  SHARED_OTHER_VERSION,  /* those who have it have another version of the library, or another build of it */
  SHARED_OTHER_TYPE,     /* messages of another type, size or alignment */
  SHARED_OTHER_SETTINGS,
  SHARED_FOREIGN,      /* the file is of another program, or was cut short */
  SHARED_FULL,         /* as many living processes as places */
  SHARED_NO_PERMISSION,
  SHARED_SYSTEM        /* the system refuses something else, as memory */
} shared_status_t;

struct shared_header_t;

typedef struct shared_files_t {
  struct shared_header_t *header;
  size_t size, payload_size;
  char *payloads;
  sleepers_shared_t *sleepers;
  call_list_t list;
  copies_t copies;
  places_t places;
  uint64_t *base;  /* where the object lies in each process: the creator says it before all is ready */
  uint64_t created; /* when its creator made it, in ns */
  uint64_t number; /* of this process, among all that ever had the file */
  uint64_t dead;   /* of a process whose place this is and of whose end the list doesn't say yet; or 0 */
  bool was_whole;  /* others had it, or left it, when this process came */
  bool is_new;     /* this process creates it: it has to make the first copy before it says that all is ready */
  char path[2][SHARED_PATH_MAX];
  char why[512];   /* in words, if something is refused */
} shared_files_t;

/* Opens or creates the files, takes a place, and keeps others from opening them until `shared_files_ready`. In a new file
 * all is 0. If anything is refused, nothing is left of it, and `why` says it in words. */
shared_status_t shared_files_open(shared_files_t *it, const shared_settings_t *settings, shared_mode_t mode);
/* Others may open it. */
void shared_files_ready(shared_files_t *it);
/* Whether this process may write payloads from now on: if it opened the files to write them, it may at first. */
bool shared_files_protect_payloads(shared_files_t *it, bool may_write);
/* Gives the place back. The last process removes the files. */
void shared_files_close(shared_files_t *it);
/* In a forked child: gives up what it has by its parent, which alone keeps the place. */
void shared_files_drop_in_child(shared_files_t *it);
/* Then the messages of its parent, which the child may read and write for itself until now. */
void shared_files_drop_payloads(shared_files_t *it);

#endif
