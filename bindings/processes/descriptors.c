// SPDX-License-Identifier: Apache-2.0 OR MIT
/* Waits in an event loop of the program's. */
#include "shared_domain.h"
#include "file_status.h"
#include <sys/stat.h>

void shared_group_rouse(void *of, uint64_t places) {
  shared_group_t *it = of;
  /* Relaxed: a process that has just made its descriptor looks for what came before. */
  places &= atomic_load_explicit(&it->member.files.sleepers->by_descriptor, memory_order_relaxed);
  if (places != 0) wake_pipes_wake(&it->pipes, it->member.files.path[0], places);
}

static iox2ps_status_t check(const iox2ps_domain_t *domain, shared_domain_t **shared) {
  *shared = shared_domain_of(domain);
  if (*shared == NULL) return domain->domain_ == NULL ? IOX2PS_NO_DOMAIN : IOX2PS_PROCESSES_NOT_SHARED;
  return (*shared)->group->broken;
}

/* Says what this process waits for. What comes afterwards makes the descriptor readable. */
static void arm(const shared_domain_t *it) { (void)sleepers_begin(it->group->member.files.sleepers, it->group->member.replica.place, it->group->member.listens_for); }

static bool make_pipe(shared_domain_t *it) {
  const shared_files_t *files = &it->group->member.files;
  struct stat file;
  if (it->group->pipes.loop != 0) return true;
  if (!file_status(files->places.lock_fd, &file)) return false;
  if (!wake_pipes_make(&it->group->pipes, files->path[0], it->group->member.replica.place, file.st_mode & 0777, it->group->member.reap_every_ms)) return false;
  /* Relaxed: as in shared_group_rouse. */
  atomic_fetch_or_explicit(&files->sleepers->by_descriptor, UINT64_C(1) << it->group->member.replica.place, memory_order_relaxed);
  return true;
}

iox2ps_status_t iox2ps_domain_get_file_descriptor(iox2ps_domain_t *domain, uint32_t brings, int *fd) {
  shared_domain_t *shared;
  iox2ps_status_t code = check(domain, &shared);
  if (code != IOX2PS_OK) return code;
  if (!domain_brings_are_known(brings)) return IOX2PS_OPEN_ERROR_INVALID_ARGUMENT;
  if (!make_pipe(shared)) return IOX2PS_OPEN_ERROR_INTERNAL_FAILURE;
  shared->group->member.listens_for |= brings;
  arm(shared);
  *fd = shared->group->pipes.loop;
  return IOX2PS_OK;
}

iox2ps_status_t iox2ps_domain_clear_file_descriptor(iox2ps_domain_t *domain) {
  shared_domain_t *shared;
  iox2ps_status_t code = check(domain, &shared);
  if (code != IOX2PS_OK || shared->group->pipes.loop == 0) return code;
  bool is_time = wake_pipes_clear(&shared->group->pipes);
  arm(shared);
  if (is_time) code = shared_domain_look(shared);
  if (code == IOX2PS_OK) shared_domain_tell_deaths(shared);
  return code;
}
