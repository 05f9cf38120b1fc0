// SPDX-License-Identifier: Apache-2.0 OR MIT
#define _GNU_SOURCE
#include "shared_files.h"
#include "file_status.h"
#include "shared_header.h"
#include "wake_pipes.h"
#include <errno.h>
#include <fcntl.h>
#include <stdarg.h>
#include <stdio.h>
#include <string.h>
#include <sys/mman.h>
#include <sys/stat.h>
#include <time.h>
#include <unistd.h>

enum { CALLS = 0, PAYLOADS = 1 };

__attribute__((format(printf, 3, 4))) static shared_status_t refuse(shared_files_t *it, shared_status_t status, const char *format, ...) {
  va_list words;
  va_start(words, format);
  vsnprintf(it->why, sizeof it->why, format, words);
  va_end(words);
  return status;
}
static shared_status_t refuse_by_system(shared_files_t *it, int which) {
  int error = errno;
  return refuse(it, error == EACCES || error == EPERM ? SHARED_NO_PERMISSION : SHARED_SYSTEM, "%s: %s", it->path[which], strerror(error));
}

static size_t in_pages(size_t size) { return (size + PAGE - 1) / PAGE * PAGE; }
static size_t list_size(uint32_t places, uint32_t length) { return (call_list_size(places, length) + 63) / 64 * 64; }
/* What decides where all lies. It is read out of the header once, since another process may write over that. */
typedef struct rooms_t { uint32_t places, length; size_t room; } rooms_t;

/* The header, those who sleep, the list, and copies. */
static size_t file_size(rooms_t is) {
  return in_pages(PAGE + sizeof(sleepers_shared_t) + list_size(is.places, is.length) + copies_size(is.places, is.room));
}
static bool are_good(uint32_t places, uint32_t length) {
  return places >= 1 && places <= CALL_PLACES && length >= 8 && length <= CALL_LENGTH_MAX && (length & (length - 1)) == 0;
}

static shared_status_t check_settings(shared_files_t *it, const shared_settings_t *is) {
  size_t largest = SIZE_MAX / 4;
  if (!shared_name_is_good(is->name))
    return refuse(it, SHARED_BAD_SETTINGS, "'%.40s' is no name: it has 1 to %d bytes of UTF-8, and no part '.' or '..'", is->name, SHARED_NAME_MAX);
  if (is->domains == 0 || is->domains > SHARED_DOMAINS_MAX) return refuse(it, SHARED_BAD_SETTINGS, "%u domains: there are 1 to %d", is->domains, SHARED_DOMAINS_MAX);
  for (uint32_t i = 0; i < is->domains; i++)
    if (strlen(is->kinds[i].type_name) > SHARED_TYPE_NAME_MAX || is->kinds[i].config_size > SHARED_CONFIG_MAX)
      return refuse(it, SHARED_BAD_SETTINGS, "the type's name or the settings are too long");
  if (is->places == 0 || is->places > CALL_PLACES) return refuse(it, SHARED_BAD_SETTINGS, "%u places: there are 1 to %d", is->places, CALL_PLACES);
  if (is->length < 8 || is->length > CALL_LENGTH_MAX || (is->length & (is->length - 1)) != 0)
    return refuse(it, SHARED_BAD_SETTINGS, "a list of %u calls: it has 8 to %d, a power of two", is->length, CALL_LENGTH_MAX);
  if (is->room == 0 || is->room > largest / (2 * CALL_PLACES) || is->payload_room > largest) return refuse(it, SHARED_BAD_SETTINGS, "rooms of %zu and %zu bytes", is->room, is->payload_room);
  return SHARED_OK;
}

static shared_status_t compare_kind(shared_files_t *it, const shared_header_kind_t *is, const shared_kind_t *own) {
  const char *path = it->path[CALLS];
  if (strncmp(is->type_name, own->type_name, sizeof is->type_name) != 0)
    return refuse(it, SHARED_OTHER_TYPE, "%s has messages of the type '%.127s', and this program of '%s'", path, is->type_name, own->type_name);
  if (is->payload_size != own->payload_size || is->payload_alignment != own->payload_alignment)
    return refuse(it, SHARED_OTHER_TYPE, "%s has messages of %zu bytes aligned to %zu, and this program of %zu aligned to %zu", path,
                  (size_t)is->payload_size, (size_t)is->payload_alignment, own->payload_size, own->payload_alignment);
  if (is->config_size != own->config_size || memcmp(is->config, own->config, own->config_size) != 0) return refuse(it, SHARED_OTHER_SETTINGS, "%s has other settings", path);
  return SHARED_OK;
}

/* Those who have the files have the same settings. */
static shared_status_t compare(shared_files_t *it, const shared_settings_t *own) {
  const shared_header_t *is = it->header;
  const char *path = it->path[CALLS];
  if (is->layout != LAYOUT || is->version != own->version) return refuse(it, SHARED_OTHER_VERSION, "%s is of version %x, and this program of %x", path, is->version, own->version);
  if (is->build != own->build)
    return refuse(it, SHARED_OTHER_VERSION, "%s is of the build %016llx, and this program of %016llx", path, (unsigned long long)is->build, (unsigned long long)own->build);
  if (strncmp(is->name, own->name, sizeof is->name) != 0) return refuse(it, SHARED_FOREIGN, "%s is of the name '%.255s'", path, is->name);
  if (is->domains != own->domains)
    return refuse(it, SHARED_OTHER_SETTINGS, "%s has a group of %u domains, and this program one of %u", path, (unsigned)is->domains, own->domains);
  shared_status_t status = SHARED_OK;
  for (uint32_t i = 0; i < own->domains && status == SHARED_OK; i++) status = compare_kind(it, &is->kinds[i], &own->kinds[i]);
  return status;
}

/* Maps a file, and touches all of it, so that no call waits for a page. */
static void *map(int fd, size_t size, int protection) {
  void *at = mmap(NULL, size, protection, MAP_SHARED | MAP_POPULATE, fd, 0);
  return at == MAP_FAILED ? NULL : at;
}

/* A file with so many bytes of memory, all 0: nobody gets a signal later for want of memory. */
static bool fill(int fd, size_t size) {
  if (ftruncate(fd, 0) != 0) return false;
  int error = posix_fallocate(fd, 0, (off_t)size);
  if (error == 0) return true;
  if (ftruncate(fd, 0) == 0) errno = error;
  return false;
}

static uint64_t time_of_day(void) {
  struct timespec now;
  clock_gettime(CLOCK_REALTIME, &now);
  return (uint64_t)now.tv_sec * 1000000000u + (uint64_t)now.tv_nsec;
}

/* A file that nobody has. Another user's could be opened by that one, whatever its permissions are; and these are as they are asked for,
 * whatever the process' mask of new files is. */
static shared_status_t own(shared_files_t *it, const shared_settings_t *is, int fd) {
  struct stat file;
  if (!file_status(fd, &file)) return refuse_by_system(it, CALLS);
  if (!S_ISREG(file.st_mode)) return refuse(it, SHARED_FOREIGN, "%s is of another program: it is no file", it->path[CALLS]);
  if (file.st_uid != geteuid()) return refuse(it, SHARED_NO_PERMISSION, "%s belongs to another user, and nobody has it", it->path[CALLS]);
  return fchmod(fd, is->permissions) == 0 ? SHARED_OK : refuse_by_system(it, CALLS);
}

static shared_status_t create(shared_files_t *it, const shared_settings_t *is, int fd, rooms_t *rooms) {
  shared_status_t status = own(it, is, fd);
  if (status != SHARED_OK) return status;
  it->is_new = true;
  *rooms = (rooms_t){is->places, is->length, is->room};
  it->size = file_size(*rooms);
  if (!fill(fd, it->size)) return refuse_by_system(it, CALLS);
  it->header = map(fd, it->size, PROT_READ | PROT_WRITE);
  if (it->header == NULL) return refuse_by_system(it, CALLS);
  /* First of all, so that a file with anything else in it is another program's. */
  memcpy(it->header->magic, MAGIC, sizeof MAGIC);
  atomic_signal_fence(memory_order_seq_cst);
  shared_header_t header = {
    .layout = LAYOUT, .version = is->version, .build = is->build, .size = it->size, .payload_room = in_pages(is->payload_room), .room = is->room,
    .places = is->places, .length = is->length, .domains = is->domains, .created = time_of_day()
  };
  strcpy(header.name, is->name);
  for (uint32_t i = 0; i < is->domains; i++) {
    const shared_kind_t *kind = &is->kinds[i];
    header.kinds[i] = (shared_header_kind_t){.payload_size = kind->payload_size, .payload_alignment = kind->payload_alignment, .config_size = kind->config_size};
    strcpy(header.kinds[i].type_name, kind->type_name);
    memcpy(header.kinds[i].config, kind->config, kind->config_size);
  }
  memcpy(&it->header->layout, &header.layout, offsetof(shared_header_t, is_ready) - offsetof(shared_header_t, layout));
  return SHARED_OK;
}

/* A creator that died midway leaves a header of zeros, or an empty file. */
static bool is_blank(const void *page) {
  static const char nothing[PAGE];
  return memcmp(page, nothing, PAGE) == 0;
}

/* The file with the list, of which the header isn't known yet. A file of another program is left as it is. */
static shared_status_t look(shared_files_t *it, int fd, size_t size, rooms_t *rooms) {
  shared_header_t *header = size < PAGE ? NULL : map(fd, PAGE, PROT_READ | PROT_WRITE);
  bool is_ours = header != NULL && memcmp(header->magic, MAGIC, sizeof MAGIC) == 0;
  bool is_begun = size == 0 || (header != NULL && is_blank(header));
  it->places = (places_t){header == NULL ? NULL : &header->who, PLACES_MAX, NO_PLACE, it->places.lock_fd};
  /* Acquire: what the creator wrote before it said that all is ready. */
  bool is_had = places_one_lives(&it->places), is_ready = is_ours && atomic_load_explicit(&header->is_ready, memory_order_acquire) == IS_READY;
  if (is_ours) *rooms = (rooms_t){header->places, header->length, header->room};
  bool is_whole = is_ready && are_good(rooms->places, rooms->length) && rooms->room <= size && file_size(*rooms) == size;
  it->was_whole = is_whole;
  if (header != NULL) munmap(header, PAGE);
  if (!is_ours && !is_begun) return refuse(it, SHARED_FOREIGN, "%s is of another program, or was cut short", it->path[CALLS]);
  if (!is_had) return SHARED_NO_SUCH;
  return is_whole ? SHARED_EXISTS : refuse(it, SHARED_FOREIGN, "%s was cut short or written over", it->path[CALLS]);
}

static shared_status_t join(shared_files_t *it, const shared_settings_t *settings, int fd, size_t size) {
  it->size = size;
  it->header = map(fd, size, PROT_READ | PROT_WRITE);
  return it->header == NULL ? refuse_by_system(it, CALLS) : compare(it, settings);
}

static shared_status_t open_payloads(shared_files_t *it, const shared_settings_t *is) {
  /* What a creator before left, somebody else may have mapped still: it isn't written. */
  if (it->is_new) unlink(it->path[PAYLOADS]), wake_pipes_remove(it->path[CALLS], PLACES_MAX);
  int access = it->is_new ? O_RDWR | O_CREAT | O_EXCL : is->writes_payloads ? O_RDWR : O_RDONLY;
  int fd = open(it->path[PAYLOADS], access | O_CLOEXEC | O_NOFOLLOW, is->permissions);
  if (fd < 0) return refuse_by_system(it, PAYLOADS);
  shared_status_t status = SHARED_OK;
  struct stat file;
  it->payload_size = it->header->payload_room;
  if (it->is_new && (fchmod(fd, is->permissions) != 0 || !fill(fd, it->payload_size))) status = refuse_by_system(it, PAYLOADS);
  else if (!file_status(fd, &file)) status = refuse_by_system(it, PAYLOADS);
  else if ((uint64_t)file.st_size != it->payload_size) status = refuse(it, SHARED_FOREIGN, "%s was cut short", it->path[PAYLOADS]);
  else if ((it->payloads = map(fd, it->payload_size, is->writes_payloads ? PROT_READ | PROT_WRITE : PROT_READ)) == NULL) status = refuse_by_system(it, PAYLOADS);
  close(fd);
  return status;
}

bool shared_files_protect_payloads(shared_files_t *it, bool may_write) {
  return mprotect(it->payloads, it->payload_size, may_write ? PROT_READ | PROT_WRITE : PROT_READ) == 0;
}

static void unmap(shared_files_t *it) {
  if (it->payloads) munmap(it->payloads, it->payload_size);
  if (it->header) munmap(it->header, it->size);
  it->payloads = NULL, it->header = NULL;
}

/* The list last: as long as it has its name, whoever creates another one waits for its lock. */
static void remove_files(const shared_files_t *it, uint32_t places) {
  wake_pipes_remove(it->path[CALLS], places);
  unlink(it->path[PAYLOADS]);
  unlink(it->path[CALLS]);
}

/* Removes what nobody has, of the files that a process has given up. Where another process has the lock, that one looks for itself when it
 * gives the lock back: so nobody waits for one that is stopped meanwhile. */
static void remove_if_left(const shared_files_t *it, uint32_t places) {
  int fd = it->places.lock_fd;
  bool is_left = true;
  while (is_left && places_try_lock_file(fd)) {
    struct stat file;
    bool has_name = file_status(fd, &file) && file.st_nlink != 0;
    bool removes = has_name && !places_one_lives(&it->places);
    if (removes) remove_files(it, places);
    places_unlock_file(fd);
    is_left = has_name && !removes && !places_one_lives(&it->places);
  }
}

/* All behind the lock of the file. */
static shared_status_t open_locked(shared_files_t *it, const shared_settings_t *settings, shared_mode_t mode, int fd, size_t size) {
  rooms_t is = {0};
  shared_status_t status = look(it, fd, size, &is);
  if (status == SHARED_EXISTS && mode == SHARED_CREATE) return refuse(it, SHARED_EXISTS, "%s is there", it->path[CALLS]);
  if (status == SHARED_NO_SUCH && mode == SHARED_OPEN) return refuse(it, SHARED_NO_SUCH, "nobody has %s", it->path[CALLS]);
  if (status == SHARED_NO_SUCH) status = create(it, settings, fd, &is);
  else if (status == SHARED_EXISTS) status = join(it, settings, fd, size);
  if (status == SHARED_OK) status = open_payloads(it, settings);
  if (status != SHARED_OK) return status;
  it->sleepers = (sleepers_shared_t *)((char *)it->header + PAGE);
  char *list = (char *)(it->sleepers + 1);
  it->list = call_list_at(list, is.places, is.length);
  it->copies = copies_at(list + list_size(is.places, is.length), is.places, is.room);
  it->places = (places_t){&it->header->who, is.places, NO_PLACE, it->places.lock_fd};
  it->base = &it->header->base;
  it->created = it->header->created;
  it->number = places_take(&it->places, &it->dead);
  return it->number != 0 ? SHARED_OK : refuse(it, SHARED_FULL, "%s has %u processes", it->path[CALLS], is.places);
}

/* The file by its name. One that is there isn't asked to be created: systems refuse that where another user has it. */
static int open_calls(const char *path, const shared_settings_t *settings, shared_mode_t mode) {
  int fd;
  do {
    fd = open(path, O_RDWR | O_CLOEXEC | O_NOFOLLOW);
    if (fd < 0 && errno == ENOENT && mode != SHARED_OPEN) fd = open(path, O_RDWR | O_CREAT | O_EXCL | O_CLOEXEC | O_NOFOLLOW, settings->permissions);
  } while (fd < 0 && errno == EEXIST);
  return fd;
}

/* The same, locked: not one that was removed while this process waited for the lock. */
static shared_status_t open_and_lock(shared_files_t *it, const shared_settings_t *settings, shared_mode_t mode, struct stat *file) {
  while (true) {
    it->places.lock_fd = open_calls(it->path[CALLS], settings, mode);
    if (it->places.lock_fd < 0 && errno == ENOENT) return refuse(it, SHARED_NO_SUCH, "there is no %s", it->path[CALLS]);
    if (it->places.lock_fd < 0) return refuse_by_system(it, CALLS);
    if (!places_lock_file(it->places.lock_fd) || !file_status(it->places.lock_fd, file)) return refuse_by_system(it, CALLS);
    if (file->st_nlink != 0) return SHARED_OK;
    close(it->places.lock_fd);
  }
}

shared_status_t shared_files_open(shared_files_t *it, const shared_settings_t *settings, shared_mode_t mode) {
  *it = (shared_files_t){.places = {.own = NO_PLACE, .lock_fd = -1}};
  shared_status_t status = check_settings(it, settings);
  if (status != SHARED_OK) return status;
  shared_path(settings->name, SHARED_SUFFIX, it->path[CALLS]);
  shared_path(settings->name, SHARED_PAYLOADS_SUFFIX, it->path[PAYLOADS]);
  struct stat file = {0};
  status = open_and_lock(it, settings, mode, &file);
  /* A second descriptor is mapped, whose description has no locks. */
  int fd = status == SHARED_OK ? open(it->path[CALLS], O_RDWR | O_CLOEXEC | O_NOFOLLOW) : -1;
  if (status == SHARED_OK) status = fd < 0 ? refuse_by_system(it, CALLS) : open_locked(it, settings, mode, fd, (size_t)file.st_size);
  if (fd >= 0) close(fd);
  if (status == SHARED_OK) return status;
  if (it->is_new) remove_files(it, 0);
  else if (it->was_whole && status != SHARED_NO_PERMISSION) remove_if_left(it, PLACES_MAX); /* the last one may have left meanwhile */
  unmap(it);
  if (it->places.lock_fd >= 0) close(it->places.lock_fd);
  return status;
}

void shared_files_ready(shared_files_t *it) {
  /* Release: whoever sees it sees the first copy, too. */
  atomic_store_explicit(&it->header->is_ready, IS_READY, memory_order_release);
  places_unlock_file(it->places.lock_fd);
}

void shared_files_close(shared_files_t *it) {
  if (it->dead != 0) places_give_up(&it->places);
  else places_leave(&it->places);
  unmap(it); /* whoever creates it anew begins with an empty file */
  remove_if_left(it, it->places.count);
  close(it->places.lock_fd);
}

/* What a child writes reaches nobody, as in all other memory that it has of its parent; and what it reads is there. */
static void own_payloads(shared_files_t *it) {
  int fd = open(it->path[PAYLOADS], O_RDONLY | O_CLOEXEC | O_NOFOLLOW);
  void *at = fd < 0 ? MAP_FAILED : mmap(it->payloads, it->payload_size, PROT_READ | PROT_WRITE, MAP_PRIVATE | MAP_FIXED, fd, 0);
  if (at == MAP_FAILED) (void)mprotect(it->payloads, it->payload_size, PROT_READ);
  if (fd >= 0) close(fd);
}

void shared_files_drop_in_child(shared_files_t *it) {
  close(it->places.lock_fd);
  munmap(it->header, it->size);
  it->header = NULL;
  own_payloads(it);
}

void shared_files_drop_payloads(shared_files_t *it) { unmap(it); }
