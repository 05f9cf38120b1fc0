// SPDX-License-Identifier: Apache-2.0 OR MIT
#define _GNU_SOURCE
#include "shared_names.h"
#include "file_status.h"
#include "shared_header.h"
#include <dirent.h>
#include <fcntl.h>
#include <stdio.h>
#include <string.h>
#include <sys/mman.h>
#include <sys/stat.h>
#include <unistd.h>

static uint32_t count_living(const shared_header_t *header, int fd) {
  /* Of a file that any program may have written. */
  places_t places = {(places_shared_t *)&header->who, header->places < PLACES_MAX ? header->places : PLACES_MAX, NO_PLACE, fd};
  uint32_t living = 0, dead = 0;
  uint64_t number;
  /* Relaxed: only counted. */
  for (uint32_t place = 0; place < places.count; place++) living += atomic_load_explicit(&places.shared->numbers[place], memory_order_relaxed) != 0;
  for (uint32_t place = 0; (place = places_next_dead(&places, ALL_PLACES, place, &number)) != NO_PLACE; place++) dead++;
  return living > dead ? living - dead : 0;
}

static bool look_into(const shared_header_t *header, int fd, shared_name_t *found) {
  /* Acquire: what the creator wrote before it said that all is ready. */
  bool is_ready = memcmp(header->magic, MAGIC, sizeof MAGIC) == 0 && atomic_load_explicit(&header->is_ready, memory_order_acquire) == IS_READY;
  if (!is_ready) return false;
  memcpy(found->name, header->name, SHARED_NAME_MAX);
  found->name[SHARED_NAME_MAX] = 0;
  memcpy(found->type_name, header->kinds[0].type_name, SHARED_TYPE_NAME_MAX);
  found->type_name[SHARED_TYPE_NAME_MAX] = 0;
  found->payload_size = header->kinds[0].payload_size, found->payload_alignment = header->kinds[0].payload_alignment;
  found->domains = (uint32_t)header->domains;
  found->places = header->places, found->processes = count_living(header, fd);
  return found->processes != 0;
}

/* The file at this path. */
static bool find_at(const char *path, shared_name_t *found) {
  struct stat file;
  int fd = open(path, O_RDONLY | O_CLOEXEC | O_NOFOLLOW | O_NONBLOCK);
  if (fd < 0) return false;
  bool is_there = false;
  if (file_status(fd, &file) && S_ISREG(file.st_mode) && file.st_size >= PAGE) {
    const shared_header_t *header = mmap(NULL, PAGE, PROT_READ, MAP_SHARED, fd, 0);
    is_there = header != MAP_FAILED && look_into(header, fd, found);
    if (header != MAP_FAILED) munmap((void *)header, PAGE);
  }
  close(fd);
  return is_there;
}

bool shared_names_find(const char *name, shared_name_t *found) {
  char path[SHARED_PATH_MAX];
  if (!shared_name_is_good(name)) return false;
  shared_path(name, SHARED_SUFFIX, path);
  return find_at(path, found) && strcmp(found->name, name) == 0;
}

/* The file of the folder with this name, if it is that of the name which its header says. */
static bool find_file(const char *file, shared_name_t *found) {
  char path[SHARED_PATH_MAX], own[SHARED_PATH_MAX];
  int length = snprintf(path, sizeof path, SHARED_FOLDER "/%s", file);
  if (length < 0 || (size_t)length >= sizeof path || strncmp(file, SHARED_PREFIX, sizeof SHARED_PREFIX - 1) != 0) return false;
  if (!find_at(path, found) || !shared_name_is_good(found->name)) return false;
  shared_path(found->name, SHARED_SUFFIX, own);
  return strcmp(path, own) == 0;
}

bool shared_names_list(bool (*tell)(void *of, const shared_name_t *name), void *of) {
  DIR *folder = opendir(SHARED_FOLDER);
  if (folder == NULL) return false;
  const struct dirent *file;
  bool goes_on = true;
  while (goes_on && (file = readdir(folder)) != NULL) {
    shared_name_t found;
    if (find_file(file->d_name, &found)) goes_on = tell(of, &found);
  }
  closedir(folder);
  return true;
}
