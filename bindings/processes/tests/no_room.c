// SPDX-License-Identifier: Apache-2.0 OR MIT
#define _GNU_SOURCE
/* A /dev/shm of its own is full: whoever creates a domain is told so and leaves nothing, and a domain that is there already lacks nothing,
 * since its files have all their memory. So has a process that finds something else at the address of a domain. */
#include "check_domains.h"
#include "children.h"
#include "iox2_pubsub_processes.h"
#include "shared_header.h"
#include <dirent.h>
#include <errno.h>
#include <fcntl.h>
#include <sched.h>
#include <stdbool.h>
#include <stdio.h>
#include <string.h>
#include <sys/mman.h>
#include <sys/mount.h>
#include <sys/wait.h>
#include <unistd.h>

enum { BYTES = 4096, MESSAGES = 2000 };

static iox2ps_config_t config;

static iox2ps_status_t open_one(iox2ps_domain_t *domain, const char *name) {
  *domain = (iox2ps_domain_t)IOX2PS_DOMAIN_INIT;
  return iox2ps_domain_open_or_create(domain, name, "bytes", &config, NULL);
}

/* False where the system lets nobody do so. */
static bool mount_own(void) {
  uid_t user = getuid();
  char map[64];
  if (unshare(CLONE_NEWNS) != 0) {
    if (unshare(CLONE_NEWUSER | CLONE_NEWNS) != 0) return false;
    int fd = open("/proc/self/uid_map", O_WRONLY);
    int length = snprintf(map, sizeof map, "0 %u 1", (unsigned)user);
    if (fd < 0 || write(fd, map, (size_t)length) != length) return false;
    close(fd);
  }
  return mount("none", "/", NULL, MS_REC | MS_PRIVATE, NULL) == 0 && mount("tmpfs", SHARED_FOLDER, "tmpfs", 0, "size=64m") == 0;
}

static int count_files(void) {
  int count = 0;
  DIR *folder = opendir(SHARED_FOLDER);
  CHECK(folder != NULL);
  for (struct dirent *entry; (entry = readdir(folder)) != NULL;) count += entry->d_name[0] != '.';
  closedir(folder);
  return count;
}

/* Takes all that is left. */
static void fill_folder(void) {
  static const char bytes[1 << 16];
  int fd = open(SHARED_FOLDER "/filler", O_WRONLY | O_CREAT | O_EXCL, 0600);
  CHECK(fd >= 0);
  for (size_t size = sizeof bytes; size > 0;)
    if (write(fd, bytes, size) < 0) size /= 2;
  CHECK(errno == ENOSPC && close(fd) == 0);
}

/* Fills each slot and reads it. */
static void pass_messages(iox2ps_domain_t *domain, const iox2ps_subscriber_t *subscriber) {
  static char bytes[BYTES], received[BYTES];
  iox2ps_publisher_t publisher;
  iox2ps_blocked_t blocked;
  iox2ps_sample_t sample;
  size_t receivers, len;
  CHECK(iox2ps_publisher_create(domain, &publisher) == IOX2PS_OK);
  for (int i = 0; i < MESSAGES; i++) {
    memset(bytes, i, sizeof bytes);
    CHECK(iox2ps_publisher_send_copy(domain, &publisher, bytes, sizeof bytes, &receivers, &blocked) == IOX2PS_OK && receivers == 1);
    CHECK(iox2ps_subscriber_receive_copy(domain, subscriber, received, sizeof received, &len, &sample) == IOX2PS_OK && memcmp(bytes, received, sizeof bytes) == 0);
  }
}

static void full_folder(void) {
  iox2ps_domain_t domain, other;
  iox2ps_subscriber_t subscriber;
  CHECK(open_one(&domain, "one") == IOX2PS_OK && iox2ps_subscriber_create(&domain, &subscriber) == IOX2PS_OK);
  int files = count_files();
  fill_folder();
  CHECK(open_one(&other, "two") == IOX2PS_OPEN_ERROR_INTERNAL_FAILURE && strstr(iox2ps_processes_why(), "No space left") != NULL);
  CHECK(other.domain_ == NULL && count_files() == files + 1);
  pid_t child = fork_child();
  if (child == 0) { /* another process enters */
    CHECK(iox2ps_domain_destroy(&domain) == IOX2PS_OK && open_one(&domain, "one") == IOX2PS_OK && iox2ps_subscriber_create(&domain, &subscriber) == IOX2PS_OK);
    CHECK(iox2ps_domain_destroy(&domain) == IOX2PS_OK);
    _exit(0);
  }
  int status;
  CHECK(child > 0 && waitpid(child, &status, 0) == child && status == 0);
  pass_messages(&domain, &subscriber);
  CHECK(unlink(SHARED_FOLDER "/filler") == 0 && open_one(&other, "two") == IOX2PS_OK && iox2ps_domain_destroy(&other) == IOX2PS_OK);
  CHECK(iox2ps_domain_destroy(&domain) == IOX2PS_OK && count_files() == 0);
}

static uint64_t base_of(const char *path) {
  int fd = open(path, O_RDONLY);
  shared_header_t header;
  CHECK(fd >= 0 && read(fd, &header, sizeof header) == sizeof header && close(fd) == 0);
  return header.base;
}

/* Another process has something of its own at the address: it is told so, and what it has stays. */
static void taken_address(const char *name) {
  char path[300];
  iox2ps_domain_t domain;
  CHECK(open_one(&domain, name) == IOX2PS_OK);
  snprintf(path, sizeof path, SHARED_FOLDER "/" SHARED_PREFIX "%s" SHARED_SUFFIX, name);
  char *at = (char *)(uintptr_t)base_of(path);
  pid_t child = fork_child();
  if (child == 0) {
    CHECK(iox2ps_domain_destroy(&domain) == IOX2PS_OK);
    char *own = mmap(at, PAGE, PROT_READ | PROT_WRITE, MAP_PRIVATE | MAP_ANONYMOUS | MAP_FIXED_NOREPLACE, -1, 0);
    CHECK(own == at);
    *own = 42;
    CHECK(open_one(&domain, name) == IOX2PS_OPEN_ERROR_ADDRESS_IN_USE && domain.domain_ == NULL && *own == 42);
    CHECK(munmap(own, PAGE) == 0 && open_one(&domain, name) == IOX2PS_OK && iox2ps_domain_destroy(&domain) == IOX2PS_OK);
    _exit(0);
  }
  int status;
  CHECK(child > 0 && waitpid(child, &status, 0) == child && status == 0);
  CHECK(iox2ps_domain_destroy(&domain) == IOX2PS_OK);
}

int main(void) {
  char name[64];
  snprintf(name, sizeof name, "test_no_room.%d", (int)getpid());
  iox2ps_config_defaults(&config, 7, BYTES, 1);
  taken_address(name);
  pid_t child = fork_child();
  if (child == 0) {
    if (!mount_own()) _exit(2);
    full_folder();
    _exit(0);
  }
  int status;
  CHECK(child > 0 && waitpid(child, &status, 0) == child && WIFEXITED(status) && (WEXITSTATUS(status) == 0 || WEXITSTATUS(status) == 2));
  puts(WEXITSTATUS(status) == 0 ? "no room: who creates is told so, and who is there goes on" : "a taken address is told; a full folder isn't tried, since the system mounts none");
  return 0;
}
