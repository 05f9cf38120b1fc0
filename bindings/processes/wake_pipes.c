// SPDX-License-Identifier: Apache-2.0 OR MIT
#define _GNU_SOURCE
#include "wake_pipes.h"
#include "file_status.h"
#include <fcntl.h>
#include <stdio.h>
#include <string.h>
#include <sys/epoll.h>
#include <sys/stat.h>
#include <sys/timerfd.h>
#include <unistd.h>

static void path_of(const char *calls, uint32_t place, char path[SHARED_PATH_MAX]) {
  size_t length = strlen(calls) - (sizeof SHARED_SUFFIX - 1);
  snprintf(path, SHARED_PATH_MAX, "%.*s.wake.%u", (int)length, calls, place);
}

/* 0 is no descriptor here, but where a program has closed its input the system gives it. */
static int above_0(int fd) {
  if (fd != 0) return fd;
  fd = fcntl(0, F_DUPFD_CLOEXEC, 1);
  close(0);
  return fd;
}

/* 0 where there is none. */
static int open_pipe(const char *path) {
  struct stat file;
  int fd = above_0(open(path, O_RDWR | O_NONBLOCK | O_CLOEXEC | O_NOFOLLOW));
  if (fd > 0 && file_status(fd, &file) && S_ISFIFO(file.st_mode)) return fd;
  if (fd > 0) close(fd);
  return 0;
}

static bool add(int loop, int fd) { return epoll_ctl(loop, EPOLL_CTL_ADD, fd, &(struct epoll_event){.events = EPOLLIN}) == 0; }

bool wake_pipes_make(wake_pipes_t *it, const char *calls, uint32_t place, mode_t permissions, uint32_t every_ms) {
  char path[SHARED_PATH_MAX];
  path_of(calls, place, path);
  (void)mkfifo(path, permissions); /* a process that had the place before may have made it */
  struct timespec every = {every_ms / 1000, every_ms % 1000 * 1000000L};
  it->own = open_pipe(path);
  if (it->own > 0 && fchmod(it->own, permissions) != 0) {} /* another's, where it is as it was made */
  it->timer = above_0(timerfd_create(CLOCK_MONOTONIC, TFD_NONBLOCK | TFD_CLOEXEC));
  it->loop = above_0(epoll_create1(EPOLL_CLOEXEC));
  if (it->own > 0 && it->timer > 0 && it->loop > 0 && add(it->loop, it->own) && add(it->loop, it->timer)
      && timerfd_settime(it->timer, 0, &(struct itimerspec){every, every}, NULL) == 0)
    return true;
  if (it->own > 0) close(it->own);
  if (it->timer > 0) close(it->timer);
  if (it->loop > 0) close(it->loop);
  it->own = it->timer = it->loop = 0;
  return false;
}

void wake_pipes_wake(wake_pipes_t *it, const char *calls, uint64_t places) {
  for (uint32_t place = 0; place < PLACES_MAX; place++) {
    if (!(places >> place & 1)) continue;
    if (it->of[place] == 0) {
      char path[SHARED_PATH_MAX];
      path_of(calls, place, path);
      it->of[place] = open_pipe(path);
    }
    /* A full one is readable already. */
    if (it->of[place] != 0 && write(it->of[place], "", 1) < 0) continue;
  }
}

bool wake_pipes_clear(const wake_pipes_t *it) {
  enum { MOST = 64 }; /* so that a process that writes without end holds nobody up */
  char bytes[4096];
  uint64_t times;
  for (int i = 0; i < MOST && read(it->own, bytes, sizeof bytes) == sizeof bytes; i++) {}
  return read(it->timer, &times, sizeof times) == sizeof times;
}

void wake_pipes_close(wake_pipes_t *it) {
  if (it->loop != 0) close(it->loop), close(it->timer), close(it->own);
  for (uint32_t place = 0; place < PLACES_MAX; place++)
    if (it->of[place] != 0) close(it->of[place]);
  *it = (wake_pipes_t){0};
}

void wake_pipes_remove(const char *calls, uint32_t places) {
  char path[SHARED_PATH_MAX];
  for (uint32_t place = 0; place < places; place++) {
    path_of(calls, place, path);
    unlink(path);
  }
}
