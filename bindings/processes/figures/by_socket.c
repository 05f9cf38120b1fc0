// SPDX-License-Identifier: Apache-2.0 OR MIT
/* A pair of Unix sockets for each subscriber: all bytes of a message are copied into the system and out of it. */
#include "figures.h"
#include <errno.h>
#include <stdio.h>
#include <stdlib.h>
#include <string.h>
#include <sys/socket.h>
#include <unistd.h>

enum { MOST = 64 };

static traffic_t is;
static int pairs[MOST][2];
static uint32_t own;
static char *bytes;

static void fail(const char *what) {
  perror(what);
  _exit(1);
}

void carrier_begin(const traffic_t *traffic) {
  is = *traffic, bytes = calloc(1, is.bytes);
  if (bytes == NULL || is.subscribers >= MOST) exit(2);
  for (uint32_t i = 1; i <= is.subscribers; i++)
    if (socketpair(AF_UNIX, SOCK_STREAM, 0, pairs[i]) != 0) fail("socketpair");
}
void carrier_open(uint32_t process) { own = process; }

static void write_all(int fd) {
  for (size_t at = 0; at < is.bytes;) {
    ssize_t wrote = send(fd, bytes + at, is.bytes - at, is.sleeps ? 0 : MSG_DONTWAIT);
    if (wrote < 0 && errno != EAGAIN) fail("send");
    if (wrote > 0) at += (size_t)wrote;
  }
}
static void read_all(int fd) {
  for (size_t at = 0; at < is.bytes;) {
    ssize_t got = recv(fd, bytes + at, is.bytes - at, is.sleeps ? MSG_WAITALL : MSG_DONTWAIT);
    if (got == 0 || (got < 0 && errno != EAGAIN)) fail("recv");
    if (got > 0) at += (size_t)got;
  }
}

void carrier_send(uint64_t number) {
  memcpy(bytes, &number, sizeof number);
  if (own == 1) write_all(pairs[1][1]);
  else for (uint32_t i = 1; i <= is.subscribers; i++) write_all(pairs[i][0]);
}
uint64_t carrier_receive(void) {
  uint64_t number;
  read_all(own == 0 ? pairs[1][0] : pairs[own][1]);
  memcpy(&number, bytes, sizeof number);
  return number;
}
void carrier_close(void) {}
