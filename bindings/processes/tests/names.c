// SPDX-License-Identifier: Apache-2.0 OR MIT
#define _GNU_SOURCE
/* Which names there may be, and that no two of them have the same files. */
#include "mailbox.h"
#include "random.h"
#include "shared_header.h"
#include "shared_names.h"
#include <fcntl.h>
#include <sys/mman.h>

enum { RANDOM_NAMES = 20000 };

static char name[64];

/* The name of this test's process, behind which comes what it tries. */
static const char *own(const char *rest) {
  static char whole[2 * SHARED_NAME_MAX];
  snprintf(whole, sizeof whole, "%s%s", name, rest);
  return whole;
}

static bool is_refused(const char *bad) {
  shared_files_t it;
  shared_settings_t settings = settings_of(bad, true);
  shared_name_t found;
  shared_status_t status = shared_files_open(&it, &settings, SHARED_OPEN_OR_CREATE);
  if (status == SHARED_OK) shared_files_close(&it); /* what fails leaves nothing either */
  bool is_so = status == SHARED_BAD_SETTINGS && strstr(it.why, "is no name") != NULL;
  return is_so && !shared_name_is_good(bad) && !shared_names_find(bad, &found);
}

static void bad_names(void) {
  static const char *const bad[] = {
    "", ".", "..", "/..", "../shm", "a/../b", "a/.", "./a", "\xff", "a\xc3", "\xc0\xaf", "\xe0\x80\xaf", "\xed\xa0\x80", "\xf4\x90\x80\x80", "\x80", "\xf8\x88\x80\x80\x80"
  };
  for (size_t i = 0; i < sizeof bad / sizeof *bad; i++) CHECK(is_refused(bad[i]));
  char long_name[301];
  memset(long_name, 'x', 300), long_name[300] = 0;
  CHECK(is_refused(long_name));
  long_name[SHARED_NAME_MAX + 1] = 0;
  CHECK(is_refused(long_name));
}

static bool is_it(void *of, const shared_name_t *found) {
  const char **wanted = of;
  if (*wanted != NULL && strcmp(found->name, *wanted) == 0) *wanted = NULL;
  return true;
}

/* It is opened twice, found, and in the list; and its file lies in the folder. */
static void is_taken(const char *good) {
  char path[SHARED_PATH_MAX];
  const char *wanted = good;
  shared_name_t found;
  member_t one, other;
  CHECK(shared_name_is_good(good) && join_mailbox(&one, good, SHARED_CREATE, true) == SHARED_OK && join_mailbox(&other, good, SHARED_OPEN, true) == SHARED_OK);
  shared_path(good, SHARED_SUFFIX, path);
  CHECK(access(path, F_OK) == 0 && strrchr(path, '/') == path + strlen(SHARED_FOLDER) && strlen(path) < SHARED_PATH_MAX - 1);
  CHECK(shared_names_find(good, &found) && strcmp(found.name, good) == 0 && found.processes == 2);
  CHECK(shared_names_list(is_it, &wanted) && wanted == NULL);
  leave_mailbox(&one), leave_mailbox(&other);
  CHECK(!shared_names_find(good, &found) && access(path, F_OK) != 0);
}

static void good_names(void) {
  static const char *const ends[] = {
    "My/Service", "/", "//", "/a//b/", "...", "/...", "/.hidden", " ", "\n", "%", "%2f", "/%2f", "~", "\x7f", "\xc3\xa4\xc3\xb6\xc3\xbc", "\xe6\x9c\x8d\xe5\x8a\xa1", "\xf0\x9f\x9a\x97", ".calls"
  };
  for (size_t i = 0; i < sizeof ends / sizeof *ends; i++) is_taken(own(ends[i]));
  char whole[SHARED_NAME_MAX + 1];
  memset(whole, 'x', SHARED_NAME_MAX), whole[SHARED_NAME_MAX] = 0;
  memcpy(whole, name, strlen(name));
  is_taken(whole);
  for (int at = (int)strlen(name); at < SHARED_NAME_MAX; at++) whole[at] = '/';
  is_taken(whole);
  whole[SHARED_FILE_MAX] = 0;
  is_taken(whole);
}

static void has_other_file(const char *one, const char *other) {
  char files[2][SHARED_FILE_MAX + 1];
  shared_file_name(one, files[0]), shared_file_name(other, files[1]);
  if (strcmp(one, other) != 0 && strcmp(files[0], files[1]) == 0) fprintf(stderr, "%s and %s: %s\n", one, other, files[0]);
  CHECK(strcmp(one, other) == 0 || strcmp(files[0], files[1]) != 0);
}

/* Names of few letters, which are like each other. */
static void no_two_have_the_same_file(void) {
  static const char letters[] = {'/', '%', '2', 'f', 'a', '.', '-'};
  uint64_t random = 7;
  char names[2][SHARED_NAME_MAX + 1] = {{0}};
  for (int turn = 0; turn < RANDOM_NAMES; turn++) {
    char *one = names[turn % 2];
    size_t length = 1 + next_random(&random) % (turn % 4 == 0 ? SHARED_NAME_MAX : 4);
    for (size_t at = 0; at < length; at++) one[at] = letters[next_random(&random) % sizeof letters];
    one[length] = 0;
    has_other_file(names[0], names[1]);
    /* One that differs in its last letter alone. */
    char like[SHARED_NAME_MAX + 1];
    strcpy(like, one);
    like[length - 1] = like[length - 1] == 'a' ? 'f' : 'a';
    has_other_file(one, like);
  }
  has_other_file("a/b", "a%2fb"), has_other_file("%", "%25"), has_other_file(".a", "%2ea");
}

/* A sum may be that of two names, so the header has the name: another's file is refused, and isn't told as one's own. */
static void a_file_of_another_name(void) {
  member_t it;
  shared_name_t found;
  shared_files_t other;
  char whole[SHARED_NAME_MAX + 1], path[2][SHARED_PATH_MAX];
  memset(whole, '/', SHARED_NAME_MAX), whole[SHARED_NAME_MAX] = 0;
  memcpy(whole, name, strlen(name));
  CHECK(join_mailbox(&it, whole, SHARED_CREATE, true) == SHARED_OK);
  it.files.header->name[100] = 'x';
  shared_settings_t settings = settings_of(whole, true);
  CHECK(shared_files_open(&other, &settings, SHARED_OPEN) == SHARED_FOREIGN && strstr(other.why, "is of the name") != NULL);
  CHECK(!shared_names_find(whole, &found));
  it.files.header->name[100] = '/';
  CHECK(shared_names_find(whole, &found));
  /* One that somebody gave another name. */
  shared_path(whole, SHARED_SUFFIX, path[0]), shared_path(own("renamed"), SHARED_SUFFIX, path[1]);
  CHECK(rename(path[0], path[1]) == 0);
  const char *wanted = whole;
  CHECK(!shared_names_find(whole, &found) && !shared_names_find(own("renamed"), &found));
  CHECK(shared_names_list(is_it, &wanted) && wanted == whole && rename(path[1], path[0]) == 0);
  leave_mailbox(&it);
}

int main(void) {
  snprintf(name, sizeof name, "test_names.%d", (int)getpid());
  bad_names();
  good_names();
  no_two_have_the_same_file();
  a_file_of_another_name();
  puts("names: each good one has files of its own");
  return 0;
}
