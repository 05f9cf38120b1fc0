// SPDX-License-Identifier: Apache-2.0 OR MIT
#define _GNU_SOURCE
/* What is refused when files are opened by name, and that nothing is left of it. */
#include "children.h"
#include "mailbox.h"
#include "shared_names.h"
#include <fcntl.h>
#include <sys/stat.h>
#include <sys/wait.h>

static char name[64], path[2][300];

static shared_status_t opened(shared_files_t *it, shared_settings_t settings, shared_mode_t mode) { return shared_files_open(it, &settings, mode); }

/* Refused with these words, and without a descriptor or a mapping left. */
static void refused(shared_settings_t settings, shared_mode_t mode, shared_status_t status, const char *words) {
  shared_files_t it;
  int next = dup(0);
  close(next);
  CHECK(opened(&it, settings, mode) == status);
  if (strstr(it.why, words) == NULL) fprintf(stderr, "it says: %s\n", it.why);
  CHECK(strstr(it.why, words) != NULL);
  int again = dup(0);
  close(again);
  CHECK(again == next && it.header == NULL && it.payloads == NULL);
}

static bool is_there(int which) { return access(path[which], F_OK) == 0; }

static void bad_settings(void) {
  shared_settings_t good = settings_of(name, true), bad;
  bad = good, bad.name = "", refused(bad, SHARED_CREATE, SHARED_BAD_SETTINGS, "is no name");
  bad = good, bad.name = "..", refused(bad, SHARED_CREATE, SHARED_BAD_SETTINGS, "is no name");
  bad = good, bad.places = 0, refused(bad, SHARED_CREATE, SHARED_BAD_SETTINGS, "0 places");
  bad = good, bad.places = CALL_PLACES + 1, refused(bad, SHARED_CREATE, SHARED_BAD_SETTINGS, "65 places");
  bad = good, bad.length = 100, refused(bad, SHARED_CREATE, SHARED_BAD_SETTINGS, "a power of two");
  bad = good, bad.length = 2 * CALL_LENGTH_MAX, refused(bad, SHARED_CREATE, SHARED_BAD_SETTINGS, "a power of two");
  bad = good, bad.room = SIZE_MAX, refused(bad, SHARED_CREATE, SHARED_BAD_SETTINGS, "rooms of");
  bad = good, bad.domains = SHARED_DOMAINS_MAX + 1, refused(bad, SHARED_CREATE, SHARED_BAD_SETTINGS, "5 domains: there are 1 to 4");
  bad = good, bad.kinds[0].config_size = SHARED_CONFIG_MAX + 1, refused(bad, SHARED_CREATE, SHARED_BAD_SETTINGS, "too long");
  CHECK(!is_there(0) && !is_there(1));
}

/* Those that have the mailbox have other settings. */
static void other_settings(void) {
  member_t keeper;
  CHECK(join_mailbox(&keeper, name, SHARED_CREATE, true) == SHARED_OK);
  shared_settings_t good = settings_of(name, true), other;
  uint64_t config[2] = {SLOTS + 1, BYTES};
  refused(good, SHARED_CREATE, SHARED_EXISTS, "is there");
  other = good, other.kinds[0].payload_size = 128, refused(other, SHARED_OPEN, SHARED_OTHER_TYPE, "64 bytes aligned to 8, and this program of 128");
  other = good, other.kinds[0].payload_alignment = 16, refused(other, SHARED_OPEN, SHARED_OTHER_TYPE, "aligned to 16");
  other = good, other.kinds[0].type_name = "letterbox", refused(other, SHARED_OPEN_OR_CREATE, SHARED_OTHER_TYPE, "'mailbox', and this program of 'letterbox'");
  other = good, other.version = 2, refused(other, SHARED_OPEN, SHARED_OTHER_VERSION, "of version 1, and this program of 2");
  other = good, other.build = 8, refused(other, SHARED_OPEN, SHARED_OTHER_VERSION, "build 0000000000000007, and this program of 0000000000000008");
  other = good, other.kinds[0].config = config, refused(other, SHARED_OPEN, SHARED_OTHER_SETTINGS, "other settings");
  other = good, other.domains = 2, other.kinds[1] = good.kinds[0], refused(other, SHARED_OPEN, SHARED_OTHER_SETTINGS, "a group of 1 domains, and this program one of 2");
  other = good, other.kinds[0].config_size = 8, refused(other, SHARED_OPEN, SHARED_OTHER_SETTINGS, "other settings");
  leave_mailbox(&keeper);
  CHECK(!is_there(0) && !is_there(1));
  refused(good, SHARED_OPEN, SHARED_NO_SUCH, "there is no");
}

static void put_file(int which, const char *bytes, size_t size) {
  int fd = open(path[which], O_RDWR | O_CREAT | O_TRUNC, 0600);
  CHECK(fd >= 0 && write(fd, bytes, size) == (ssize_t)size && close(fd) == 0);
}

/* A file of another program is refused and left as it is; what a creator left that died is made anew. */
static void other_files(void) {
  static char bytes[10000];
  shared_settings_t good = settings_of(name, true);
  memset(bytes, 'x', sizeof bytes);
  for (size_t size = 1; size <= sizeof bytes; size += 3333) {
    put_file(0, bytes, size);
    refused(good, SHARED_OPEN_OR_CREATE, SHARED_FOREIGN, "of another program");
    struct stat is;
    CHECK(stat(path[0], &is) == 0 && is.st_size == (off_t)size);
  }
  memset(bytes, 0, sizeof bytes);
  for (size_t size = 0; size <= sizeof bytes; size += sizeof bytes / 2) {
    put_file(0, bytes, size), put_file(1, bytes, size);
    refused(good, SHARED_OPEN, SHARED_NO_SUCH, "nobody has");
    member_t it;
    CHECK(join_mailbox(&it, name, SHARED_CREATE, true) == SHARED_OK);
    leave_mailbox(&it);
  }
  CHECK(mkdir(path[0], 0700) == 0);
  refused(good, SHARED_OPEN_OR_CREATE, SHARED_SYSTEM, "Is a directory");
  CHECK(rmdir(path[0]) == 0 && symlink("/dev/null", path[0]) == 0);
  refused(good, SHARED_OPEN_OR_CREATE, SHARED_SYSTEM, "symbolic links");
  CHECK(unlink(path[0]) == 0 && mkfifo(path[0], 0600) == 0);
  refused(good, SHARED_OPEN_OR_CREATE, SHARED_FOREIGN, "it is no file");
  CHECK(unlink(path[0]) == 0);
}

/* Has the mailbox, and touches it no more: whoever did would end. */
static pid_t keep(const char *named) {
  int ready[2];
  char byte;
  CHECK(pipe(ready) == 0);
  pid_t child = fork_child();
  if (child == 0) {
    member_t it;
    CHECK(join_mailbox(&it, named, SHARED_OPEN_OR_CREATE, true) == SHARED_OK && write(ready[1], "", 1) == 1);
    while (true) pause();
  }
  CHECK(child > 0 && read(ready[0], &byte, 1) == 1 && close(ready[0]) == 0 && close(ready[1]) == 0);
  return child;
}

static void end(pid_t child) { CHECK(kill(child, SIGKILL) == 0 && waitpid(child, NULL, 0) == child); }

/* Longer and shorter, whatever is left. When nobody has them any more, all that has a header is made anew. */
static void cut_files(void) {
  shared_settings_t good = settings_of(name, true);
  member_t it;
  for (int which = 0; which < 2; which++) {
    struct stat is;
    pid_t keeper = keep(name);
    CHECK(stat(path[which], &is) == 0);
    const off_t sizes[] = {is.st_size + 4096, is.st_size - 1, is.st_size / 2, 4097, 4096, 4095, 1, 0};
    for (size_t i = 0; i < sizeof sizes / sizeof *sizes; i++) {
      if (sizes[i] == is.st_size) continue;
      CHECK(truncate(path[which], sizes[i]) == 0);
      refused(good, SHARED_OPEN_OR_CREATE, SHARED_FOREIGN, "was cut short");
      struct stat left;
      CHECK(stat(path[which], &left) == 0 && left.st_size == sizes[i]);
    }
    end(keeper);
    CHECK(join_mailbox(&it, name, SHARED_OPEN_OR_CREATE, true) == SHARED_OK && it.files.is_new);
    leave_mailbox(&it);
  }
}

static mode_t mode_of(int which) {
  struct stat is;
  CHECK(stat(path[which], &is) == 0);
  return is.st_mode & 0777;
}

/* As they are asked for, also of what a creator left that died. */
static void permissions(void) {
  static const mode_t all[] = {0600, 0666, 0640, 0660};
  shared_settings_t settings = settings_of(name, true);
  mode_t mask = umask(077);
  for (size_t i = 0; i < sizeof all / sizeof *all; i++) {
    member_t it;
    put_file(0, "", 0), put_file(1, "", 0);
    settings.permissions = all[i];
    CHECK(join_with(&it, &settings, SHARED_OPEN_OR_CREATE) == SHARED_OK && mode_of(0) == all[i] && mode_of(1) == all[i]);
    leave_mailbox(&it);
  }
  umask(mask);
}

static void check_ends_well(pid_t child) {
  int status;
  CHECK(waitpid(child, &status, 0) == child && status == 0);
}

/* A process of another user. */
static pid_t start_as(uid_t user, void (*runs)(void)) {
  pid_t child = fork_child();
  CHECK(child >= 0);
  if (child > 0) return child;
  CHECK(setresuid(user, user, user) == 0);
  runs();
  _exit(0);
}

static int ready[2];
static void has_it_for_all(void) {
  member_t it;
  shared_settings_t settings = settings_of(name, true);
  settings.permissions = 0666;
  CHECK(join_with(&it, &settings, SHARED_OPEN_OR_CREATE) == SHARED_OK && write(ready[1], "", 1) == 1);
  while (true) pause();
}
static void opens_it(void) {
  member_t it;
  CHECK(join_mailbox(&it, name, SHARED_OPEN_OR_CREATE, true) == SHARED_OK && !it.files.is_new);
  leave_mailbox(&it);
}
static void may_not_create_it(void) { refused(settings_of(name, true), SHARED_OPEN_OR_CREATE, SHARED_NO_PERMISSION, "belongs to another user"); }

/* Whom the permissions let in opens the mailbox. Where nobody has it, nobody uses another user's file: that one might write over it. */
static void other_users(void) {
  enum { ONE = 65534, OTHER = 65533 };
  char byte;
  if (getuid() != 0) return;
  CHECK(pipe(ready) == 0);
  pid_t keeper = start_as(ONE, has_it_for_all);
  CHECK(read(ready[0], &byte, 1) == 1);
  check_ends_well(start_as(OTHER, opens_it));
  end(keeper);
  check_ends_well(start_as(OTHER, may_not_create_it));
  may_not_create_it();
  CHECK(is_there(0) && is_there(1) && mode_of(0) == 0666);
  for (int which = 0; which < 2; which++) CHECK(unlink(path[which]) == 0);
  CHECK(close(ready[0]) == 0 && close(ready[1]) == 0);
}

/* Another user's file, in a child that isn't root any more. */
static void no_permission(void) {
  member_t it;
  CHECK(join_mailbox(&it, name, SHARED_CREATE, true) == SHARED_OK);
  for (int which = 0; which < 2; which++) CHECK(chmod(path[which], 0) == 0);
  pid_t child = fork_child();
  if (child == 0) {
    shared_files_drop_in_child(&it.files);
    CHECK(getuid() != 0 || setresuid(65534, 65534, 65534) == 0);
    refused(settings_of(name, true), SHARED_OPEN_OR_CREATE, SHARED_NO_PERMISSION, "Permission denied");
    shared_name_t found;
    CHECK(!shared_names_find(name, &found));
    _exit(0);
  }
  int status;
  CHECK(waitpid(child, &status, 0) == child && status == 0);
  leave_mailbox(&it);
}

/* Who may write payloads, and doesn't want to now. */
static void protected_payloads(void) {
  member_t it;
  CHECK(join_mailbox(&it, name, SHARED_CREATE, true) == SHARED_OK);
  bytes_of(&it, 0)[0] = 1;
  CHECK(shared_files_protect_payloads(&it.files, false));
  pid_t child = fork_child();
  if (child == 0) ((volatile char *)bytes_of(&it, 0))[0] = 2;
  int status;
  CHECK(waitpid(child, &status, 0) == child && WIFSIGNALED(status) && WTERMSIG(status) == SIGSEGV);
  CHECK(shared_files_protect_payloads(&it.files, true));
  bytes_of(&it, 0)[0]++;
  CHECK(bytes_of(&it, 0)[0] == 2);
  leave_mailbox(&it);
  CHECK(join_mailbox(&it, name, SHARED_CREATE, false) == SHARED_OK && shared_files_protect_payloads(&it.files, false));
  leave_mailbox(&it);
}

static bool is_it(void *of, const shared_name_t *found) {
  CHECK(strncmp(found->name, "test_files", 10) != 0 || strcmp(found->type_name, "mailbox") == 0);
  *(int *)of += strcmp(found->name, name) == 0;
  return true;
}

/* What there is, by name. */
static void names(void) {
  shared_name_t found;
  int count = 0;
  CHECK(!shared_names_find(name, &found) && !shared_names_find("", &found) && !shared_names_find("../shm", &found));
  member_t one, other;
  CHECK(join_mailbox(&one, name, SHARED_CREATE, true) == SHARED_OK && join_mailbox(&other, name, SHARED_OPEN, true) == SHARED_OK);
  CHECK(shared_names_find(name, &found) && found.places == PLACES && found.processes == 2);
  CHECK(found.payload_size == BYTES && found.payload_alignment == 8 && strcmp(found.type_name, "mailbox") == 0);
  CHECK(shared_names_list(is_it, &count) && count == 1);
  leave_mailbox(&one);
  CHECK(shared_names_find(name, &found) && found.processes == 1);
  leave_mailbox(&other);
  CHECK(!shared_names_find(name, &found) && shared_names_list(is_it, &count) && count == 1);
}

static void no_room(void) {
  shared_settings_t large = settings_of(name, true);
  large.payload_room = (size_t)1 << 50;
  refused(large, SHARED_CREATE, SHARED_SYSTEM, "No space left");
  CHECK(!is_there(0) && !is_there(1));
}

static void one_process_too_many(void) {
  member_t all[PLACES], one_more;
  for (int i = 0; i < PLACES; i++) CHECK(join_mailbox(&all[i], name, SHARED_OPEN_OR_CREATE, true) == SHARED_OK);
  refused(settings_of(name, true), SHARED_OPEN, SHARED_FULL, "has 8 processes");
  leave_mailbox(&all[3]);
  CHECK(join_mailbox(&one_more, name, SHARED_OPEN, true) == SHARED_OK && one_more.files.places.own == 3);
  leave_mailbox(&one_more);
  for (int i = 0; i < PLACES; i++) if (i != 3) leave_mailbox(&all[i]);
}

/* A creator that dies before all is ready: the next one creates anew. */
static void dead_creator(void) {
  pid_t creator = fork_child();
  if (creator == 0) {
    shared_files_t it;
    CHECK(opened(&it, settings_of(name, true), SHARED_CREATE) == SHARED_OK);
    raise(SIGKILL);
  }
  int status;
  CHECK(waitpid(creator, &status, 0) == creator && was_killed(status));
  CHECK(is_there(0) && is_there(1));
  refused(settings_of(name, true), SHARED_OPEN, SHARED_NO_SUCH, "nobody has");
  member_t it;
  CHECK(join_mailbox(&it, name, SHARED_OPEN_OR_CREATE, true) == SHARED_OK && it.files.is_new && places_begun(it.files.number) == 1);
  leave_mailbox(&it);
}

/* A child that outlives its parent doesn't keep the parent's place. */
static void forked_child(void) {
  member_t it;
  CHECK(join_mailbox(&it, name, SHARED_CREATE, true) == SHARED_OK);
  int pipes[2];
  CHECK(pipe(pipes) == 0);
  pid_t parent = fork_child();
  if (parent == 0) {
    member_t dies;
    CHECK(join_mailbox(&dies, name, SHARED_OPEN, true) == SHARED_OK && call(&dies, LEND, 0) == 0);
    if (fork() == 0) {
      alarm(600); /* it outlives its parent on purpose, and may outlive a test that fails */
      shared_files_drop_in_child(&dies.files);
      shared_files_drop_in_child(&it.files);
      pid_t self = getpid();
      CHECK(write(pipes[1], &self, sizeof self) == sizeof self);
      pause();
    }
    pause();
  }
  pid_t child;
  CHECK(read(pipes[0], &child, sizeof child) == sizeof child && kill(parent, SIGKILL) == 0 && waitpid(parent, NULL, 0) == parent);
  reap(&it);
  CHECK(kill(child, SIGKILL) == 0); /* it lived until here */
  CHECK(mailbox_of(&it)->slots[0].state == FREE && it.files.places.shared->numbers[1] == 0);
  leave_mailbox(&it);
}

int main(void) {
  snprintf(name, sizeof name, "test_files.%d", (int)getpid());
  snprintf(path[0], sizeof path[0], "/dev/shm/iox2ps.%s.calls", name);
  snprintf(path[1], sizeof path[1], "/dev/shm/iox2ps.%s.payloads", name);
  bad_settings();
  other_settings();
  other_files();
  cut_files();
  no_permission();
  permissions();
  other_users();
  protected_payloads();
  names();
  no_room();
  one_process_too_many();
  dead_creator();
  forked_child();
  CHECK(!is_there(0) && !is_there(1));
  puts("files by name: what can't be is refused in words");
  return 0;
}
