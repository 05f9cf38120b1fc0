// SPDX-License-Identifier: Apache-2.0 OR MIT
/* Recordings that lack a line or a number, or have a line too many: the tests have to see each. A fault is put between the archive and a test, which
 * reads recordings by this call alone.
 *
 * It is compiled with -DFAULT=.. and linked to a test with -Wl,--wrap=iox2ps_domain_recording. With NO_FAULT the test has to pass. */
#include "iox2_pubsub.h"
#include <stdio.h>
#include <string.h>

enum fault {
  NO_FAULT,
  A_READ_IS_MISSING,
  A_READ_HAS_ANOTHER_VALUE,
  A_READ_IS_THERE_TWICE,
  NO_READS,
  SETS_FOLLOW_A_REFUSED_SEND,
  THE_LAST_CALL_LACKS_ITS_END,
  ROOM_IS_FOR_FOURTEEN_COMMANDS,
  CHANNELS_ARE_LEFT_OUT,
  PLACES_ARE_LEFT_OUT,
  QUESTIONS_ARE_LEFT_OUT,
  NOTHING_IS_KEPT
};

iox2ps_status_t __real_iox2ps_domain_recording(iox2ps_domain_t *, void *, size_t, size_t *, uint64_t *);
iox2ps_status_t __wrap_iox2ps_domain_recording(iox2ps_domain_t *, void *, size_t, size_t *, uint64_t *);

/* What the archive says, and what is made of it. */
static char said[1 << 20], made[1 << 20];
static size_t made_len;

static void add(const char *line, size_t len) {
  memcpy(made + made_len, line, len);
  made_len += len;
}

static int begins(const char *line, const char *word) { return !strncmp(line, word, strlen(word)); }

/* Whether its second number is a channel. */
static int has_channel(const char *line) {
  static const char *const words[] = {"deliver ", "shut ", "open ", "hint ", "state ", "hinted "};
  for (size_t i = 0; i < sizeof words / sizeof words[0]; i++) {
    if (begins(line, words[i])) return 1;
  }
  return 0;
}

/* Where a number of the line begins. */
static size_t place_of_number(const char *line, int number) {
  const char *at = line;
  while (number-- > 0) at = strchr(at, ' ') + 1;
  return (size_t)(at - line);
}

/* Adds the line of a command, of which so many stand before it, and is told whether one follows and whether it is the first read. Returns
 * how many lines it added. */
static size_t add_command(const char *line, size_t len, size_t before, int is_last, int is_first_read) {
  static const char set[] = "set 3 1 7 = done\n";
  int is_missing = (FAULT == A_READ_IS_MISSING && is_first_read) || (FAULT == NO_READS && begins(line, "read "))
                   || (FAULT == THE_LAST_CALL_LACKS_ITS_END && is_last) || (FAULT == ROOM_IS_FOR_FOURTEEN_COMMANDS && before >= 14)
                   || (FAULT == QUESTIONS_ARE_LEFT_OUT && (begins(line, "state ") || begins(line, "hinted ") || begins(line, "connection ")))
                   || FAULT == NOTHING_IS_KEPT;
  if (is_missing) return 0;
  add(line, len);
  if (FAULT == CHANNELS_ARE_LEFT_OUT && has_channel(line)) made[made_len - len + place_of_number(line, 2)] = '0';
  if (FAULT == PLACES_ARE_LEFT_OUT && (begins(line, "deliver ") || begins(line, "hinted "))) made[made_len - len + place_of_number(line, 3)] = '0';
  if (FAULT == A_READ_HAS_ANOTHER_VALUE && is_first_read) made[made_len - 2] ^= 1;
  if (FAULT == A_READ_IS_THERE_TWICE && is_first_read) {
    add(line, len);
    return 2;
  }
  if (FAULT == SETS_FOLLOW_A_REFUSED_SEND && begins(line, "send ") && !strncmp(line + len - 8, "skipped", 7)) {
    add(set, sizeof set - 1);
    return 2;
  }
  return 1;
}

/* The first three lines are those of the settings. */
static void make(size_t len) {
  size_t number = 0, commands = 0, reads = 0;
  made_len = 0;
  for (const char *line = said, *next; line < said + len; line = next) {
    next = strchr(line, '\n') + 1;
    if (number++ < 3) {
      add(line, (size_t)(next - line));
    } else if (begins(line, "end ")) {
      made_len += (size_t)sprintf(made + made_len, "end %zu 0\n", commands);
    } else {
      int is_first_read = begins(line, "read ") && reads++ == 0;
      commands += add_command(line, (size_t)(next - line), commands, begins(next, "end "), is_first_read);
    }
  }
}

iox2ps_status_t __wrap_iox2ps_domain_recording(iox2ps_domain_t *domain, void *bytes, size_t room, size_t *len, uint64_t *missed) {
  iox2ps_status_t code = __real_iox2ps_domain_recording(domain, said, sizeof said - 1, len, missed);
  if (code != IOX2PS_OK) return code;
  said[*len] = 0;
  if (FAULT == NO_FAULT) return __real_iox2ps_domain_recording(domain, bytes, room, len, missed);
  make(*len);
  *len = made_len;
  if (made_len > room) return IOX2PS_TOO_SMALL;
  memcpy(bytes, made, made_len);
  return IOX2PS_OK;
}
