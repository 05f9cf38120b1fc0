// SPDX-License-Identifier: Apache-2.0 OR MIT
#define _GNU_SOURCE
/* A process with another build of what is proved is refused, and told both sums: it is this program with another sum in its bytes. */
#include "check_domains.h"
#include "children.h"
#include "iox2_pubsub_processes.h"
#include "proved_calls.h"
#include <stdio.h>
#include <string.h>
#include <sys/mman.h>
#include <sys/wait.h>

enum { MOST_BYTES = 1 << 24 };

static iox2ps_status_t open_named(iox2ps_domain_t *domain, const char *name) {
  iox2ps_config_t config;
  iox2ps_config_defaults(&config, 7, 8, 8);
  return iox2ps_domain_open_or_create(domain, name, "number", &config, NULL);
}

/* The program with another sum. */
static int other_program(void) {
  static char bytes[MOST_BYTES];
  FILE *file = fopen("/proc/self/exe", "rb");
  CHECK(file != NULL);
  size_t size = fread(bytes, 1, sizeof bytes, file);
  char *sum = memmem(bytes, size, &iox2ps_build_sum, sizeof iox2ps_build_sum);
  CHECK(fclose(file) == 0 && size < sizeof bytes && sum != NULL);
  *sum ^= 1;
  CHECK(memmem(bytes, size, &iox2ps_build_sum, sizeof iox2ps_build_sum) == NULL);
  int made = memfd_create("other", 0);
  CHECK(made >= 0 && write(made, bytes, size) == (ssize_t)size);
  return made;
}

/* Says its own sum, and the other one. */
static int is_refused(const char *name, const char *theirs) {
  iox2ps_domain_t domain = IOX2PS_DOMAIN_INIT;
  char words[200];
  CHECK(open_named(&domain, name) == IOX2PS_OPEN_ERROR_VERSION_MISMATCH && domain.domain_ == NULL);
  snprintf(words, sizeof words, "of the build %s, and this program of %016llx", theirs, (unsigned long long)iox2ps_processes_build());
  CHECK(strstr(iox2ps_processes_why(), words) != NULL);
  return 0;
}

int main(int count, char **words) {
  if (count == 3) return is_refused(words[1], words[2]);
  char name[64], ours[17];
  int status;
  snprintf(name, sizeof name, "test_builds.%d", (int)getpid());
  snprintf(ours, sizeof ours, "%016llx", (unsigned long long)iox2ps_processes_build());
  iox2ps_domain_t domain = IOX2PS_DOMAIN_INIT;
  CHECK(open_named(&domain, name) == IOX2PS_OK);
  int program = other_program();
  pid_t child = fork_child();
  if (child == 0) {
    fexecve(program, (char *[]){words[0], name, ours, NULL}, (char *[]){NULL});
    _exit(1);
  }
  CHECK(child > 0 && waitpid(child, &status, 0) == child && status == 0);
  CHECK(iox2ps_domain_destroy(&domain) == IOX2PS_OK);
  puts("builds: another one of what is proved is refused");
  return 0;
}
