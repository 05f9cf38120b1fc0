// SPDX-License-Identifier: Apache-2.0 OR MIT
/* What has to end a program, tried in a child of it. */
#ifndef ENDINGS_HPP
#define ENDINGS_HPP

#include <csignal>
#include <cstdio>
#include <cstdlib>
#include <string>
#ifdef __linux__
#include <sys/prctl.h>
#endif
#include <sys/resource.h>
#include <sys/wait.h>
#include <unistd.h>

/* Runs in a child what may end it, and returns its status. What it writes to standard error is in said. No core is left. One that waits
 * for good ends with its parent. */
template <typename Run> int status_of(Run run, std::string &said) {
  int ends[2];
  if (pipe(ends) != 0) std::abort();
  pid_t child = fork();
  if (child < 0) std::abort();
  if (child == 0) {
    rlimit none = {0, 0};
    static_cast<void>(setrlimit(RLIMIT_CORE, &none));
    static_cast<void>(dup2(ends[1], STDERR_FILENO));
#ifdef __linux__
    static_cast<void>(prctl(PR_SET_PDEATHSIG, SIGKILL));
#endif
    run();
    _exit(0);
  }
  close(ends[1]);
  char bytes[256];
  for (ssize_t len = 0; (len = read(ends[0], bytes, sizeof bytes)) > 0;) said.append(bytes, static_cast<std::size_t>(len));
  close(ends[0]);
  int status = 0;
  if (waitpid(child, &status, 0) != child) std::abort();
  return status;
}

/* It ends the program by abort, and says these words. */
template <typename Use> void ends(const char *what, const char *words, Use use) {
  std::string said;
  int status = status_of(use, said);
  if (WIFSIGNALED(status) && WTERMSIG(status) == SIGABRT && said.find(words) != std::string::npos) return;
  std::fprintf(stderr, "%s: the child ended with %d and said: %s\n", what, status, said.c_str());
  std::exit(1);
}

/* It returns. */
template <typename Run> void returns(const char *what, Run run) {
  std::string said;
  int status = status_of(run, said);
  if (status == 0) return;
  std::fprintf(stderr, "%s: the child ended with %d and said: %s\n", what, status, said.c_str());
  std::exit(1);
}

#endif
