// SPDX-License-Identifier: Apache-2.0 OR MIT
/* What the test programs share: options, the messages they send, and what they check of each that comes. */
#ifndef PEER_HPP
#define PEER_HPP

#include <algorithm>
#include <chrono>
#include <cstdint>
#include <cstdio>
#include <cstdlib>
#include <cstring>
#include <map>
#include <string>
#include <sys/resource.h>
#include <unistd.h>
#include <vector>

using Clock = std::chrono::steady_clock;

/* So long a program waits for another before it ends by itself, and says what it has. No machine takes that, so no test fails by how
 * fast it is. */
constexpr std::chrono::seconds patience{900};
inline bool is_patient(Clock::time_point since) { return Clock::now() - since < patience; }

inline double seconds_since(Clock::time_point start) { return std::chrono::duration<double>(Clock::now() - start).count(); }

/* Processor time of the whole process, with the threads of DDS. */
inline double cpu_seconds() {
  rusage usage{};
  getrusage(RUSAGE_SELF, &usage);
  auto of = [](timeval time) { return static_cast<double>(time.tv_sec) + static_cast<double>(time.tv_usec) * 1e-6; };
  return of(usage.ru_utime) + of(usage.ru_stime);
}

/* The most memory that the process ever had. */
inline long largest_kilobytes() {
  rusage usage{};
  getrusage(RUSAGE_SELF, &usage);
  return usage.ru_maxrss;
}

/* A file by which a test says that something may go on or end. */
struct Flag {
  std::string path;
  bool is_up() const { return !path.empty() && access(path.c_str(), F_OK) == 0; }
};

struct Options {
  std::map<std::string, std::string> all;

  /* A program whose test is gone ends by itself. */
  Options(int count, char **words) {
    alarm(900);
    for (int at = 2; at + 1 < count; at += 2) all[words[at]] = words[at + 1];
  }
  Options with(const char *name, const std::string &value) && {
    all[name] = value;
    return std::move(*this);
  }
  std::string word(const char *name, const char *otherwise) const {
    auto found = all.find(name);
    return found == all.end() ? otherwise : found->second;
  }
  Flag flag(const char *name) const { return {word(name, "")}; }
  /* Makes the file that the option names, by which the test knows that this came to pass. */
  void tell(const char *name) const {
    if (all.count(name)) std::fclose(std::fopen(word(name, "").c_str(), "w"));
  }
  std::uint64_t number(const char *name, std::uint64_t otherwise) const {
    auto found = all.find(name);
    return found == all.end() ? otherwise : std::strtoull(found->second.c_str(), nullptr, 10);
  }
};

/* What each message begins with; the rest is filled with its number's last byte. */
struct Head {
  std::uint64_t process, publisher, number;
};

inline void fill(std::uint8_t *bytes, std::size_t len, const Head &head) {
  std::memcpy(bytes, &head, sizeof head);
  std::memset(bytes + sizeof head, static_cast<int>(head.number & 0xff), len - sizeof head);
}

/* Of each publisher numbers rise, so that nothing comes twice or out of order, and bytes are those that were written. */
struct Checks {
  std::map<std::pair<std::uint64_t, std::uint64_t>, std::uint64_t> last, first;
  std::uint64_t good = 0, not_rising = 0, gaps = 0, changed = 0;

  Head see(const std::uint8_t *bytes, std::size_t len) {
    Head head{};
    if (len < sizeof head) {
      changed++;
      return head;
    }
    std::memcpy(&head, bytes, sizeof head);
    const std::uint8_t *rest = bytes + sizeof head;
    std::size_t more = len - sizeof head;
    auto byte = static_cast<std::uint8_t>(head.number & 0xff);
    if (more > 0 && (rest[0] != byte || std::memcmp(rest, rest + 1, more - 1) != 0)) changed++;
    auto key = std::make_pair(head.process, head.publisher);
    auto found = last.find(key);
    if (found == last.end()) first[key] = head.number;
    else if (head.number <= found->second) not_rising++;
    else gaps += head.number - found->second - 1;
    last[key] = head.number;
    good++;
    return head;
  }
  static void print_numbers(const char *name, const std::map<std::pair<std::uint64_t, std::uint64_t>, std::uint64_t> &numbers) {
    std::printf(", \"%s\": [", name);
    const char *comma = "";
    for (auto &one : numbers) {
      std::printf("%s%llu", comma, static_cast<unsigned long long>(one.second));
      comma = ", ";
    }
    std::printf("]");
  }
  void print() const {
    std::printf("\"good\": %llu, \"not_rising\": %llu, \"gaps\": %llu, \"changed\": %llu, \"publishers\": %zu",
                static_cast<unsigned long long>(good), static_cast<unsigned long long>(not_rising),
                static_cast<unsigned long long>(gaps), static_cast<unsigned long long>(changed), last.size());
    print_numbers("first", first);
    print_numbers("last", last);
  }
};

inline void print_latencies(std::vector<double> &microseconds) {
  std::sort(microseconds.begin(), microseconds.end());
  auto at = [&](double part) {
    return microseconds.empty() ? 0.0 : microseconds[static_cast<std::size_t>(part * static_cast<double>(microseconds.size() - 1))];
  };
  std::printf("{\"roundtrips\": %zu, \"min\": %.1f, \"median\": %.1f, \"p90\": %.1f, \"p99\": %.1f, \"p999\": %.1f}\n", microseconds.size(),
              at(0), at(0.5), at(0.9), at(0.99), at(0.999));
}

#endif
