// SPDX-License-Identifier: Apache-2.0 OR MIT
/* What is refused in C++, and in which words: names, types, settings, builds, users, files, rooms, and a process too many; and what ends
 * a wait. */
#include "roles.hpp"
#include <array>
#include <cstring>
#include <filesystem>
#include <fstream>
#include <optional>
#include <string_view>

using Domain = iox2ps::SharedDomain<Reading>;
using Alone = iox2ps::Domain<Reading>;

namespace {

/* Why opening it is refused; by both kinds of domains, and also where it might be created. */
template <typename P> void is_refused(const std::string &name, const iox2ps::Config<P> &config, Error error, const std::string &words, const iox2ps::ProcessesOptions &options = {}) {
  auto because = [&](Error found) { CHECK(found == error && std::string(iox2ps::why_refused()).find(words) != std::string::npos); };
  because(iox2ps::Domain<P>::open(name, config, options).error());
  because(iox2ps::Domain<P>::open_or_create(name, config, options).error());
  because(iox2ps::SharedDomain<P>::open(name, config, options).error());
  because(iox2ps::SharedDomain<P>::open_or_create(name, config, options).error());
}

/* ---- other roles */

void opens(const std::string &name) { static_cast<void>(open_by<Alone>(name)); }
void is_one_too_many(const std::string &name) { is_refused(name, settings(), Error::OpenExceedsMaxNumberOfNodes, ""); }
void is_another_user(const std::string &name) {
  CHECK(getuid() != 0 || setresuid(65534, 65534, 65534) == 0);
  is_refused(name, settings(), Error::OpenInsufficientPermissions, "Permission denied");
}

/* ---- tests */

bool is_listed(const std::string &name) {
  bool is_there = false;
  for (const auto &service : iox2ps::list_services().expect("a list")) {
    if (service.name == name) is_there = service.type_name == "Reading" && service.payload_size == sizeof(Reading) && service.processes == 1;
  }
  return is_there;
}

/* Another type of this name and size. */
namespace other {
struct Reading {
  std::uint64_t number;
  std::uint64_t celsius[2];
};
} // namespace other

} // namespace

template <> struct iox2ps::ZeroCopySend<other::Reading> : iox2ps::Fields<&other::Reading::number, &other::Reading::celsius> {};

namespace {

struct Renamed {
  static constexpr const char *IOX2_TYPE_NAME = "Reading";
  std::uint64_t words[3];
};
struct Larger {
  static constexpr const char *IOX2_TYPE_NAME = "Reading";
  std::uint64_t words[4];
};

} // namespace

template <> struct iox2ps::ZeroCopySend<Renamed> : std::true_type {};
template <> struct iox2ps::ZeroCopySend<Larger> : std::true_type {};

namespace {

void names_are_refused_and_taken() {
  std::string name = name_of("names");
  for (std::string_view bad : {std::string_view(""), std::string_view(".."), std::string_view("a/../b"), std::string_view("\xff"), std::string_view("a\0b", 3)}) {
    CHECK(Domain::open_or_create(bad, settings()).error() == Error::OpenInvalidArgument && std::string(iox2ps::why_refused()).find("is no name") != std::string::npos);
    CHECK(!*Domain::exists(bad));
  }
  CHECK(Domain::create(std::string(300, 'x'), settings()).error() == Error::OpenInvalidArgument);
  CHECK(Domain::create(std::string(5000, 'x'), settings()).error() == Error::OpenInvalidArgument);
  CHECK(Domain::open(name, settings()).error() == Error::OpenDoesNotExist && !*Domain::exists(name) && !is_listed(name));
  auto domain = iox2ps::Domain<Reading>::create(name, settings()).expect("a domain");
  CHECK(*Domain::exists(name) && is_listed(name));
  CHECK(Domain::create(name, settings()).error() == Error::CreateAlreadyExists);
  is_refused(name, iox2ps::Config<other::Reading>(7), Error::OpenIncompatibleTypes, "other::Reading");
  is_refused(name, iox2ps::Config<Reading[]>(7), Error::OpenIncompatibleTypes, "[Reading]");
  is_refused(name, iox2ps::Config<Larger>(7), Error::OpenIncompatibleTypes, "32");
  is_refused(name, settings().history_size(1), Error::OpenIncompatibleSettings, "other settings");
  CHECK(Domain::open(name, settings(), iox2ps::ProcessesOptions().max_processes(65)).error() == Error::OpenInvalidArgument);
  CHECK(Domain::open(name, settings()).error() == Error::OpenAddressInUse); /* this process has it already */
  CHECK(iox2ps::Domain<Renamed>::open(name, iox2ps::Config<Renamed>(7).enable_safe_overflow(false).subscriber_max_buffer_size(2)).error() == Error::OpenAddressInUse);
  auto shared = Domain::open_or_create(name + std::string(150, '/'), settings()).expect("a domain");
  CHECK(shared.share().error() == Error::OfProcesses && iox2ps::SharedDomain<int>::create(iox2ps::Config<int>(7))->share().has_value());
}

/* A process more than there may be, until another leaves. */
void one_process_too_many() {
  std::string name = name_of("many");
  std::optional<Domain> domain = Domain::create(name, settings(), iox2ps::ProcessesOptions().max_processes(1)).expect("a domain");
  CHECK(status_of(started("is_one_too_many", name)) == 0);
  domain.reset();
  CHECK(status_of(started("opens", name)) == 0);
}

/* Whoever may not read the files. Root may always. */
void no_permission() {
  std::string name = name_of("user");
  auto domain = Domain::create(name, settings(), iox2ps::ProcessesOptions().permissions(0)).expect("a domain");
  CHECK(status_of(started("is_another_user", name)) == 0);
}

/* A name without letters that a file's name has otherwise. */
std::string plain_name(const char *what) { return "test_cpp." + std::to_string(getpid()) + "." + what; }
/* The file with the list of calls of such a name. */
std::filesystem::path file_of(const std::string &name) {
  for (const auto &file : std::filesystem::directory_iterator("/dev/shm"))
    if (file.path().string().find(name) != std::string::npos && file.path().string().find("payloads") == std::string::npos) return file.path();
  CHECK(false);
  return {};
}

/* It is left as it is. */
void a_file_of_another_program() {
  std::string name = plain_name("foreign"), text = "another program's", found;
  auto path = [&] {
    auto domain = open_by<Alone>(name);
    return file_of(name);
  }();
  CHECK(!std::filesystem::exists(path));
  std::ofstream(path) << text;
  is_refused(name, settings(), Error::OpenServiceInCorruptedState, "another program");
  CHECK(!*Domain::exists(name) && std::getline(std::ifstream(path), found) && found == text);
  std::filesystem::remove(path);
}

void no_room_and_bad_options() {
  std::string name = name_of("room");
  auto because = [&](const iox2ps::Config<Reading> &config, const iox2ps::ProcessesOptions &options, Error error) {
    CHECK(Domain::create(name, config, options).error() == error && Alone::open_or_create(name, config, options).error() == error && !*Domain::exists(name));
  };
  because(settings(), iox2ps::ProcessesOptions().payload_room(std::size_t(1) << 40), Error::OpenInternalFailure);
  CHECK(std::string(iox2ps::why_refused()).find("No space left") != std::string::npos);
  because(settings(), iox2ps::ProcessesOptions().book_room(64), Error::OutOfMemory);
  because(settings().max_subscribers(SIZE_MAX), {}, Error::WorstCaseTooLarge);
  because(settings(), iox2ps::ProcessesOptions().max_processes(0), Error::OpenInvalidArgument);
  because(settings(), iox2ps::ProcessesOptions().calls(100), Error::OpenInvalidArgument);
  because(settings(), iox2ps::ProcessesOptions().permissions(01000), Error::OpenInvalidArgument);
}

/* Each wait ends, of threads and of one thread, and each call says why; the domain can be given back. */
void files_that_are_written_over() {
  std::string name = plain_name("damaged");
  auto damaged = [](const auto &result) { return !result.has_value() && result.error() == Error::ProcessesDamaged; };
  std::optional<Domain> domain = open_by<Domain>(name, by_looks);
  auto publisher = domain->publisher().expect("a publisher");
  auto subscriber = domain->subscriber().expect("a subscriber");
  auto notifier = domain->notifier().expect("a notifier");
  auto listener = domain->listener().expect("a listener");
  std::thread receives([&] { CHECK(damaged(subscriber.blocking_receive())); });
  std::thread listens([&] { CHECK(damaged(listener.blocking_wait_one())); });
  std::fstream file(file_of(name), std::ios::in | std::ios::out | std::ios::binary);
  std::string ones(static_cast<std::size_t>(std::filesystem::file_size(file_of(name))) - 4096, '\1');
  CHECK(file.seekp(4096) && file.write(ones.data(), static_cast<std::streamsize>(ones.size())).flush());
  receives.join(), listens.join();
  CHECK(damaged(subscriber.receive()) && damaged(subscriber.timed_receive(1h)) && damaged(publisher.loan()) && damaged(publisher.send_copy({1, {}})));
  CHECK(damaged(notifier.notify()) && damaged(domain->publisher()) && damaged(domain->nodes()) && damaged(domain->node_id()));
  publisher.close(), subscriber.close(), listener.close();
  domain.reset();
}

/* As if the others had another build: both sums are said. */
void another_build() {
  std::string name = plain_name("build");
  auto domain = open_by<Alone>(name);
  std::filesystem::path path = file_of(name);
  std::uint64_t build = iox2ps_processes_build(), other = build + 1;
  std::fstream file(path, std::ios::in | std::ios::out | std::ios::binary);
  std::array<char, 64> begins = {};
  file.read(begins.data(), begins.size());
  std::streamoff at = 0;
  while (std::memcmp(begins.data() + at, &build, sizeof build) != 0) CHECK(++at < static_cast<std::streamoff>(begins.size() - sizeof build));
  auto put = [&](const std::uint64_t &number) { CHECK(file.seekp(at) && file.write(reinterpret_cast<const char *>(&number), sizeof number).flush()); };
  put(other);
  for (std::uint64_t number : {build, other}) {
    char words[20];
    std::snprintf(words, sizeof words, "%llx", static_cast<unsigned long long>(number));
    is_refused(name, settings(), Error::OpenVersionMismatch, words);
  }
  put(build);
}

/* What waits keeps its domain, whoever drops its own handles; and ends where another thread closes it. */
void a_domain_is_closed_while_threads_wait() {
  std::string name = name_of("closed");
  std::optional<Domain> domain = open_by<Domain>(name);
  auto subscriber = domain->subscriber().expect("a subscriber"), never = domain->subscriber().expect("a subscriber");
  auto publisher = domain->publisher().expect("a publisher");
  auto listener = domain->listener().expect("a listener");
  for (std::uint64_t number = 1; number <= 2; number++) CHECK(publisher.send_copy({number, {}}).expect("a send").delivered() == 2u);
  std::thread sends([&] { CHECK(publisher.blocking_send_copy({3, {}}).expect("a send").delivered() == 2u); });
  std::thread receives([&] {
    for (std::uint64_t number = 1; number <= 3; number++) CHECK(subscriber.blocking_receive_copy().expect("a receive")->number == number);
    CHECK(subscriber.blocking_receive().error() == Error::NotLive);
  });
  std::thread listens([&] { CHECK(listener.blocking_wait_one().error() == Error::NotLive); });
  std::this_thread::sleep_for(20ms); /* mostly they wait by then */
  domain.reset();
  CHECK(never.receive()->has_value());
  sends.join();
  until([&] { return !*subscriber.has_samples(); });
  std::this_thread::sleep_for(20ms);
  subscriber.close();
  listener.close();
  receives.join(), listens.join();
  CHECK(*Domain::exists(name));
}

enum class Colour : std::uint8_t { Red, Green };

void types_have_names() {
  auto is = [](const char *one, const char *other) { return std::string_view(one) == other; };
  CHECK(is(iox2ps::type_name<Reading>(), "Reading") && is(iox2ps::type_name<Reading[]>(), "[Reading]") && is(iox2ps::type_name<Renamed>(), "Reading"));
  CHECK(is(iox2ps::type_name<std::uint64_t>(), "u64") && is(iox2ps::type_name<unsigned long long>(), "u64") && is(iox2ps::type_name<char[]>(), "[i8]"));
  CHECK(is(iox2ps::type_name<double>(), "f64") && is(iox2ps::type_name<bool>(), "bool") && is(iox2ps::type_name<std::int32_t>(), "i32"));
  CHECK(is(iox2ps::type_name<std::array<std::uint16_t, 12>>(), "[u16; 12]") && is(iox2ps::type_name<std::array<std::array<float, 2>, 10>[]>(), "[[[f32; 2]; 10]]"));
  static_assert(iox2ps::ZeroCopySend<Colour>::value && iox2ps::ZeroCopySend<int[3]>::value && iox2ps::ZeroCopySend<std::array<Reading, 2>>::value);
  static_assert(!iox2ps::ZeroCopySend<int *>::value && !iox2ps::ZeroCopySend<std::string>::value && !iox2ps::ZeroCopySend<std::array<char *, 2>>::value);
}

} // namespace

int main(int count, char **words) {
  if (has_played(count, words, {{"opens", opens}, {"is_one_too_many", is_one_too_many}, {"is_another_user", is_another_user}})) return 0;
  types_have_names();
  names_are_refused_and_taken();
  one_process_too_many();
  no_permission();
  a_file_of_another_program();
  no_room_and_bad_options();
  another_build();
  files_that_are_written_over();
  a_domain_is_closed_while_threads_wait();
  std::puts("refused in C++: each in its words");
}
