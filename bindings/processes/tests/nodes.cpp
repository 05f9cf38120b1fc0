// SPDX-License-Identifier: Apache-2.0 OR MIT
/* Who is there in C++: which processes and ports a domain has, and which process died, as it is asked, and as a listener is told. */
#include "roles.hpp"
#include <algorithm>
#include <atomic>
#include <condition_variable>
#include <memory>
#include <mutex>
#include <optional>
#include <vector>

using Alone = iox2ps::Domain<Reading>;
using Shared = iox2ps::SharedDomain<Reading>;
using iox2ps::NodeState;
using iox2ps::NodeView;

namespace {

constexpr std::size_t many = 70;
constexpr std::size_t kept = 64;

/* ---- other roles */

void sends_and_dies(const std::string &name) {
  auto domain = open_by<Alone>(name);
  auto publisher = domain.publisher().expect("a publisher");
  auto subscriber = domain.subscriber().expect("a subscriber");
  auto loan = publisher.loan().expect("a loan");
  CHECK(publisher.send_copy({1, {}}).has_value());
  raise(SIGKILL);
}
void dies(const std::string &name) {
  auto domain = open_by<Alone>(name);
  raise(SIGKILL);
}
void leaves(const std::string &name) {
  auto domain = open_by<Alone>(name);
  auto publisher = domain.publisher().expect("a publisher");
}
void looks(const std::string &name) {
  auto domain = open_by<Shared>(name, by_looks);
  static_cast<void>(domain.subscriber().expect("a subscriber").blocking_receive());
}
/* A listener that throws ends its program, as that of a subscriber. */
void throws(const std::string &name) {
  std::set_terminate([] { _exit(42); });
  auto domain = open_by<Shared>(name, by_looks);
  CHECK(domain.set_dead_node_listener([](const NodeView &) { throw 7; }).has_value());
  pause();
}

pid_t dead_of(const char *role, const std::string &name) {
  pid_t child = started(role, name);
  int status = status_of(child);
  CHECK(WIFSIGNALED(status) && WTERMSIG(status) == SIGKILL); /* else it was refused before */
  return child;
}

/* ---- tests */

/* A dead process is in the list with what it had, until that is given back; and then among the dead. */
template <typename D> void lists(const char *what) {
  std::string name = name_of(what);
  auto domain = open_by<D>(name);
  auto publisher = domain.publisher().expect("a publisher");
  auto subscriber = domain.subscriber().expect("a subscriber");
  auto own = domain.node_id().expect("an id");
  pid_t child = dead_of("sends_and_dies", name);
  auto sample = std::move(*subscriber.receive().expect("a receive"));
  auto nodes = domain.nodes().expect("the processes");
  CHECK(nodes.size() == 2);
  const NodeView &mine = nodes[0], &its = nodes[1];
  CHECK(mine.id == own && mine.pid == getpid() && mine.state == NodeState::Alive);
  CHECK(mine.number_of_publishers == 1 && mine.number_of_subscribers == 1 && mine.number_of_loans == 0 && mine.number_of_samples == 1);
  CHECK(its.id != own && its.pid == child && its.state == NodeState::Dead && sample.header()->node_id == its.id);
  CHECK(its.number_of_publishers == 1 && its.number_of_subscribers == 1 && its.number_of_loans == 1 && its.number_of_samples == 0);
  auto publishers = domain.list_publishers().expect("the publishers");
  auto subscribers = domain.list_subscribers().expect("the subscribers");
  CHECK(publishers.size() == 2 && publishers[0].publisher_id == publisher.id() && publishers[0].node_id == own);
  CHECK(publishers[1].publisher_id == sample.origin() && publishers[1].node_id == its.id);
  CHECK(subscribers.size() == 2 && subscribers[0].subscriber_id == subscriber.id() && subscribers[0].node_id == own && subscribers[1].node_id == its.id);
  CHECK(domain.dead_nodes()->empty());
  CHECK(domain.cleanup_dead_nodes()->cleanups == 1 && domain.cleanup_dead_nodes()->cleanups == 0);
  auto dead = domain.dead_nodes().expect("the dead");
  CHECK(dead.size() == 1 && dead[0].id == its.id && dead[0].pid == child && dead[0].state == NodeState::Dead && dead[0].number_of_loans == 0);
  CHECK(domain.nodes()->size() == 1 && domain.list_publishers()->size() == 1 && domain.list_subscribers()->size() == 1);
}

/* A process that leaves isn't dead. */
void who_leaves() {
  std::string name = name_of("leaves");
  auto domain = open_by<Alone>(name);
  CHECK(status_of(started("leaves", name)) == 0);
  CHECK(domain.cleanup_dead_nodes()->cleanups == 0 && domain.dead_nodes()->empty());
  auto nodes = domain.nodes().expect("the processes");
  CHECK(nodes.size() == 1 && nodes[0].id == *domain.node_id());
}

/* There may be more ports than a list has room for at first. */
void many_ports() {
  std::string name = name_of("ports");
  auto domain = Alone::open_or_create(name, settings().max_subscribers(many), by_wakes).expect("a domain");
  std::vector<iox2ps::Subscriber<Reading>> subscribers;
  for (std::size_t i = 0; i < many; i++) subscribers.push_back(domain.subscriber().expect("a subscriber"));
  auto all = domain.list_subscribers().expect("the subscribers");
  CHECK(all.size() == subscribers.size() && domain.list_publishers()->empty());
  CHECK(std::equal(all.begin(), all.end(), subscribers.begin(), [](const auto &one, const auto &other) { return one.subscriber_id == other.id(); }));
}

/* What a listener was told, by whatever thread. */
class Told {
public:
  void add(const NodeView &node) {
    std::lock_guard<std::mutex> lock(mutex_);
    CHECK(node.state == NodeState::Dead);
    pids_.push_back(node.pid);
    signal_.notify_all();
  }
  /* Waits for as many. */
  std::vector<pid_t> await(std::size_t count) {
    std::unique_lock<std::mutex> lock(mutex_);
    signal_.wait(lock, [&] { return pids_.size() >= count; });
    return pids_;
  }

private:
  std::mutex mutex_;
  std::condition_variable signal_;
  std::vector<pid_t> pids_;
};

/* A process of which no thread waits is told of each death once, and of none before. */
void a_listener_is_told() {
  std::string name = name_of("told");
  auto domain = open_by<Shared>(name, by_looks);
  dead_of("dies", name);
  until([&] { return domain.cleanup_dead_nodes().has_value() && domain.dead_nodes()->size() == 1; });
  auto told = std::make_shared<Told>();
  CHECK(domain.set_dead_node_listener([told, &domain](const NodeView &node) {
    CHECK(domain.dead_nodes()->back().pid == node.pid && domain.nodes()->size() == 1 && domain.cleanup_dead_nodes().has_value()); /* it may ask */
    told->add(node);
  }).has_value());
  std::vector<pid_t> all = {dead_of("dies", name)};
  CHECK(told->await(1) == all);
  all.push_back(dead_of("sends_and_dies", name));
  CHECK(told->await(2) == all);
}

/* Another is told in place of the first, and then nobody. What they had is dropped. */
void a_listener_is_set_anew_and_cleared() {
  std::string name = name_of("anew");
  auto domain = open_by<Shared>(name, by_looks);
  auto first = std::make_shared<Told>(), second = std::make_shared<Told>();
  CHECK(domain.set_dead_node_listener([first](const NodeView &node) { first->add(node); }).has_value());
  CHECK(domain.set_dead_node_listener([second](const NodeView &node) { second->add(node); }).has_value());
  pid_t dead = dead_of("dies", name);
  CHECK(second->await(1) == std::vector<pid_t>{dead});
  domain.clear_dead_node_listener();
  dead_of("dies", name);
  until([&] { return domain.cleanup_dead_nodes().has_value() && domain.dead_nodes()->size() == 2; });
  CHECK(first->await(0).empty() && second->await(0).size() == 1);
  until([&] { return first.use_count() == 1 && second.use_count() == 1; });
}

/* A death that another process has found, and given back what was had, wakes a process that doesn't look. */
void others_find_the_dead() {
  std::string name = name_of("others");
  auto domain = open_by<Shared>(name);
  auto told = std::make_shared<Told>();
  CHECK(domain.set_dead_node_listener([told](const NodeView &node) { told->add(node); }).has_value());
  pid_t other = started("looks", name);
  until([&] { return domain.list_subscribers()->size() == 1; });
  pid_t dead = dead_of("dies", name);
  CHECK(told->await(1) == std::vector<pid_t>{dead});
  kill_it(other);
}

/* The last of many dead are known; and so many a listener is told of that was busy meanwhile. */
void many_deaths() {
  std::string name = name_of("many");
  auto domain = open_by<Shared>(name, by_looks);
  auto told = std::make_shared<Told>();
  std::vector<pid_t> all;
  CHECK(domain.set_dead_node_listener([&](const NodeView &node) {
    for (bool is_first = all.empty(); is_first && all.size() < many;) {
      all.push_back(dead_of("dies", name));
      CHECK(domain.cleanup_dead_nodes().has_value());
    }
    told->add(node);
  }).has_value());
  pid_t first = dead_of("dies", name);
  auto pids = told->await(1 + kept);
  all.erase(all.begin(), all.end() - kept);
  CHECK(pids.front() == first && std::equal(pids.begin() + 1, pids.end(), all.begin(), all.end()));
  auto dead = domain.dead_nodes().expect("the dead");
  CHECK(std::equal(dead.begin(), dead.end(), all.begin(), all.end(), [](const NodeView &node, pid_t pid) { return node.pid == pid; }));
}

/* A listener drops the domain's last handles, in the thread that the library has. */
void a_listener_drops_all() {
  std::string name = name_of("drops");
  auto domain = std::make_shared<std::optional<Shared>>(open_by<Shared>(name, by_looks));
  auto has_dropped = std::make_shared<std::atomic<bool>>(false);
  CHECK((*domain)->set_dead_node_listener([domain, has_dropped](const NodeView &) {
    domain->reset();
    *has_dropped = true;
  }).has_value());
  dead_of("dies", name);
  until([&] { return has_dropped->load(); });
  until([&] { return !*Shared::exists(name); });
}

void listeners_that_throw_end_their_program() {
  std::string name = name_of("throws");
  auto domain = open_by<Alone>(name);
  pid_t child = started("throws", name);
  int status = 0;
  while (waitpid(child, &status, WNOHANG) == 0) dead_of("dies", name);
  CHECK(WIFEXITED(status) && WEXITSTATUS(status) == 42);
}

template <typename D> void nobody_is_there(const D &domain, Error error) {
  CHECK(domain.node_id().error() == error && domain.nodes().error() == error && domain.dead_nodes().error() == error);
  CHECK(domain.list_publishers().error() == error && domain.list_subscribers().error() == error && domain.cleanup_dead_nodes().error() == error);
}
void listens_to_nobody(const Shared &domain, Error error) {
  CHECK(domain.set_dead_node_listener([](const NodeView &) {}).error() == error);
  domain.clear_dead_node_listener();
}

/* Domains of one process, handles that are empty, and those of a parent. */
void who_may_not_ask() {
  auto alone = Alone::create(settings()).expect("a domain");
  auto shared = Shared::create(settings()).expect("a domain");
  nobody_is_there(alone, Error::ProcessesNotShared), nobody_is_there(shared, Error::ProcessesNotShared), listens_to_nobody(shared, Error::ProcessesNotShared);
  auto taken = std::move(alone);
  auto taken_shared = std::move(shared);
  nobody_is_there(alone, Error::NotLive), nobody_is_there(shared, Error::NotLive), listens_to_nobody(shared, Error::NotLive);
  auto domain = open_by<Shared>(name_of("fork"));
  pid_t child = fork_child();
  if (child == 0) {
    nobody_is_there(domain, Error::AfterFork), listens_to_nobody(domain, Error::AfterFork);
    _exit(0);
  }
  CHECK(status_of(child) == 0);
}

} // namespace

int main(int count, char **words) {
  if (has_played(count, words, {{"sends_and_dies", sends_and_dies}, {"dies", dies}, {"leaves", leaves}, {"looks", looks}, {"throws", throws}})) return 0;
  lists<Alone>("alone");
  lists<Shared>("shared");
  who_leaves();
  many_ports();
  a_listener_is_told();
  a_listener_is_set_anew_and_cleared();
  others_find_the_dead();
  many_deaths();
  a_listener_drops_all();
  listeners_that_throw_end_their_program();
  who_may_not_ask();
  std::puts("nodes in C++: each process is known, and each death is told once");
}
