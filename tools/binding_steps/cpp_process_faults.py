# SPDX-License-Identifier: Apache-2.0 OR MIT
"""Faults that are planted in what C++ has over domains that processes share, and that its tests between processes have to see: they fail
or wait for good, whatever else the machine does."""
import shutil

from thread_steps.endings import how_it_ends

from .cpp_processes import COMPILERS, TESTS
from .places import BINDINGS
from .steps import Failed, said

NAMED, NODES, LISTENER = (f"processes/iox2_pubsub_{name}.hpp" for name in ("processes", "nodes", "listener"))
HANDLES, SHARED, SETS = (f"include/iox2_pubsub{name}.hpp" for name in ("", "_shared", "_wait_set"))
# What each does, in which file, what is replaced by what there, and the test that sees it.
FAULTS = (
    ("what others bring isn't news", NAMED, "brings |= counts[which] != counts_[which] ? 1u << which : 0u;", "brings |= 0u;", "processes"),
    ("a process sleeps for nothing", NAMED, "iox2ps_domain_sleep_begin(domain(), brings, &begun)", "iox2ps_domain_sleep_begin(domain(), 0, &begun)", "processes"),
    ("a thread of the own process ends no sleep", NAMED, "void ring() override { static_cast<void>(!iox2ps_domain_sleep_end(domain())); }", "void ring() override {}", "processes"),
    ("no thread watches", NAMED, "if (!is_watched_) is_watched_ = start();", "is_watched_ = true;", "processes"),
    ("who watches ends early", NAMED, "return is_over_.load(std::memory_order_relaxed) ? IOX2PS_OK : IOX2PS_NO_SAMPLE;", "return IOX2PS_OK;", "processes"),
    ("who watches never ends", NAMED, "    is_over_.store(true, std::memory_order_relaxed);\n", "", "processes"),
    ("who watches isn't woken to end", NAMED, "    shared_.threads.end_watch();\n", "", "processes"),
    ("a listener that is set wakes nobody who sleeps", SHARED, "    processes_->begin_sleep(brings);\n", "", "processes"),
    ("who sleeps for all tells nobody", SHARED, "      if (wake.ringer == processes_.get()) wake.ringer = nullptr; /* it is awake */\n      wake.wake();\n", "", "processes"),
    ("nobody sleeps for all after the first", SHARED, "    if (!sleeper_ && !wake.ringer) wake.ringer = list_.any();\n", "", "processes"),
    ("a thread waits for what nobody brings", NAMED, "waited = iox2ps_domain_wait(&shared.domain, helped_by(what), seen, left);", "waited = iox2ps_domain_wait(&shared.domain, IOX2PS_BRINGS_FREE, seen, left);", "one_thread"),
    ("a time that has passed is a refusal", NAMED, "while (waited == IOX2PS_OK || waited == IOX2PS_PROCESSES_TIMED_OUT) {", "while (waited == IOX2PS_OK) {", "one_thread"),
    ("what own handles keep is waited for", NAMED, "  case Waits::Loan: return code == IOX2PS_LOAN_ERROR_OUT_OF_MEMORY;", "  case Waits::Loan: return waits_on(what, code);", "one_thread"),
    ("a loan isn't waited for", NAMED, "  case Waits::Loan: return code == IOX2PS_LOAN_ERROR_OUT_OF_MEMORY;\n", "  case Waits::Loan: break;\n", "one_thread"),
    ("a blocked send is lost where nobody can be waited for", HANDLES, "    if (code == detail::not_shared) return Error::ProcessesNotShared;\n", "", "one_thread"),
    ("a loan is lost where nobody can be waited for", HANDLES, " || code == detail::not_shared)) return detail::error_of(code);", ")) return detail::error_of(code);", "one_thread"),
    ("a wait is ended by calls of its own process", NAMED, "iox2ps_domain_brought_by_others(&shared.domain, 1u << which, &count)", "iox2ps_domain_brought(&shared.domain, 1u << which, &count)", "one_thread"),
    ("a wait is for all at once", NAMED, "if ((brings >> which & 1) != 0) code", "code", "one_thread"),
    ("a subscriber is listed as a publisher", NODES, "  if (raw.kind != IOX2PS_PORT_PUBLISHER) return std::nullopt;\n", "", "nodes"),
    ("a long list is cut short", NODES, "} while (code == IOX2PS_OK && !is_whole_);", "} while (false);", "nodes"),
    ("the dead are told from the first on", NODES, "std::uint64_t index = count - (std::min<std::uint64_t>)(count, deaths_kept);", "std::uint64_t index = 0;", "nodes"),
    ("a death is told to nobody", NAMED, "      deaths = deaths_;\n", "", "nodes"),
    ("a death isn't noted", NAMED, "deaths_->note(node_of(node));", "static_cast<void>(node);", "nodes"),
    ("a death is told again", NAMED, "note_deaths(counts_[dead_nodes], counts[dead_nodes]);", "note_deaths(0, counts[dead_nodes]);", "nodes"),
    ("deaths that nobody has been told are told in any order", NODES, "    if (noted_ - told_ > deaths_kept) told_ = noted_ - deaths_kept;\n", "", "nodes"),
    ("who listens to deaths sleeps on when others find one", NAMED, "    if (deaths_) brings |= IOX2PS_BRINGS_DEAD_NODE;\n", "", "nodes"),
    ("a listener of deaths stays when it is cleared", NAMED, "{ std::swap(deaths_, listener); }", "{ if (listener) std::swap(deaths_, listener); }", "nodes"),
    ("an event is told to nobody", LISTENER, "    if (code == IOX2PS_OK) ids_.add(came);\n", "    if (code == IOX2PS_OK) ids_ = EventIds();\n", "listeners"),
    ("what came is forgotten when more comes", LISTENER, "raw_.words[word] |= others.words[word];", "raw_.words[word] = others.words[word];", "listeners"),
    ("the first event keeps others back", LISTENER, "    next_ = taken.as_value() + 1;\n", "", "listeners"),
    ("a listener has a subscriber's number", LISTENER, "return {port_.id.low, UINT64_MAX};", "return {port_.id.low, 0};", "listeners"),
    ("threads aren't told of events", SHARED, " | only(Waits::Event);", ";", "listeners"),
    ("a listener that is moved onto stays open", LISTENER, "    if (this != &other) {\n      close();\n", "    if (this != &other) {\n", "listeners"),
    ("a set hears of an event once", SETS, "    Member<M>::handle(event, now);\n    this->put_off();", "    Member<M>::handle(event, now);", "listeners"),
    ("a listener that is closed stays in its set", SETS, "{ return port_->look(&shared.domain, has_event); }", "{ static_cast<void>(port_->look(&shared.domain, has_event)); return IOX2PS_OK; }", "listeners"),
)
# So much processor time a test takes at most that a fault lets run on.
MOST_SECONDS = 60


def planted(work, fault):
    """The headers with the fault, or without any."""
    to = work / "faulty"
    shutil.rmtree(to, ignore_errors=True)
    for folder in ("include", "processes"):
        shutil.copytree(BINDINGS / folder, to / folder)
    if fault:
        _, file, old, new, _ = fault
        text = (to / file).read_text()
        if text.count(old) != 1:
            raise Failed(f"{file} has `{old.strip()}` {text.count(old)} times")
        (to / file).write_text(text.replace(old, new))
    return to


def ending_of(library, headers, test):
    """How the test ends over these headers."""
    program = library.work / f"faulty_{test}"
    said(COMPILERS[0], "-std=c++17", "-O0", "-w", "-I", headers / "include", "-I", headers / "processes", TESTS / f"{test}.cpp", library.packed, "-pthread", "-o", program)
    return how_it_ends(program, seconds=MOST_SECONDS)


def pass_without(library, test):
    """It passes where nothing is planted."""
    ending = ending_of(library, planted(library.work, None), test)
    if ending != "passes":
        raise Failed(f"tests/{test}.cpp {ending}")
    return f"tests/{test}.cpp passes"


def see(library, fault):
    """The test fails, or waits for good."""
    ending = ending_of(library, planted(library.work, fault), fault[4])
    if ending == "passes":
        raise Failed(f"tests/{fault[4]}.cpp passes")
    return f"tests/{fault[4]}.cpp {ending}"


def run_faults(steps, library):
    """Each in turn, after the tests without any."""
    for test in dict.fromkeys(fault[4] for fault in FAULTS):
        steps.run(f"without a fault, tests/{test}.cpp", pass_without, library, test)
    for fault in FAULTS:
        steps.run(f"fault of C++: {fault[0]}", see, library, fault)
