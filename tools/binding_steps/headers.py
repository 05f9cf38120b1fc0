# SPDX-License-Identifier: Apache-2.0 OR MIT
"""What the headers say: the archive's functions, each standard, what a compiler has to refuse, Doxygen, other libraries beside."""
import re
import subprocess
from pathlib import Path

from . import build_sums, determinism, layouts, process_library
from .places import BINDINGS, CRATES, HEADER, OUT, is_here, version
from .programs import ARCHIVE, PAIRS, WARNINGS
from .steps import Failed, said
from .targets import X86_64

INCLUDE = OUT / "include"
ICEORYX = Path("/usr/include/iceoryx/v2.0.3")
CPP_HEADERS = ("iox2_pubsub.hpp", "iox2_pubsub_results.hpp", "iox2_pubsub_settings.hpp", "iox2_pubsub_events.hpp", "iox2_pubsub_shared.hpp",
               "iox2_pubsub_wait_set.hpp", "iox2_pubsub_memory.hpp", *process_library.CPP_HEADERS)
ALONE = (
    ("iox2_pubsub.h", "c", ("c99", "c11", "c17", "gnu2x")),
    ("iox2_pubsub.h", "c++", ("c++11", "c++14", "c++17", "c++20")),
    ("iox2_pubsub_shared.h", "c", ("c99", "c11", "c17", "gnu2x")),
    ("iox2_pubsub_shared.h", "c++", ("c++11", "c++14", "c++17", "c++20")),
    ("iox2_pubsub_processes.h", "c", ("c99", "c11", "c17", "gnu2x")),
    ("iox2_pubsub_processes.h", "c++", ("c++11", "c++14", "c++17", "c++20")),
    *((header, "c++", ("c++17", "c++20")) for header in CPP_HEADERS),
)


def same_functions(archive=ARCHIVE, nm="nm", include=INCLUDE):
    """The archive defines what the header declares, and no other function of this name."""
    symbols = said(nm, "-g", "--defined-only", archive, both=False)
    defined = set(re.findall(r" T (iox2\w*)", symbols))
    text = (include / HEADER.name).read_text()
    declared = set(re.findall(r"^(?:IOX2PS_NODISCARD iox2ps_status_t|IOX2PS_NODISCARD uint32_t|iox2ps_status_t|void) \*?(iox2ps_\w+)\(", text, re.M))
    if defined != declared:
        raise Failed(f"in the archive alone: {sorted(defined - declared)}; in the header alone: {sorted(declared - defined)}")
    return f"{len(defined)} functions"


def same_versions():
    """The crates of Rust have the version that the header says."""
    crates = [OUT / crate / "Cargo.toml" for crate in CRATES]
    others = [crate for crate in crates if f'\nversion = "{version()}"\n' not in crate.read_text()]
    if others:
        raise Failed(f"the header says {version()}, and not so {', '.join(map(str, others))}")
    return version()


MACROS = """#define min(a, b) ((a) < (b) ? (a) : (b))
#define max(a, b) ((a) > (b) ? (a) : (b))
"""


def beside_macros(compiler_of):
    """The headers of C++ behind macros that have the names of functions, as a system's header may define them. The standard library's
    own headers stand before these."""
    used = {line for header in CPP_HEADERS for line in re.findall(r"^#include <[a-z_]+>$", (INCLUDE / header).read_text(), re.M)}
    ours = [f'#include "{header}"' for header in CPP_HEADERS]
    text = "\n".join([*sorted(used), MACROS, *ours, "template class iox2ps::Config<int[]>;", ""])
    ran = compiled(compiler_of, "c++17", text)
    if ran.returncode:
        raise Failed(ran.stderr[-3000:])
    return f"{len(ours)} headers"


def header_alone(compiler_of):
    """Each header by itself, as each standard reads it, those of C++ without exceptions too."""
    for header, language, standards in ALONE:
        for standard in standards:
            words = [compiler_of[language], "-x", language, f"-std={standard}", *WARNINGS, "-Wno-unused-function", "-fsyntax-only", INCLUDE / header]
            said(*words)
            if language == "c++":
                said(*words, "-fno-exceptions", "-fno-rtti")
    return f"{len(ALONE)} headers and languages, in {sum(len(row[2]) for row in ALONE)} standards"


C = """#include "iox2_pubsub.h"
iox2ps_domain_t domain = IOX2PS_DOMAIN_INIT;
int main(void) {{ {} return 0; }}
"""
CPP = """#include "iox2_pubsub.hpp"
#include <string>
struct alignas(32) Wide {{ int x; }};
struct Sized {{ explicit Sized(int given) : size(given) {{}} int size; }};
using namespace iox2ps;
int main() {{ auto domain = Domain<int>::create(Config<int>(1)).expect("a domain"); {} return 0; }}
"""
WAIT_SET = CPP.replace("iox2_pubsub.hpp", "iox2_pubsub_wait_set.hpp")
# What a compiler has to warn about or refuse, and a part of what it says.
REFUSED = (
    ("c11", C, "iox2ps_subscriber_t subscriber; iox2ps_subscriber_create(&domain, &subscriber);", "unused"),
    ("c11", C, "iox2ps_config_t config; iox2ps_domain_config(&domain, &config);", "unused"),
    ("c++11", C, "iox2ps_subscriber_t subscriber; iox2ps_subscriber_create(&domain, &subscriber);", "unused"),
    ("c++17", C, "iox2ps_subscriber_t subscriber; iox2ps_subscriber_create(&domain, &subscriber);", ""),
    ("c++17", C, "iox2ps_config_t config; iox2ps_domain_config(&domain, &config);", ""),
    ("c++17", CPP, 'domain.publisher().expect("one").send_copy(1).expect("sent");', "nodiscard"),
    ("c++17", CPP, 'std::move(*domain.publisher()->send_copy(1)->blocked());', ""),
    ("c++17", CPP, "domain.publisher();", "nodiscard"),
    ("c++17", CPP, "Config<std::string> config(1);", "trivially copyable"),
    ("c++17", CPP, "Config<const int> config(1);", "plain type"),
    ("c++17", CPP, "Config<int &> config(1);", ""),
    ("c++17", CPP, "Config<Wide> config(1);", "alignment"),
    ("c++17", CPP, "Config<int[3]> config(1);", "without a number"),
    ("c++17", CPP, "Config<int>(1).enable_safe_overflow(1);", ""),
    ("c++17", CPP, "Config<int>(1).backpressure_strategy(IOX2PS_DISCARD_DATA);", ""),
    ("c++17", CPP, "PublisherOptions<int>().initial_max_slice_len(1);", ""),
    ("c++17", CPP, "PublisherOptions<int>().degradation_handler(1);", ""),
    ("c++17", CPP, "if (domain.subscriber()->has_samples()) return 1;", "deleted"),
    ("c++17", CPP, "while (!domain.subscriber()->has_samples()) {}", "deleted"),
    ("c++17", CPP, "Publisher<int> publisher;", ""),
    ("c++17", CPP, "Sent<int> sent(1);", "private"),
    ("c++17", CPP, "domain.call(0u, [](iox2ps_domain_t *) { return IOX2PS_OK; });", "private"),
    ("c++17", CPP, "auto copy = *domain.publisher(); auto again = copy;", "deleted"),
    ("c++17", CPP, "auto named = domain.publisher(); named.expect(\"one\");", "std::move(result).expect(..)"),
    ("c++17", CPP, "domain.connection_count();", "nodiscard"),
    ("c++17", CPP, "(void)Domain<Sized>::create(Config<Sized>(1))->publisher()->loan();", "loan_uninit()"),
    ("c++17", CPP, "for (auto &sample : *domain.subscriber()) return *sample;", "begin"),
    ("c++17", CPP, "iox2ps::text(Error::NotLive);", "nodiscard"),
    ("c++17", CPP, "domain.stop_waits();", "SharedDomain"),
    ("c++17", CPP, "return domain.waits_are_stopped();", "SharedDomain"),
    ("c++17", CPP, "(void)domain.share();", "SharedDomain"),
    ("c++17", CPP, "(void)domain.subscriber()->set_listener([] {});", "SharedDomain"),
    ("c++17", CPP, "domain.subscriber()->clear_listener();", "SharedDomain"),
    ("c++17", CPP, "(void)domain.subscriber()->message_fd();", "SharedDomain"),
    ("c++17", CPP, "(void)domain.subscriber()->blocking_receive();", "SharedDomain"),
    ("c++17", CPP, "(void)domain.publisher()->timed_loan({});", "SharedDomain"),
    ("c++17", WAIT_SET, "(void)WaitSet::create()->attach_notification(*domain.subscriber());", "SharedDomain"),
    ("c++17", WAIT_SET, "(void)WaitSet::create()->attach_deadline(*domain.publisher(), {});", "SharedDomain"),
    ("c++17", WAIT_SET, "WaitSet::create()->attach_interval({});", "nodiscard"),
    ("c++17", WAIT_SET, "auto set = *WaitSet::create(); auto other = set;", "deleted"),
    ("c++17", WAIT_SET, "auto guard = *WaitSet::create()->attach_interval({}); auto other = guard;", "deleted"),
    ("c++17", CPP, "iox2ps::Waits::Message;", ""),
    ("c++14", '#include "iox2_pubsub.hpp"\n{}', "int x;", "iox2_pubsub.hpp is for C++17"),
)
# What has to compile without a warning: the code of a call that gives back may be dropped.
TAKEN = tuple(
    (standard, f"{cast}{call}")
    for standard in ("c11", "c++11", "c++17")
    for cast in ("", "(void)")
    for call in (
        "iox2ps_loan_discard(&domain, &loan);",
        "iox2ps_sample_release(&domain, &sample);",
        "iox2ps_publisher_close(&domain, &publisher);",
        "iox2ps_subscriber_close(&domain, &subscriber);",
        "iox2ps_domain_destroy(&domain);",
    )
)
GIVING_BACK = """#include "iox2_pubsub.h"
static iox2ps_domain_t domain = IOX2PS_DOMAIN_INIT;
static iox2ps_publisher_t publisher;
static iox2ps_subscriber_t subscriber;
static iox2ps_loan_t loan;
static iox2ps_sample_t sample;
int main(void) {{ (void)publisher; (void)subscriber; (void)loan; (void)sample; {} return 0; }}
"""


def compiled(compiler_of, standard, text):
    """How compiling a text ended, and what was said."""
    language = "c++" if standard.startswith("c++") else "c"
    words = [compiler_of[language], "-x", language, f"-std={standard}", "-Wall", "-Wextra", "-Werror", "-I", INCLUDE]
    return subprocess.run([*words, "-c", "-o", "/dev/null", "-"], input=text, capture_output=True, text=True)


def refuses(compiler_of):
    """Each is refused, and the texts without it are not."""
    for standard, text in (("c11", C), ("c++11", C), ("c++17", C), ("c++17", CPP), ("c++17", WAIT_SET)):
        if compiled(compiler_of, standard, text.format("")).returncode:
            raise Failed(f"as {standard} nothing compiles")
    for standard, text, line, words in REFUSED:
        ran = compiled(compiler_of, standard, text.format(line))
        if ran.returncode == 0 or words not in ran.stderr:
            raise Failed(f"{standard}: {line}\n{ran.stderr[-1500:] or 'is taken'}")
    return f"{len(REFUSED)} lines"


def takes(compiler_of):
    """Each compiles without a warning."""
    for standard, line in TAKEN:
        ran = compiled(compiler_of, standard, GIVING_BACK.format(line))
        if ran.returncode:
            raise Failed(f"{standard}: {line}\n{ran.stderr[-1500:]}")
    return f"{len(TAKEN)} lines"


def beside_others(work, compilers):
    """Programs that use other libraries too: a stand-in with iceoryx2's names of C, and iceoryx's C binding where that is there."""
    c, cpp = compilers
    stand_in = said(c, "-c", BINDINGS / "beside/iceoryx2.c", "-o", work / "iceoryx2.o")
    has_iceoryx = (ICEORYX / "iceoryx_binding_c/api.h").exists()
    flags = ["-DICEORYX", "-isystem", ICEORYX] if has_iceoryx else []
    libraries = ["-liceoryx_binding_c"] if has_iceoryx else []
    for compiler, standard, source in ((c, "c11", "both.c"), (cpp, "c++17", "both.cpp"), (cpp, "c++20", "both.cpp")):
        files = [BINDINGS / "beside" / source, work / "iceoryx2.o", ARCHIVE]
        said(compiler, f"-std={standard}", *WARNINGS, *flags, "-I", INCLUDE, *files, *libraries, "-pthread", "-o", work / "both")
        stand_in = said(work / "both")
    return f"{stand_in.strip()}{'' if has_iceoryx else '; iceoryx 2.0.3 (libiceoryx-binding-c-dev) is not here'}"


def doxygen(work):
    """The pages of the headers, without a warning."""
    text = (BINDINGS / "Doxyfile").read_text() + f"\nOUTPUT_DIRECTORY = {work / 'doc'}\n"
    ran = subprocess.run(["doxygen", "-"], input=text, cwd=BINDINGS, stdout=subprocess.PIPE, stderr=subprocess.STDOUT, text=True)
    if ran.returncode:
        raise Failed(ran.stdout[-3000:])
    return "no warning"


def run_headers(steps, work):
    """All of these."""
    steps.run("the archive has the functions of the header", same_functions)
    steps.run("the archive says its build's sum", build_sums.says_it, ARCHIVE, X86_64, work)
    steps.run("what decides a call", determinism.run, ARCHIVE, X86_64, work)
    steps.run("one version", same_versions)
    steps.run("the table of structs", layouts.is_of_the_header, work)
    for c, cpp in PAIRS:
        if not is_here(c) or not is_here(cpp):
            steps.skip(f"headers by {c} and {cpp}", c if not is_here(c) else cpp)
            continue
        compiler_of = {"c": c, "c++": cpp}
        steps.run(f"the headers alone, {c}", header_alone, compiler_of)
        steps.run(f"how structs lie in memory, {c}", layouts.holds, (c, cpp), INCLUDE)
        steps.run(f"the headers behind macros, {cpp}", beside_macros, compiler_of)
        steps.run(f"what has to be refused, {c}", refuses, compiler_of)
        steps.run(f"what has to be taken, {c}", takes, compiler_of)
        steps.run(f"beside iceoryx, {c}", beside_others, work, (c, cpp))
    if is_here("doxygen"):
        steps.run("doxygen", doxygen, work)
    else:
        steps.skip("doxygen", "doxygen")
