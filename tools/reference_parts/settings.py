# SPDX-License-Identifier: Apache-2.0 OR MIT
"""The settings and answers of the bindings, each with a test that shows its effect: bindings/settings.toml names it."""
import re
import tomllib

TABLE = "bindings/settings.toml"
HEADER = "bindings/include/iox2_pubsub.h"
SETTINGS_OF_CPP = "bindings/include/iox2_pubsub_settings.hpp"
DDS = "bindings/dds/include/iox2_pubsub_dds"
RUST = "bindings/rust/src"
PYTHON = "bindings/python/iox2_pubsub"

# How a kind of thing is found in its file, and how each of its parts is: by the kind's name.
STRUCT = (r"^typedef struct {0} \{{(.*?)^\}} {0};", r"^  [\w *]+?\b(\w+);")
ENUM = (r"^typedef enum {0} \{{(.*?)^\}} {0};", r"^  (IOX2PS_\w+) =")
ARGUMENTS = (r"^(?:IOX2PS_NODISCARD )?\w+ {0}\((.*?)\)(?: IOX2PS_\w+)?;", r"\b(commands|bytes|dds_domain|max_message_size)\b")
CLASS = (
    r"^(?:template <[^;]*?> )?class {0} [^;]*?^public:\n(.*?)^(?:protected|private):",
    r"^  (?:\[\[nodiscard\]\] )?(?:template <.*?> )?(?:\w+ &|[\w:<>]+ )(\w+)\([^)]*\)(?: const)? \{{",
)
FIELDS = (r"^struct {0} \{{(.*?)^\}};", r"^  [\w:]+ (\w+)(?: =|\{{)")
ENUM_CLASS = (r"^enum class {0} [^{{]*\{{(.*?)\}};", r"\b(\w+) = IOX2PS_")
IMPL = (r"^impl[^{{\n]*\b{0}\b[^{{]*\{{\n(.*?)^\}}", r"^    pub fn (\w+)")
PY_CALLS = (r"^class {0}:\n(.*?)(?=^class )", r"^    def ((?!_|close\b)\w+)\(")
PY_ARGUMENTS = (r"^    def {0}\((.*?)\) -> \w+:", r"\b(\w+): ")
PY_FIELDS = (r"^class {0}\(NamedTuple\):\n(.*?)(?=^class )", r"^    (\w+): ")
PY_ENUM = (r"^class {0}\(IntEnum\):\n(.*?)(?=^class )", r"^    ([A-Z_]+) = \d+")
RUST_ENUM = (r"^pub enum {0} \{{\n(.*?)^\}}", r"^    (\w+)(?: = \d+)?,")

# Where each group of the table stands in the sources, and how.
GROUPS = {
    "c": {
        HEADER: {
            STRUCT: ("iox2ps_config_t", "iox2ps_publisher_options_t", "iox2ps_subscriber_options_t"),
            ENUM: (
                "iox2ps_backpressure_strategy_e",
                "iox2ps_backpressure_handler_e",
                "iox2ps_degradation_e",
                "iox2ps_allocation_strategy_e",
                "iox2ps_warning_e",
            ),
            ARGUMENTS: ("iox2ps_domain_create_recorded",),
        },
    },
    "cpp": {
        SETTINGS_OF_CPP: {
            CLASS: ("ServiceConfig", "Config", "PublisherOptions", "SubscriberOptions"),
            ENUM_CLASS: ("BackpressureStrategy", "BackpressureAction", "DegradationAction", "AllocationStrategy", "WarningKind"),
        },
        "bindings/include/iox2_pubsub.hpp": {CLASS: ("Domain",)},
    },
    "rust": {
        f"{RUST}/domain.rs": {IMPL: ("Domain", "DomainBuilder")},
        f"{RUST}/port_factory.rs": {
            IMPL: ("PortFactoryPublisher", "PortFactorySubscriber"),
            RUST_ENUM: ("DegradationAction", "AllocationStrategy"),
        },
        f"{RUST}/static_config.rs": {IMPL: ("StaticConfig", "PublisherConfig", "SubscriberConfig")},
        f"{RUST}/publisher.rs": {RUST_ENUM: ("BackpressureStrategy", "BackpressureAction")},
        f"{RUST}/warning.rs": {RUST_ENUM: ("WarningKind",)},
    },
    "python": {
        f"{PYTHON}/_core.pyi": {PY_CALLS: ("Domain",)},
        f"{PYTHON}/domain.py": {PY_ARGUMENTS: ("__new__", "publisher", "subscriber")},
        f"{PYTHON}/settings.py": {
            PY_FIELDS: ("DomainSettings", "PublisherSettings", "SubscriberSettings", "Warning"),
            PY_ENUM: ("BackpressureStrategy", "BackpressureHandler", "DegradationAction", "AllocationStrategy", "WarningKind"),
        },
    },
    "dds_c": {
        f"{DDS}.h": {
            STRUCT: ("iox2ps_dds_settings_t",),
            ARGUMENTS: ("iox2ps_dds_gateways_open",),
            ENUM: ("iox2ps_dds_reliability_e",),
        },
    },
    "dds_cpp": {f"{DDS}.hpp": {FIELDS: ("Settings",), ENUM_CLASS: ("Reliability",)}},
    "dds_rust": {f"{RUST}/dds.rs": {IMPL: ("Settings",)}},
}
# What is no setting: room in a struct, and what makes domains, ports and their settings.
NO_SETTINGS = {"reserved_", "Config", "create", "create_shared", "create_with_lock", "builder", "slice_builder", "borrowed"}
NO_SETTINGS |= {"publisher", "subscriber", "publisher_builder", "subscriber_builder"}

# What has to be found: the file, the text that is replaced and the one in its place, and a part of the fault.
FAULTS = (
    ("bindings/include/iox2_pubsub.h", "  size_t history_size; ", "  size_t history_sizes; ", "has no row for history_sizes"),
    ("bindings/rust/src/port_factory.rs", "    Warn = 1,", "    Warns = 1,", "has a row for Warn, which isn't there"),
    ("bindings/python/iox2_pubsub/settings.py", "    BEST_FIT = 1", "    BEST_FITS = 1", "has no row for BEST_FITS"),
    ("bindings/cpp/settings.cpp", "AllocationStrategy::BestFit", "AllocationStrategy(1)", "doesn't use BestFit"),
    ("bindings/c/settings.c", "  memory_grows_as_the_options_say();\n", "", "memory_grows_as_the_options_say of bindings/c/settings.c isn't run"),
)

# The functions of a file of tests by its end: where each begins, up to the next one that begins, and how it is shown to be run.
FUNCTIONS = {
    ".c": (r"^(?:static )?[\w ]+?\b(\w+)\([^;]*?\) \{{$", r"^  {0}\(\);"),
    ".cpp": (r"^(?:template <[^>]*> )?(?:static )?[\w:<>\[\], ]+?\b(\w+)\([^;]*?\) \{{$", r"^  {0}\(\);|^      {0},$"),
    ".rs": (r"^fn (\w+)", r"^#\[test\]\n(?:#\[ignore.*\]\n)?fn {0}\("),
    ".py": (r"^(?:@pytest\.(?:.|\n)*?\n)?def (\w+)", r"^tests = \[[^\]]*\b{0}\b|^def (?=test_){0}\("),
}


def parts(text, kind, name):
    """The parts of a thing of this kind and name, as they come, each once. A type of Rust may have several `impl`."""
    whole, part = kind
    text = re.sub(r"/\*.*?\*/", "", text, flags=re.S)
    bodies = re.findall(whole.format(re.escape(name)), text, re.M | re.S)
    found = [one for body in bodies for one in re.findall(part.format(), body, re.M)]
    return [one for one in dict.fromkeys(found) if one not in NO_SETTINGS]


def settings_of(repository):
    """What the sources have: by language and group the names."""
    found = {}
    for language, files in GROUPS.items():
        for file, kinds in files.items():
            text = repository.text(file)
            for kind, names in kinds.items():
                found.update({(language, name): parts(text, kind, name) for name in names})
    return found


def functions_of(file, text):
    """The functions of a file of tests, each with its text."""
    begins = list(re.finditer(FUNCTIONS["." + file.rsplit(".", 1)[1]][0].format(), text, re.M))
    ends = [match.start() for match in begins[1:]] + [len(text)]
    return {match[1]: text[match.start() : end] for match, end in zip(begins, ends)}


def whole_text(functions, name, seen):
    """The text of a function with that of the functions of its file that it calls."""
    seen.add(name)
    text = functions[name]
    called = [other for other in functions if other not in seen and re.search(rf"\b{other}(?:::<\w+>|<\w+>)?\(", text)]
    return text + "".join(whole_text(functions, other, seen) for other in called if other not in seen)


def fault_of_row(repository, file, test, word):
    """What is wrong with the test that a row names, or nothing."""
    if f"bindings/{file}" not in repository.names:
        return f"there is no bindings/{file}"
    text = re.sub(r"/\*.*?\*/|//[^\n]*", "", repository.text(f"bindings/{file}"), flags=re.S)
    functions = functions_of(file, text)
    if test not in functions:
        return f"bindings/{file} has no {test}"
    if not re.search(FUNCTIONS["." + file.rsplit(".", 1)[1]][1].format(test), text, re.M):
        return f"{test} of bindings/{file} isn't run"
    if not re.search(rf"\b{word}\b", whole_text(functions, test, set())):
        return f"{test} of bindings/{file} doesn't use {word}"
    return None


def faults(repository):
    """What of the sources has no row, which rows are of nothing, and which tests don't use their setting."""
    table, found = tomllib.loads(repository.text(TABLE)), []
    sources = settings_of(repository)
    for (language, group), names in sources.items():
        rows = dict(table.get(language, {}).get(group, {}))
        file = rows.pop("file", "")
        if not names:
            found.append(f"{group} of {language} isn't found in the sources")
        found += [f"{group} of {language} has no row for {name}" for name in names if name not in rows]
        found += [f"{group} of {language} has a row for {name}, which isn't there" for name in rows if name not in names]
        for name, row in rows.items():
            test, word = row if isinstance(row, list) else (row, name)
            *other, test = test.split(": ")
            if fault := fault_of_row(repository, *(other or [file]), test, word):
                found.append(f"{name} of {group} of {language}: {fault}")
    found += [f"there is no {group} of {language}" for language, groups in table.items() for group in groups if (language, group) not in sources]
    return [f"{TABLE}:1: {fault}" for fault in found]
