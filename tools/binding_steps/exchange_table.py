# SPDX-License-Identifier: Apache-2.0 OR MIT
"""The settings and answers of each language that are exchanged or left out, by where they stand in bindings/."""
from .exchange_changes import Arguments, Places, Statements, Switch


def struct_of_c(name, file="include/iox2_pubsub.h"):
    return Places(file, rf"^typedef struct {name} \{{.*?^\}} {name};", r"^  (?P<type>[\w *]+?)\b(?P<word>(?!reserved_)\w+);")


def enum_of_c(name):
    return Places("include/iox2_pubsub.h", rf"^typedef enum {name} \{{.*?^\}} {name};", r"^  (?P<word>IOX2PS_\w+) =")


def enum_of_cpp(name, file="include/iox2_pubsub_settings.hpp"):
    return Places(file, rf"^enum class {name} .*?\}};", r"= (?P<word>IOX2PS_\w+)", fields=FIELDS.get(name, ()))


def enum_of_rust(name, file):
    return Places(f"rust/src/{file}.rs", rf"^pub enum {name} \{{.*?^\}}", r"^    \w+ = (?P<word>\d+),", fields=FIELDS.get(name, ()))


def enum_of_python(name):
    return Places(SETTINGS_OF_PYTHON, rf"^class {name}\(IntEnum\):.*?^class", r"^    \w+ = (?P<word>\d+)$")


def fields_of_python(name, macro, struct):
    form = f"{{\"%(word)s\", offsetof({struct}, %(other)s), '%(type)s'}}"
    return Places("python/src/settings.c", rf"^const Field {name}\[\].*?\}};", rf"\b{macro}\((?P<word>\w+), '(?P<type>\w)'\)", form=form)


def struct_of_sys(name, file="lib", struct=""):
    return Places(f"rust-sys/src/{file}.rs", rf"^pub struct {name} \{{.*?^\}}", r"^    pub (?P<word>(?!reserved)\w+): (?P<type>.+),$", struct=struct)


# The fields of C that have an answer. A strategy is also read of a publisher, which isn't made of this in each language.
FIELDS = {
    "BackpressureAction": (("iox2ps_publisher_options_t", "backpressure_handler"),),
    "DegradationAction": (("iox2ps_publisher_options_t", "degradation"), ("iox2ps_subscriber_options_t", "degradation")),
    "AllocationStrategy": (("iox2ps_publisher_options_t", "allocation_strategy"),),
    "WarningKind": (("iox2ps_warning_t", "kind"),),
}
CPP = "include/iox2_pubsub_settings.hpp"
SETTINGS_OF_PYTHON, DOMAIN_OF_PYTHON = "python/iox2_pubsub/settings.py", "python/iox2_pubsub/domain.py"
FACTORY = "rust/src/port_factory.rs"
CONFIG_OF_CPP = r"^template <typename P> class Config .*?^private:"
PUBLISHER_OF_CPP = r"^template <typename P> class PublisherOptions .*?^\};"
PUBLISHER_OF_RUST = r"\A.*?^/// The settings of a subscriber"
# One build has all changes of these that may be chosen when it runs, since a build takes seconds and a run of the tests milliseconds.
SWITCHED = "IOX2PS_SWITCHED"
SWITCHES = {
    "cpp": Switch(
        "iox2ps_switched", CPP, r"^#include <string>$",
        "#include <cstdlib>\ninline bool iox2ps_switched(int number) {\n"
        f'  const char *chosen = std::getenv("{SWITCHED}");\n  return chosen && std::atoi(chosen) == number;\n}}'
    ),
    "rust": Switch(
        "crate::switched", "rust/src/lib.rs", r"\Z",
        f'pub(crate) fn switched(number: u32) -> bool {{ std::env::var("{SWITCHED}").map_or(false, |chosen| chosen == number.to_string()) }}'
    ),
}
ALL = {
    "c": (
        *map(struct_of_c, ("iox2ps_config_t", "iox2ps_publisher_options_t", "iox2ps_subscriber_options_t")),
        *map(enum_of_c, ("iox2ps_backpressure_strategy_e", "iox2ps_backpressure_handler_e", "iox2ps_degradation_e")),
        *map(enum_of_c, ("iox2ps_allocation_strategy_e", "iox2ps_warning_e")),
        Arguments("include/iox2_pubsub.h", "iox2ps_domain_create_recorded", ("domain", "config", "commands", "bytes"), ("commands", "bytes")),
    ),
    "cpp": (
        Places(CPP, r"^class ServiceConfig .*?^protected:", r"^  (?:\[\[nodiscard\]\] )?(?P<type>[\w:]+) \w+\(\) const \{ return [^;]*?raw_\.(?P<word>\w+)[;)]", "raw_."),
        Places(CPP, CONFIG_OF_CPP, r"^  Config &\w+\((?P<type>[\w:]+) \w+\) \{\s*return set\(raw_\.(?P<word>\w+),", "raw_."),
        Places(CPP, PUBLISHER_OF_CPP, r"^  +(?:PublisherOptions &\w+\(std::size_t \w+\) \{\s*)return set\((?P<word>\w+_),", ""),
        Places(CPP, r"^template <typename P> class Config .*?^\};", r"recorded_->(?P<word>\w+)", "recorded_->"),
        Places(CPP, PUBLISHER_OF_CPP, r"^    put\(raw\.(?P<word>\w+),", "raw."),
        *map(enum_of_cpp, ("BackpressureStrategy", "BackpressureAction", "DegradationAction", "AllocationStrategy", "WarningKind")),
        Statements(CPP, CONFIG_OF_CPP, r"(?:recorded_ = .*|return set\([^;]*);", "return *this;"),
        Places(CPP, PUBLISHER_OF_CPP, r"optional<std::size_t> \w+\(\) const \{ return (?P<word>\w+_);", ""),
        Statements(CPP, PUBLISHER_OF_CPP, r"return set\([^;]*;", "return *this;"),
        Statements(CPP, PUBLISHER_OF_CPP, r"^    +all\.\w+ = .*;"),
        Statements(CPP, r"^class SubscriberOptions .*?^\};", r"^    all\.\w+ = .*;"),
        Statements(CPP, PUBLISHER_OF_CPP, r"^    (?:put\(|raw\.\w+ = ).*;"),
        Statements(CPP, r"^class SubscriberOptions .*?^\};", r"^    (?:buffer_size_ =|degradation_ =|raw\.buffer_size =|if \(degradation_\)) .*;"),
    ),
    "rust": (
        Places("rust/src/domain.rs", r"\A.*\Z", r"self\.config\.(?P<word>\w+) = value;", "self.config."),
        Places("rust/src/domain.rs", r"\A.*\Z", r"config\.(?P<word>\w+) = wide\("),
        Places(FACTORY, PUBLISHER_OF_RUST, r"self\.options\.(?P<word>\w+) = value as u32;", "self.options."),
        Places(FACTORY, PUBLISHER_OF_RUST, r"^        self\.options\.(?P<word>\w+) = (?:value;|self\.asked|<\[T\]>)", "self.options."),
        Places("rust/src/static_config.rs", r"\A.*\Z", r"-> (?P<type>\w+) \{\s*self\.read\.(?P<word>\w+)\n", "self.read."),
        Places("rust/src/static_config.rs", r"\A.*\Z", r"number\(self\.read\.(?P<word>\w+)\)", "self.read."),
        Places("rust/src/shared.rs", r"iox2ps_domain_create_recorded\([^)]*\)", r"\b(?P<word>commands|bytes)\b"),
        enum_of_rust("BackpressureStrategy", "publisher"),
        enum_of_rust("BackpressureAction", "publisher"),
        enum_of_rust("DegradationAction", "port_factory"),
        enum_of_rust("AllocationStrategy", "port_factory"),
        Places("rust/src/warning.rs", r"    fn of\(.*?^    \}", r"sys::WARNING_(?P<word>\w+) =>", fields=FIELDS["WarningKind"], prefix="IOX2PS_WARNING_"),
        struct_of_sys("Config", struct="iox2ps_config_t"),
        struct_of_sys("PublisherOptions", struct="iox2ps_publisher_options_t"),
        struct_of_sys("SubscriberOptions", struct="iox2ps_subscriber_options_t"),
        Statements("rust/src/domain.rs", r"^impl<P: Payload \+ \?Sized> DomainBuilder.*\Z", r"^        self\.(?:config\.\w+|recorded) = .*;"),
        Statements("rust/src/domain.rs", r"\A.*\Z", r"\(0\.\.\)", "(0..0)", False),
        Statements("rust/src/domain.rs", r"\A.*\Z", r"self\.config\(\)\.service_id", "self.config().node_id", False),
        Statements(FACTORY, r"\A.*\Z", r"^        self\.(?:options\.\w+|preallocated) = .*;"),
    ),
    "python": (
        *map(enum_of_python, ("BackpressureStrategy", "BackpressureHandler", "DegradationAction", "AllocationStrategy", "WarningKind")),
        fields_of_python("config_fields", "CONFIG", "iox2ps_config_t"),
        fields_of_python("publisher_fields", "OF_PUBLISHER", "iox2ps_publisher_options_t"),
        Places(DOMAIN_OF_PYTHON, r"^    def __new__.*?return super", r"^            \w+=(?P<word>\w+),$"),
        Places(DOMAIN_OF_PYTHON, r"^    def publisher.*?return Publisher", r"^            \w+=(?P<word>\w+),$"),
        Places("python/src/domain.c", r"\A.*\Z", r"\(size_t\)(?P<word>commands|bytes)\b"),
        Places("python/src/questions.c", r"\A.*\Z", r"counted\(self, (?P<word>\w+)\)"),
        Places("python/src/questions.c", r"\A.*\Z", r"warning->(?P<word>publisher|subscriber)\b"),
        Statements(DOMAIN_OF_PYTHON, r"\A.*\Z", r"^            \w+=.*,\n"),
        Statements(DOMAIN_OF_PYTHON, r"\A.*\Z", r"buffer_size=buffer_size, |\bdegradation=degradation(?=\))"),
        Statements(DOMAIN_OF_PYTHON, r"\A.*\Z", r"\[\] if record is None else \[_recorded\(record\)\]", "[]"),
    ),
    "dds_cpp": (
        Places("dds/include/iox2_pubsub_dds.hpp", r"settings_of\(.*?return plain;", r"plain\.(?P<word>topic|type_name) ="),
        Places("dds/include/iox2_pubsub_dds.hpp", r"settings_of\(.*?return plain;", r"plain\.(?P<word>reliability|\w+_reader|only_known) ="),
        Places("dds/include/iox2_pubsub_dds.hpp", r"\A.*\Z", r"settings\.(?P<word>reader_limit|max_message_size)"),
        enum_of_cpp("Reliability", "dds/include/iox2_pubsub_dds.hpp"),
        Statements("dds/include/iox2_pubsub_dds.hpp", r"settings_of\(.*?return plain;", r"^    plain\.\w+ = .*;"),
        Statements("dds/include/iox2_pubsub_dds.hpp", r"\A.*\Z", r"settings\.dds_domain", "0"),
        Statements("dds/include/iox2_pubsub_dds.hpp", r"\A.*\Z", r"settings\.max_message_size", "std::size_t(0)"),
    ),
    "dds_rust": (
        Places("rust/src/dds.rs", r"\A.*\Z", r"plain\.(?P<word>topic|type_name) ="),
        Places("rust/src/dds.rs", r"^fn c_settings.*?^\}", r"plain\.(?P<word>reliability|\w+_reader|only_known) ="),
        struct_of_sys("Settings", "dds"),
        Places("rust/src/dds.rs", r"^impl Settings \{.*?^\}", r"^        self\.(?P<word>(?:reader_limit|max_message_size) = [^;]*);"),
        Statements("rust/src/dds.rs", r"^impl Settings \{.*?^\}", r"^        self\.\w+ = .*;"),
        Statements("rust/src/dds.rs", r"^fn c_settings.*?^\}", r"^    plain\.\w+ = [^;]*;"),
        Statements("rust/src/dds.rs", r"\A.*\Z", r"^        plain\.type_name = [^;]*;"),
        Statements("rust/src/dds.rs", r"\A.*\Z", r"^        plain\.topic = [^;]*;"),
        Statements("rust/src/dds.rs", r"\A.*\Z", r"settings\.dds_domain", "0"),
    ),
}
