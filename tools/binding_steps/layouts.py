# SPDX-License-Identifier: Apache-2.0 OR MIT
"""How structs lie in memory: a table of sizes and offsets, made of the headers, which each compiler and each target is held to.

The archive was compiled by one compiler, and programs by others. bindings/c/layout.c says what all have to find, and
bindings/rust-sys/tests/layout.rs the same of the declarations in Rust, with what iox2ps_brought_by says of each code, which Rust has a
function of its own for. `tools/bindings layouts` writes both anew after a change of the header.
"""
import re

from .places import BINDINGS, HEADER
from .programs import WARNINGS
from .steps import Failed, said
from .targets import X86_64

IN_C, IN_RUST = BINDINGS / "c/layout.c", BINDINGS / "rust-sys/tests/layout.rs"
STRUCT = re.compile(r"^typedef struct (iox2ps_\w+) \{(.*?)^\} \1;", re.M | re.S)
FIELD = re.compile(r"(?:[\w*]+?\s*\*?(\w+)(?:\[[^\]]*\])?|\(\*(\w+)\)\([^;]*\))\s*;")
SHARED = HEADER.with_name("iox2_pubsub_shared.h")


def structs():
    """The structs of the headers, and the fields of each."""
    text = re.sub(r"/\*.*?\*/", "", HEADER.read_text() + SHARED.read_text(), flags=re.S)
    return {name: ["".join(names) for names in FIELD.findall(body)] for name, body in STRUCT.findall(text)}


def printed(work, lines):
    """The numbers in each line that a program prints, as the compiler of the archive's first target makes it."""
    source, program = work / "numbers.c", work / "numbers"
    source.write_text(f'#include "{SHARED}"\n#include <stdio.h>\nint main(void) {{\n' + "\n".join(lines) + "\n}\n")
    said(X86_64.compilers[0], "-std=c11", source, "-o", program)
    return [list(map(int, line.split())) for line in said(program).splitlines()]


def numbers(work):
    """The size and the alignment of each struct, and the offset of each field."""
    lines = []
    for name, fields in structs().items():
        lines.append(f'printf("%zu %zu", sizeof({name}), _Alignof({name}));')
        lines += [f'printf(" %zu", offsetof({name}, {field}));' for field in fields]
        lines.append('printf("\\n");')
    return dict(zip(structs(), printed(work, lines), strict=True))


def brought(work):
    """Each code below 256 by which a call has brought something of all that there is, and what."""
    line = 'for (uint32_t code = 0; code < 256; code++) printf("%u %u\\n", (unsigned)code, (unsigned)iox2ps_brought_by(15, code));'
    return [row for row in printed(work, [line]) if row[1]]


C_HEAD = """\
// SPDX-License-Identifier: Apache-2.0 OR MIT
/* How the archive has the structs of the headers in memory, on each of its processors. `tools/bindings layouts` makes this file. */
#include "iox2_pubsub_shared.h"

#ifdef __cplusplus
#define HAS(what, number) static_assert((what) == (number), #what)
#define ALIGNMENT(type) alignof(type)
#else
#define HAS(what, number) _Static_assert((what) == (number), #what)
#define ALIGNMENT(type) _Alignof(type)
#endif

HAS(sizeof(void *), 8);
HAS(sizeof(size_t), 8);
"""

RUST_HEAD = """\
// SPDX-License-Identifier: Apache-2.0 OR MIT
//! How the archive has the structs of the headers in memory, on each of its processors. `tools/bindings layouts` makes this file.
use std::mem::{align_of, size_of, MaybeUninit};
use std::ptr::addr_of;

use iox2_pubsub_sys::shared::{Joined, SharedDomain};
use iox2_pubsub_sys::*;

/// Holds a struct to its size and alignment, when it is compiled, and its fields to their offsets.
macro_rules! lies_so {
    ($test:ident, $type:ident, $size:literal, $alignment:literal, $($field:ident $offset:literal)*) => {
        const _: () = assert!(size_of::<$type>() == $size && align_of::<$type>() == $alignment);

        #[test]
        fn $test() {
            let value = MaybeUninit::<$type>::uninit();
            let start = value.as_ptr();
            // SAFETY: an address inside of the value is taken, and nothing is read.
            $(assert_eq!(unsafe { addr_of!((*start).$field) } as usize - start as usize, $offset, stringify!($field));)*
        }
    };
}

"""


def text_of_c(rows):
    """The file in C."""
    lines = [C_HEAD]
    for name, (size, alignment, *offsets) in rows.items():
        lines.append(f"\nHAS(sizeof({name}), {size});\nHAS(ALIGNMENT({name}), {alignment});\n")
        lines += [f"HAS(offsetof({name}, {field}), {offset});\n" for field, offset in zip(structs()[name], offsets, strict=True)]
    return "".join(lines)


RUST_END = """\

#[test]
fn codes_say_what_calls_have_brought() {{
    let all = [
{pairs}
    ];
    for code in 0..256 {{
        let found = all.iter().find(|pair| pair.0 == code);
        let brings = found.map_or(0, |pair| pair.1);
        assert_eq!(iox2ps_brought_by(15, code), brings, "{{code}}");
        assert_eq!(iox2ps_brought_by(0, code), 0, "{{code}}");
    }}
}}
"""


def text_of_rust(rows, codes):
    """The file in Rust, whose structs have no prefix, and whose fields no line at their end."""
    lines = [RUST_HEAD]
    for name, (size, alignment, *offsets) in rows.items():
        words = name.removeprefix("iox2ps_").removesuffix("_t")
        fields = "\n".join(f"    {field.rstrip('_')} {offset}" for field, offset in zip(structs()[name], offsets, strict=True))
        type_ = "".join(word.capitalize() for word in words.split("_"))
        lines.append(f"lies_so! {{\n    {words}, {type_}, {size}, {alignment},\n{fields}\n}}\n")
    lines.append(RUST_END.format(pairs="\n".join(f"        ({code}, {brings})," for code, brings in codes)))
    return "".join(lines)


def write(work):
    """Writes both files anew."""
    rows = numbers(work)
    IN_C.write_text(text_of_c(rows))
    IN_RUST.parent.mkdir(exist_ok=True)
    IN_RUST.write_text(text_of_rust(rows, brought(work)))
    return f"{len(rows)} structs"


def is_of_the_header(work):
    """Both files are what the header makes."""
    rows = numbers(work)
    for path, text in ((IN_C, text_of_c(rows)), (IN_RUST, text_of_rust(rows, brought(work)))):
        if path.read_text() != text:
            raise Failed(f"{path.name} isn't what the header says: run tools/bindings layouts")
    return f"{len(rows)} structs, {sum(map(len, structs().values()))} fields"


def holds(compilers, include):
    """The compilers of C and C++ lay out structs so."""
    for compiler, language, standard in ((compilers[0], "c", "c11"), (compilers[1], "c++", "c++17")):
        words = (compiler, "-x", language, f"-std={standard}", *WARNINGS, "-Wno-pedantic", "-I", include, "-fsyntax-only")
        said(*words, IN_C)
    return "in C and C++"
