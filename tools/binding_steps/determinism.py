# SPDX-License-Identifier: Apache-2.0 OR MIT
"""What is proved in an archive, looked at for anything but its arguments that could decide what a call does."""
import re

from .folder import ARCHIVE_CRATE
from .steps import Failed, said

# What it may call: none says the time, or anything else that isn't the same in each process. The last two are of a program that ends by a
# fault that proofs rule out.
CALLS = {"memcpy", "memmove", "memset", "rattle_alloc", "rattle_dealloc", "rattle_realloc", "write", "_exit"}
# Instructions by which a program asks the processor or the system: the time, random numbers, where it runs, its thread's memory.
ASKS = {
    "x86-64": r"\b(rdtscp?|rdrand|rdseed|rdpid|rdpmc|cpuid|xgetbv|sgdt|sidt|str|sldt|smsw|syscall|sysenter|int|in[bwl]|out[bwl]|rd[fg]sbase)\b|%[fg]s:",
    "aarch64": r"\b(mrs|msr|svc|hvc|smc|wfe|wfi|rndr|rndrrs)\b",
}
# Sections that hold variables. Those of .data.rel.ro have addresses, which are written once, where a program is loaded.
VARIABLES = re.compile(r"^\s*\[ *\d+\] (\.(?:data(?!\.rel\.ro)|bss|tdata|tbss|init_array|fini_array)\S*|COMMON)\s+\S+\s+[0-9a-f]+\s+[0-9a-f]+\s+([0-9a-f]+)", re.M)


def looked_at(file, tools=""):
    """Refuses an object that could decide by anything else, by the binutils with this prefix."""
    others = set(re.findall(r"^ +U (\S+)$", said(f"{tools}nm", "-u", file), re.M)) - CALLS
    if others:
        raise Failed(f"it calls {', '.join(sorted(others))}")
    variables = [name for name, size in VARIABLES.findall(said(f"{tools}readelf", "-SW", file)) if int(size, 16)]
    if variables:
        raise Failed(f"it has variables: {', '.join(variables)}")
    code = said(f"{tools}objdump", "-d", "--no-show-raw-insn", file, both=False)
    lines = re.findall(r"^ +[0-9a-f]+:\t(.*)$", code, re.M)
    form = re.search(r"file format \S*?(x86-64|aarch64)", code)[1]
    asks = [line for line in lines if re.search(ASKS[form], line.split("<")[0].split("#")[0])]
    if asks:
        raise Failed(f"it asks the processor: {'; '.join(asks[:3])}")
    if len(lines) < 1000:
        raise Failed(f"it has {len(lines)} instructions")
    return f"{len(lines)} instructions, and no variable"


# Objects that have to be refused, and of which.
WRONG = {
    "calls": "int rand(void); int one(void) { return rand(); }",
    "variables": "static int count; int one(void) { return ++count; }",
    "processor": '#ifdef __x86_64__\nint one(void) { return (int)__builtin_ia32_rdtsc(); }\n#else\nint one(void) { long n; __asm__ volatile("mrs %0, cntvct_el0" : "=r"(n)); return (int)n; }\n#endif',
}


def refuses(work, compiler, tools):
    """That each of these is refused."""
    for why, text in WRONG.items():
        source, made = work / f"{why}.c", work / f"{why}.o"
        source.write_text(f"{text}\n")
        said(compiler, "-O1", "-c", source, "-o", made)
        try:
            looked_at(made, tools)
        except Failed as failure:
            if why not in str(failure):
                raise
            continue
        raise Failed(f"what has {why} isn't refused")


def run(archive, target, work):
    """Looks at what is proved in an archive, and at objects that it has to refuse."""
    tools = target.compilers[0].removesuffix("gcc")
    work = work / f"looked_at_{target.name}"
    work.mkdir()
    said(f"{tools}ar", "x", archive, f"{ARCHIVE_CRATE}.o", cwd=work)
    refuses(work, target.compilers[0], tools)
    return looked_at(work / f"{ARCHIVE_CRATE}.o", tools)
