// SPDX-License-Identifier: Apache-2.0 OR MIT
//! Says where the archive `libiox2_pubsub.a` for the target is: in the folder that `IOX2_PUBSUB_LIB_DIR` names, or else in `lib` beside
//! this crate's folder, in a release for the target beside this one, or where `tools/bindings` makes it. An archive for another target is
//! refused. Without one programs are checked and documented, but not linked. With the feature `plain` it is `libiox2_pubsub_plain.a`, for
//! every x86-64 processor, and with `processes` it is `libiox2_pubsub_processes.a`, which has the calls of the archive too.

use std::env;
use std::fs;
use std::path::{Path, PathBuf};
use std::process;
use std::slice;
use std::str;

/// What the linker calls the archive.
const LIBRARY: &str = if cfg!(feature = "processes") {
    "iox2_pubsub_processes"
} else if cfg!(feature = "plain") {
    "iox2_pubsub_plain"
} else {
    "iox2_pubsub"
};
/// The processors that releases are made for, by the number that ELF files have for each.
const PROCESSORS: [(u16, &str); 2] = [(62, "x86_64"), (183, "aarch64")];

fn archive_in(folder: &Path) -> PathBuf {
    folder.join(format!("lib{LIBRARY}.a"))
}

fn set(name: &str) -> String {
    env::var(name).unwrap_or_default()
}

fn folders() -> Vec<PathBuf> {
    let here = PathBuf::from(env::var_os("CARGO_MANIFEST_DIR").expect("cargo sets it"));
    let processor = set("CARGO_CFG_TARGET_ARCH");
    match env::var_os("IOX2_PUBSUB_LIB_DIR") {
        Some(folder) => vec![PathBuf::from(folder)],
        None => vec![
            here.join("../lib"),
            here.join(format!(
                "../../iox2_pubsub-{}-{processor}/lib",
                env!("CARGO_PKG_VERSION")
            )),
            here.join("../out/lib"),
            here.join(format!("../out-{processor}/lib")),
        ],
    }
}

/// The processor that an archive's first object is for, or nothing where the file has no such object.
fn processor_of(archive: &Path) -> Option<&'static str> {
    let bytes = fs::read(archive).ok()?;
    // Behind 8 bytes each member has a head of 60, which says its length at byte 48; each begins at an even byte.
    let mut at = 8;
    while let Some(head) = bytes.get(at..at + 60) {
        let len: usize = str::from_utf8(&head[48..58]).ok()?.trim().parse().ok()?;
        let object = bytes.get(at + 60..at + 60 + len)?;
        if object.starts_with(b"\x7fELF") {
            let number = u16::from_le_bytes([*object.get(18)?, *object.get(19)?]);
            let known = PROCESSORS.iter().find(|(machine, _)| *machine == number);
            return Some(known.map_or("another processor", |(_, name)| name));
        }
        at += 60 + len + len % 2;
    }
    None
}

/// Whether a program for the target can be linked to an archive for this processor.
fn fits(processor: Option<&str>) -> bool {
    let is_for = |name| {
        set("CARGO_CFG_TARGET_OS") == "linux"
            && set("CARGO_CFG_TARGET_ARCH") == name
            && set("CARGO_CFG_TARGET_POINTER_WIDTH") == "64"
            && set("CARGO_CFG_TARGET_ENDIAN") == "little"
    };
    processor.map_or(true, is_for)
}

fn refuse_plain() -> ! {
    eprintln!(
        "iox2_pubsub has the feature plain for x86_64 alone, not for {}: leave it out there, or name it under \
         [target.'cfg(target_arch = \"x86_64\")'.dependencies]",
        set("TARGET")
    );
    process::exit(1);
}

fn refuse_both() -> ! {
    eprintln!("iox2_pubsub has the features plain and processes, which name different libraries: leave one of them out");
    process::exit(1);
}

fn refuse(others: &[&PathBuf]) -> ! {
    eprintln!("iox2_pubsub has no archive for {}. There is", set("TARGET"));
    for folder in others {
        let archive = archive_in(folder);
        let processor = processor_of(&archive).unwrap_or("another processor");
        eprintln!("    {} for Linux on {processor}", archive.display());
    }
    let names: Vec<_> = PROCESSORS.iter().map(|(_, name)| *name).collect();
    eprintln!(
        "Releases are made for Linux on {}: unpack that for the target beside this one, or set IOX2_PUBSUB_LIB_DIR to the folder that \
         has its archive",
        names.join(" and ")
    );
    process::exit(1);
}

fn main() {
    println!("cargo:rerun-if-env-changed=IOX2_PUBSUB_STAND_IN");
    // Miri can't call the archive; tests ask for what stands in.
    if env::var_os("CARGO_CFG_MIRI").is_some() || env::var_os("IOX2_PUBSUB_STAND_IN").is_some() {
        println!("cargo:rustc-cfg=iox2ps_stand_in");
        return;
    }
    println!("cargo:rerun-if-env-changed=IOX2_PUBSUB_LIB_DIR");
    if cfg!(feature = "plain") && cfg!(feature = "processes") {
        refuse_both();
    }
    if cfg!(feature = "plain") && set("CARGO_CFG_TARGET_ARCH") != "x86_64" {
        refuse_plain();
    }
    let folders = folders();
    let (fitting, others): (Vec<_>, Vec<_>) = folders
        .iter()
        .filter(|folder| archive_in(folder).exists())
        .partition(|folder| fits(processor_of(&archive_in(folder))));
    if fitting.is_empty() && !others.is_empty() {
        refuse(&others);
    }
    let found = fitting.first().copied();
    // Cargo builds anew each time where a file isn't there: right while there is none, and of no use afterwards.
    for folder in found.map_or(&folders[..], slice::from_ref) {
        println!("cargo:rerun-if-changed={}", archive_in(folder).display());
    }
    match found {
        Some(folder) => {
            println!("cargo:rustc-link-search=native={}", folder.display());
            println!("cargo:libdir={}", folder.display());
        }
        None => println!(
            "cargo:warning=lib{LIBRARY}.a isn't in {folders:?}, so that nothing can be linked: run `tools/bindings build`, \
             or set IOX2_PUBSUB_LIB_DIR to the folder that has it"
        ),
    }
    let with_dds = env::var_os("CARGO_FEATURE_DDS").is_some();
    if with_dds {
        println!("cargo:rustc-link-lib=static=iox2_pubsub_dds");
    }
    println!("cargo:rustc-link-lib=static={LIBRARY}");
    if with_dds {
        println!("cargo:rustc-link-lib=dylib=ddsc");
        println!("cargo:rustc-link-lib=dylib=stdc++");
    }
}
