// SPDX-License-Identifier: Apache-2.0 OR MIT
//! Tells the crate whether its compiler has attributes that name the way out of an error: Rust 1.78 and later.

use std::env;
use std::process::Command;

// 95 of 1.95.0.
fn minor_version() -> Option<u32> {
    let compiler = env::var_os("RUSTC")?;
    let said = Command::new(compiler).arg("--version").output().ok()?;
    let said = String::from_utf8(said.stdout).ok()?;
    said.split('.').nth(1)?.parse().ok()
}

fn main() {
    println!("cargo:rerun-if-changed=build.rs");
    if minor_version().map_or(false, |minor| minor >= 78) {
        println!("cargo:rustc-cfg=has_diagnostics");
    }
}
