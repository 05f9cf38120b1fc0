// SPDX-License-Identifier: Apache-2.0 OR MIT
//! Puts lock_order.c between the program `random` and the archive.

use std::env;
use std::fs::read_to_string;
use std::path::Path;
use std::process::Command;

fn main() {
    println!("cargo:rerun-if-changed=lock_order.c");
    println!("cargo:rerun-if-changed=wrapped.txt");
    println!("cargo:rerun-if-env-changed=LOCK_ORDER_CFLAGS");
    println!("cargo:rustc-check-cfg=cfg(pthread_lock)");
    println!("cargo:rustc-check-cfg=cfg(no_pool)");
    println!("cargo:rustc-check-cfg=cfg(crossbeam)");
    let object = Path::new(&env::var("OUT_DIR").unwrap()).join("lock_order.o");
    let flags = env::var("LOCK_ORDER_CFLAGS").unwrap_or_default();
    let compiler = env::var("CC").unwrap_or_else(|_| "cc".into());
    let status = Command::new(compiler)
        .args(["-O1", "-g", "-c", "lock_order.c", "-I", "../include", "-o"])
        .arg(&object)
        .args(flags.split_whitespace())
        .status()
        .unwrap();
    assert!(status.success());
    println!("cargo:rustc-link-arg-bin=random={}", object.display());
    for name in read_to_string("wrapped.txt").unwrap().lines() {
        println!("cargo:rustc-link-arg-bin=random=-Wl,--wrap={name}");
    }
}
