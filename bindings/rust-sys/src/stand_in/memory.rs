// SPDX-License-Identifier: Apache-2.0 OR MIT
//! Memory: always that of Rust's own allocator.

use crate::*;
use std::alloc::{alloc, dealloc, Layout};
use std::ptr::{copy_nonoverlapping, null_mut};

#[no_mangle]
unsafe extern "C" fn iox2ps_set_allocator(_: *const Allocator) -> u32 {
    OK
}

#[no_mangle]
unsafe extern "C" fn iox2ps_allocate(size: usize, alignment: usize) -> *mut c_void {
    iox2ps_memory_allocate(size, alignment)
}

#[no_mangle]
unsafe extern "C" fn iox2ps_deallocate(block: *mut c_void) {
    if !block.is_null() {
        iox2ps_memory_deallocate(block);
    }
}

// The layout stands right before each block.
#[no_mangle]
unsafe extern "C" fn iox2ps_memory_allocate(size: usize, alignment: usize) -> *mut c_void {
    let before = alignment.max(size_of::<Layout>());
    let layout = Layout::from_size_align(size + before, before).unwrap();
    let start = alloc(layout);
    if start.is_null() {
        return null_mut();
    }
    start.add(before).cast::<Layout>().sub(1).write(layout);
    start.add(before).cast()
}

#[no_mangle]
unsafe extern "C" fn iox2ps_memory_reallocate(
    block: *mut c_void,
    kept: usize,
    size: usize,
    alignment: usize,
) -> *mut c_void {
    let other = iox2ps_memory_allocate(size, alignment);
    if !other.is_null() {
        copy_nonoverlapping(block.cast::<u8>(), other.cast::<u8>(), kept.min(size));
        iox2ps_memory_deallocate(block);
    }
    other
}

#[no_mangle]
unsafe extern "C" fn iox2ps_memory_deallocate(block: *mut c_void) {
    let layout = block.cast::<Layout>().sub(1).read();
    dealloc(block.cast::<u8>().sub(layout.align()), layout);
}
