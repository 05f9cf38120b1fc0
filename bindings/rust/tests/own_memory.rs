// SPDX-License-Identifier: Apache-2.0 OR MIT
//! A program whose allocator is one over a static region, for Rust and for the library alike: nothing is asked of the C library's.
//! Not where the C library is linked statically: its own functions can't be replaced there.
#![cfg(not(target_feature = "crt-static"))]

use iox2_pubsub::{reset_allocator, set_allocator, AllocationStrategy, Domain, SetAllocatorError};
use std::alloc::{GlobalAlloc, Layout};
use std::cell::{Cell, UnsafeCell};
use std::mem::size_of;
use std::os::raw::c_void;
use std::sync::atomic::{AtomicUsize, Ordering};

const BYTES: usize = 1 << 26;

#[repr(align(4096))]
struct Bytes(UnsafeCell<[u8; BYTES]>);

/// Memory of a region, of which nothing is used twice, and the numbers of what was asked for and is out.
struct Region {
    bytes: Bytes,
    used: AtomicUsize,
    asked: AtomicUsize,
    out: AtomicUsize,
}

// SAFETY: each byte is one caller's.
unsafe impl Sync for Region {}

impl Region {
    const fn new() -> Region {
        Region {
            bytes: Bytes(UnsafeCell::new([0; BYTES])),
            used: AtomicUsize::new(0),
            asked: AtomicUsize::new(0),
            out: AtomicUsize::new(0),
        }
    }

    fn has<T>(&self, at: *const T) -> bool {
        let start = self.bytes.0.get() as usize;
        (start..start + BYTES - size_of::<T>()).contains(&(at as usize))
    }
}

// SAFETY: no two blocks overlap, and each is aligned, since the region is.
unsafe impl GlobalAlloc for Region {
    unsafe fn alloc(&self, layout: Layout) -> *mut u8 {
        let room = layout.size() + layout.align();
        let used = self.used.fetch_add(room, Ordering::Relaxed);
        if layout.align() > 4096 || used + room > BYTES {
            return std::ptr::null_mut();
        }
        self.asked.fetch_add(1, Ordering::Relaxed);
        self.out.fetch_add(layout.size(), Ordering::Relaxed);
        let at = (used + layout.align() - 1) / layout.align() * layout.align();
        self.bytes.0.get().cast::<u8>().add(at)
    }

    unsafe fn dealloc(&self, _: *mut u8, layout: Layout) {
        self.out.fetch_sub(layout.size(), Ordering::Relaxed);
    }
}

#[global_allocator]
static RUST: Region = Region::new();
static LIBRARY: Region = Region::new();

// How often this thread asked the C library, whose functions these take the place of.
thread_local! {
    static OF_C: Cell<usize> = const { Cell::new(0) };
}

fn count() {
    let _ = OF_C.try_with(|asked| asked.set(asked.get() + 1));
}

extern "C" {
    fn __libc_malloc(size: usize) -> *mut c_void;
    fn __libc_realloc(block: *mut c_void, size: usize) -> *mut c_void;
}

#[no_mangle]
unsafe extern "C" fn malloc(size: usize) -> *mut c_void {
    count();
    __libc_malloc(size)
}

#[no_mangle]
unsafe extern "C" fn realloc(block: *mut c_void, size: usize) -> *mut c_void {
    count();
    __libc_realloc(block, size)
}

fn live() {
    let domain = Domain::<[u64]>::slice_builder(7)
        .max_slice_len(4)
        .history_size(1)
        .create()
        .unwrap();
    assert_eq!(reset_allocator(), Err(SetAllocatorError::HasDomain));
    let publisher = domain
        .publisher_builder()
        .allocation_strategy(AllocationStrategy::PowerOfTwo)
        .create()
        .unwrap();
    let subscriber = domain.subscriber().unwrap();
    for len in [4, 1000] {
        let loan = publisher.loan_slice(len).unwrap();
        assert!(LIBRARY.has(&loan[len - 1]));
        assert_eq!(loan.send().unwrap().delivered(), Some(1));
        let sample = subscriber.receive().unwrap().unwrap();
        assert!(sample.len() == len && LIBRARY.has(&sample[0]));
    }
    assert!(LIBRARY.asked.load(Ordering::Relaxed) > 20);
    assert_eq!(OF_C.with(Cell::get), 0);
}

// One test: the allocator is the process's.
#[test]
fn all_memory_is_of_a_region() {
    set_allocator(&LIBRARY).unwrap();
    OF_C.with(|asked| asked.set(0));
    live();
    assert_eq!(LIBRARY.out.load(Ordering::Relaxed), 0);
    reset_allocator().unwrap();
    let before = LIBRARY.asked.load(Ordering::Relaxed);
    drop(Domain::<u64>::builder(7).create().unwrap());
    assert_eq!(LIBRARY.asked.load(Ordering::Relaxed), before);
    assert!(OF_C.with(Cell::get) > 0);
}

#[test]
fn the_error_has_a_code_and_a_text() {
    let error = SetAllocatorError::HasDomain;
    assert_eq!(error.code(), 5);
    assert_eq!(error.to_string(), "the domain exists already");
}
