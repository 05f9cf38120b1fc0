// SPDX-License-Identifier: Apache-2.0 OR MIT
//! A lock of the C library, which helgrind and the thread sanitizer know; they don't know the standard library's.

use iox2_pubsub::DomainLock;
use std::cell::UnsafeCell;
use std::ffi::c_void;
use std::ptr::null;

extern "C" {
    fn pthread_mutex_init(mutex: *mut c_void, attributes: *const c_void) -> i32;
    fn pthread_mutex_destroy(mutex: *mut c_void) -> i32;
    fn pthread_mutex_lock(mutex: *mut c_void) -> i32;
    fn pthread_mutex_unlock(mutex: *mut c_void) -> i32;
}

// More than the mutex has, on the heap, where it stays.
pub struct PthreadLock(Box<UnsafeCell<[u64; 16]>>);

// SAFETY: a mutex is for many threads.
unsafe impl Send for PthreadLock {}
unsafe impl Sync for PthreadLock {}

struct Unlock<'l>(&'l PthreadLock);

impl Drop for Unlock<'_> {
    fn drop(&mut self) {
        // SAFETY: it was taken.
        unsafe { pthread_mutex_unlock(self.0 .0.get().cast()) };
    }
}

// SAFETY: it is a mutex.
unsafe impl DomainLock for PthreadLock {
    // Helgrind doesn't know atomics, which are looked at without the lock.
    const LOOKS: u32 = 0;

    fn new() -> Self {
        let lock = PthreadLock(Box::new(UnsafeCell::new([0; 16])));
        // SAFETY: there is room enough.
        unsafe { pthread_mutex_init(lock.0.get().cast(), null()) };
        lock
    }

    fn hold<R>(&self, run: impl FnOnce() -> R) -> R {
        // SAFETY: it was made.
        unsafe { pthread_mutex_lock(self.0.get().cast()) };
        let _unlock = Unlock(self);
        run()
    }
}

impl Drop for PthreadLock {
    fn drop(&mut self) {
        // SAFETY: nobody has it.
        unsafe { pthread_mutex_destroy(self.0.get().cast()) };
    }
}
