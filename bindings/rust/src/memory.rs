// SPDX-License-Identifier: Apache-2.0 OR MIT
//! Where the archive takes its memory.

use crate::errors::text;
use crate::sys;
use std::alloc::{GlobalAlloc, Layout};
use std::error::Error;
use std::ffi::c_void;
use std::fmt;
use std::mem::{align_of, size_of};
use std::ptr;

/// Why the allocator stays as it is. This library's own.
#[non_exhaustive]
#[derive(Clone, Copy, Debug, PartialEq, Eq, Hash)]
pub enum SetAllocatorError {
    /// The process has a domain, whose memory is of the allocator that is to change.
    HasDomain,
}

impl SetAllocatorError {
    /// The code of the C header.
    #[must_use]
    pub fn code(self) -> u32 {
        sys::HAS_DOMAIN
    }
}

impl fmt::Display for SetAllocatorError {
    fn fmt(&self, f: &mut fmt::Formatter<'_>) -> fmt::Result {
        f.write_str(text(self.code()))
    }
}

impl Error for SetAllocatorError {}

/// Lets the library take its memory of this allocator from now on: that of domains, ports and messages. What this crate keeps
/// beside it, a few small blocks for each domain and port, is of the program's global allocator, as all of Rust is: a program
/// that makes one static both has all memory from there.
///
/// ```
/// use std::alloc::System;
///
/// #[global_allocator]
/// static ALLOCATOR: System = System; // or one over a static region
///
/// # fn main() -> Result<(), iox2_pubsub::SetAllocatorError> {
/// iox2_pubsub::set_allocator(&ALLOCATOR)?;
/// # Ok(())
/// # }
/// ```
///
/// # Errors
///
/// [`SetAllocatorError::HasDomain`] while the process has a domain, or another thread makes one, and then nothing changes.
pub fn set_allocator<A: GlobalAlloc + Sync>(
    allocator: &'static A,
) -> Result<(), SetAllocatorError> {
    let functions = sys::Allocator {
        allocate: allocate::<A>,
        reallocate: reallocate::<A>,
        deallocate: deallocate::<A>,
        context: (allocator as *const A as *mut A).cast(),
    };
    set(Some(&functions))
}

/// Lets the library take its memory of the C library again, as it does at first.
///
/// # Errors
///
/// As [`set_allocator`].
pub fn reset_allocator() -> Result<(), SetAllocatorError> {
    set(None)
}

fn set(functions: Option<&sys::Allocator>) -> Result<(), SetAllocatorError> {
    let functions = functions.map_or(ptr::null(), |functions| functions as *const _);
    // SAFETY: the functions are those of an allocator that lives for good, and are called by as many threads as use domains.
    match unsafe { sys::iox2ps_set_allocator(functions) } {
        sys::OK => Ok(()),
        _ => Err(SetAllocatorError::HasDomain),
    }
}

// What stands right before each block, since an allocator is told the layout of what it takes back.
const HEAD: usize = size_of::<Layout>();

// The layout of a block with its head, and how far behind its start the block begins.
fn with_head(size: usize, alignment: usize) -> Option<(Layout, usize)> {
    let before = alignment.max(HEAD).max(align_of::<Layout>());
    let layout = Layout::from_size_align(size.checked_add(before)?, before).ok()?;
    Some((layout, before))
}

unsafe extern "C" fn allocate<A: GlobalAlloc>(
    context: *mut c_void,
    size: usize,
    alignment: usize,
) -> *mut c_void {
    let (layout, before) = match with_head(size, alignment) {
        Some(found) => found,
        None => return ptr::null_mut(),
    };
    let start = (*context.cast::<A>()).alloc(layout);
    if start.is_null() {
        return ptr::null_mut();
    }
    let block = start.add(before);
    block.cast::<Layout>().sub(1).write(layout);
    block.cast()
}

unsafe extern "C" fn reallocate<A: GlobalAlloc>(
    context: *mut c_void,
    block: *mut c_void,
    kept: usize,
    size: usize,
    alignment: usize,
) -> *mut c_void {
    let other = allocate::<A>(context, size, alignment);
    if !other.is_null() {
        ptr::copy_nonoverlapping(block.cast::<u8>(), other.cast::<u8>(), kept.min(size));
        deallocate::<A>(context, block);
    }
    other
}

unsafe extern "C" fn deallocate<A: GlobalAlloc>(context: *mut c_void, block: *mut c_void) {
    let layout = block.cast::<Layout>().sub(1).read();
    let start = block.cast::<u8>().sub(layout.align());
    (*context.cast::<A>()).dealloc(start, layout);
}
