// SPDX-License-Identifier: Apache-2.0 OR MIT
//! The declarations of the C header `iox2_pubsub_shared.h`, which says what each is.
#![allow(missing_docs)]

use crate::Domain;
use std::ffi::c_void;

pub use crate::{BRINGS_FREE, BRINGS_LOAN, BRINGS_MESSAGE, BRINGS_ROOM};

pub const AFTER_FORK: u32 = 0xffff_fffd;
pub const OTHER_VERSION: u32 = 0xffff_ffff;

pub const BRINGS_SUBSCRIBER: u32 = 16;

pub type Make = unsafe extern "C" fn(domain: *mut Domain, what: *mut c_void) -> u32;

#[repr(C)]
#[derive(Clone, Copy, Debug)]
pub struct Joined {
    pub struct_size: usize,
    pub wake: unsafe extern "C" fn(joined: *mut Joined, brings: u32),
    pub connect: unsafe extern "C" fn(joined: *mut Joined, domain: *mut Domain),
    pub waits_are_stopped: u32,
    pub reserved: u32,
    pub before: *mut Joined,
    pub after: *mut Joined,
}

#[repr(C)]
#[derive(Clone, Copy, Debug)]
pub struct SharedDomain {
    pub struct_size: usize,
    pub version: u32,
    pub is_slice: u32,
    pub element_size: usize,
    pub element_alignment: usize,
    pub call: unsafe extern "C" fn(
        shared: *const SharedDomain,
        brings: u32,
        make: Make,
        what: *mut c_void,
    ) -> u32,
    pub join: unsafe extern "C" fn(shared: *const SharedDomain, joined: *mut Joined) -> u32,
    pub leave: unsafe extern "C" fn(shared: *const SharedDomain, joined: *mut Joined),
    pub stop_waits: unsafe extern "C" fn(shared: *const SharedDomain, stopped: u32),
    pub keep: unsafe extern "C" fn(shared: *const SharedDomain),
    pub release: unsafe extern "C" fn(shared: *const SharedDomain),
}
