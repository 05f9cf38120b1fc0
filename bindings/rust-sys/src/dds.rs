// SPDX-License-Identifier: Apache-2.0 OR MIT
//! The declarations of the C header `iox2_pubsub_dds.h`, which says what each is.
#![allow(missing_docs)]

use crate::{Domain, Wide};
use std::ffi::c_void;
use std::os::raw::c_char;

pub const REFUSED: u32 = 200;
pub const TIMEOUT: u32 = 201;
pub const HAS_THREADS: u32 = 202;
pub const UNKNOWN: u32 = 203;
pub const NO_PEER: u32 = 204;
pub const AFTER_FORK: u32 = 205;

pub const RELIABLE: u32 = 0;
pub const BEST_EFFORT: u32 = 1;

pub const MESSAGE: u32 = 1;
pub const ROOM: u32 = 2;
pub const FREE: u32 = 4;
pub const LOAN: u32 = 8;

#[repr(C)]
#[derive(Debug)]
pub struct Gateways {
    _private: [u8; 0],
}

#[repr(C)]
#[derive(Debug)]
pub struct Gateway {
    _private: [u8; 0],
}

pub type Make = unsafe extern "C" fn(*mut Domain, *mut c_void) -> u32;
pub type Call = unsafe extern "C" fn(*mut c_void, *mut Domain, u32, Make, *mut c_void) -> u32;
pub type Wait =
    unsafe extern "C" fn(*mut c_void, *mut Domain, u32, Wide, u32, u64, Make, *mut c_void) -> u32;

#[repr(C)]
#[derive(Clone, Copy, Debug)]
pub struct Lock {
    pub call: Option<Call>,
    pub wait: Option<Wait>,
    pub context: *mut c_void,
}

#[repr(C)]
#[derive(Clone, Copy, Debug)]
pub struct Settings {
    pub topic: *const c_char,
    pub type_name: *const c_char,
    pub element_size: usize,
    pub is_slice: u32,
    pub reliability: u32,
    pub volatile_reader: u32,
    pub only_known: u32,
    pub reader_limit: usize,
    pub lock: Lock,
}

#[non_exhaustive]
#[repr(C)]
#[derive(Clone, Copy, Debug, Default, PartialEq, Eq)]
pub struct Forwarded {
    pub sent: usize,
    pub received: usize,
    pub dropped: usize,
    pub held: usize,
    pub blocked: u32,
    pub reserved: u32,
}

#[non_exhaustive]
#[repr(C)]
#[derive(Clone, Copy, Debug, Default, PartialEq, Eq)]
pub struct Counts {
    pub sent: u64,
    pub received: u64,
    pub own: u64,
    pub too_long: u64,
    pub other_size: u64,
    pub other_type: u64,
    pub malformed: u64,
    pub no_loan: u64,
    pub not_sent: u64,
    pub missed: u64,
    pub take_failed: u64,
    pub write_failed: u64,
    pub receive_failed: u64,
    pub last_dds_code: i64,
}

#[repr(C)]
#[derive(Clone, Copy, Debug)]
pub struct Peers {
    pub readers: u32,
    pub writers: u32,
    pub incompatible_readers: u32,
    pub incompatible_writers: u32,
    pub lost: u32,
    pub other_types: u32,
    pub other_type: [c_char; 128],
}

#[repr(C)]
#[derive(Clone, Copy, Debug, Default, PartialEq, Eq)]
pub struct Origin {
    pub node: Wide,
    pub publisher: Wide,
}

extern "C" {
    pub fn iox2ps_dds_gateways_open(
        dds_domain: u32,
        max_message_size: usize,
        gateways: *mut *mut Gateways,
        why: *mut c_char,
        room: usize,
    ) -> u32;
    pub fn iox2ps_dds_gateways_close(gateways: *mut Gateways);
    pub fn iox2ps_dds_forward(gateways: *mut Gateways, most: usize, forwarded: *mut Forwarded);
    pub fn iox2ps_dds_wait(
        gateways: *mut Gateways,
        nanoseconds: u64,
        most: usize,
        forwarded: *mut Forwarded,
    );
    pub fn iox2ps_dds_wake(gateways: *mut Gateways);
    pub fn iox2ps_dds_flush(gateways: *mut Gateways, nanoseconds: u64) -> u32;
    pub fn iox2ps_dds_settings_defaults(
        settings: *mut Settings,
        element_size: usize,
        is_slice: u32,
    );
    pub fn iox2ps_dds_gateway_open(
        gateways: *mut Gateways,
        domain: *mut Domain,
        settings: *const Settings,
        gateway: *mut *mut Gateway,
        why: *mut c_char,
        room: usize,
    ) -> u32;
    pub fn iox2ps_dds_gateway_close(gateway: *mut Gateway);
    pub fn iox2ps_dds_counts(gateway: *const Gateway, counts: *mut Counts);
    pub fn iox2ps_dds_peers(gateway: *mut Gateway, peers: *mut Peers);
    pub fn iox2ps_dds_publisher(gateway: *const Gateway) -> Wide;
    pub fn iox2ps_dds_origin(gateway: *mut Gateway, number: Wide, origin: *mut Origin) -> u32;
    pub fn iox2ps_dds_start(gateway: *mut Gateway) -> u32;
    pub fn iox2ps_dds_stop(gateway: *mut Gateway);
}
