// SPDX-License-Identifier: Apache-2.0 OR MIT
//! The declarations of the C header `iox2_pubsub.h`, with bytes where it has `void` and `char`. The header says what each is,
//! what each call returns, and what its caller has to do.
#![allow(missing_docs)]
#![deny(missing_debug_implementations)]
// The build script asks for what stands in; older compilers have no such lint.
#![allow(unknown_lints, unexpected_cfgs)]

use std::ffi::c_void;
use std::mem::size_of;

#[cfg(feature = "dds")]
pub mod dds;
#[cfg(feature = "processes")]
pub mod processes;
pub mod shared;
#[cfg(iox2ps_stand_in)]
mod stand_in;

/// This crate's version as one number, with which `iox2ps_version` is compared: that of the archive.
pub const VERSION: u32 = part(env!("CARGO_PKG_VERSION_MAJOR")) << 16
    | part(env!("CARGO_PKG_VERSION_MINOR")) << 8
    | part(env!("CARGO_PKG_VERSION_PATCH"));

const fn part(digits: &str) -> u32 {
    let (digits, mut at, mut number) = (digits.as_bytes(), 0, 0);
    while at < digits.len() {
        number = 10 * number + (digits[at] - b'0') as u32;
        at += 1;
    }
    number
}

/// The greatest alignment of a payload.
pub const PAYLOAD_ALIGNMENT: usize = 16;

pub const OK: u32 = 0;
pub const NO_DOMAIN: u32 = 1;
pub const NOT_LIVE: u32 = 2;
pub const NO_SAMPLE: u32 = 3;
pub const OUT_OF_MEMORY: u32 = 4;
pub const HAS_DOMAIN: u32 = 5;
pub const BLOCKED: u32 = 6;
pub const PUBLISHER_IS_BLOCKED: u32 = 7;
pub const TOO_SMALL: u32 = 9;
pub const LOAN_ERROR_OUT_OF_MEMORY: u32 = 10;
pub const LOAN_ERROR_EXCEEDS_MAX_LOANS: u32 = 11;
pub const LOAN_ERROR_EXCEEDS_MAX_LOAN_SIZE: u32 = 12;
pub const LOAN_ERROR_INTERNAL_FAILURE: u32 = 13;
pub const SEND_ERROR_CONNECTION_BROKEN_SINCE_SENDER_NO_LONGER_EXISTS: u32 = 20;
pub const SEND_ERROR_CONNECTION_CORRUPTED: u32 = 21;
pub const SEND_ERROR_UNABLE_TO_DELIVER: u32 = 22;
pub const SEND_ERROR_INTERNAL_ERROR: u32 = 23;
pub const SEND_ERROR_CONNECTION_INCOMPATIBLE_BUFFER_SIZE: u32 = 24;
pub const SEND_ERROR_CONNECTION_OUT_OF_MEMORY: u32 = 25;
pub const SEND_ERROR_CONNECTION_EXPIRED_BUFFER_FULL: u32 = 26;
pub const SEND_ERROR_CONNECTION_UNABLE_TO_MAP: u32 = 27;
pub const RECEIVE_ERROR_EXCEEDS_MAX_BORROWS: u32 = 30;
pub const RECEIVE_ERROR_CONNECTION_INCOMPATIBLE_BUFFER_SIZE: u32 = 34;
pub const RECEIVE_ERROR_CONNECTION_OUT_OF_MEMORY: u32 = 35;
pub const RECEIVE_ERROR_CONNECTION_EXPIRED_BUFFER_FULL: u32 = 36;
pub const RECEIVE_ERROR_CONNECTION_UNABLE_TO_MAP: u32 = 37;
pub const CONNECTION_FAILURE_INCOMPATIBLE_BUFFER_SIZE: u32 = 44;
pub const CONNECTION_FAILURE_OUT_OF_MEMORY: u32 = 45;
pub const CONNECTION_FAILURE_EXPIRED_BUFFER_FULL: u32 = 46;
pub const CONNECTION_FAILURE_UNABLE_TO_MAP: u32 = 47;
pub const PUBLISHER_CREATE_ERROR_EXCEEDS_MAX_SUPPORTED_PUBLISHERS: u32 = 50;
pub const PUBLISHER_CREATE_ERROR_UNABLE_TO_CREATE_DATA_SEGMENT: u32 = 51;
pub const PUBLISHER_CREATE_ERROR_FAILED_TO_DEPLOY_THREADSAFETY_POLICY: u32 = 52;
pub const PUBLISHER_CREATE_ERROR_UNABLE_TO_CREATE_PORT_TAG: u32 = 53;
pub const SUBSCRIBER_CREATE_ERROR_EXCEEDS_MAX_SUPPORTED_SUBSCRIBERS: u32 = 60;
pub const SUBSCRIBER_CREATE_ERROR_BUFFER_SIZE_EXCEEDS_MAX: u32 = 61;
pub const SUBSCRIBER_CREATE_ERROR_FAILED_TO_DEPLOY_THREADSAFETY_POLICY: u32 = 62;
pub const SUBSCRIBER_CREATE_ERROR_UNABLE_TO_CREATE_PORT_TAG: u32 = 63;
pub const NO_SUCH_CHANNEL: u32 = 70;
pub const NO_CONNECTION: u32 = 71;
pub const INVALID_STRUCT_SIZE: u32 = 80;
pub const INVALID_PAYLOAD_SIZE: u32 = 81;
pub const INVALID_PAYLOAD_ALIGNMENT: u32 = 82;
pub const INVALID_BACKPRESSURE_STRATEGY: u32 = 83;
pub const INVALID_BACKPRESSURE_HANDLER: u32 = 84;
pub const INVALID_DEGRADATION: u32 = 85;
pub const INVALID_ALLOCATION_STRATEGY: u32 = 86;
pub const INVALID_INITIAL_MAX_SLICE_LEN: u32 = 87;
pub const INVALID_RESERVED: u32 = 88;
pub const WORST_CASE_TOO_LARGE: u32 = 89;
pub const WARNING_EXPIRED_BUFFER_RAISED: u32 = 100;
pub const WARNING_PUBLISHER_PARTLY_CONNECTED: u32 = 101;
pub const WARNING_SUBSCRIBER_PARTLY_CONNECTED: u32 = 102;
pub const WARNING_CONNECTION_NOT_MADE: u32 = 103;
pub const WARNING_EXPIRED_DATA_DISCARDED: u32 = 104;

pub const BRINGS_MESSAGE: u32 = 1;
pub const BRINGS_ROOM: u32 = 2;
pub const BRINGS_FREE: u32 = 4;
pub const BRINGS_LOAN: u32 = 8;

pub const CHANNEL_STATE_OPEN: u64 = 0;
pub const CHANNEL_STATE_CLOSED: u64 = u64::MAX;

#[repr(C)]
#[derive(Debug)]
pub struct Domain {
    pub domain: *mut c_void,
}

#[repr(C)]
#[derive(Clone, Copy, Debug, Default, PartialEq, Eq)]
pub struct Wide {
    pub low: u64,
    pub high: u64,
}

#[repr(C)]
#[derive(Clone, Copy, Debug, Default, PartialEq, Eq)]
pub struct Config {
    pub struct_size: usize,
    pub service_id: Wide,
    pub node_id: Wide,
    pub payload_size: usize,
    pub payload_alignment: usize,
    pub max_publishers: usize,
    pub max_subscribers: usize,
    pub subscriber_max_buffer_size: usize,
    pub subscriber_max_borrowed_samples: usize,
    pub history_size: usize,
    pub number_of_channels: usize,
    pub subscriber_expired_connection_buffer: usize,
    pub publisher_max_loaned_samples: usize,
    pub enable_safe_overflow: u32,
    pub backpressure_strategy: u32,
}

#[repr(C)]
#[derive(Clone, Copy, Debug, Default, PartialEq, Eq)]
pub struct PublisherOptions {
    pub struct_size: usize,
    pub max_loaned_samples: usize,
    pub initial_max_slice_len: usize,
    pub preallocated_samples: usize,
    pub backpressure_strategy: u32,
    pub backpressure_handler: u32,
    pub degradation: u32,
    pub allocation_strategy: u32,
}

#[repr(C)]
#[derive(Clone, Copy, Debug, Default, PartialEq, Eq)]
pub struct SubscriberOptions {
    pub struct_size: usize,
    pub buffer_size: usize,
    pub degradation: u32,
    pub reserved: u32,
}

#[repr(C)]
#[derive(Clone, Copy, Debug, Default, PartialEq, Eq)]
pub struct Publisher {
    pub service_id: Wide,
    pub id: Wide,
    pub place: usize,
    pub initial_max_slice_len: usize,
    pub backpressure_strategy: u32,
    pub reserved: u32,
}

#[repr(C)]
#[derive(Clone, Copy, Debug, Default, PartialEq, Eq)]
pub struct Subscriber {
    pub service_id: Wide,
    pub id: Wide,
    pub place: usize,
    pub buffer_size: usize,
}

#[repr(C)]
#[derive(Clone, Copy, Debug, Default, PartialEq, Eq)]
pub struct Loan {
    pub service_id: Wide,
    pub publisher: Wide,
    pub number: Wide,
    pub place: usize,
    pub book: usize,
    pub slot: usize,
}

#[repr(C)]
#[derive(Clone, Copy, Debug, Default, PartialEq, Eq)]
pub struct Blocked {
    pub service_id: Wide,
    pub publisher: Wide,
    pub number: Wide,
    pub place: usize,
    pub book: usize,
    pub slot: usize,
}

#[repr(C)]
#[derive(Clone, Copy, Debug, Default, PartialEq, Eq)]
pub struct Sample {
    pub service_id: Wide,
    pub origin: Wide,
    pub subscriber: Wide,
    pub number: Wide,
    pub connection: usize,
    pub book: usize,
    pub slot: usize,
}

#[repr(C)]
#[derive(Clone, Copy, Debug, Default, PartialEq, Eq)]
pub struct Header {
    pub node_id: Wide,
    pub publisher: Wide,
    pub number_of_elements: u64,
}

#[repr(C)]
#[derive(Clone, Copy, Debug, Default, PartialEq, Eq)]
pub struct Warning {
    pub publisher: Wide,
    pub subscriber: Wide,
    pub kind: u32,
    pub failure: u32,
}

#[repr(C)]
#[derive(Clone, Copy, Debug)]
pub struct Allocator {
    pub allocate: unsafe extern "C" fn(*mut c_void, usize, usize) -> *mut c_void,
    pub reallocate:
        unsafe extern "C" fn(*mut c_void, *mut c_void, usize, usize, usize) -> *mut c_void,
    pub deallocate: unsafe extern "C" fn(*mut c_void, *mut c_void),
    pub context: *mut c_void,
}

extern "C" {
    pub fn iox2ps_version() -> u32;
    pub fn iox2ps_set_allocator(allocator: *const Allocator) -> u32;
    pub fn iox2ps_allocate(size: usize, alignment: usize) -> *mut c_void;
    pub fn iox2ps_deallocate(block: *mut c_void);
    pub fn iox2ps_config_defaults_sized(
        config: *mut Config,
        struct_size: usize,
        service_id: u64,
        payload_size: usize,
        payload_alignment: usize,
    );
    pub fn iox2ps_publisher_options_of_sized(
        config: *const Config,
        options: *mut PublisherOptions,
        struct_size: usize,
    );
    pub fn iox2ps_subscriber_options_of_sized(
        config: *const Config,
        options: *mut SubscriberOptions,
        struct_size: usize,
    );
    pub fn iox2ps_worst_case_slots(config: *const Config, loans: usize, slots: *mut usize) -> u32;
    pub fn iox2ps_error_text_at(code: u32, text: *mut *const u8, len: *mut usize);
    pub fn iox2ps_domain_create(domain: *mut Domain, config: *const Config) -> u32;
    pub fn iox2ps_domain_create_recorded(
        domain: *mut Domain,
        config: *const Config,
        commands: usize,
        bytes: usize,
    ) -> u32;
    pub fn iox2ps_domain_recording(
        domain: *mut Domain,
        bytes: *mut u8,
        room: usize,
        len: *mut usize,
        missed: *mut u64,
    ) -> u32;
    pub fn iox2ps_domain_destroy(domain: *mut Domain) -> u32;
    pub fn iox2ps_domain_config_sized(
        domain: *mut Domain,
        config: *mut Config,
        struct_size: usize,
    ) -> u32;
    pub fn iox2ps_domain_connection_count(domain: *mut Domain, count: *mut usize) -> u32;
    pub fn iox2ps_domain_book_count(domain: *mut Domain, count: *mut usize) -> u32;
    pub fn iox2ps_domain_refused_connections(domain: *mut Domain, count: *mut u64) -> u32;
    pub fn iox2ps_domain_warning_count(domain: *mut Domain, count: *mut usize) -> u32;
    pub fn iox2ps_domain_warning(domain: *mut Domain, index: usize, warning: *mut Warning) -> u32;
    pub fn iox2ps_publisher_create(domain: *mut Domain, publisher: *mut Publisher) -> u32;
    pub fn iox2ps_publisher_create_with(
        domain: *mut Domain,
        options: *const PublisherOptions,
        publisher: *mut Publisher,
    ) -> u32;
    pub fn iox2ps_publisher_close(domain: *mut Domain, publisher: *const Publisher) -> u32;
    pub fn iox2ps_publisher_is_blocked(
        domain: *mut Domain,
        publisher: *const Publisher,
        is_blocked: *mut u32,
    ) -> u32;
    pub fn iox2ps_publisher_update_connections(
        domain: *mut Domain,
        publisher: *const Publisher,
    ) -> u32;
    pub fn iox2ps_publisher_loan(
        domain: *mut Domain,
        publisher: *const Publisher,
        len: usize,
        loan: *mut Loan,
        payload: *mut *mut u8,
    ) -> u32;
    pub fn iox2ps_publisher_loan_uninit(
        domain: *mut Domain,
        publisher: *const Publisher,
        len: usize,
        loan: *mut Loan,
        payload: *mut *mut u8,
    ) -> u32;
    pub fn iox2ps_publisher_send_copy_counted(
        domain: *mut Domain,
        publisher: *const Publisher,
        bytes: *const u8,
        len: usize,
        receivers: *mut usize,
        blocked: *mut Blocked,
    ) -> u32;
    pub fn iox2ps_loan_send_counted(
        domain: *mut Domain,
        loan: *const Loan,
        receivers: *mut usize,
        blocked: *mut Blocked,
    ) -> u32;
    pub fn iox2ps_loan_deliver_offset_to_connection_counted(
        domain: *mut Domain,
        loan: *const Loan,
        channel: usize,
        connection: usize,
        receivers: *mut usize,
        blocked: *mut Blocked,
    ) -> u32;
    pub fn iox2ps_loan_discard(domain: *mut Domain, loan: *const Loan) -> u32;
    pub fn iox2ps_loan_payload(
        domain: *mut Domain,
        loan: *const Loan,
        payload: *mut *mut u8,
        len: *mut usize,
    ) -> u32;
    pub fn iox2ps_blocked_subscriber(
        domain: *mut Domain,
        blocked: *const Blocked,
        subscriber: *mut Wide,
    ) -> u32;
    pub fn iox2ps_blocked_retry_counted(
        domain: *mut Domain,
        blocked: *const Blocked,
        elapsed: u64,
        receivers: *mut usize,
    ) -> u32;
    pub fn iox2ps_blocked_give_up_counted(
        domain: *mut Domain,
        blocked: *const Blocked,
        receivers: *mut usize,
    ) -> u32;
    pub fn iox2ps_subscriber_create(domain: *mut Domain, subscriber: *mut Subscriber) -> u32;
    pub fn iox2ps_subscriber_create_with(
        domain: *mut Domain,
        options: *const SubscriberOptions,
        subscriber: *mut Subscriber,
    ) -> u32;
    pub fn iox2ps_subscriber_close(domain: *mut Domain, subscriber: *const Subscriber) -> u32;
    pub fn iox2ps_subscriber_has_samples(
        domain: *mut Domain,
        subscriber: *const Subscriber,
        waits: *mut u32,
    ) -> u32;
    pub fn iox2ps_subscriber_update_connections(
        domain: *mut Domain,
        subscriber: *const Subscriber,
    ) -> u32;
    pub fn iox2ps_subscriber_receive(
        domain: *mut Domain,
        subscriber: *const Subscriber,
        sample: *mut Sample,
        payload: *mut *const u8,
        len: *mut usize,
    ) -> u32;
    pub fn iox2ps_subscriber_receive_copy(
        domain: *mut Domain,
        subscriber: *const Subscriber,
        bytes: *mut u8,
        room: usize,
        len: *mut usize,
        sample: *mut Sample,
    ) -> u32;
    pub fn iox2ps_sample_payload(
        domain: *mut Domain,
        sample: *const Sample,
        payload: *mut *const u8,
        len: *mut usize,
    ) -> u32;
    pub fn iox2ps_sample_copy(
        domain: *mut Domain,
        sample: *const Sample,
        bytes: *mut u8,
        room: usize,
        len: *mut usize,
    ) -> u32;
    pub fn iox2ps_sample_header(
        domain: *mut Domain,
        sample: *const Sample,
        header: *mut Header,
    ) -> u32;
    pub fn iox2ps_sample_release(domain: *mut Domain, sample: *const Sample) -> u32;
    pub fn iox2ps_subscriber_at_least_one_channel_has_state(
        domain: *mut Domain,
        subscriber: *const Subscriber,
        channel: usize,
        state: u64,
        has_state: *mut u32,
    ) -> u32;
    pub fn iox2ps_publisher_get_connection_id_of(
        domain: *mut Domain,
        publisher: *const Publisher,
        receiver_port_id: *const Wide,
        connection: *mut usize,
    ) -> u32;
    pub fn iox2ps_publisher_has_channel_state(
        domain: *mut Domain,
        publisher: *const Publisher,
        channel: usize,
        connection: usize,
        state: u64,
        has_state: *mut u32,
    ) -> u32;
    pub fn iox2ps_publisher_has_disconnect_hint(
        domain: *mut Domain,
        publisher: *const Publisher,
        channel: usize,
        connection: usize,
        state: u64,
        has_hint: *mut u32,
    ) -> u32;
    pub fn iox2ps_publisher_close_channel(
        domain: *mut Domain,
        publisher: *const Publisher,
        channel: usize,
        connection: usize,
        expected: u64,
    ) -> u32;
    pub fn iox2ps_subscriber_set_channel_state(
        domain: *mut Domain,
        subscriber: *const Subscriber,
        channel: usize,
        state: u64,
        were_closed: *mut u32,
    ) -> u32;
    pub fn iox2ps_subscriber_close_channel(
        domain: *mut Domain,
        subscriber: *const Subscriber,
        channel: usize,
        expected: u64,
    ) -> u32;
    pub fn iox2ps_subscriber_set_disconnect_hint(
        domain: *mut Domain,
        subscriber: *const Subscriber,
        channel: usize,
        expected: u64,
    ) -> u32;
}

// The functions that the header has inline. Those of the archive take the struct's size, or a `receivers` that isn't null.

/// Where a call counts: there, or where nobody looks.
#[inline]
fn counted(receivers: *mut usize, unwanted: &mut usize) -> *mut usize {
    if receivers.is_null() {
        unwanted
    } else {
        receivers
    }
}

/// # Safety
/// As of the header's function.
#[inline]
pub unsafe fn iox2ps_config_defaults(
    config: *mut Config,
    service_id: u64,
    payload_size: usize,
    payload_alignment: usize,
) {
    let size = size_of::<Config>();
    iox2ps_config_defaults_sized(config, size, service_id, payload_size, payload_alignment);
}

/// # Safety
/// As of the header's function.
#[inline]
pub unsafe fn iox2ps_publisher_options_of(config: *const Config, options: *mut PublisherOptions) {
    iox2ps_publisher_options_of_sized(config, options, size_of::<PublisherOptions>());
}

/// # Safety
/// As of the header's function.
#[inline]
pub unsafe fn iox2ps_subscriber_options_of(config: *const Config, options: *mut SubscriberOptions) {
    iox2ps_subscriber_options_of_sized(config, options, size_of::<SubscriberOptions>());
}

/// As the header's function.
#[inline]
#[must_use]
pub const fn iox2ps_brought_by(brings: u32, code: u32) -> u32 {
    match code {
        OK
        | SEND_ERROR_UNABLE_TO_DELIVER
        | SEND_ERROR_CONNECTION_OUT_OF_MEMORY
        | CONNECTION_FAILURE_OUT_OF_MEMORY
        | CONNECTION_FAILURE_EXPIRED_BUFFER_FULL => brings,
        BLOCKED => brings & BRINGS_MESSAGE,
        TOO_SMALL => brings & BRINGS_ROOM,
        SEND_ERROR_CONNECTION_BROKEN_SINCE_SENDER_NO_LONGER_EXISTS => brings & BRINGS_LOAN,
        _ => 0,
    }
}

/// # Safety
/// As of the header's function.
#[inline]
pub unsafe fn iox2ps_domain_config(domain: *mut Domain, config: *mut Config) -> u32 {
    iox2ps_domain_config_sized(domain, config, size_of::<Config>())
}

/// # Safety
/// As of the header's function.
#[inline]
pub unsafe fn iox2ps_publisher_send_copy(
    domain: *mut Domain,
    publisher: *const Publisher,
    bytes: *const u8,
    len: usize,
    receivers: *mut usize,
    blocked: *mut Blocked,
) -> u32 {
    let mut unwanted = 0;
    let receivers = counted(receivers, &mut unwanted);
    iox2ps_publisher_send_copy_counted(domain, publisher, bytes, len, receivers, blocked)
}

/// # Safety
/// As of the header's function.
#[inline]
pub unsafe fn iox2ps_loan_send(
    domain: *mut Domain,
    loan: *const Loan,
    receivers: *mut usize,
    blocked: *mut Blocked,
) -> u32 {
    let mut unwanted = 0;
    let receivers = counted(receivers, &mut unwanted);
    iox2ps_loan_send_counted(domain, loan, receivers, blocked)
}

/// # Safety
/// As of the header's function.
#[inline]
pub unsafe fn iox2ps_loan_deliver_offset_to_connection(
    domain: *mut Domain,
    loan: *const Loan,
    channel: usize,
    connection: usize,
    receivers: *mut usize,
    blocked: *mut Blocked,
) -> u32 {
    let mut unwanted = 0;
    let receivers = counted(receivers, &mut unwanted);
    iox2ps_loan_deliver_offset_to_connection_counted(
        domain, loan, channel, connection, receivers, blocked,
    )
}

/// # Safety
/// As of the header's function.
#[inline]
pub unsafe fn iox2ps_blocked_retry(
    domain: *mut Domain,
    blocked: *const Blocked,
    elapsed: u64,
    receivers: *mut usize,
) -> u32 {
    let mut unwanted = 0;
    let receivers = counted(receivers, &mut unwanted);
    iox2ps_blocked_retry_counted(domain, blocked, elapsed, receivers)
}

/// # Safety
/// As of the header's function.
#[inline]
pub unsafe fn iox2ps_blocked_give_up(
    domain: *mut Domain,
    blocked: *const Blocked,
    receivers: *mut usize,
) -> u32 {
    let mut unwanted = 0;
    let receivers = counted(receivers, &mut unwanted);
    iox2ps_blocked_give_up_counted(domain, blocked, receivers)
}
