// SPDX-License-Identifier: Apache-2.0 OR MIT
//! How the archive has the structs of the headers in memory, on each of its processors. `tools/bindings layouts` makes this file.
use std::mem::{align_of, size_of, MaybeUninit};
use std::ptr::addr_of;

use iox2_pubsub_sys::shared::{Joined, SharedDomain};
use iox2_pubsub_sys::*;

/// Holds a struct to its size and alignment, when it is compiled, and its fields to their offsets.
macro_rules! lies_so {
    ($test:ident, $type:ident, $size:literal, $alignment:literal, $($field:ident $offset:literal)*) => {
        const _: () = assert!(size_of::<$type>() == $size && align_of::<$type>() == $alignment);

        #[test]
        fn $test() {
            let value = MaybeUninit::<$type>::uninit();
            let start = value.as_ptr();
            // SAFETY: an address inside of the value is taken, and nothing is read.
            $(assert_eq!(unsafe { addr_of!((*start).$field) } as usize - start as usize, $offset, stringify!($field));)*
        }
    };
}

lies_so! {
    domain, Domain, 8, 8,
    domain 0
}
lies_so! {
    wide, Wide, 16, 8,
    low 0
    high 8
}
lies_so! {
    config, Config, 128, 8,
    struct_size 0
    service_id 8
    node_id 24
    payload_size 40
    payload_alignment 48
    max_publishers 56
    max_subscribers 64
    subscriber_max_buffer_size 72
    subscriber_max_borrowed_samples 80
    history_size 88
    number_of_channels 96
    subscriber_expired_connection_buffer 104
    publisher_max_loaned_samples 112
    enable_safe_overflow 120
    backpressure_strategy 124
}
lies_so! {
    publisher_options, PublisherOptions, 48, 8,
    struct_size 0
    max_loaned_samples 8
    initial_max_slice_len 16
    preallocated_samples 24
    backpressure_strategy 32
    backpressure_handler 36
    degradation 40
    allocation_strategy 44
}
lies_so! {
    subscriber_options, SubscriberOptions, 24, 8,
    struct_size 0
    buffer_size 8
    degradation 16
    reserved 20
}
lies_so! {
    publisher, Publisher, 56, 8,
    service_id 0
    id 16
    place 32
    initial_max_slice_len 40
    backpressure_strategy 48
    reserved 52
}
lies_so! {
    subscriber, Subscriber, 48, 8,
    service_id 0
    id 16
    place 32
    buffer_size 40
}
lies_so! {
    loan, Loan, 72, 8,
    service_id 0
    publisher 16
    number 32
    place 48
    book 56
    slot 64
}
lies_so! {
    blocked, Blocked, 72, 8,
    service_id 0
    publisher 16
    number 32
    place 48
    book 56
    slot 64
}
lies_so! {
    sample, Sample, 88, 8,
    service_id 0
    origin 16
    subscriber 32
    number 48
    connection 64
    book 72
    slot 80
}
lies_so! {
    header, Header, 40, 8,
    node_id 0
    publisher 16
    number_of_elements 32
}
lies_so! {
    warning, Warning, 40, 8,
    publisher 0
    subscriber 16
    kind 32
    failure 36
}
lies_so! {
    allocator, Allocator, 32, 8,
    allocate 0
    reallocate 8
    deallocate 16
    context 24
}
lies_so! {
    joined, Joined, 48, 8,
    struct_size 0
    wake 8
    connect 16
    waits_are_stopped 24
    reserved 28
    before 32
    after 40
}
lies_so! {
    shared_domain, SharedDomain, 80, 8,
    struct_size 0
    version 8
    is_slice 12
    element_size 16
    element_alignment 24
    call 32
    join 40
    leave 48
    stop_waits 56
    keep 64
    release 72
}

#[test]
fn codes_say_what_calls_have_brought() {
    let all = [
        (0, 15),
        (6, 1),
        (9, 2),
        (20, 8),
        (22, 15),
        (25, 15),
        (45, 15),
        (46, 15),
    ];
    for code in 0..256 {
        let found = all.iter().find(|pair| pair.0 == code);
        let brings = found.map_or(0, |pair| pair.1);
        assert_eq!(iox2ps_brought_by(15, code), brings, "{code}");
        assert_eq!(iox2ps_brought_by(0, code), 0, "{code}");
    }
}
