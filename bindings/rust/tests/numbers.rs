// SPDX-License-Identifier: Apache-2.0 OR MIT
//! What a caller of the C calls may get wrong, tried from Rust by the calls themselves: numbers that are
//! copied, used twice, kept too long, made up or of another domain; no domain, or a destroyed one; lengths
//! and settings at their limits. Each call returns its code and leaves what its pointers point to, and
//! afterwards each live handle still does what it is for.

mod world;

use iox2_pubsub_sys::*;
use std::collections::HashSet;
use std::mem::{size_of, zeroed};
use std::ptr::{null, null_mut};
use std::slice;
use world::*;

// ---- no domain

#[test]
fn each_call_is_refused_on_a_zeroed_box() {
    let world = World::begin(1);
    let mut domain: Domain = unsafe { zeroed() };
    no_domain_is_there(&mut domain, &world);
    world.end();
}

#[test]
fn each_call_is_refused_on_a_destroyed_box() {
    let mut world = World::begin(1);
    destroy(&mut world.domain);
    let mut domain = Domain {
        domain: world.domain.domain,
    };
    no_domain_is_there(&mut domain, &world);
}

#[test]
fn a_domain_is_not_made_over_another() {
    let mut world = World::begin(1);
    let there = world.domain.domain;
    let code = unsafe { iox2ps_domain_create(&mut world.domain, &defaults(5, 8, 8)) };
    assert_eq!((code, world.domain.domain), (HAS_DOMAIN, there));
    world.end();
}

// Also where it has the same id: what the numbers name isn't there.
#[test]
fn a_domain_in_the_place_of_a_destroyed_one_takes_none_of_its_numbers() {
    for service_id in [1, 5] {
        let mut world = World::begin(1);
        destroy(&mut world.domain);
        world.domain = domain_of(&defaults(service_id, 8, 8));
        let domain = &mut world.domain;
        publisher_is_refused(domain, &world.publisher, NOT_LIVE);
        subscriber_is_refused(domain, &world.subscriber, NOT_LIVE);
        loan_is_refused(domain, &world.loan, NOT_LIVE);
        blocked_is_refused(domain, &world.blocked, NOT_LIVE);
        sample_is_refused(domain, &world.sample, NOT_LIVE);
        destroy(domain);
    }
}

// ---- numbers that name nothing

#[test]
fn numbers_are_used_once_whoever_has_a_copy() {
    let mut world = World::begin(1);
    let (sample, blocked, loan) = (world.sample, world.blocked, world.loan);
    let (publisher, subscriber) = (world.publisher, world.subscriber);
    let domain = &mut world.domain;
    let mut count = 0;
    unsafe {
        release(domain, &sample);
        sample_is_refused(domain, &world.sample, NOT_LIVE);
        assert_eq!(iox2ps_blocked_give_up(domain, &blocked, &mut count), OK);
        blocked_is_refused(domain, &world.blocked, NOT_LIVE);
        assert_eq!(iox2ps_loan_discard(domain, &loan), OK);
        loan_is_refused(domain, &world.loan, NOT_LIVE);
        let (sent, _) = lend(domain, &publisher, 8);
        let mut waits = Blocked::default();
        assert_eq!(iox2ps_loan_send(domain, &sent, &mut count, &mut waits), OK);
        loan_is_refused(domain, &sent, NOT_LIVE);
        assert_eq!(iox2ps_subscriber_close(domain, &subscriber), OK);
        subscriber_is_refused(domain, &world.subscriber, NOT_LIVE);
        assert_eq!(iox2ps_publisher_close(domain, &publisher), OK);
        publisher_is_refused(domain, &world.publisher, NOT_LIVE);
    }
    destroy(domain);
}

// The slots, the places and the books that they name are others' by then.
#[test]
fn numbers_kept_too_long_stay_spent() {
    let mut domain = domain_of(&defaults(1, 8, 8));
    let (publisher, subscriber) = (publisher_of(&mut domain), subscriber_of(&mut domain));
    let (lost, _) = lend(&mut domain, &publisher, 8);
    let mut kept = Sample::default();
    for value in 0..20 {
        assert_eq!(send_value(&mut domain, &publisher, value).0, OK);
        let (sample, read) = receive(&mut domain, &subscriber);
        assert_eq!(value_of(read), value);
        sample_is_refused(&mut domain, &kept, NOT_LIVE);
        release(&mut domain, &sample);
        kept = sample;
    }
    let broken = SEND_ERROR_CONNECTION_BROKEN_SINCE_SENDER_NO_LONGER_EXISTS;
    unsafe {
        assert_eq!(iox2ps_publisher_close(&mut domain, &publisher), OK);
        assert_eq!(iox2ps_subscriber_close(&mut domain, &subscriber), OK);
        refused(broken, |outs| {
            iox2ps_loan_send(&mut domain, &lost, &mut outs.count, &mut outs.blocked)
        });
    }
    let (another, other) = (publisher_of(&mut domain), subscriber_of(&mut domain));
    let (lent, _) = lend(&mut domain, &another, 8);
    publisher_is_refused(&mut domain, &publisher, NOT_LIVE);
    subscriber_is_refused(&mut domain, &subscriber, NOT_LIVE);
    loan_is_refused(&mut domain, &lost, NOT_LIVE);
    assert_eq!(unsafe { iox2ps_loan_discard(&mut domain, &lent) }, OK);
    assert_eq!(send_value(&mut domain, &another, 21).0, OK);
    take(&mut domain, &other, 21, another.id);
    destroy(&mut domain);
}

#[test]
fn numbers_of_another_domain_name_nothing() {
    let (mut here, there) = (World::begin(1), World::begin(2));
    publisher_is_refused(&mut here.domain, &there.publisher, NOT_LIVE);
    subscriber_is_refused(&mut here.domain, &there.subscriber, NOT_LIVE);
    loan_is_refused(&mut here.domain, &there.loan, NOT_LIVE);
    blocked_is_refused(&mut here.domain, &there.blocked, NOT_LIVE);
    sample_is_refused(&mut here.domain, &there.sample, NOT_LIVE);
    here.end();
    there.end();
}

// Each handle with all bits clear, with all bits set, and with one bit of its first words turned, which have
// its service, its ids and its number.
fn is_made_up<T: Copy>(handle: &T, words: usize, mut is_refused: impl FnMut(&T)) {
    let mut other = *handle;
    let bytes = (&mut other as *mut T).cast::<u8>();
    let count = size_of::<T>();
    // SAFETY: the handles are whole numbers, which may have any bits.
    unsafe {
        bytes.write_bytes(0, count);
        is_refused(&other);
        bytes.write_bytes(0xff, count);
        is_refused(&other);
        for bit in (0..64 * words).step_by(13) {
            other = *handle;
            *bytes.add(bit / 8) ^= 1 << (bit % 8);
            is_refused(&other);
        }
    }
}

#[test]
fn made_up_numbers_name_nothing() {
    let mut world = World::begin(1);
    let domain = &mut world.domain;
    is_made_up(&world.publisher, 4, |it| {
        publisher_is_refused(domain, it, NOT_LIVE)
    });
    is_made_up(&world.subscriber, 4, |it| {
        subscriber_is_refused(domain, it, NOT_LIVE)
    });
    is_made_up(&world.loan, 6, |it| loan_is_refused(domain, it, NOT_LIVE));
    is_made_up(&world.blocked, 6, |it| {
        blocked_is_refused(domain, it, NOT_LIVE)
    });
    // The origin of a sample names nothing.
    is_made_up(&world.sample, 8, |it| {
        if it.origin == world.sample.origin || it.subscriber != world.sample.subscriber {
            sample_is_refused(domain, it, NOT_LIVE)
        }
    });
    world.end();
}

#[test]
fn hints_are_hints() {
    let mut world = World::begin(1);
    for wrong in [0, 1, 77, usize::MAX / 2, usize::MAX] {
        world.publisher.place = wrong;
        world.waiting.place = wrong;
        world.subscriber.place = wrong;
        (world.loan.place, world.loan.book, world.loan.slot) = (wrong, wrong, wrong);
        (world.blocked.place, world.blocked.book, world.blocked.slot) = (wrong, wrong, wrong);
        world.sample.connection = wrong;
        (world.sample.book, world.sample.slot) = (wrong, wrong);
        world.sample.origin.high = wrong as u64;
        let domain = &mut world.domain;
        let (mut start, mut len, mut answer) = (null_mut(), 0, 0);
        unsafe {
            let code = iox2ps_publisher_is_blocked(domain, &world.waiting, &mut answer);
            assert_eq!((code, answer), (OK, 1));
            let code = iox2ps_subscriber_has_samples(domain, &world.subscriber, &mut answer);
            assert_eq!((code, answer), (OK, 1));
            let code = iox2ps_loan_payload(domain, &world.loan, &mut start, &mut len);
            assert_eq!((code, start, len), (OK, world.written, 8));
            let code = iox2ps_blocked_retry(domain, &world.blocked, 0, &mut len);
            assert_eq!(code, BLOCKED);
        }
        publisher_updates(domain, &world.publisher);
    }
    world.end();
}

fn publisher_updates(domain: &mut Domain, publisher: &Publisher) {
    let code = unsafe { iox2ps_publisher_update_connections(domain, publisher) };
    assert_eq!(code, OK);
}

#[test]
fn a_blocked_send_is_no_loan_and_a_loan_no_blocked_send() {
    let mut world = World::begin(1);
    let (loan, blocked) = (world.loan, world.blocked);
    let waits = Loan {
        service_id: blocked.service_id,
        publisher: blocked.publisher,
        number: blocked.number,
        place: blocked.place,
        book: blocked.book,
        slot: blocked.slot,
    };
    let lent = Blocked {
        service_id: loan.service_id,
        publisher: loan.publisher,
        number: loan.number,
        place: loan.place,
        book: loan.book,
        slot: loan.slot,
    };
    loan_is_refused(&mut world.domain, &waits, NOT_LIVE);
    blocked_is_refused(&mut world.domain, &lent, NOT_LIVE);
    world.end();
}

#[test]
fn a_publisher_does_nothing_while_a_send_of_it_waits() {
    let mut world = World::begin(1);
    let (domain, waiting) = (&mut world.domain, &world.waiting);
    let (code, bytes) = (PUBLISHER_IS_BLOCKED, [1u8; 8]);
    unsafe {
        refused(code, |_| iox2ps_publisher_close(domain, waiting));
        refused(code, |_| {
            iox2ps_publisher_update_connections(domain, waiting)
        });
        refused(code, |outs| {
            iox2ps_publisher_loan(domain, waiting, 8, &mut outs.loan, &mut outs.written)
        });
        refused(code, |outs| {
            let (count, blocked) = (&mut outs.count, &mut outs.blocked);
            iox2ps_publisher_send_copy(domain, waiting, bytes.as_ptr(), 8, count, blocked)
        });
    }
    world.end();
}

// ---- lengths

#[test]
fn a_loan_has_no_bytes_as_many_as_the_limit_or_none_of_more() {
    let mut domain = domain_of(&defaults(1, 24, 8));
    let publisher = publisher_of(&mut domain);
    for len in [0, 1, 24] {
        let (loan, start) = lend(&mut domain, &publisher, len);
        let (mut again, mut said) = (null_mut(), 99);
        unsafe {
            let code = iox2ps_loan_payload(&mut domain, &loan, &mut again, &mut said);
            assert_eq!((code, again, said), (OK, start, len));
            assert_eq!(slice::from_raw_parts(start, len), &[0; 24][..len]);
            assert_eq!(iox2ps_loan_discard(&mut domain, &loan), OK);
        }
    }
    let code = LOAN_ERROR_EXCEEDS_MAX_LOAN_SIZE;
    for len in [25, 32, usize::MAX / 2, usize::MAX - 7, usize::MAX] {
        refused(code, |outs| unsafe {
            let (loan, written) = (&mut outs.loan, &mut outs.written);
            iox2ps_publisher_loan(&mut domain, &publisher, len, loan, written)
        });
    }
    destroy(&mut domain);
}

#[test]
fn a_copy_is_sent_up_to_the_limit() {
    let mut domain = domain_of(&defaults(1, 24, 8));
    let (publisher, subscriber) = (publisher_of(&mut domain), subscriber_of(&mut domain));
    let longer = [7u8; 25];
    for len in [0, 1, 24] {
        assert_eq!(send(&mut domain, &publisher, &longer[..len]).0, OK);
        let (sample, read) = receive(&mut domain, &subscriber);
        assert_eq!(read, &longer[..len]);
        release(&mut domain, &sample);
    }
    refused(LOAN_ERROR_EXCEEDS_MAX_LOAN_SIZE, |outs| unsafe {
        let (count, blocked) = (&mut outs.count, &mut outs.blocked);
        iox2ps_publisher_send_copy(&mut domain, &publisher, longer.as_ptr(), 25, count, blocked)
    });
    destroy(&mut domain);
}

#[test]
fn a_message_longer_than_the_room_is_handed_over_whole() {
    let mut domain = domain_of(&defaults(1, 24, 8));
    let (publisher, subscriber) = (publisher_of(&mut domain), subscriber_of(&mut domain));
    for room in [0, 23] {
        assert_eq!(send(&mut domain, &publisher, &[7; 24]).0, OK);
        let (mut outs, mut sample) = (Outs::filled(), Sample::default());
        let (start, len) = (outs.bytes.as_mut_ptr(), &mut outs.len);
        unsafe {
            let code = iox2ps_subscriber_receive_copy(
                &mut domain,
                &subscriber,
                start,
                room,
                len,
                &mut sample,
            );
            assert_eq!((code, *len), (TOO_SMALL, 24));
            let code = iox2ps_sample_copy(&mut domain, &sample, start, room, len);
            assert_eq!((code, *len), (TOO_SMALL, 24));
            assert_eq!(outs.bytes, [0xa5; 32]);
            let code = iox2ps_sample_copy(&mut domain, &sample, start, 24, &mut outs.len);
            assert_eq!((code, outs.len), (OK, 24));
        }
        assert_eq!((&outs.bytes[..24], outs.bytes[24]), (&[7; 24][..], 0xa5));
        release(&mut domain, &sample);
    }
    destroy(&mut domain);
}

#[test]
fn payloads_are_aligned_as_the_settings_say() {
    for alignment in [1, 2, 4, 8, 16] {
        let mut config = defaults(1, 3 * alignment, alignment);
        config.subscriber_max_borrowed_samples = 3;
        config.subscriber_max_buffer_size = 3;
        let mut domain = domain_of(&config);
        let publishers = [publisher_of(&mut domain), publisher_of(&mut domain)];
        let subscriber = subscriber_of(&mut domain);
        for (publisher, len) in publishers.iter().cycle().zip([1, alignment, 3 * alignment]) {
            let (loan, start) = lend(&mut domain, publisher, len);
            assert_eq!(start as usize % alignment, 0);
            let (mut count, mut blocked) = (0, Blocked::default());
            let code = unsafe { iox2ps_loan_send(&mut domain, &loan, &mut count, &mut blocked) };
            assert_eq!(code, OK);
            let (_, read) = receive(&mut domain, &subscriber);
            assert_eq!((read.as_ptr(), read.len()), (start as *const u8, len));
        }
        destroy(&mut domain);
    }
}

// ---- settings

// The first field that is wrong has its code.
#[test]
fn settings_without_sense_make_no_domain() {
    let config = defaults(1, 16, 16);
    let mut wrong = Vec::new();
    for struct_size in [0, size_of::<Config>() - 8, size_of::<Config>() + 8] {
        let config = Config {
            struct_size,
            payload_alignment: 3,
            ..config
        };
        wrong.push((config, INVALID_STRUCT_SIZE));
    }
    for payload_alignment in [0, 3, 5, 15, 17, 32, usize::MAX] {
        let config = Config {
            payload_alignment,
            backpressure_strategy: 2,
            ..config
        };
        wrong.push((config, INVALID_PAYLOAD_ALIGNMENT));
    }
    for payload_size in [17, 24] {
        let config = Config {
            payload_size,
            backpressure_strategy: 2,
            ..config
        };
        wrong.push((config, INVALID_PAYLOAD_SIZE));
    }
    for backpressure_strategy in [2, u32::MAX] {
        let config = Config {
            backpressure_strategy,
            ..config
        };
        wrong.push((config, INVALID_BACKPRESSURE_STRATEGY));
    }
    for (config, invalid) in wrong {
        let mut domain = Domain { domain: null_mut() };
        let code = unsafe { iox2ps_domain_create(&mut domain, &config) };
        assert_eq!((code, domain.domain), (invalid, null_mut()));
    }
}

#[test]
fn options_without_sense_make_no_port() {
    let config = defaults(1, 16, 16);
    let mut domain = domain_of(&config);
    let (options, subscriber_options) = options_of(&config);
    // Of these the first is wrong alone, and each later one is wrong before those behind it.
    let mut wrong = options;
    let mut refused_to_publisher = |options: &PublisherOptions, code| {
        refused(code, |outs| unsafe {
            iox2ps_publisher_create_with(&mut domain, options, &mut outs.publisher)
        });
    };
    for allocation_strategy in [3, u32::MAX] {
        wrong.allocation_strategy = allocation_strategy;
        refused_to_publisher(&wrong, INVALID_ALLOCATION_STRATEGY);
    }
    for degradation in [3, u32::MAX] {
        wrong.degradation = degradation;
        refused_to_publisher(&wrong, INVALID_DEGRADATION);
    }
    for backpressure_handler in [5, u32::MAX] {
        wrong.backpressure_handler = backpressure_handler;
        refused_to_publisher(&wrong, INVALID_BACKPRESSURE_HANDLER);
    }
    for backpressure_strategy in [2, u32::MAX] {
        wrong.backpressure_strategy = backpressure_strategy;
        refused_to_publisher(&wrong, INVALID_BACKPRESSURE_STRATEGY);
    }
    for initial_max_slice_len in [8, 17] {
        wrong.initial_max_slice_len = initial_max_slice_len;
        refused_to_publisher(&wrong, INVALID_INITIAL_MAX_SLICE_LEN);
    }
    for struct_size in [0, size_of::<PublisherOptions>() + 8] {
        wrong.struct_size = struct_size;
        refused_to_publisher(&wrong, INVALID_STRUCT_SIZE);
    }
    for allocation_strategy in [1, 2] {
        let empty = PublisherOptions {
            allocation_strategy,
            initial_max_slice_len: 0,
            ..options
        };
        refused_to_publisher(&empty, INVALID_INITIAL_MAX_SLICE_LEN);
    }

    let mut wrong = subscriber_options;
    let mut refused_to_subscriber = |options: &SubscriberOptions, code| {
        refused(code, |outs| unsafe {
            iox2ps_subscriber_create_with(&mut domain, options, &mut outs.subscriber)
        });
    };
    for reserved in [1, u32::MAX] {
        wrong.reserved = reserved;
        refused_to_subscriber(&wrong, INVALID_RESERVED);
    }
    for degradation in [3, u32::MAX] {
        wrong.degradation = degradation;
        refused_to_subscriber(&wrong, INVALID_DEGRADATION);
    }
    for struct_size in [0, size_of::<SubscriberOptions>() + 8] {
        wrong.struct_size = struct_size;
        refused_to_subscriber(&wrong, INVALID_STRUCT_SIZE);
    }
    destroy(&mut domain);
}

// Of a size that the archive doesn't know the first field alone is written, and what was filled so is refused.
#[test]
fn structs_of_other_sizes_are_not_filled() {
    let config = defaults(1, 16, 16);
    let mut domain = domain_of(&config);
    for size in [0, 8, 136, usize::MAX] {
        refused(INVALID_STRUCT_SIZE, |outs| unsafe {
            iox2ps_domain_config_sized(&mut domain, &mut outs.config, size)
        });
        let (mut other, (mut options, mut subscriber_options)) = (config, options_of(&config));
        unsafe {
            iox2ps_config_defaults_sized(&mut other, size, 2, 8, 8);
            iox2ps_publisher_options_of_sized(&config, &mut options, size);
            iox2ps_subscriber_options_of_sized(&config, &mut subscriber_options, size);
        }
        let sizes = [
            other.struct_size,
            options.struct_size,
            subscriber_options.struct_size,
        ];
        assert_eq!((sizes, other.service_id), ([0; 3], config.service_id));
    }
    destroy(&mut domain);
}

#[test]
fn receivers_may_be_null() {
    let mut world = World::begin(1);
    let mut waits = Blocked::default();
    unsafe {
        let domain = &mut world.domain;
        assert_eq!(
            iox2ps_blocked_retry(domain, &world.blocked, 0, null_mut()),
            BLOCKED
        );
        assert_eq!(
            iox2ps_blocked_give_up(domain, &world.blocked, null_mut()),
            OK
        );
        let code = iox2ps_loan_send(domain, &world.loan, null_mut(), &mut waits);
        assert!([OK, BLOCKED].contains(&code));
        destroy(domain);
    }
}

#[test]
fn settings_beyond_memory_are_refused_to_the_port() {
    let config = defaults(1, 16, 16);
    let (payload_size, most) = (usize::MAX - 15, usize::MAX);
    let segment = PUBLISHER_CREATE_ERROR_UNABLE_TO_CREATE_DATA_SEGMENT;
    for huge in [
        Config {
            payload_size,
            ..config
        },
        Config {
            history_size: most,
            subscriber_max_borrowed_samples: most,
            ..config
        },
    ] {
        let mut domain = domain_of(&huge);
        refused(segment, |outs| unsafe {
            iox2ps_publisher_create(&mut domain, &mut outs.publisher)
        });
        destroy(&mut domain);
    }
    let mut domain = domain_of(&config);
    let (options, subscriber_options) = options_of(&config);
    for huge in [
        PublisherOptions {
            max_loaned_samples: most,
            ..options
        },
        PublisherOptions {
            initial_max_slice_len: payload_size,
            ..options
        },
    ] {
        refused(segment, |outs| unsafe {
            iox2ps_publisher_create_with(&mut domain, &huge, &mut outs.publisher)
        });
    }
    for buffer_size in [3, most] {
        let huge = SubscriberOptions {
            buffer_size,
            ..subscriber_options
        };
        refused(
            SUBSCRIBER_CREATE_ERROR_BUFFER_SIZE_EXCEEDS_MAX,
            |outs| unsafe {
                iox2ps_subscriber_create_with(&mut domain, &huge, &mut outs.subscriber)
            },
        );
    }
    destroy(&mut domain);
}

#[test]
fn slots_that_no_number_counts_are_refused() {
    let config = Config {
        max_subscribers: usize::MAX,
        ..defaults(1, 8, 8)
    };
    refused(WORST_CASE_TOO_LARGE, |outs| unsafe {
        iox2ps_worst_case_slots(&config, 6, &mut outs.count)
    });
}

// ---- texts

fn text(code: u32) -> &'static str {
    let (mut start, mut len) = (null(), 0);
    // SAFETY: the text is in the archive for good.
    let bytes = unsafe {
        iox2ps_error_text_at(code, &mut start, &mut len);
        assert_eq!(*start.add(len), 0);
        slice::from_raw_parts(start, len)
    };
    std::str::from_utf8(bytes).unwrap()
}

#[test]
fn each_code_has_a_text_that_no_other_has() {
    let codes = (0..=7)
        .chain(9..=13)
        .chain(20..=27)
        .chain([30])
        .chain(34..=37);
    let codes = codes
        .chain(44..=47)
        .chain(50..=53)
        .chain(60..=63)
        .chain(70..=71)
        .chain(80..=89)
        .chain(100..=104);
    let codes: HashSet<u32> = codes.collect();
    let no_code = text(u32::MAX);
    let mut texts = HashSet::from([no_code]);
    for code in 0..200 {
        assert!(!text(code).is_empty());
        assert_eq!(codes.contains(&code), texts.insert(text(code)), "{code}");
        assert_eq!(codes.contains(&code), text(code) != no_code, "{code}");
    }
}

// ---- structs

#[test]
fn the_structs_are_as_large_as_the_headers() {
    assert_eq!(size_of::<Domain>(), 8);
    assert_eq!(size_of::<Config>(), 128);
    assert_eq!(size_of::<PublisherOptions>(), 48);
    assert_eq!(size_of::<SubscriberOptions>(), 24);
    assert_eq!(size_of::<Publisher>(), 56);
    assert_eq!(size_of::<Subscriber>(), 48);
    assert_eq!(size_of::<Loan>(), 72);
    assert_eq!(size_of::<Blocked>(), 72);
    assert_eq!(size_of::<Sample>(), 88);
    assert_eq!(size_of::<Header>(), 40);
    assert_eq!(size_of::<Warning>(), 40);
}
