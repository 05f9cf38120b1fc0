// SPDX-License-Identifier: Apache-2.0 OR MIT
//! Ports, loans, samples and blocked sends, by safe Rust alone.

use iox2_pubsub::{
    AllocationStrategy, BackpressureAction, BackpressureStrategy, ConnectionFailure, Domain,
    LoanError, PublisherCreateError, ReceiveError, SendError, SubscriberCreateError,
};
use std::error::Error;
use std::time::Duration;

#[derive(Clone, Copy, Debug, Default, PartialEq)]
struct Pose {
    at: [f64; 3],
    stamp: u64,
    is_valid: bool,
}

fn pose(stamp: u64) -> Pose {
    Pose {
        at: [stamp as f64, 0.5, -1.0],
        stamp,
        is_valid: true,
    }
}

#[test]
fn a_value_is_written_in_place_and_read_in_place() {
    let domain = Domain::<Pose>::builder(1).create().unwrap();
    let publisher = domain.publisher().unwrap();
    let subscriber = domain.subscriber().unwrap();
    let mut loan = publisher.loan().unwrap();
    assert_eq!(*loan, Pose::default());
    let written = &mut *loan as *mut Pose as *const Pose;
    *loan = pose(3);
    loan.at[1] = 7.0;
    let number = loan.number();
    assert_eq!(loan.send().unwrap().delivered(), Some(1));

    let sample = subscriber.receive().unwrap().unwrap();
    assert_eq!(
        *sample,
        Pose {
            at: [3.0, 7.0, -1.0],
            ..pose(3)
        }
    );
    assert_eq!(&*sample as *const Pose, written);
    assert_eq!(
        (sample.origin(), sample.subscriber()),
        (publisher.id(), subscriber.id())
    );
    assert_eq!(sample.number(), number);
}

#[test]
fn messages_come_in_order_and_stay_where_they_are() {
    let domain = Domain::<u64>::builder(2)
        .subscriber_max_buffer_size(4)
        .subscriber_max_borrowed_samples(2)
        .create()
        .unwrap();
    let publisher = domain.publisher().unwrap();
    let subscriber = domain.subscriber().unwrap();
    for n in 0..3 {
        assert_eq!(publisher.send_copy(n).unwrap().delivered(), Some(1));
    }
    let first = subscriber.receive().unwrap().unwrap();
    let second = subscriber.receive().unwrap().unwrap();
    assert_eq!(
        subscriber.receive().unwrap_err(),
        ReceiveError::ExceedsMaxBorrows
    );
    let at = &*first as *const u64;
    for n in 10..200 {
        publisher.send_copy(n).unwrap().delivered();
    }
    assert_eq!((*first, *second), (0, 1));
    assert_eq!(&*first as *const u64, at);
    drop(second);
    assert_eq!(*subscriber.receive().unwrap().unwrap(), 196);
}

#[test]
fn what_waits_is_iterated_and_ends_with_a_refusal() {
    let domain = Domain::<u32>::builder(3)
        .subscriber_max_buffer_size(8)
        .subscriber_max_borrowed_samples(3)
        .create()
        .unwrap();
    let publisher = domain.publisher().unwrap();
    let subscriber = domain.subscriber().unwrap();
    for n in 0..5 {
        publisher.send_copy(n).unwrap().delivered();
    }
    let mut held = Vec::new();
    let mut refusals = Vec::new();
    for sample in &subscriber {
        match sample {
            Ok(sample) => held.push(sample),
            Err(error) => refusals.push(error),
        }
    }
    assert_eq!(
        held.iter().map(|sample| **sample).collect::<Vec<_>>(),
        [0, 1, 2]
    );
    assert_eq!(refusals, [ReceiveError::ExceedsMaxBorrows]);
    held.clear();
    let rest: Vec<u32> = subscriber.iter().map(|sample| *sample.unwrap()).collect();
    assert_eq!(rest, [3, 4]);
    assert!(subscriber.iter().next().is_none());
    assert!(!subscriber.has_samples().unwrap());
}

#[test]
fn slices_have_the_length_of_their_loan() {
    let domain = Domain::<[u16]>::slice_builder(4)
        .max_slice_len(100)
        .create()
        .unwrap();
    let publisher = domain.publisher().unwrap();
    let subscriber = domain.subscriber().unwrap();
    assert_eq!(publisher.initial_max_slice_len(), 100);
    let mut loan = publisher.loan_slice(3).unwrap();
    assert_eq!(loan[..], [0, 0, 0]);
    loan[1] = 5;
    loan.send().unwrap().delivered();
    publisher.send_slice_copy(&[1; 100]).unwrap().delivered();
    assert_eq!(subscriber.receive().unwrap().unwrap()[..], [0, 5, 0]);
    assert_eq!(subscriber.receive().unwrap().unwrap()[..], [1; 100]);
    let squares = publisher
        .loan_slice_uninit(4)
        .unwrap()
        .write_from_fn(|i| (i * i) as u16);
    squares.send().unwrap().delivered();
    assert_eq!(subscriber.receive().unwrap().unwrap()[..], [0, 1, 4, 9]);
}

#[test]
fn lengths_of_none_of_the_limit_and_beyond() {
    let domain = Domain::<[u64]>::slice_builder(5)
        .max_slice_len(8)
        .create()
        .unwrap();
    let publisher = domain.publisher().unwrap();
    let subscriber = domain.subscriber().unwrap();
    assert_eq!(publisher.send_slice_copy(&[]).unwrap().delivered(), Some(1));
    assert_eq!(
        publisher.send_slice_copy(&[3; 8]).unwrap().delivered(),
        Some(1)
    );
    for len in [9, usize::MAX / 8, usize::MAX / 8 + 1, usize::MAX] {
        assert_eq!(
            publisher.loan_slice_uninit(len).err(),
            Some(LoanError::ExceedsMaxLoanSize)
        );
    }
    assert_eq!(subscriber.receive().unwrap().unwrap().len(), 0);
    assert_eq!(subscriber.receive().unwrap().unwrap()[..], [3; 8]);
    assert!(subscriber.receive().unwrap().is_none());

    let too_long = domain
        .publisher_builder()
        .initial_max_slice_len(usize::MAX)
        .create();
    assert_eq!(
        too_long.err(),
        Some(PublisherCreateError::UnableToCreateDataSegment)
    );
}

#[test]
fn a_message_may_have_no_bytes() {
    let domain = Domain::<()>::builder(6).create().unwrap();
    let publisher = domain.publisher().unwrap();
    let subscriber = domain.subscriber().unwrap();
    assert_eq!(publisher.send_copy(()).unwrap().delivered(), Some(1));
    assert_eq!(*subscriber.receive().unwrap().unwrap(), ());
}

#[test]
fn alignments_up_to_16_are_kept() {
    #[derive(Clone, Copy)]
    #[repr(align(16))]
    struct Block([u8; 48]);

    let domain = Domain::<Block>::builder(7).create().unwrap();
    let publisher = domain.publisher().unwrap();
    let subscriber = domain.subscriber().unwrap();
    publisher.send_copy(Block([9; 48])).unwrap().delivered();
    let sample = subscriber.receive().unwrap().unwrap();
    assert_eq!(&*sample as *const Block as usize % 16, 0);
    assert_eq!(sample.0, [9; 48]);
}

#[test]
fn samples_and_ports_outlive_the_domain_that_made_them() {
    let domain = Domain::<u8>::builder(8).create().unwrap();
    let publisher = domain.publisher().unwrap();
    let subscriber = domain.subscriber().unwrap();
    drop(domain);
    publisher.send_copy(5).unwrap().delivered();
    let sample = subscriber.receive().unwrap().unwrap();
    drop(publisher);
    drop(subscriber);
    assert_eq!(*sample, 5);
}

#[test]
fn a_port_that_is_dropped_makes_room() {
    let domain = Domain::<u8>::builder(9)
        .max_publishers(1)
        .max_subscribers(1)
        .create()
        .unwrap();
    let publisher = domain.publisher().unwrap();
    let refused = domain.publisher().err().unwrap();
    assert_eq!(refused, PublisherCreateError::ExceedsMaxSupportedPublishers);
    drop(publisher);
    assert!(domain.publisher().is_ok());
    let subscriber = domain.subscriber().unwrap();
    let refused = domain.subscriber().err().unwrap();
    assert_eq!(
        refused,
        SubscriberCreateError::ExceedsMaxSupportedSubscribers
    );
    drop(subscriber);
    assert!(domain.subscriber().is_ok());
    let refused = domain
        .subscriber_builder()
        .buffer_size(3)
        .create()
        .err()
        .unwrap();
    assert_eq!(
        refused,
        SubscriberCreateError::BufferSizeExceedsMaxSupportedBufferSizeOfService
    );
}

#[test]
fn a_loan_that_is_dropped_makes_room() {
    let domain = Domain::<u8>::builder(10)
        .publisher_max_loaned_samples(1)
        .create()
        .unwrap();
    let publisher = domain.publisher().unwrap();
    let loan = publisher.loan_uninit().unwrap();
    assert_eq!(publisher.loan().err(), Some(LoanError::ExceedsMaxLoans));
    let refused = publisher.send_copy(1).unwrap_err();
    assert_eq!(refused, SendError::LoanError(LoanError::ExceedsMaxLoans));
    drop(loan);
    let written = publisher.loan().unwrap();
    drop(written);
    assert_eq!(publisher.send_copy(1).unwrap().delivered(), Some(0));
}

#[test]
fn a_loan_of_a_dropped_publisher_is_not_sent() {
    let domain = Domain::<u8>::builder(11).create().unwrap();
    let publisher = domain.publisher().unwrap();
    let loan = publisher.loan().unwrap();
    drop(publisher);
    let refused = loan.send().unwrap_err();
    assert_eq!(
        refused,
        SendError::ConnectionBrokenSinceSenderNoLongerExists
    );
}

#[test]
fn a_late_subscriber_gets_the_history() {
    let domain = Domain::<u8>::builder(12).history_size(1).create().unwrap();
    let publisher = domain.publisher().unwrap();
    publisher.send_copy(1).unwrap().delivered();
    publisher.send_copy(2).unwrap().delivered();
    let subscriber = domain.subscriber().unwrap();
    publisher.update_connections().unwrap();
    subscriber.update_connections().unwrap();
    assert!(subscriber.has_samples().unwrap());
    assert_eq!(*subscriber.receive().unwrap().unwrap(), 2);
    assert!(subscriber.receive().unwrap().is_none());
}

fn keeping(service_id: u128) -> Domain<u8> {
    let builder = Domain::builder(service_id).subscriber_max_buffer_size(1);
    builder.enable_safe_overflow(false).create().unwrap()
}

#[test]
fn a_blocked_send_is_tried_again() {
    let domain = keeping(13);
    let publisher = domain.publisher().unwrap();
    let subscriber = domain.subscriber().unwrap();
    assert_eq!(publisher.send_copy(1).unwrap().delivered(), Some(1));
    let waits = publisher.loan().unwrap();
    let blocked = publisher
        .send_copy(2)
        .unwrap()
        .blocked()
        .expect("the buffer is full");
    assert!(publisher.is_blocked());
    assert_eq!(blocked.publisher(), publisher.id());
    assert_eq!(blocked.subscriber(), subscriber.id());
    assert_eq!(publisher.loan().err(), Some(LoanError::PublisherIsBlocked));
    assert_eq!(
        publisher.update_connections(),
        Err(ConnectionFailure::PublisherIsBlocked)
    );
    let unsent = waits.send_or_keep().unwrap_err();
    assert_eq!(unsent.error(), SendError::PublisherIsBlocked);
    assert_eq!(
        publisher.send_copy(9).unwrap_err(),
        SendError::PublisherIsBlocked
    );
    let waits = unsent.into_loan().expect("the loan comes back");
    let blocked = blocked
        .retry(Duration::from_millis(1))
        .unwrap()
        .blocked()
        .expect("the buffer is still full");
    assert_eq!(*subscriber.receive().unwrap().unwrap(), 1);
    assert_eq!(blocked.retry(Duration::MAX).unwrap().delivered(), Some(1));
    assert_eq!(*subscriber.receive().unwrap().unwrap(), 2);
    assert_eq!(waits.send().unwrap().delivered(), Some(1));
    assert_eq!(*subscriber.receive().unwrap().unwrap(), 0);
}

#[test]
fn a_blocked_send_is_given_up_by_a_call_or_when_it_is_dropped() {
    let domain = keeping(14);
    let publisher = domain.publisher().unwrap();
    let full = [domain.subscriber().unwrap(), domain.subscriber().unwrap()];
    publisher.send_copy(1).unwrap().delivered();
    let blocked = publisher
        .send_copy(2)
        .unwrap()
        .blocked()
        .expect("both buffers are full");
    let blocked = blocked
        .give_up()
        .unwrap()
        .blocked()
        .expect("the other buffer is full");
    assert_eq!(blocked.give_up().unwrap().delivered(), Some(0));
    let blocked = publisher
        .send_copy(3)
        .unwrap()
        .blocked()
        .expect("both buffers are full");
    drop(blocked);
    assert!(!publisher.is_blocked());
    for subscriber in &full {
        assert_eq!(*subscriber.receive().unwrap().unwrap(), 1);
        assert!(subscriber.receive().unwrap().is_none());
    }
}

#[test]
fn a_publisher_that_is_dropped_while_it_is_blocked_closes_later() {
    let domain = Domain::<u8>::builder(15)
        .max_publishers(1)
        .subscriber_max_buffer_size(1)
        .enable_safe_overflow(false)
        .create()
        .unwrap();
    let publisher = domain.publisher().unwrap();
    let subscriber = domain.subscriber().unwrap();
    publisher.send_copy(1).unwrap().delivered();
    let blocked = publisher
        .send_copy(2)
        .unwrap()
        .blocked()
        .expect("the buffer is full");
    drop(publisher);
    assert!(domain.publisher().is_err());
    assert_eq!(*subscriber.receive().unwrap().unwrap(), 1);
    assert_eq!(blocked.retry(Duration::ZERO).unwrap().delivered(), Some(1));
    assert!(domain.publisher().is_ok());
    assert_eq!(*subscriber.receive().unwrap().unwrap(), 2);
}

#[test]
fn full_buffers_are_passed_over_or_fail_the_send() {
    let domain = keeping(16);
    let discards = domain
        .publisher_builder()
        .backpressure_strategy(BackpressureStrategy::DiscardData)
        .create()
        .unwrap();
    let fails = domain
        .publisher_builder()
        .set_backpressure_handler(BackpressureAction::DiscardDataAndFail)
        .create()
        .unwrap();
    assert_eq!(
        [
            discards.backpressure_strategy(),
            fails.backpressure_strategy()
        ],
        [
            BackpressureStrategy::DiscardData,
            BackpressureStrategy::RetryUntilDelivered
        ]
    );
    let _subscriber = domain.subscriber().unwrap();
    assert_eq!(discards.send_copy(1).unwrap().delivered(), Some(1));
    assert_eq!(discards.send_copy(2).unwrap().delivered(), Some(0));
    assert_eq!(fails.send_copy(1).unwrap().delivered(), Some(1));
    assert_eq!(fails.send_copy(2).unwrap_err(), SendError::UnableToDeliver);
}

#[test]
fn a_publisher_asks_for_fewer_slots() {
    let domain = Domain::<u8>::builder(18).create().unwrap();
    let builder = domain.publisher_builder().max_loaned_samples(2);
    let one_slot = builder
        .override_sample_preallocation(|worst| {
            assert_eq!(worst, 8 * (2 + 2) + 2);
            0
        })
        .create()
        .unwrap();
    let first = one_slot.loan().unwrap();
    assert_eq!(one_slot.loan().err(), Some(LoanError::OutOfMemory));
    drop(first);
    assert!(one_slot.loan().is_ok());

    let builder = domain.publisher_builder();
    let worst_case = builder
        .override_sample_preallocation(|worst| worst + 1)
        .create()
        .unwrap();
    let _first = worst_case.loan().unwrap();
    let _second = worst_case.loan().unwrap();
    assert_eq!(worst_case.loan().err(), Some(LoanError::ExceedsMaxLoans));
}

#[test]
fn a_publisher_grows() {
    let domain = Domain::<[u16]>::slice_builder(20).max_slice_len(2);
    let domain = domain.create().unwrap();
    let subscriber = domain.subscriber().unwrap();
    let fixed = domain.publisher().unwrap();
    assert_eq!(
        fixed.loan_slice(3).err(),
        Some(LoanError::ExceedsMaxLoanSize)
    );
    assert_eq!(
        fixed.loan_slice(usize::MAX).err(),
        Some(LoanError::ExceedsMaxLoanSize)
    );
    for strategy in [AllocationStrategy::BestFit, AllocationStrategy::PowerOfTwo] {
        let builder = domain.publisher_builder().allocation_strategy(strategy);
        let growing = builder.initial_max_slice_len(0).create().unwrap();
        growing
            .send_slice_copy(&[1, 2, 3, 4, 5])
            .unwrap()
            .delivered();
        let sample = subscriber.receive().unwrap().unwrap();
        let long = growing.loan_slice(1000).unwrap();
        assert_eq!(long.len(), 1000);
        drop(long);
        assert_eq!(
            growing.loan_slice(usize::MAX).err(),
            Some(LoanError::InternalFailure)
        );
        assert_eq!(&sample[..], &[1, 2, 3, 4, 5]);
    }
}

#[test]
fn a_header_says_where_a_message_comes_from() {
    let node = 5 << 64 | 6;
    let domain = Domain::<[u16]>::slice_builder(19).max_slice_len(3);
    let domain = domain.node_id(node).create().unwrap();
    let publishers = [domain.publisher().unwrap(), domain.publisher().unwrap()];
    let subscriber = domain.subscriber().unwrap();
    for publisher in &publishers {
        publisher.send_slice_copy(&[1, 2, 3]).unwrap().delivered();
        let header = subscriber.receive().unwrap().unwrap().header();
        assert_eq!(
            (header.node_id(), header.publisher_id()),
            (node, publisher.id())
        );
        assert_eq!(header.number_of_elements(), 3);
    }

    let domain = Domain::<Pose>::builder(20).create().unwrap();
    let (publisher, subscriber) = (domain.publisher().unwrap(), domain.subscriber().unwrap());
    publisher.send_copy(pose(1)).unwrap().delivered();
    let header = subscriber.receive().unwrap().unwrap().header();
    assert_eq!((header.node_id(), header.number_of_elements()), (0, 1));
}

#[test]
fn connections_and_books_are_counted() {
    let domain = Domain::<u8>::builder(21).create().unwrap();
    assert_eq!((domain.connection_count(), domain.book_count()), (0, 0));
    let publisher = domain.publisher().unwrap();
    let subscriber = domain.subscriber().unwrap();
    publisher.send_copy(1).unwrap().delivered();
    assert_eq!((domain.connection_count(), domain.book_count()), (1, 1));
    let sample = subscriber.receive().unwrap().unwrap();
    drop(publisher);
    assert!(subscriber.receive().unwrap().is_none());
    assert_eq!(domain.book_count(), 1);
    drop((sample, subscriber));
    assert_eq!((domain.connection_count(), domain.book_count()), (0, 0));
    assert_eq!(domain.refused_connections(), 0);
}

#[test]
fn errors_have_texts_and_causes() {
    let error = SendError::from(LoanError::ExceedsMaxLoans);
    assert!(!error.to_string().is_empty());
    assert_eq!(
        error.source().unwrap().to_string(),
        LoanError::ExceedsMaxLoans.to_string()
    );
    let error: Box<dyn Error> = Box::new(ReceiveError::ConnectionFailure(
        ConnectionFailure::OutOfMemory,
    ));
    assert!(error.source().is_some());
    assert_ne!(
        error.to_string(),
        ReceiveError::ExceedsMaxBorrows.to_string()
    );
}

#[test]
fn settings_say_how_many_slots_a_publisher_has() {
    let settings = Domain::<u8>::builder(17)
        .max_subscribers(2)
        .subscriber_max_buffer_size(3);
    let settings = settings.subscriber_max_borrowed_samples(4).history_size(5);
    assert_eq!(
        settings.publisher_max_loaned_samples(6).worst_case_slots(),
        Some(2 * (3 + 4) + 5 + 6)
    );
    assert_eq!(
        Domain::<u8>::builder(17)
            .max_subscribers(usize::MAX)
            .worst_case_slots(),
        None
    );
}
