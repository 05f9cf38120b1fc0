// SPDX-License-Identifier: Apache-2.0 OR MIT
//! What a program does that leaks, panics or asks for too much: safe code stays safe, and the domain goes on.

use iox2_pubsub::{Domain, DomainBuilder, LoanError, PublisherCreateError};
use std::mem::forget;
use std::panic::{catch_unwind, AssertUnwindSafe};

fn panics<R>(run: impl FnOnce() -> R) {
    assert!(catch_unwind(AssertUnwindSafe(run)).is_err());
}

#[test]
fn what_is_forgotten_counts_and_no_more() {
    let domain = Domain::<u64>::builder(1).create_shared().unwrap();
    let publisher = domain.publisher().unwrap();
    forget((publisher.loan().unwrap(), publisher.loan().unwrap()));
    assert_eq!(publisher.loan().err(), Some(LoanError::ExceedsMaxLoans));
    drop(publisher);
    let (publisher, subscriber) = (domain.publisher().unwrap(), domain.subscriber().unwrap());
    publisher.send_copy(1).unwrap().delivered();
    let mut reader = subscriber.reader();
    assert_eq!(reader.blocking_receive().unwrap(), Some(&1));
    forget(reader);
    publisher.send_copy(2).unwrap().delivered();
    assert_eq!(subscriber.receive_copy().unwrap(), Some(2));
}

#[test]
fn a_panic_gives_back_what_is_held() {
    let domain = Domain::<u64>::builder(1).create_shared().unwrap();
    let (publisher, subscriber) = (domain.publisher().unwrap(), domain.subscriber().unwrap());
    for _ in 0..3 {
        panics(|| {
            let _loan = publisher.loan_uninit().unwrap();
            let mut writer = publisher.writer();
            writer.send(1).unwrap().delivered();
            let mut reader = subscriber.reader();
            reader.receive().unwrap();
            panic!("the program's own");
        });
    }
    publisher.send_copy(7).unwrap().delivered();
    assert_eq!(subscriber.receive_copy().unwrap(), Some(7));
}

#[derive(Clone, Copy)]
struct Panics;

impl Default for Panics {
    fn default() -> Self {
        panic!("no value")
    }
}

#[test]
fn a_value_that_panics_gives_its_loan_back() {
    let domain = Domain::<Panics>::builder(1).create().unwrap();
    let publisher = domain.publisher().unwrap();
    for _ in 0..5 {
        panics(|| publisher.loan().map(drop));
    }
    assert!(publisher.loan_uninit().is_ok());
    let domain = Domain::<[u64]>::slice_builder(2).max_slice_len(4);
    let domain = domain.create().unwrap();
    let publisher = domain.publisher().unwrap();
    let lend = || publisher.loan_slice_uninit(4).unwrap();
    for _ in 0..5 {
        panics(|| lend().write_from_fn(|at| if at == 2 { panic!("no value") } else { 1 }));
        panics(|| lend().write_from_slice(&[1, 2]));
    }
    assert!(publisher.loan_slice_uninit(4).is_ok());
}

// Each setting as small and as large as it can be: it is refused by an error, or works.
#[test]
fn extreme_settings_are_refused_or_work() {
    type Set = fn(DomainBuilder<u64>, usize) -> DomainBuilder<u64>;
    let settings: [Set; 8] = [
        DomainBuilder::max_publishers,
        DomainBuilder::max_subscribers,
        DomainBuilder::subscriber_max_buffer_size,
        DomainBuilder::subscriber_max_borrowed_samples,
        DomainBuilder::history_size,
        DomainBuilder::number_of_channels,
        DomainBuilder::subscriber_expired_connection_buffer,
        DomainBuilder::publisher_max_loaned_samples,
    ];
    for set in settings {
        for value in [0, 1 << 40, usize::MAX / 2, usize::MAX] {
            let domain = set(Domain::<u64>::builder(1), value).create();
            let domain = match domain {
                Ok(domain) => domain,
                Err(_) => continue,
            };
            let (publisher, subscriber) = (domain.publisher(), domain.subscriber());
            if let Ok(publisher) = &publisher {
                let _ = publisher.send_copy(1).map(|sent| sent.delivered());
            }
            if let Ok(subscriber) = &subscriber {
                let _ = subscriber.receive_copy();
                let _ = subscriber.reader().receive().map(|got| got.copied());
            }
        }
    }
    let long = Domain::<[u16]>::slice_builder(1).max_slice_len(usize::MAX);
    let refused = long.create().unwrap().publisher().err();
    let wanted = Some(PublisherCreateError::UnableToCreateDataSegment);
    assert_eq!(refused, wanted);
}

#[test]
fn a_callback_and_a_listener_call_the_domain() {
    let domain = Domain::<u64>::builder(1).create_shared().unwrap();
    let inside = domain.clone();
    let publisher = domain
        .publisher_builder()
        .override_sample_preallocation(move |worst| {
            assert!(inside.warnings().is_empty());
            worst
        })
        .create()
        .unwrap();
    let subscriber = domain.subscriber().unwrap();
    subscriber.set_listener(|| panic!("the listener's own"));
    publisher.send_copy(1).unwrap().delivered();
    subscriber.clear_listener();
    assert_eq!(subscriber.receive_copy().unwrap(), Some(1));
}
