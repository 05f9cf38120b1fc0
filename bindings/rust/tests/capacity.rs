// SPDX-License-Identifier: Apache-2.0 OR MIT
//! How many messages a reader takes at a time, where it is told a number.

use iox2_pubsub::{Domain, DomainBuilder, Subscriber};

fn settings() -> DomainBuilder<u64> {
    Domain::<u64>::builder(1)
        .subscriber_max_buffer_size(100)
        .subscriber_max_borrowed_samples(100)
}

// How many it takes of 200 messages that wait, half of them of another publisher.
fn takes(capacity: usize) -> usize {
    let domain = settings().create().unwrap();
    let publishers = [domain.publisher().unwrap(), domain.publisher().unwrap()];
    let subscriber = domain.subscriber().unwrap();
    for number in 0..100 {
        for publisher in &publishers {
            publisher.send_copy(number).unwrap().delivered();
        }
    }
    let mut reader = subscriber.reader_with_capacity(capacity);
    assert!(reader.receive().unwrap().is_some());
    1 + reader.unread()
}

#[test]
fn a_reader_takes_what_it_is_told_and_no_more_than_there_is() {
    let told = [0, 1, 2, 64, 65, 150, 200, 201, 1 << 40, usize::MAX];
    assert_eq!(told.map(takes), [1, 1, 2, 64, 65, 150, 200, 200, 200, 200]);
}

fn reads(subscriber: &Subscriber<u64>) {
    for capacity in [usize::MAX, usize::MAX / 2, 1 << 60, 1 << 40] {
        let mut reader = subscriber.reader_with_capacity(capacity);
        assert_eq!(reader.receive().unwrap(), None);
        assert_eq!(reader.unread(), 0);
    }
}

#[test]
fn a_reader_of_a_domain_of_the_greatest_settings_is_made() {
    let greatest = usize::MAX;
    let all = [
        settings().max_publishers(greatest),
        settings().subscriber_max_borrowed_samples(greatest),
        settings().subscriber_expired_connection_buffer(greatest),
        settings().subscriber_max_borrowed_samples(0),
    ];
    for settings in all {
        let domain = settings.create().unwrap();
        let publisher = domain.publisher();
        let subscriber = domain.subscriber().unwrap();
        reads(&subscriber);
        drop(publisher);
    }
}
