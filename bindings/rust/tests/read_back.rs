// SPDX-License-Identifier: Apache-2.0 OR MIT
//! What a domain and its ports were made with is read back.

use iox2_pubsub::{
    AllocationStrategy, BackpressureAction, BackpressureStrategy, DegradationAction, Domain, NodeId,
};

#[derive(Clone, Copy)]
#[repr(align(16))]
struct Pose([u8; 48]);

#[test]
fn settings_of_a_domain() {
    let node = NodeId::from_value(9 << 64 | 10);
    let builder = Domain::<Pose>::builder(7 << 64 | 8).node_id(9 << 64 | 10);
    let builder = builder.max_publishers(11).max_subscribers(12);
    let builder = builder
        .subscriber_max_buffer_size(13)
        .subscriber_max_borrowed_samples(14);
    let builder = builder.history_size(5).number_of_channels(2);
    let builder = builder
        .subscriber_expired_connection_buffer(17)
        .publisher_max_loaned_samples(18);
    for (overflow, strategy) in [
        (true, BackpressureStrategy::RetryUntilDelivered),
        (false, BackpressureStrategy::DiscardData),
    ] {
        let domain = builder.clone().enable_safe_overflow(overflow);
        let domain = domain.backpressure_strategy(strategy).create().unwrap();
        let read = domain.static_config();
        assert_eq!((read.service_id(), read.node_id()), (7 << 64 | 8, node));
        assert_eq!((read.payload_size(), read.payload_alignment()), (48, 16));
        assert_eq!((read.max_publishers(), read.max_subscribers()), (11, 12));
        assert_eq!(read.subscriber_max_buffer_size(), 13);
        assert_eq!(read.subscriber_max_borrowed_samples(), 14);
        assert_eq!((read.history_size(), read.number_of_channels()), (5, 2));
        assert_eq!(read.subscriber_expired_connection_buffer(), 17);
        assert_eq!(read.publisher_max_loaned_samples(), 18);
        assert_eq!(read.enable_safe_overflow(), overflow);
        assert_eq!(read.backpressure_strategy(), strategy);
        assert_eq!(read, domain.static_config());
    }
    let _ = Pose([0; 48]).0;
}

#[test]
fn settings_of_a_publisher() {
    let domain = Domain::<[u64]>::slice_builder(7)
        .max_slice_len(4)
        .max_publishers(6)
        .publisher_max_loaned_samples(5)
        .backpressure_strategy(BackpressureStrategy::DiscardData)
        .create()
        .unwrap();
    let read = domain.publisher().unwrap().config();
    assert_eq!(
        (read.max_loaned_samples(), read.initial_max_slice_len()),
        (5, 4)
    );
    assert_eq!(read.preallocated_samples(), None);
    assert_eq!(
        read.backpressure_strategy(),
        BackpressureStrategy::DiscardData
    );
    assert_eq!(read.backpressure_handler(), None);
    assert_eq!(read.degradation_handler(), DegradationAction::Warn);
    assert_eq!(read.allocation_strategy(), AllocationStrategy::Static);

    let handlers = [
        BackpressureAction::FollowBackpressureyStrategy,
        BackpressureAction::Retry,
        BackpressureAction::DiscardData,
        BackpressureAction::DiscardDataAndFail,
    ];
    let degradations = [DegradationAction::Ignore, DegradationAction::DegradeAndFail];
    let strategies = [AllocationStrategy::BestFit, AllocationStrategy::PowerOfTwo];
    for (at, handler) in handlers.into_iter().enumerate() {
        let (degradation, strategy) = (degradations[at % 2], strategies[at / 2]);
        let builder = domain.publisher_builder().max_loaned_samples(3);
        let builder = builder
            .initial_max_slice_len(7)
            .override_sample_preallocation(|_| 2);
        let builder = builder.backpressure_strategy(BackpressureStrategy::RetryUntilDelivered);
        let builder = builder.set_backpressure_handler(handler);
        let builder = builder.set_degradation_handler(degradation);
        let publisher = builder.allocation_strategy(strategy).create().unwrap();
        let read = publisher.config();
        assert_eq!(
            (read.max_loaned_samples(), read.initial_max_slice_len()),
            (3, 7)
        );
        assert_eq!(read.preallocated_samples(), Some(2));
        assert_eq!(
            read.backpressure_strategy(),
            BackpressureStrategy::RetryUntilDelivered
        );
        assert_eq!(read.backpressure_handler(), Some(handler));
        assert_eq!(read.degradation_handler(), degradation);
        assert_eq!(read.allocation_strategy(), strategy);
        assert_eq!(read, publisher.config());
    }
}

#[test]
fn settings_of_a_subscriber() {
    let domain = Domain::<u64>::builder(7)
        .subscriber_max_buffer_size(5)
        .create()
        .unwrap();
    let read = domain.subscriber().unwrap().config();
    assert_eq!(
        (read.buffer_size(), read.degradation_handler()),
        (5, DegradationAction::Warn)
    );
    for (given, buffer_size) in [(0, 1), (3, 3)] {
        let builder = domain.subscriber_builder().buffer_size(given);
        let builder = builder.set_degradation_handler(DegradationAction::Ignore);
        let subscriber = builder.create().unwrap();
        let read = subscriber.config();
        assert_eq!(
            (read.buffer_size(), subscriber.buffer_size()),
            (buffer_size, buffer_size)
        );
        assert_eq!(read.degradation_handler(), DegradationAction::Ignore);
    }
}
