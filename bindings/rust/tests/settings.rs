// SPDX-License-Identifier: Apache-2.0 OR MIT
//! Each setting and each answer of the crate by what it changes, so that one which is dropped, or exchanged
//! with another of its type, fails a test. `bindings/settings.toml` names the test of each.

use iox2_pubsub::{
    AllocationStrategy, BackpressureAction, BackpressureStrategy, ChannelId, ConnectionFailure,
    DegradationAction, Domain, DomainBuilder, LoanError, PublisherCreateError, ReceiveError,
    SendError, Subscriber, SubscriberCreateError, WarningKind, CHANNEL_STATE_OPEN,
};

// A connection with a buffer of this length needs more memory than there are addresses.
const TOO_LONG: usize = 1 << 50;

fn received(subscriber: &Subscriber<u8>) -> Vec<u8> {
    subscriber.iter().map(|sample| *sample.unwrap()).collect()
}

// ---- a domain's settings

// Settings of which no two are equal.
fn all_different() -> DomainBuilder<u8> {
    Domain::<u8>::builder(7)
        .max_publishers(3)
        .max_subscribers(4)
        .subscriber_max_buffer_size(5)
        .subscriber_max_borrowed_samples(6)
        .history_size(2)
        .number_of_channels(7)
        .subscriber_expired_connection_buffer(9)
        .publisher_max_loaned_samples(8)
}

#[test]
fn as_many_ports_as_the_settings_say() {
    let domain = all_different().create().unwrap();
    let publishers: Vec<_> = (0..3).map(|_| domain.publisher().unwrap()).collect();
    let refused = domain.publisher().err().unwrap();
    assert_eq!(refused, PublisherCreateError::ExceedsMaxSupportedPublishers);
    let subscribers: Vec<_> = (0..4).map(|_| domain.subscriber().unwrap()).collect();
    let refused = domain.subscriber().err().unwrap();
    assert_eq!(
        refused,
        SubscriberCreateError::ExceedsMaxSupportedSubscribers
    );
    drop((publishers, subscribers));
}

#[test]
fn as_many_messages_as_the_settings_say() {
    let domain = all_different().create().unwrap();
    let (publisher, other) = (domain.publisher().unwrap(), domain.publisher().unwrap());
    let loans: Vec<_> = (0..8).map(|_| publisher.loan().unwrap()).collect();
    assert_eq!(publisher.loan().err(), Some(LoanError::ExceedsMaxLoans));
    drop(loans);
    for byte in 1..=9 {
        publisher.send_copy(byte).unwrap().delivered();
    }
    let subscriber = domain.subscriber().unwrap();
    publisher.update_connections().unwrap();
    assert_eq!(received(&subscriber), [8, 9]);
    for byte in 1..=10 {
        other.send_copy(byte).unwrap().delivered();
    }
    assert_eq!(received(&subscriber), [6, 7, 8, 9, 10]);
    let mut samples = Vec::new();
    for byte in 0..6 {
        other.send_copy(byte).unwrap().delivered();
        samples.push(subscriber.receive().unwrap().unwrap());
    }
    other.send_copy(6).unwrap().delivered();
    let refused = subscriber.receive().unwrap_err();
    assert_eq!(refused, ReceiveError::ExceedsMaxBorrows);
    let slots = all_different().worst_case_slots();
    assert_eq!(slots, Some(4 * 7 * (5 + 6) + 2 + 8));
}

#[test]
fn as_many_channels_as_the_settings_say() {
    let domain = all_different().create().unwrap();
    let subscriber = domain.subscriber().unwrap();
    let _publisher = domain.publisher().unwrap();
    subscriber.update_connections().unwrap();
    for channel in 0..9 {
        let is_open =
            subscriber.at_least_one_channel_has_state(ChannelId::new(channel), CHANNEL_STATE_OPEN);
        assert_eq!(is_open.is_ok(), channel < 7);
    }
}

// Samples of closed publishers are kept, of one publisher more than is open at a time.
#[test]
fn as_many_closed_publishers_as_the_settings_say() {
    for kept in 1..=3 {
        let domain = Domain::<u8>::builder(7)
            .max_publishers(1)
            .subscriber_max_borrowed_samples(1)
            .subscriber_expired_connection_buffer(kept)
            .create()
            .unwrap();
        let subscriber = domain.subscriber().unwrap();
        let mut samples = Vec::new();
        for closed in 1..=kept + 1 {
            let publisher = domain.publisher().unwrap();
            publisher.send_copy(1).unwrap().delivered();
            samples.push(subscriber.receive().unwrap().unwrap());
            drop(publisher);
            let wanted = if closed <= kept {
                Ok(())
            } else {
                Err(ConnectionFailure::ExpiredConnectionBufferFull)
            };
            assert_eq!(subscriber.update_connections(), wanted);
        }
    }
}

#[test]
fn a_domain_and_its_node_have_their_numbers() {
    let (service, node) = (7 << 64 | 11, 12 << 64 | 13);
    let domain = Domain::<u8>::builder(service).node_id(node);
    let domain = domain.create().unwrap();
    assert_eq!(domain.service_id(), service);
    let (publisher, subscriber) = (domain.publisher().unwrap(), domain.subscriber().unwrap());
    publisher.send_copy(1).unwrap().delivered();
    let header = subscriber.receive().unwrap().unwrap().header();
    assert_eq!(header.node_id(), node);
}

#[test]
fn slices_are_as_long_as_the_settings_say() {
    let domain = Domain::<[u32]>::slice_builder(7).max_slice_len(12);
    let domain = domain.create().unwrap();
    let publisher = domain.publisher().unwrap();
    assert!(publisher.loan_slice(12).is_ok());
    let refused = publisher.loan_slice(13).err();
    assert_eq!(refused, Some(LoanError::ExceedsMaxLoanSize));
}

#[test]
fn as_much_is_recorded_as_the_settings_say() {
    let recording_of = |settings: DomainBuilder<u16>| {
        let domain = settings.create().unwrap();
        let (publisher, subscriber) = (domain.publisher().unwrap(), domain.subscriber().unwrap());
        publisher.send_copy(0x0201).unwrap().delivered();
        assert_eq!(*subscriber.receive().unwrap().unwrap(), 0x0201);
        domain.recording().unwrap()
    };
    let settings = || Domain::<u16>::builder(7);
    assert!(recording_of(settings()).text.is_empty());
    let one_byte = recording_of(settings().record(20, 1));
    assert!(!one_byte.text.is_empty() && one_byte.missed == 0);
    assert!(!one_byte.text.contains(" 1 = value 2\n"));
    let two_bytes = recording_of(settings().record(20, 2));
    assert!(two_bytes.text.contains(" 1 = value 2\n"));
    assert!(recording_of(settings().record(2, 20)).missed > 0);
}

// ---- full buffers

#[derive(Debug, PartialEq)]
enum Second {
    Blocked,
    Delivered,
    Discarded,
    Failed(SendError),
}

// What becomes of a message that a publisher sends to a buffer of one that is full.
fn second_send(
    settings: DomainBuilder<u8>,
    strategy: Option<BackpressureStrategy>,
    handler: Option<BackpressureAction>,
) -> Second {
    let domain = settings.subscriber_max_buffer_size(1).create().unwrap();
    let mut builder = domain.publisher_builder();
    if let Some(strategy) = strategy {
        builder = builder.backpressure_strategy(strategy);
    }
    if let Some(handler) = handler {
        builder = builder.set_backpressure_handler(handler);
    }
    let publisher = builder.create().unwrap();
    let subscriber = domain.subscriber().unwrap();
    assert_eq!(publisher.send_copy(1).unwrap().delivered(), Some(1));
    let sent = match publisher.send_copy(2) {
        Ok(sent) => sent,
        Err(error) => return Second::Failed(error),
    };
    match sent.delivered() {
        None => Second::Blocked,
        Some(0) => {
            assert_eq!(received(&subscriber), [1]);
            Second::Discarded
        }
        Some(_) => {
            assert_eq!(received(&subscriber), [2]);
            Second::Delivered
        }
    }
}

fn keeping(strategy: BackpressureStrategy) -> DomainBuilder<u8> {
    let settings = Domain::<u8>::builder(7).enable_safe_overflow(false);
    settings.backpressure_strategy(strategy)
}

#[test]
fn a_full_buffer_loses_a_message_where_it_overflows() {
    let overflows = Domain::<u8>::builder(7).enable_safe_overflow(true);
    assert_eq!(second_send(overflows, None, None), Second::Delivered);
    let keeps = Domain::<u8>::builder(7).enable_safe_overflow(false);
    assert_eq!(second_send(keeps, None, None), Second::Blocked);
}

#[test]
fn each_strategy_answers_at_a_full_buffer() {
    let retry = BackpressureStrategy::RetryUntilDelivered;
    let discard = BackpressureStrategy::DiscardData;
    assert_eq!(second_send(keeping(retry), None, None), Second::Blocked);
    assert_eq!(second_send(keeping(discard), None, None), Second::Discarded);
    let by_publisher = second_send(keeping(discard), Some(retry), None);
    assert_eq!(by_publisher, Second::Blocked);
    let by_publisher = second_send(keeping(retry), Some(discard), None);
    assert_eq!(by_publisher, Second::Discarded);
}

#[test]
fn each_handler_answers_at_a_full_buffer() {
    let retry = BackpressureStrategy::RetryUntilDelivered;
    let discard = BackpressureStrategy::DiscardData;
    for (strategy, followed) in [(retry, Second::Blocked), (discard, Second::Discarded)] {
        let sent = |action| second_send(keeping(strategy), None, Some(action));
        let follows = sent(BackpressureAction::FollowBackpressureyStrategy);
        assert_eq!(follows, followed);
        assert_eq!(sent(BackpressureAction::Retry), Second::Blocked);
        assert_eq!(sent(BackpressureAction::DiscardData), Second::Discarded);
        assert_eq!(
            sent(BackpressureAction::DiscardDataAndFail),
            Second::Failed(SendError::UnableToDeliver)
        );
    }
}

// ---- ports' options

#[test]
fn a_publisher_has_what_its_options_say() {
    let domain = Domain::<[u16]>::slice_builder(7).create().unwrap();
    let builder = || {
        let builder = domain.publisher_builder().max_loaned_samples(4);
        builder.initial_max_slice_len(5)
    };
    let publisher = builder().create().unwrap();
    let loans: Vec<_> = (0..4).map(|_| publisher.loan_slice(5).unwrap()).collect();
    let refused = publisher.loan_slice(5).err();
    assert_eq!(refused, Some(LoanError::ExceedsMaxLoans));
    drop(loans);
    let refused = publisher.loan_slice(6).err();
    assert_eq!(refused, Some(LoanError::ExceedsMaxLoanSize));
    let few_slots = builder().override_sample_preallocation(|_| 3);
    let few_slots = few_slots.create().unwrap();
    let _loans: Vec<_> = (0..3).map(|_| few_slots.loan_slice(5).unwrap()).collect();
    let refused = few_slots.loan_slice(5).err();
    assert_eq!(refused, Some(LoanError::OutOfMemory));
}

// How long a message is refused that is a value longer than the one before. Memory grows 254 times at most, by
// `BestFit` for each longer message, and by `PowerOfTwo` for those past a power of two.
#[test]
fn memory_grows_as_the_options_say() {
    let domain = Domain::<[u8]>::slice_builder(7).create().unwrap();
    let refused_length = |strategy| {
        let builder = domain.publisher_builder().allocation_strategy(strategy);
        let publisher = builder.create().unwrap();
        (1..600).find(|len| publisher.loan_slice(*len).is_err())
    };
    assert_eq!(refused_length(AllocationStrategy::Static), Some(2));
    assert_eq!(refused_length(AllocationStrategy::BestFit), Some(256));
    assert_eq!(refused_length(AllocationStrategy::PowerOfTwo), None);
}

#[test]
fn a_subscriber_has_the_buffer_that_its_options_say() {
    let domain = Domain::<u8>::builder(7).subscriber_max_buffer_size(9);
    let domain = domain.create().unwrap();
    let subscriber = domain.subscriber_builder().buffer_size(3).create().unwrap();
    let publisher = domain.publisher().unwrap();
    for byte in 1..=5 {
        publisher.send_copy(byte).unwrap().delivered();
    }
    assert_eq!(received(&subscriber), [3, 4, 5]);
}

// ---- connections that aren't made, and warnings

// The warnings of a domain whose last port, of two, is refused its connection, and answers this.
fn warnings_of_a_refusal(
    of_publisher: Option<DegradationAction>,
    of_subscriber: Option<DegradationAction>,
) -> Vec<WarningKind> {
    let domain = Domain::<u8>::builder(7).subscriber_max_buffer_size(TOO_LONG);
    let domain = domain.create().unwrap();
    let mut publishing = domain
        .publisher_builder()
        .override_sample_preallocation(|_| 1);
    let mut subscribing = domain.subscriber_builder();
    if let Some(action) = of_publisher {
        publishing = publishing.set_degradation_handler(action);
    }
    if let Some(action) = of_subscriber {
        subscribing = subscribing.set_degradation_handler(action);
    }
    let ports = if of_publisher.is_some() {
        let subscriber = subscribing.create().unwrap();
        (publishing.create().unwrap(), subscriber)
    } else {
        let publisher = publishing.create().unwrap();
        (publisher, subscribing.create().unwrap())
    };
    assert_eq!(domain.refused_connections(), 1);
    let warnings = domain.warnings();
    for warning in &warnings {
        let publisher = warning.publisher.unwrap_or_else(|| ports.0.id());
        let subscriber = warning.subscriber.unwrap_or_else(|| ports.1.id());
        assert_eq!((publisher, subscriber), (ports.0.id(), ports.1.id()));
        let failure = match warning.kind {
            WarningKind::ConnectionNotMade => None,
            _ => Some(ConnectionFailure::OutOfMemory),
        };
        assert_eq!(warning.failure, failure);
    }
    warnings.iter().map(|warning| warning.kind).collect()
}

#[test]
fn a_refused_connection_is_ignored_warned_of_or_fails_the_call() {
    let of_publisher = |action| warnings_of_a_refusal(Some(action), None);
    assert_eq!(of_publisher(DegradationAction::Ignore), []);
    let not_made = [WarningKind::ConnectionNotMade];
    assert_eq!(of_publisher(DegradationAction::Warn), not_made);
    let partly = [WarningKind::PublisherPartlyConnected];
    assert_eq!(of_publisher(DegradationAction::DegradeAndFail), partly);
    let of_subscriber = |action| warnings_of_a_refusal(None, Some(action));
    assert_eq!(of_subscriber(DegradationAction::Ignore), []);
    assert_eq!(of_subscriber(DegradationAction::Warn), not_made);
    let partly = [WarningKind::SubscriberPartlyConnected];
    assert_eq!(of_subscriber(DegradationAction::DegradeAndFail), partly);
}

#[test]
fn less_room_than_borrowed_samples_is_warned_of() {
    for borrowed in [3, 4] {
        let domain = Domain::<u8>::builder(7)
            .subscriber_expired_connection_buffer(3)
            .subscriber_max_borrowed_samples(borrowed)
            .create()
            .unwrap();
        let subscriber = domain.subscriber().unwrap();
        let warnings = domain.warnings();
        assert_eq!(warnings.len(), borrowed - 3);
        for warning in warnings {
            assert_eq!(warning.kind, WarningKind::ExpiredBufferRaised);
            assert_eq!(warning.subscriber, Some(subscriber.id()));
            assert_eq!((warning.publisher, warning.failure), (None, None));
        }
    }
}

// There is room for one closed publisher, and something waits of two of them.
#[test]
fn lost_messages_of_closed_publishers_are_warned_of() {
    let domain = Domain::<u8>::builder(7)
        .max_publishers(1)
        .subscriber_max_borrowed_samples(1)
        .subscriber_expired_connection_buffer(1)
        .create()
        .unwrap();
    let subscriber = domain.subscriber().unwrap();
    for sends in [true, true, false] {
        let publisher = domain.publisher().unwrap();
        subscriber.update_connections().unwrap();
        if sends {
            publisher.send_copy(1).unwrap().delivered();
        }
    }
    let kinds: Vec<_> = domain.warnings().iter().map(|it| it.kind).collect();
    assert_eq!(kinds, [WarningKind::ExpiredDataDiscarded]);
}
