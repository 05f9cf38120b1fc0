// SPDX-License-Identifier: Apache-2.0 OR MIT
//! Calls on the channels of connections, by handles of one thread and of many, that count or borrow.

use iox2_pubsub::{
    BackpressureStrategy, ChannelError, ChannelId, ChannelState, ConnectionId, Domain, SendError,
    Subscriber, Threads, UniqueSubscriberId, CHANNEL_STATE_CLOSED, CHANNEL_STATE_OPEN,
};
use std::collections::{BTreeSet, HashSet};
use std::thread;
use std::time::Duration;

// The channel to which sends go.
const FIRST: ChannelId = ChannelId::new(0);

fn channel(number: usize) -> ChannelId {
    ChannelId::new(number)
}

fn connection(number: usize) -> ConnectionId {
    ConnectionId::new(number)
}

fn state(number: u64) -> ChannelState {
    ChannelState::new(number)
}

macro_rules! by_each_kind {
    ($test:ident) => {{
        let of_one = Domain::<u64>::builder(1).create().unwrap();
        $test(&of_one);
        $test(&of_one.borrowed());
        let of_many = Domain::<u64>::builder(1).create_shared().unwrap();
        $test(&of_many);
        $test(&of_many.borrowed());
    }};
}

fn a_connection_is_named_by_the_place<M: Threads>(domain: &Domain<u64, M>) {
    let publisher = domain.publisher().unwrap();
    let subscribers = [domain.subscriber().unwrap(), domain.subscriber().unwrap()];
    publisher.update_connections().unwrap();
    for (place, subscriber) in subscribers.iter().enumerate() {
        assert_eq!(
            publisher.get_connection_id_of(subscriber.id()),
            Some(connection(place))
        );
    }
    for nobody in [0, publisher.id().value(), u128::MAX] {
        let nobody = UniqueSubscriberId::from_value(nobody);
        assert_eq!(publisher.get_connection_id_of(nobody), None);
    }
}

#[test]
fn connections_are_named_by_places() {
    by_each_kind!(a_connection_is_named_by_the_place);
}

// A publisher has its connections after its own update, which its creation makes too, and the creation of a subscriber
// where threads share the domain.
#[test]
fn a_connection_is_there_when_its_publisher_made_it() {
    let domain = Domain::<u64>::builder(1).create().unwrap();
    let (publisher, subscriber) = (domain.publisher().unwrap(), domain.subscriber().unwrap());
    assert_eq!(publisher.get_connection_id_of(subscriber.id()), None);
    let domain = Domain::<u64>::builder(1).create_shared().unwrap();
    let (publisher, subscriber) = (domain.publisher().unwrap(), domain.subscriber().unwrap());
    assert_eq!(
        publisher.get_connection_id_of(subscriber.id()),
        Some(connection(0))
    );
}

fn a_new_channel_has_no_hint<M: Threads>(domain: &Domain<u64, M>) {
    let subscriber = domain.subscriber().unwrap();
    let some_is = |state| {
        subscriber
            .at_least_one_channel_has_state(FIRST, state)
            .unwrap()
    };
    assert!(!some_is(CHANNEL_STATE_OPEN));
    let publisher = domain.publisher().unwrap();
    assert!(!some_is(CHANNEL_STATE_OPEN));
    assert!(!subscriber.has_samples().unwrap());
    assert!(some_is(CHANNEL_STATE_OPEN) && !some_is(CHANNEL_STATE_CLOSED) && !some_is(state(5)));

    let is = |at, state| {
        let at = connection(at);
        publisher.has_channel_state(FIRST, at, state).unwrap()
    };
    assert!(is(0, CHANNEL_STATE_OPEN) && !is(0, CHANNEL_STATE_CLOSED) && !is(0, state(5)));
    assert!(!is(1, CHANNEL_STATE_OPEN) && !is(usize::MAX, CHANNEL_STATE_OPEN));
    let has_hint = publisher.has_disconnect_hint(FIRST, connection(0), CHANNEL_STATE_OPEN);
    assert_eq!(has_hint, Ok(false));
}

#[test]
fn a_new_channel_is_open_and_has_no_hint() {
    by_each_kind!(a_new_channel_has_no_hint);
}

fn a_closed_channel_takes_no_message<M: Threads>(domain: &Domain<u64, M>) {
    let subscribers = [domain.subscriber().unwrap(), domain.subscriber().unwrap()];
    let publisher = domain.publisher().unwrap();
    let sent = |value| publisher.send_copy(value).unwrap().delivered();
    let [first, second] = &subscribers;
    assert_eq!(sent(1), Some(2));
    first.update_connections().unwrap();
    first.close_channel(FIRST, state(5)).unwrap();
    assert_eq!(sent(2), Some(2));
    first.close_channel(FIRST, CHANNEL_STATE_OPEN).unwrap();
    assert_eq!(sent(3), Some(1));
    publisher
        .close_channel(FIRST, connection(2), CHANNEL_STATE_OPEN)
        .unwrap();
    publisher
        .close_channel(FIRST, connection(1), CHANNEL_STATE_CLOSED)
        .unwrap();
    publisher
        .close_channel(FIRST, connection(1), CHANNEL_STATE_OPEN)
        .unwrap();
    assert_eq!(sent(4), Some(0));
    // What waits is received all the same.
    let rest = |of: &Subscriber<u64, M>| -> Vec<u64> { of.iter().map(|it| *it.unwrap()).collect() };
    assert_eq!((rest(first), rest(second)), (vec![1, 2], vec![2, 3]));
    assert_eq!(first.set_channel_state(FIRST, state(7)), Ok(true));
    assert_eq!(first.set_channel_state(FIRST, state(8)), Ok(false));
    assert!(publisher
        .has_channel_state(FIRST, connection(0), state(7))
        .unwrap());
    assert_eq!(sent(5), Some(1));
    assert_eq!(rest(first), [5]);
}

#[test]
fn a_closed_channel_takes_no_message_until_it_is_opened() {
    by_each_kind!(a_closed_channel_takes_no_message);
}

fn a_hint_goes_with_its_state<M: Threads>(domain: &Domain<u64, M>) {
    let publisher = domain.publisher().unwrap();
    let subscriber = domain.subscriber().unwrap();
    publisher.update_connections().unwrap();
    let has_hint = |state| {
        publisher
            .has_disconnect_hint(FIRST, connection(0), state)
            .unwrap()
    };
    subscriber.set_disconnect_hint(FIRST, state(3)).unwrap();
    assert!(!has_hint(CHANNEL_STATE_OPEN));
    subscriber
        .set_disconnect_hint(FIRST, CHANNEL_STATE_OPEN)
        .unwrap();
    assert!(has_hint(CHANNEL_STATE_OPEN) && !has_hint(state(3)));
    subscriber.close_channel(FIRST, CHANNEL_STATE_OPEN).unwrap();
    assert!(!has_hint(CHANNEL_STATE_CLOSED));
}

#[test]
fn a_hint_goes_with_the_state_in_which_it_was_set() {
    by_each_kind!(a_hint_goes_with_its_state);
}

// A send that waits for room is woken when the channel is closed, and goes past it.
#[test]
fn a_send_waits_no_longer_for_a_closed_channel() {
    let domain = Domain::<u64>::builder(1)
        .enable_safe_overflow(false)
        .subscriber_max_buffer_size(1)
        .create_shared()
        .unwrap();
    let subscriber = domain.subscriber().unwrap();
    let publisher = domain.publisher().unwrap();
    subscriber.update_connections().unwrap();
    publisher.send_copy(1).unwrap().delivered();
    thread::scope(|scope| {
        let waits = scope.spawn(|| publisher.blocking_send_copy(2).unwrap().delivered());
        while !publisher.is_blocked() {
            thread::yield_now();
        }
        subscriber.close_channel(FIRST, CHANNEL_STATE_OPEN).unwrap();
        assert_eq!(waits.join().unwrap(), Some(0));
    });
    assert_eq!(subscriber.receive_copy().unwrap(), Some(1));
}

fn channels_are_numbered<M: Threads>(domain: &Domain<u64, M>) {
    let (publisher, subscriber) = (domain.publisher().unwrap(), domain.subscriber().unwrap());
    let refused = Err(ChannelError::NoSuchChannel);
    let nowhere = connection(0);
    for channel in [1, 2, usize::MAX].map(channel) {
        assert_eq!(
            publisher.has_channel_state(channel, nowhere, state(0)),
            refused
        );
        assert_eq!(
            publisher.has_disconnect_hint(channel, nowhere, state(0)),
            refused
        );
        assert_eq!(
            subscriber.at_least_one_channel_has_state(channel, state(0)),
            refused
        );
        assert_eq!(subscriber.set_channel_state(channel, state(0)), refused);
        let refused = Err(ChannelError::NoSuchChannel);
        assert_eq!(publisher.close_channel(channel, nowhere, state(0)), refused);
        assert_eq!(subscriber.close_channel(channel, state(0)), refused);
        assert_eq!(subscriber.set_disconnect_hint(channel, state(0)), refused);
    }
    let text = ChannelError::NoSuchChannel.to_string();
    assert_eq!(text, "a connection has no channel with this number");
}

#[test]
fn a_connection_has_channel_0_alone() {
    by_each_kind!(channels_are_numbered);
}

fn a_closed_channel_passes_messages_by<M: Threads>(domain: &Domain<u64, M>) {
    let subscriber = domain.subscriber().unwrap();
    let publisher = domain.publisher().unwrap();
    assert_eq!(subscriber.set_channel_state(FIRST, state(9)), Ok(true));
    let some_is = |channel| subscriber.at_least_one_channel_has_state(channel, CHANNEL_STATE_OPEN);
    assert_eq!(some_is(FIRST), Ok(false));
    subscriber.update_connections().unwrap();
    assert_eq!(
        publisher.get_connection_id_of(subscriber.id()),
        Some(connection(0))
    );
    assert_eq!(
        publisher.get_connection_id_of(UniqueSubscriberId::from_value(7)),
        None
    );
    assert_eq!(some_is(channel(1)), Ok(true));
    let is = |state| {
        publisher
            .has_channel_state(FIRST, connection(0), state)
            .unwrap()
    };
    let is_hinted = |state| {
        publisher
            .has_disconnect_hint(FIRST, connection(0), state)
            .unwrap()
    };
    let sent = |value| publisher.send_copy(value).unwrap().delivered();

    subscriber.close_channel(FIRST, state(5)).unwrap();
    assert!(is(CHANNEL_STATE_OPEN));
    subscriber.close_channel(FIRST, CHANNEL_STATE_OPEN).unwrap();
    assert!(is(CHANNEL_STATE_CLOSED));
    assert_eq!(sent(1), Some(0));
    assert_eq!(subscriber.receive_copy().unwrap(), None);
    assert_eq!(subscriber.set_channel_state(FIRST, state(7)), Ok(true));
    assert_eq!(sent(2), Some(1));

    subscriber
        .set_disconnect_hint(FIRST, CHANNEL_STATE_OPEN)
        .unwrap();
    assert!(!is_hinted(state(7)));
    subscriber.set_disconnect_hint(FIRST, state(7)).unwrap();
    assert!(is_hinted(state(7)));
    assert_eq!(subscriber.set_channel_state(FIRST, state(3)), Ok(false));
    assert!(is(state(7)) && is_hinted(state(7)));
    publisher
        .close_channel(FIRST, connection(0), state(7))
        .unwrap();
    assert!(!is_hinted(CHANNEL_STATE_CLOSED));
    assert_eq!(subscriber.receive_copy().unwrap(), Some(2));

    let sent_to = |value, place| {
        let loan = publisher.loan_uninit().unwrap().write_payload(value);
        let sent = loan.deliver_offset_to_connection(channel(1), connection(place));
        sent.unwrap().delivered()
    };
    assert_eq!(sent_to(3, 0), Some(1));
    assert_eq!(sent_to(4, 0), Some(0));
    assert_eq!(sent_to(5, 5), Some(0));
    assert_eq!(subscriber.has_samples(), Ok(false));
}

#[test]
fn closed_channels_pass_messages_by() {
    let builder = || {
        Domain::<u64>::builder(1)
            .max_subscribers(1)
            .subscriber_max_buffer_size(1)
            .subscriber_max_borrowed_samples(1)
            .number_of_channels(2)
            .enable_safe_overflow(false)
            .backpressure_strategy(BackpressureStrategy::DiscardData)
    };
    a_closed_channel_passes_messages_by(&builder().create().unwrap());
    a_closed_channel_passes_messages_by(&builder().create_shared().unwrap());
}

// Messages go to channel 0 alone, and no call on one channel changes another.
fn a_further_channel_has_its_own_state<M: Threads>(domain: &Domain<u64, M>) {
    let subscriber = domain.subscriber().unwrap();
    let publisher = domain.publisher().unwrap();
    subscriber.update_connections().unwrap();
    let here = connection(0);
    let is = |number, state| {
        let channel = channel(number);
        publisher.has_channel_state(channel, here, state).unwrap()
    };
    subscriber
        .close_channel(channel(2), CHANNEL_STATE_OPEN)
        .unwrap();
    assert!(is(0, CHANNEL_STATE_OPEN) && is(1, CHANNEL_STATE_OPEN) && is(2, CHANNEL_STATE_CLOSED));
    assert_eq!(publisher.send_copy(1).unwrap().delivered(), Some(1));

    subscriber
        .set_disconnect_hint(channel(1), CHANNEL_STATE_OPEN)
        .unwrap();
    let is_hinted =
        |number| publisher.has_disconnect_hint(channel(number), here, CHANNEL_STATE_OPEN);
    assert_eq!([is_hinted(0), is_hinted(1)], [Ok(false), Ok(true)]);
    publisher
        .close_channel(channel(1), connection(0), CHANNEL_STATE_OPEN)
        .unwrap();
    assert!(is(0, CHANNEL_STATE_OPEN) && is(1, CHANNEL_STATE_CLOSED));
    assert_eq!(subscriber.set_channel_state(channel(2), state(5)), Ok(true));
    assert_eq!(subscriber.set_channel_state(FIRST, state(5)), Ok(false));
    assert_eq!(
        subscriber.close_channel(channel(3), state(0)),
        Err(ChannelError::NoSuchChannel)
    );

    subscriber.close_channel(FIRST, CHANNEL_STATE_OPEN).unwrap();
    assert_eq!(publisher.send_copy(2).unwrap().delivered(), Some(0));
}

#[test]
fn further_channels_have_states_of_their_own() {
    let builder = || Domain::<u64>::builder(1).number_of_channels(3);
    let of_one = builder().create().unwrap();
    a_further_channel_has_its_own_state(&of_one);
    let of_many = builder().create_shared().unwrap();
    a_further_channel_has_its_own_state(&of_many.borrowed());
}

// A message to one connection waits for its subscriber alone.
fn a_message_goes_to_one<M: Threads>(domain: &Domain<u64, M>) {
    let (first, second) = (domain.subscriber().unwrap(), domain.subscriber().unwrap());
    let publisher = domain.publisher().unwrap();
    let to = publisher.get_connection_id_of(second.id()).unwrap();
    let sent_to = |value, number, connection| {
        let loan = publisher.loan_uninit().unwrap().write_payload(value);
        loan.deliver_offset_to_connection(channel(number), connection)
    };
    assert_eq!(sent_to(1, 0, to).unwrap().delivered(), Some(1));
    assert_eq!(sent_to(2, 1, to).err(), Some(SendError::NoSuchChannel));
    let blocked = sent_to(3, 0, to).unwrap().blocked().unwrap();
    assert_eq!(second.receive_copy().unwrap(), Some(1));
    assert_eq!(blocked.retry(Duration::ZERO).unwrap().delivered(), Some(1));
    let given_up = sent_to(4, 0, to).unwrap().blocked().unwrap().give_up();
    assert_eq!(given_up.unwrap().delivered(), Some(0));
    assert_eq!(second.receive_copy().unwrap(), Some(3));
    assert_eq!(second.receive_copy().unwrap(), None);
    assert_eq!(first.receive_copy().unwrap(), None);

    let lost = publisher.loan_uninit().unwrap().write_payload(5);
    drop(publisher);
    let gone = SendError::ConnectionBrokenSinceSenderNoLongerExists;
    assert_eq!(
        lost.deliver_offset_to_connection(FIRST, to).err(),
        Some(gone)
    );
}

#[test]
fn messages_go_to_one_connection() {
    let builder = || {
        Domain::<u64>::builder(1)
            .subscriber_max_buffer_size(1)
            .enable_safe_overflow(false)
    };
    a_message_goes_to_one(&builder().create().unwrap());
    a_message_goes_to_one(&builder().create_shared().unwrap().borrowed());
}

// Ids are keys of maps, are shown, and come back from their numbers.
#[test]
fn ids_are_ordered_hashed_and_shown() {
    let domain = Domain::<u64>::builder(1).create().unwrap();
    let publishers = [domain.publisher().unwrap(), domain.publisher().unwrap()];
    let ids = || publishers.iter().map(|publisher| publisher.id());
    assert_eq!(ids().collect::<BTreeSet<_>>().len(), 2);
    assert_eq!(ids().collect::<HashSet<_>>().len(), 2);
    let subscriber = domain.subscriber().unwrap();
    let id = subscriber.id();
    assert_eq!(UniqueSubscriberId::from_value(id.value()), id);
    assert_eq!(id.to_string(), id.value().to_string());
    assert_eq!(
        [format!("{:>3}", channel(7)), connection(8).to_string()],
        ["  7", "8"]
    );
    assert_eq!(format!("{:?}", state(9)), "ChannelState(9)");
    assert_eq!(ChannelId::default(), FIRST);
}
