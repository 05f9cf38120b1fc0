// SPDX-License-Identifier: Apache-2.0 OR MIT
//! Publishers and subscribers, and the channels of their connections.

use super::domains::worst_case;
use super::model;
use super::{code, number, of_service, there, wide, Model};
use crate::*;
use std::cell::Cell;
use std::collections::VecDeque;
use std::mem::size_of_val;
use std::rc::Rc;

// The publisher of this handle, by its place.
pub(super) unsafe fn publisher_of<'d>(
    domain: *mut Domain,
    publisher: *const Publisher,
) -> Result<(&'d mut Model, usize), u32> {
    let model = of_service(domain, (*publisher).service_id)?;
    let at = model.publisher(number((*publisher).id)).ok_or(NOT_LIVE)?;
    Ok((model, at))
}

// An open subscriber.
pub(super) unsafe fn subscriber_of<'d>(
    domain: *mut Domain,
    subscriber: *const Subscriber,
) -> Result<(&'d mut Model, usize), u32> {
    let model = of_service(domain, (*subscriber).service_id)?;
    let at = model.subscriber(number((*subscriber).id)).ok_or(NOT_LIVE)?;
    match model.subscribers[at].as_ref().unwrap().is_open {
        true => Ok((model, at)),
        false => Err(NOT_LIVE),
    }
}

// The first place that is free, which is there from now on.
fn free_place<T>(places: &mut Vec<Option<T>>, most: usize) -> Option<usize> {
    let free = places.iter().position(Option::is_none);
    let at = free.unwrap_or(places.len());
    if at >= most {
        return None;
    }
    if at == places.len() {
        places.push(None);
    }
    Some(at)
}

// ---- publishers

#[no_mangle]
unsafe extern "C" fn iox2ps_publisher_create(
    domain: *mut Domain,
    publisher: *mut Publisher,
) -> u32 {
    let mut options = PublisherOptions::default();
    match there(domain) {
        Ok(model) => iox2ps_publisher_options_of(&model.config, &mut options),
        Err(code) => return code,
    }
    iox2ps_publisher_create_with(domain, &options, publisher)
}

// The code of the first option that is invalid.
fn sound(config: &Config, options: &PublisherOptions) -> Result<(), u32> {
    let len = options.initial_max_slice_len;
    let fits = len % config.payload_alignment == 0 && (options.allocation_strategy == 0 || len > 0);
    let wanted = [
        (
            options.struct_size == size_of_val(options),
            INVALID_STRUCT_SIZE,
        ),
        (fits, INVALID_INITIAL_MAX_SLICE_LEN),
        (
            options.backpressure_strategy <= 1,
            INVALID_BACKPRESSURE_STRATEGY,
        ),
        (
            options.backpressure_handler <= 4,
            INVALID_BACKPRESSURE_HANDLER,
        ),
        (options.degradation <= 2, INVALID_DEGRADATION),
        (
            options.allocation_strategy <= 2,
            INVALID_ALLOCATION_STRATEGY,
        ),
    ];
    let wrong = wanted.iter().find(|(holds, _)| !holds);
    wrong.map_or(Ok(()), |(_, code)| Err(*code))
}

fn slots(config: &Config, options: &PublisherOptions) -> Option<usize> {
    let worst = worst_case(config, options.max_loaned_samples)?;
    // There is nothing of more bytes than there are addresses.
    worst.checked_mul(options.initial_max_slice_len.max(1))?;
    Some(match options.preallocated_samples {
        0 => worst,
        asked => asked.min(worst),
    })
}

#[no_mangle]
unsafe extern "C" fn iox2ps_publisher_create_with(
    domain: *mut Domain,
    options: *const PublisherOptions,
    publisher: *mut Publisher,
) -> u32 {
    code(there(domain).and_then(|model| {
        let options = *options;
        *publisher = create_publisher(model, options)?;
        Ok(())
    }))
}

fn create_publisher(model: &mut Model, options: PublisherOptions) -> Result<Publisher, u32> {
    sound(&model.config, &options)?;
    let most = model.config.max_publishers;
    let at = free_place(&mut model.publishers, most)
        .ok_or(PUBLISHER_CREATE_ERROR_EXCEEDS_MAX_SUPPORTED_PUBLISHERS)?;
    let slots = slots(&model.config, &options)
        .ok_or(PUBLISHER_CREATE_ERROR_UNABLE_TO_CREATE_DATA_SEGMENT)?;
    let (id, held) = (model.next_port(), Rc::new(Cell::new(0)));
    model.books.push((id, held.clone()));
    model.publishers[at] = Some(model::Publisher {
        id,
        options,
        slots,
        is_due: true,
        history: VecDeque::new(),
        blocked: None,
        held,
    });
    model.subscribers_are_due();
    model.update_publisher(at);
    Ok(Publisher {
        service_id: model.config.service_id,
        id: wide(id),
        initial_max_slice_len: options.initial_max_slice_len,
        backpressure_strategy: options.backpressure_strategy,
        ..Publisher::default()
    })
}

// One of which no send waits.
pub(super) unsafe fn free_publisher<'d>(
    domain: *mut Domain,
    publisher: *const Publisher,
) -> Result<(&'d mut Model, usize), u32> {
    let (model, at) = publisher_of(domain, publisher)?;
    match model.publishers[at].as_ref().unwrap().blocked {
        Some(_) => Err(PUBLISHER_IS_BLOCKED),
        None => Ok((model, at)),
    }
}

#[no_mangle]
unsafe extern "C" fn iox2ps_publisher_close(
    domain: *mut Domain,
    publisher: *const Publisher,
) -> u32 {
    code(free_publisher(domain, publisher).map(|(model, at)| model.close_publisher(at)))
}

#[no_mangle]
unsafe extern "C" fn iox2ps_publisher_is_blocked(
    domain: *mut Domain,
    publisher: *const Publisher,
    is_blocked: *mut u32,
) -> u32 {
    code(publisher_of(domain, publisher).map(|(model, at)| {
        let publisher = model.publishers[at].as_ref().unwrap();
        *is_blocked = u32::from(publisher.blocked.is_some());
    }))
}

#[no_mangle]
unsafe extern "C" fn iox2ps_publisher_update_connections(
    domain: *mut Domain,
    publisher: *const Publisher,
) -> u32 {
    code(free_publisher(domain, publisher).map(|(model, at)| model.update_publisher(at)))
}

// ---- subscribers

#[no_mangle]
unsafe extern "C" fn iox2ps_subscriber_create(
    domain: *mut Domain,
    subscriber: *mut Subscriber,
) -> u32 {
    let mut options = SubscriberOptions::default();
    match there(domain) {
        Ok(model) => iox2ps_subscriber_options_of(&model.config, &mut options),
        Err(code) => return code,
    }
    iox2ps_subscriber_create_with(domain, &options, subscriber)
}

#[no_mangle]
unsafe extern "C" fn iox2ps_subscriber_create_with(
    domain: *mut Domain,
    options: *const SubscriberOptions,
    subscriber: *mut Subscriber,
) -> u32 {
    code(there(domain).and_then(|model| {
        *subscriber = create_subscriber(model, &*options)?;
        Ok(())
    }))
}

fn create_subscriber(model: &mut Model, options: &SubscriberOptions) -> Result<Subscriber, u32> {
    if options.struct_size != size_of_val(options) {
        return Err(INVALID_STRUCT_SIZE);
    }
    if options.degradation > 2 {
        return Err(INVALID_DEGRADATION);
    }
    if options.reserved != 0 {
        return Err(INVALID_RESERVED);
    }
    let most = model.config.max_subscribers;
    if options.buffer_size > model.config.subscriber_max_buffer_size {
        return Err(SUBSCRIBER_CREATE_ERROR_BUFFER_SIZE_EXCEEDS_MAX);
    }
    let at = free_place(&mut model.subscribers, most)
        .ok_or(SUBSCRIBER_CREATE_ERROR_EXCEEDS_MAX_SUPPORTED_SUBSCRIBERS)?;
    let id = model.next_port();
    model.subscribers[at] = Some(model::Subscriber {
        id,
        buffer_size: options.buffer_size.max(1),
        is_open: true,
        is_due: true,
    });
    model.publishers_are_due();
    model.update_subscriber(at);
    Ok(Subscriber {
        service_id: model.config.service_id,
        id: wide(id),
        place: 0,
        buffer_size: options.buffer_size,
    })
}

#[no_mangle]
unsafe extern "C" fn iox2ps_subscriber_close(
    domain: *mut Domain,
    subscriber: *const Subscriber,
) -> u32 {
    code(subscriber_of(domain, subscriber).map(|(model, at)| model.close_subscriber(at)))
}

#[no_mangle]
unsafe extern "C" fn iox2ps_subscriber_update_connections(
    domain: *mut Domain,
    subscriber: *const Subscriber,
) -> u32 {
    code(subscriber_of(domain, subscriber).and_then(|(model, at)| {
        let has_room = model.update_subscriber(at);
        has_room
            .then(|| ())
            .ok_or(CONNECTION_FAILURE_EXPIRED_BUFFER_FULL)
    }))
}

#[no_mangle]
unsafe extern "C" fn iox2ps_subscriber_has_samples(
    domain: *mut Domain,
    subscriber: *const Subscriber,
    waits: *mut u32,
) -> u32 {
    code(subscriber_of(domain, subscriber).and_then(|(model, at)| {
        if !model.update_subscriber(at) {
            return Err(CONNECTION_FAILURE_EXPIRED_BUFFER_FULL);
        }
        let ends = model.ends_of(number((*subscriber).id));
        *waits = u32::from(ends.iter().any(|&end| model.connections[end].waits()));
        Ok(())
    }))
}

// ---- channels

fn is_channel(model: &Model, channel: usize) -> Result<(), u32> {
    match channel < model.channel_count() {
        true => Ok(()),
        false => Err(NO_SUCH_CHANNEL),
    }
}

// That channel of each of the subscriber's connections.
unsafe fn channels_of<'d>(
    domain: *mut Domain,
    subscriber: *const Subscriber,
    channel: usize,
) -> Result<Vec<&'d mut model::Channel>, u32> {
    let (model, _) = subscriber_of(domain, subscriber)?;
    is_channel(model, channel)?;
    let ends = model.ends_of(number((*subscriber).id));
    let all = model.connections.iter_mut().enumerate();
    let own = all.filter(|(at, _)| ends.contains(at));
    Ok(own.map(|(_, one)| &mut one.channels[channel]).collect())
}

#[no_mangle]
unsafe extern "C" fn iox2ps_subscriber_at_least_one_channel_has_state(
    domain: *mut Domain,
    subscriber: *const Subscriber,
    channel: usize,
    state: u64,
    has_state: *mut u32,
) -> u32 {
    code(channels_of(domain, subscriber, channel).map(|channels| {
        *has_state = u32::from(channels.iter().any(|one| one.state == state));
    }))
}

#[no_mangle]
unsafe extern "C" fn iox2ps_subscriber_set_channel_state(
    domain: *mut Domain,
    subscriber: *const Subscriber,
    channel: usize,
    state: u64,
    were_closed: *mut u32,
) -> u32 {
    code(
        channels_of(domain, subscriber, channel).map(|mut channels| {
            let is_closed = |one: &&mut model::Channel| one.state == CHANNEL_STATE_CLOSED;
            *were_closed = u32::from(channels.iter().all(|one| is_closed(&one)));
            let closed = channels
                .iter_mut()
                .filter(|one| one.state == CHANNEL_STATE_CLOSED);
            closed.for_each(|one| one.change(state));
        }),
    )
}

#[no_mangle]
unsafe extern "C" fn iox2ps_subscriber_close_channel(
    domain: *mut Domain,
    subscriber: *const Subscriber,
    channel: usize,
    expected: u64,
) -> u32 {
    code(
        channels_of(domain, subscriber, channel).map(|mut channels| {
            let meant = channels.iter_mut().filter(|one| one.state == expected);
            meant.for_each(|one| one.change(CHANNEL_STATE_CLOSED));
        }),
    )
}

#[no_mangle]
unsafe extern "C" fn iox2ps_subscriber_set_disconnect_hint(
    domain: *mut Domain,
    subscriber: *const Subscriber,
    channel: usize,
    expected: u64,
) -> u32 {
    code(
        channels_of(domain, subscriber, channel).map(|mut channels| {
            let meant = channels.iter_mut().filter(|one| one.state == expected);
            meant.for_each(|one| one.has_hint = true);
        }),
    )
}

// That channel of one of the publisher's connections, where that is there.
unsafe fn channel_of<'d>(
    domain: *mut Domain,
    publisher: *const Publisher,
    channel: usize,
    connection: usize,
) -> Result<Option<&'d mut model::Channel>, u32> {
    let (model, _) = publisher_of(domain, publisher)?;
    is_channel(model, channel)?;
    let end = model.sender_end(number((*publisher).id), connection);
    Ok(end.map(|end| &mut model.connections[end].channels[channel]))
}

#[no_mangle]
unsafe extern "C" fn iox2ps_publisher_get_connection_id_of(
    domain: *mut Domain,
    publisher: *const Publisher,
    receiver_port_id: *const Wide,
    connection: *mut usize,
) -> u32 {
    code(publisher_of(domain, publisher).and_then(|(model, _)| {
        let (from, to) = (number((*publisher).id), number(*receiver_port_id));
        let mut all = model.connections.iter();
        let place = all.find_map(|one| {
            let is_it = (one.publisher, one.subscriber) == (from, to);
            one.sender.filter(|_| is_it)
        });
        *connection = place.ok_or(NO_CONNECTION)?;
        Ok(())
    }))
}

#[no_mangle]
unsafe extern "C" fn iox2ps_publisher_has_channel_state(
    domain: *mut Domain,
    publisher: *const Publisher,
    channel: usize,
    connection: usize,
    state: u64,
    has_state: *mut u32,
) -> u32 {
    code(
        channel_of(domain, publisher, channel, connection).map(|one| {
            *has_state = u32::from(matches!(one, Some(one) if one.state == state));
        }),
    )
}

#[no_mangle]
unsafe extern "C" fn iox2ps_publisher_has_disconnect_hint(
    domain: *mut Domain,
    publisher: *const Publisher,
    channel: usize,
    connection: usize,
    state: u64,
    has_hint: *mut u32,
) -> u32 {
    code(
        channel_of(domain, publisher, channel, connection).map(|one| {
            *has_hint = u32::from(matches!(one, Some(one) if one.state == state && one.has_hint));
        }),
    )
}

#[no_mangle]
unsafe extern "C" fn iox2ps_publisher_close_channel(
    domain: *mut Domain,
    publisher: *const Publisher,
    channel: usize,
    connection: usize,
    expected: u64,
) -> u32 {
    code(
        channel_of(domain, publisher, channel, connection).map(|one| {
            if let Some(one) = one.filter(|one| one.state == expected) {
                one.change(CHANNEL_STATE_CLOSED);
            }
        }),
    )
}
