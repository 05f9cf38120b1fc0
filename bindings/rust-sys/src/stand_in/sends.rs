// SPDX-License-Identifier: Apache-2.0 OR MIT
//! Loans, sends, receives and samples.

use super::message::Message;
use super::model::{push, Borrowed, Sending};
use super::ports::{free_publisher, subscriber_of};
use super::{code, number, of_service, wide, Model};
use crate::*;
use std::ptr::copy_nonoverlapping;
use std::rc::Rc;

// ---- loans

// Lends a message of this publisher.
fn lend(model: &mut Model, at: usize, len: usize, is_zeroed: bool) -> Result<Rc<Message>, u32> {
    let publisher = model.publishers[at].as_ref().unwrap();
    let (id, options) = (publisher.id, publisher.options);
    let grows = options.allocation_strategy != 0;
    if len > options.initial_max_slice_len && !grows {
        return Err(LOAN_ERROR_EXCEEDS_MAX_LOAN_SIZE);
    }
    let out = model.loans.iter().filter(|loan| loan.publisher == id);
    if out.count() >= options.max_loaned_samples {
        return Err(LOAN_ERROR_EXCEEDS_MAX_LOANS);
    }
    if publisher.held.get() >= publisher.slots && !grows {
        return Err(LOAN_ERROR_OUT_OF_MEMORY);
    }
    let held = publisher.held.clone();
    let number = model.next_number();
    let message = Message::new(number, id, len, is_zeroed, held);
    let message = message.ok_or(LOAN_ERROR_INTERNAL_FAILURE)?;
    model.loans.push(message.clone());
    Ok(message)
}

unsafe fn lend_to(
    domain: *mut Domain,
    publisher: *const Publisher,
    len: usize,
    is_zeroed: bool,
    loan: *mut Loan,
    payload: *mut *mut u8,
) -> Result<(), u32> {
    let (model, at) = free_publisher(domain, publisher)?;
    let message = lend(model, at, len, is_zeroed)?;
    *loan = Loan {
        service_id: model.config.service_id,
        publisher: wide(message.publisher),
        number: wide(message.number),
        ..Loan::default()
    };
    *payload = message.start;
    Ok(())
}

#[no_mangle]
unsafe extern "C" fn iox2ps_publisher_loan(
    domain: *mut Domain,
    publisher: *const Publisher,
    len: usize,
    loan: *mut Loan,
    payload: *mut *mut u8,
) -> u32 {
    code(lend_to(domain, publisher, len, true, loan, payload))
}

#[no_mangle]
unsafe extern "C" fn iox2ps_publisher_loan_uninit(
    domain: *mut Domain,
    publisher: *const Publisher,
    len: usize,
    loan: *mut Loan,
    payload: *mut *mut u8,
) -> u32 {
    code(lend_to(domain, publisher, len, false, loan, payload))
}

// The loan of this handle, by its place.
unsafe fn loan_of<'d>(
    domain: *mut Domain,
    loan: *const Loan,
) -> Result<(&'d mut Model, usize), u32> {
    let model = of_service(domain, (*loan).service_id)?;
    let names = ((*loan).publisher, (*loan).number);
    let is_it = |one: &Rc<Message>| (wide(one.publisher), wide(one.number)) == names;
    let at = model.loans.iter().position(is_it).ok_or(NOT_LIVE)?;
    Ok((model, at))
}

#[no_mangle]
unsafe extern "C" fn iox2ps_loan_payload(
    domain: *mut Domain,
    loan: *const Loan,
    payload: *mut *mut u8,
    len: *mut usize,
) -> u32 {
    code(loan_of(domain, loan).map(|(model, at)| {
        *payload = model.loans[at].start;
        *len = model.loans[at].len;
    }))
}

#[no_mangle]
unsafe extern "C" fn iox2ps_loan_discard(domain: *mut Domain, loan: *const Loan) -> u32 {
    code(loan_of(domain, loan).map(|(model, at)| {
        model.loans.swap_remove(at);
    }))
}

// ---- sends

unsafe fn sent(
    model: &mut Model,
    at: usize,
    sending: Sending,
    receivers: *mut usize,
    blocked: *mut Blocked,
) -> Result<(), u32> {
    let (publisher, number) = (sending.message.publisher, sending.message.number);
    match model.deliver(at, sending) {
        (OK, count) => {
            *receivers = count;
            Ok(())
        }
        (code, _) => {
            if code == BLOCKED && !blocked.is_null() {
                *blocked = Blocked {
                    service_id: model.config.service_id,
                    publisher: wide(publisher),
                    number: wide(number),
                    ..Blocked::default()
                };
            }
            Err(code)
        }
    }
}

// What is sent of a loan, and its publisher by its place.
unsafe fn taken<'d>(
    domain: *mut Domain,
    loan: *const Loan,
    channel: usize,
) -> Result<(&'d mut Model, usize, Rc<Message>), u32> {
    let (model, lent) = loan_of(domain, loan)?;
    if channel >= model.channel_count() {
        return Err(NO_SUCH_CHANNEL);
    }
    let publisher = match model.publisher(model.loans[lent].publisher) {
        Some(publisher) => publisher,
        None => {
            model.loans.swap_remove(lent);
            return Err(SEND_ERROR_CONNECTION_BROKEN_SINCE_SENDER_NO_LONGER_EXISTS);
        }
    };
    if model.publishers[publisher]
        .as_ref()
        .unwrap()
        .blocked
        .is_some()
    {
        return Err(PUBLISHER_IS_BLOCKED);
    }
    let message = model.loans.swap_remove(lent);
    Ok((model, publisher, message))
}

unsafe fn send(
    model: &mut Model,
    at: usize,
    message: Rc<Message>,
    receivers: *mut usize,
    blocked: *mut Blocked,
) -> Result<(), u32> {
    model.update_publisher(at);
    let (history, end) = (model.config.history_size, model.config.max_subscribers);
    let publisher = model.publishers[at].as_mut().unwrap();
    push(&mut publisher.history, &message, history);
    let sending = Sending {
        message,
        channel: 0,
        place: 0,
        end,
        receivers: 0,
        fails: false,
    };
    sent(model, at, sending, receivers, blocked)
}

#[no_mangle]
unsafe extern "C" fn iox2ps_loan_send_counted(
    domain: *mut Domain,
    loan: *const Loan,
    receivers: *mut usize,
    blocked: *mut Blocked,
) -> u32 {
    code(
        taken(domain, loan, 0)
            .and_then(|(model, at, message)| send(model, at, message, receivers, blocked)),
    )
}

#[no_mangle]
unsafe extern "C" fn iox2ps_loan_deliver_offset_to_connection_counted(
    domain: *mut Domain,
    loan: *const Loan,
    channel: usize,
    connection: usize,
    receivers: *mut usize,
    blocked: *mut Blocked,
) -> u32 {
    code(
        taken(domain, loan, channel).and_then(|(model, at, message)| {
            let end = match connection < model.config.max_subscribers {
                true => connection + 1,
                false => 0,
            };
            let sending = Sending {
                message,
                channel,
                place: connection,
                end,
                receivers: 0,
                fails: false,
            };
            sent(model, at, sending, receivers, blocked)
        }),
    )
}

#[no_mangle]
unsafe extern "C" fn iox2ps_publisher_send_copy_counted(
    domain: *mut Domain,
    publisher: *const Publisher,
    bytes: *const u8,
    len: usize,
    receivers: *mut usize,
    blocked: *mut Blocked,
) -> u32 {
    code(free_publisher(domain, publisher).and_then(|(model, at)| {
        let message = lend(model, at, len, false)?;
        model.loans.pop();
        if len > 0 {
            copy_nonoverlapping(bytes, message.start, len);
        }
        send(model, at, message, receivers, blocked)
    }))
}

// The publisher of which this send waits, by its place.
unsafe fn blocked_of<'d>(
    domain: *mut Domain,
    blocked: *const Blocked,
) -> Result<(&'d mut Model, usize), u32> {
    let model = of_service(domain, (*blocked).service_id)?;
    let at = model
        .publisher(number((*blocked).publisher))
        .ok_or(NOT_LIVE)?;
    let waits = model.publishers[at].as_ref().unwrap().blocked.as_ref();
    let is_it = |one: &Sending| wide(one.message.number) == (*blocked).number;
    match waits.map_or(false, is_it) {
        true => Ok((model, at)),
        false => Err(NOT_LIVE),
    }
}

#[no_mangle]
unsafe extern "C" fn iox2ps_blocked_subscriber(
    domain: *mut Domain,
    blocked: *const Blocked,
    subscriber: *mut Wide,
) -> u32 {
    code(blocked_of(domain, blocked).map(|(model, at)| {
        let publisher = model.publishers[at].as_ref().unwrap();
        let place = publisher.blocked.as_ref().unwrap().place;
        let end = model.sender_end(publisher.id, place).unwrap();
        *subscriber = wide(model.connections[end].subscriber);
    }))
}

unsafe fn goes_on(
    domain: *mut Domain,
    blocked: *const Blocked,
    from: usize,
    receivers: *mut usize,
) -> Result<(), u32> {
    let (model, at) = blocked_of(domain, blocked)?;
    let waits = &mut model.publishers[at].as_mut().unwrap().blocked;
    let mut sending = waits.take().unwrap();
    sending.place += from;
    sent(model, at, sending, receivers, std::ptr::null_mut())
}

#[no_mangle]
unsafe extern "C" fn iox2ps_blocked_retry_counted(
    domain: *mut Domain,
    blocked: *const Blocked,
    _: u64,
    receivers: *mut usize,
) -> u32 {
    code(goes_on(domain, blocked, 0, receivers))
}

#[no_mangle]
unsafe extern "C" fn iox2ps_blocked_give_up_counted(
    domain: *mut Domain,
    blocked: *const Blocked,
    receivers: *mut usize,
) -> u32 {
    code(goes_on(domain, blocked, 1, receivers))
}

// ---- receives and samples

unsafe fn received(
    domain: *mut Domain,
    subscriber: *const Subscriber,
) -> Result<(Rc<Message>, Sample), u32> {
    let (model, at) = subscriber_of(domain, subscriber)?;
    if !model.update_subscriber(at) {
        return Err(RECEIVE_ERROR_CONNECTION_EXPIRED_BUFFER_FULL);
    }
    let end = model.receivable(number((*subscriber).id))?;
    let message = model.borrow(end);
    let sample = Sample {
        service_id: model.config.service_id,
        origin: wide(message.publisher),
        subscriber: (*subscriber).id,
        number: wide(message.number),
        ..Sample::default()
    };
    Ok((message, sample))
}

#[no_mangle]
unsafe extern "C" fn iox2ps_subscriber_receive(
    domain: *mut Domain,
    subscriber: *const Subscriber,
    sample: *mut Sample,
    payload: *mut *const u8,
    len: *mut usize,
) -> u32 {
    code(received(domain, subscriber).map(|(message, borrowed)| {
        *sample = borrowed;
        *payload = message.start;
        *len = message.len;
    }))
}

// Copies a message, as far as there is room.
unsafe fn copied(message: &Message, bytes: *mut u8, room: usize, len: *mut usize) -> u32 {
    *len = message.len;
    if message.len > room {
        return TOO_SMALL;
    }
    copy_nonoverlapping(message.start, bytes, message.len);
    OK
}

#[no_mangle]
unsafe extern "C" fn iox2ps_subscriber_receive_copy(
    domain: *mut Domain,
    subscriber: *const Subscriber,
    bytes: *mut u8,
    room: usize,
    len: *mut usize,
    sample: *mut Sample,
) -> u32 {
    let (message, borrowed) = match received(domain, subscriber) {
        Ok(received) => received,
        Err(code) => return code,
    };
    match copied(&message, bytes, room, len) {
        OK => iox2ps_sample_release(domain, &borrowed),
        code => {
            *sample = borrowed;
            code
        }
    }
}

// The sample of this handle, by its place. Its origin is nothing that a call asks for.
unsafe fn sample_of<'d>(
    domain: *mut Domain,
    sample: *const Sample,
) -> Result<(&'d mut Model, usize), u32> {
    let model = of_service(domain, (*sample).service_id)?;
    let names = ((*sample).subscriber, (*sample).number);
    let is_it = |one: &Borrowed| (wide(one.subscriber), wide(one.message.number)) == names;
    let at = model.samples.iter().position(is_it).ok_or(NOT_LIVE)?;
    Ok((model, at))
}

#[no_mangle]
unsafe extern "C" fn iox2ps_sample_payload(
    domain: *mut Domain,
    sample: *const Sample,
    payload: *mut *const u8,
    len: *mut usize,
) -> u32 {
    code(sample_of(domain, sample).map(|(model, at)| {
        *payload = model.samples[at].message.start;
        *len = model.samples[at].message.len;
    }))
}

#[no_mangle]
unsafe extern "C" fn iox2ps_sample_copy(
    domain: *mut Domain,
    sample: *const Sample,
    bytes: *mut u8,
    room: usize,
    len: *mut usize,
) -> u32 {
    match sample_of(domain, sample) {
        Ok((model, at)) => copied(&model.samples[at].message, bytes, room, len),
        Err(code) => code,
    }
}

#[no_mangle]
unsafe extern "C" fn iox2ps_sample_header(
    domain: *mut Domain,
    sample: *const Sample,
    header: *mut Header,
) -> u32 {
    code(sample_of(domain, sample).map(|(model, at)| {
        let message = &model.samples[at].message;
        *header = Header {
            node_id: model.config.node_id,
            publisher: wide(message.publisher),
            number_of_elements: message.len as u64,
        };
    }))
}

#[no_mangle]
unsafe extern "C" fn iox2ps_sample_release(domain: *mut Domain, sample: *const Sample) -> u32 {
    code(sample_of(domain, sample).map(|(model, at)| model.release(at)))
}
