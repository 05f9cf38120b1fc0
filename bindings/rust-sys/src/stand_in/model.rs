// SPDX-License-Identifier: Apache-2.0 OR MIT
//! A domain as simply as it can be said: lists of ports, of what two ports share, and of messages in their hands.

use super::message::Message;
use crate::*;
use std::cell::Cell;
use std::collections::VecDeque;
use std::rc::Rc;

pub(super) struct Publisher {
    pub(super) id: u64,
    pub(super) options: PublisherOptions,
    pub(super) slots: usize,
    // Ports came or went since its last update.
    pub(super) is_due: bool,
    pub(super) history: VecDeque<Rc<Message>>,
    pub(super) blocked: Option<Sending>,
    // How many messages of it are held.
    pub(super) held: Rc<Cell<usize>>,
}

/// A send under way, or one that waits.
pub(super) struct Sending {
    pub(super) message: Rc<Message>,
    pub(super) channel: usize,
    /// The place of the subscriber that comes next.
    pub(super) place: usize,
    /// The place behind the last one to which it goes.
    pub(super) end: usize,
    pub(super) receivers: usize,
    /// Whether a handler lets it fail.
    pub(super) fails: bool,
}

/// A closed one is there as long as it has borrowed something.
pub(super) struct Subscriber {
    pub(super) id: u64,
    pub(super) buffer_size: usize,
    pub(super) is_open: bool,
    pub(super) is_due: bool,
}

#[derive(Clone, Copy, PartialEq)]
pub(super) enum End {
    None,
    /// At the publisher's place.
    At(usize),
    /// Of a closed publisher; the number says since when.
    Expired(u64),
}

#[derive(Clone)]
pub(super) struct Channel {
    pub(super) state: u64,
    pub(super) has_hint: bool,
    pub(super) waiting: VecDeque<Rc<Message>>,
}

impl Channel {
    pub(super) fn change(&mut self, state: u64) {
        if self.state != state {
            self.state = state;
            self.has_hint = false;
        }
    }
}

/// What a publisher and a subscriber share: the publisher has its end at the subscriber's place.
pub(super) struct Connection {
    pub(super) publisher: u64,
    pub(super) subscriber: u64,
    pub(super) sender: Option<usize>,
    pub(super) receiver: End,
    pub(super) borrowed: usize,
    pub(super) channels: Vec<Channel>,
}

impl Connection {
    pub(super) fn drop_waiting(&mut self) {
        for channel in &mut self.channels {
            channel.waiting.clear();
        }
    }

    fn is_empty(&self) -> bool {
        let waits = |channel: &Channel| !channel.waiting.is_empty();
        self.borrowed == 0 && !self.channels.iter().any(waits)
    }

    pub(super) fn waits(&self) -> bool {
        !self.channels[0].waiting.is_empty()
    }
}

pub(super) struct Borrowed {
    pub(super) message: Rc<Message>,
    pub(super) subscriber: u64,
}

pub(super) struct Model {
    pub(super) config: Config,
    pub(super) publishers: Vec<Option<Publisher>>,
    pub(super) subscribers: Vec<Option<Subscriber>>,
    pub(super) connections: Vec<Connection>,
    pub(super) loans: Vec<Rc<Message>>,
    pub(super) samples: Vec<Borrowed>,
    /// Of each publisher that there was: its id, and how many messages of it are held.
    pub(super) books: Vec<(u64, Rc<Cell<usize>>)>,
    last_port: u64,
    last_number: u64,
    last_expired: u64,
}

/// Pushes, where the oldest goes if there is no room.
pub(super) fn push(queue: &mut VecDeque<Rc<Message>>, message: &Rc<Message>, room: usize) {
    if room > 0 {
        if queue.len() == room {
            queue.pop_front();
        }
        queue.push_back(message.clone());
    }
}

impl Model {
    pub(super) fn new(config: Config) -> Model {
        Model {
            config,
            publishers: Vec::new(),
            subscribers: Vec::new(),
            connections: Vec::new(),
            loans: Vec::new(),
            samples: Vec::new(),
            books: Vec::new(),
            last_port: 0,
            last_number: 0,
            last_expired: 0,
        }
    }

    pub(super) fn next_port(&mut self) -> u64 {
        self.last_port += 1;
        self.last_port
    }

    pub(super) fn next_number(&mut self) -> u64 {
        self.last_number += 1;
        self.last_number
    }

    pub(super) fn channel_count(&self) -> usize {
        self.config.number_of_channels.max(1)
    }

    pub(super) fn publisher(&self, id: u64) -> Option<usize> {
        let is_it = |one: &Option<Publisher>| matches!(one, Some(one) if one.id == id);
        self.publishers.iter().position(is_it)
    }

    pub(super) fn subscriber(&self, id: u64) -> Option<usize> {
        let is_it = |one: &Option<Subscriber>| matches!(one, Some(one) if one.id == id);
        self.subscribers.iter().position(is_it)
    }

    fn is_open(&self, subscriber: u64) -> bool {
        let place = self.subscriber(subscriber);
        place.map_or(false, |at| self.subscribers[at].as_ref().unwrap().is_open)
    }

    /// The connection at which this publisher has its end at this place.
    pub(super) fn sender_end(&self, publisher: u64, place: usize) -> Option<usize> {
        let is_it = |one: &Connection| one.publisher == publisher && one.sender == Some(place);
        self.connections.iter().position(is_it)
    }

    /// The connections at which this subscriber has its end.
    pub(super) fn ends_of(&self, subscriber: u64) -> Vec<usize> {
        let has_end = |&at: &usize| {
            let one = &self.connections[at];
            one.subscriber == subscriber && one.receiver != End::None
        };
        (0..self.connections.len()).filter(has_end).collect()
    }

    fn connection(&mut self, publisher: u64, subscriber: u64) -> &mut Connection {
        let is_it = |one: &Connection| (one.publisher, one.subscriber) == (publisher, subscriber);
        if let Some(at) = self.connections.iter().position(is_it) {
            return &mut self.connections[at];
        }
        let channel = Channel {
            state: CHANNEL_STATE_OPEN,
            has_hint: false,
            waiting: VecDeque::new(),
        };
        let channels = vec![channel; self.channel_count()];
        self.connections.push(Connection {
            publisher,
            subscriber,
            sender: None,
            receiver: End::None,
            borrowed: 0,
            channels,
        });
        self.connections.last_mut().unwrap()
    }

    /// One at which no port has an end is gone.
    fn forget_connections(&mut self) {
        self.connections
            .retain(|one| one.sender.is_some() || one.receiver != End::None);
    }

    // ---- updates

    pub(super) fn update_publisher(&mut self, at: usize) {
        let publisher = self.publishers[at].as_mut().unwrap();
        let (id, is_due) = (publisher.id, publisher.is_due);
        publisher.is_due = false;
        if is_due {
            (0..self.subscribers.len()).for_each(|place| self.update_sender(at, id, place));
        }
        self.forget_connections();
    }

    fn update_sender(&mut self, at: usize, id: u64, place: usize) {
        let there = self.subscribers[place].as_ref();
        let there = there.map(|one| (one.id, one.is_open, one.buffer_size));
        let end = self.sender_end(id, place);
        match (end, there) {
            (Some(end), Some((subscriber, is_open, _)))
                if self.connections[end].subscriber == subscriber =>
            {
                if !is_open {
                    self.connections[end].drop_waiting();
                }
                return;
            }
            (Some(end), _) => {
                self.connections[end].drop_waiting();
                self.connections[end].sender = None;
            }
            (None, _) => {}
        }
        if let Some((subscriber, true, room)) = there {
            self.connect_sender(at, subscriber, place, room);
        }
    }

    // The history goes to channel 0, where that is open.
    fn connect_sender(&mut self, at: usize, subscriber: u64, place: usize, room: usize) {
        let publisher = self.publishers[at].as_ref().unwrap();
        let (id, history) = (publisher.id, publisher.history.clone());
        let connection = self.connection(id, subscriber);
        connection.sender = Some(place);
        let channel = &mut connection.channels[0];
        if channel.state != CHANNEL_STATE_CLOSED {
            for message in &history {
                push(&mut channel.waiting, message, room);
            }
        }
    }

    /// Whether there is room for all closed publishers of which it has messages.
    pub(super) fn update_subscriber(&mut self, at: usize) -> bool {
        let subscriber = self.subscribers[at].as_ref().unwrap();
        let (id, mut has_room) = (subscriber.id, true);
        if subscriber.is_due {
            // Those that are open first.
            for is_open in [true, false] {
                for place in 0..self.publishers.len() {
                    has_room &= self.update_receiver(id, place, is_open);
                }
            }
            self.subscribers[at].as_mut().unwrap().is_due = !has_room;
        }
        self.forget_connections();
        has_room
    }

    fn update_receiver(&mut self, id: u64, place: usize, is_open: bool) -> bool {
        let publisher = self.publishers[place].as_ref().map(|one| one.id);
        let is_it = |&at: &usize| self.connections[at].receiver == End::At(place);
        let end = self.ends_of(id).into_iter().find(is_it);
        let is_there = end.map_or(false, |end| {
            Some(self.connections[end].publisher) == publisher
        });
        if publisher.is_some() != is_open || is_there {
            return true;
        }
        if let Some(end) = end {
            if !self.retire(id, end) {
                return false;
            }
        }
        if let Some(publisher) = publisher {
            self.connection(publisher, id).receiver = End::At(place);
        }
        true
    }

    // The end at a place that a closed publisher left is kept, as far as there is room.
    fn retire(&mut self, id: u64, end: usize) -> bool {
        let expired = |&at: &usize| matches!(self.connections[at].receiver, End::Expired(_));
        let kept: Vec<usize> = self.ends_of(id).into_iter().filter(expired).collect();
        let config = &self.config;
        let room = config.subscriber_expired_connection_buffer;
        if kept.len() >= room.max(config.subscriber_max_borrowed_samples) {
            let leaves = match self.connections[end].borrowed {
                0 => Some(end),
                _ => self.first_to_go(&kept),
            };
            let leaves = match leaves {
                Some(leaves) => leaves,
                None => return false,
            };
            self.connections[leaves].drop_waiting();
            self.connections[leaves].receiver = End::None;
            if leaves == end {
                return true;
            }
        }
        self.last_expired += 1;
        self.connections[end].receiver = End::Expired(self.last_expired);
        true
    }

    // Of those that have lent nothing, the one that was kept first.
    fn first_to_go(&self, kept: &[usize]) -> Option<usize> {
        let since = |&at: &usize| match self.connections[at].receiver {
            End::Expired(since) => since,
            _ => u64::MAX,
        };
        let lends_nothing = |&at: &usize| self.connections[at].borrowed == 0;
        kept.iter().copied().filter(lends_nothing).min_by_key(since)
    }

    // ---- closes and releases

    // It forgets each closed publisher of which it has nothing.
    fn prune(&mut self, subscriber: u64) {
        for at in self.ends_of(subscriber) {
            let one = &self.connections[at];
            if self.publisher(one.publisher).is_none() && one.is_empty() {
                self.connections[at].receiver = End::None;
            }
        }
    }

    pub(super) fn publishers_are_due(&mut self) {
        for publisher in self.publishers.iter_mut().flatten() {
            publisher.is_due = true;
        }
    }

    pub(super) fn subscribers_are_due(&mut self) {
        for subscriber in self.subscribers.iter_mut().flatten() {
            subscriber.is_due = true;
        }
    }

    fn free_if_unused(&mut self, id: u64) {
        self.prune(id);
        let ends = self.ends_of(id);
        let has_some = ends.iter().any(|&at| self.connections[at].borrowed > 0);
        if self.is_open(id) || has_some {
            return;
        }
        for at in ends {
            self.connections[at].receiver = End::None;
        }
        if let Some(place) = self.subscriber(id) {
            self.subscribers[place] = None;
        }
        self.publishers_are_due();
    }

    pub(super) fn close_publisher(&mut self, at: usize) {
        let id = self.publishers[at].take().unwrap().id;
        for end in 0..self.connections.len() {
            if self.connections[end].publisher != id {
                continue;
            }
            let is_open = self.is_open(self.connections[end].subscriber);
            let connection = &mut self.connections[end];
            if !is_open || connection.receiver == End::None {
                connection.drop_waiting();
            }
            connection.sender = None;
        }
        let ids: Vec<u64> = self.subscribers.iter().flatten().map(|it| it.id).collect();
        ids.into_iter().for_each(|id| self.prune(id));
        self.subscribers_are_due();
        self.forget_connections();
    }

    pub(super) fn close_subscriber(&mut self, at: usize) {
        let subscriber = self.subscribers[at].as_mut().unwrap();
        subscriber.is_open = false;
        let id = subscriber.id;
        for end in self.ends_of(id) {
            if self.publisher(self.connections[end].publisher).is_none() {
                self.connections[end].drop_waiting();
            }
        }
        self.publishers_are_due();
        self.free_if_unused(id);
        self.forget_connections();
    }

    pub(super) fn release(&mut self, at: usize) {
        let sample = self.samples.swap_remove(at);
        let lent = |one: &&mut Connection| {
            (one.publisher, one.subscriber) == (sample.message.publisher, sample.subscriber)
        };
        if let Some(connection) = self.connections.iter_mut().find(lent) {
            connection.borrowed -= 1;
        }
        self.free_if_unused(sample.subscriber);
        self.forget_connections();
    }

    // ---- sends and receives

    /// The message goes on to the subscribers, until one has no room and is waited for. Returns the code, and how many took it.
    pub(super) fn deliver(&mut self, at: usize, mut sending: Sending) -> (u32, usize) {
        let (id, full) = {
            let publisher = self.publishers[at].as_ref().unwrap();
            (publisher.id, full(&publisher.options))
        };
        while sending.place < sending.end.min(self.subscribers.len()) {
            if self.has_taken(id, &mut sending) {
                sending.place += 1;
                continue;
            }
            match full {
                Full::Blocks => {
                    self.publishers[at].as_mut().unwrap().blocked = Some(sending);
                    return (BLOCKED, 0);
                }
                Full::Fails => sending.fails = true,
                Full::Skips => {}
            }
            sending.place += 1;
        }
        match sending.fails {
            true => (SEND_ERROR_UNABLE_TO_DELIVER, 0),
            false => (OK, sending.receivers),
        }
    }

    // Whether the next place has nobody who would have to be waited for.
    fn has_taken(&mut self, id: u64, sending: &mut Sending) -> bool {
        let overflows = self.config.enable_safe_overflow != 0;
        let end = match self.sender_end(id, sending.place) {
            Some(end) => end,
            None => return true,
        };
        let subscriber = self.connections[end].subscriber;
        let (is_open, room) = match self.subscriber(subscriber) {
            Some(place) => {
                let subscriber = self.subscribers[place].as_ref().unwrap();
                (subscriber.is_open, subscriber.buffer_size)
            }
            None => return true,
        };
        let channel = &mut self.connections[end].channels[sending.channel];
        if !is_open || channel.state == CHANNEL_STATE_CLOSED {
            return true;
        }
        if channel.waiting.len() == room && !overflows {
            return false;
        }
        push(&mut channel.waiting, &sending.message, room);
        sending.receivers += 1;
        true
    }

    /// From which connection a message comes after an update: from an expired one first.
    pub(super) fn receivable(&self, subscriber: u64) -> Result<usize, u32> {
        let ends = self.ends_of(subscriber);
        let most = self.config.subscriber_max_borrowed_samples;
        let may =
            |&at: &usize| self.connections[at].waits() && self.connections[at].borrowed < most;
        let expired = |at: &usize| matches!(self.connections[*at].receiver, End::Expired(_));
        let from_expired = ends.iter().copied().find(|at| expired(at) && may(at));
        let found = from_expired.or_else(|| ends.iter().copied().find(may));
        found.ok_or_else(
            || match ends.iter().any(|&at| self.connections[at].waits()) {
                true => RECEIVE_ERROR_EXCEEDS_MAX_BORROWS,
                false => NO_SAMPLE,
            },
        )
    }

    pub(super) fn borrow(&mut self, end: usize) -> Rc<Message> {
        let connection = &mut self.connections[end];
        let message = connection.channels[0].waiting.pop_front().unwrap();
        connection.borrowed += 1;
        self.samples.push(Borrowed {
            message: message.clone(),
            subscriber: connection.subscriber,
        });
        message
    }
}

#[derive(Clone, Copy)]
enum Full {
    Blocks,
    Skips,
    Fails,
}

// What the publisher does at a full buffer.
fn full(options: &PublisherOptions) -> Full {
    match (options.backpressure_handler, options.backpressure_strategy) {
        (0 | 1, 0) | (2, _) => Full::Blocks,
        (4, _) => Full::Fails,
        _ => Full::Skips,
    }
}
