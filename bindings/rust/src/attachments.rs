// SPDX-License-Identifier: Apache-2.0 OR MIT
//! What is attached to a wait set.

use crate::joined_port::{Look, Member};
use crate::wait_set::WaitSetAttachmentId;
use std::sync::atomic::{AtomicU64, Ordering};
use std::time::{Duration, Instant};

/// A port, or by itself an interval.
#[derive(Debug)]
pub(crate) struct Attachment {
    pub(crate) number: u64,
    member: Option<Box<dyn Member>>,
    period: Option<Duration>,
    due: Option<Instant>,
    event: Option<Event>,
}

#[derive(Clone, Copy, Debug, PartialEq, Eq)]
enum Event {
    Notification,
    MissedDeadline,
}

static NUMBERS: AtomicU64 = AtomicU64::new(0);

impl Attachment {
    pub(crate) fn new(member: Option<Box<dyn Member>>, period: Option<Duration>) -> Attachment {
        Attachment {
            number: NUMBERS.fetch_add(1, Ordering::Relaxed),
            member,
            period,
            due: period.and_then(|period| Instant::now().checked_add(period)),
            event: None,
        }
    }

    // What it has where it is due.
    fn when_due(&self) -> Event {
        match self.member {
            Some(_) => Event::MissedDeadline,
            None => Event::Notification,
        }
    }

    fn handle(&mut self, now: Instant) {
        let late = self.late(now);
        self.due = self
            .period
            .and_then(|period| now.checked_add(period - late));
        if let Some(member) = &self.member {
            member.handled();
        }
    }

    // How much later than its last time an interval is: so it goes on in step with those before. A deadline begins anew.
    fn late(&self, now: Instant) -> Duration {
        match (&self.member, self.period, self.due) {
            (None, Some(period), Some(due)) if !period.is_zero() => {
                let late = now.saturating_duration_since(due).as_nanos() % period.as_nanos();
                Duration::from_nanos(late as u64)
            }
            _ => Duration::ZERO,
        }
    }
}

/// In the order in which they were attached, which is that of their numbers.
#[derive(Debug, Default)]
pub(crate) struct Attachments {
    pub(crate) all: Vec<Attachment>,
    // None before this has an event.
    due: usize,
    // When they were looked at last.
    now: Option<Instant>,
}

/// What a look has found.
#[derive(Debug)]
pub(crate) struct Found {
    pub(crate) of_ports: bool,
    pub(crate) of_times: bool,
    pub(crate) is_stopped: bool,
    pub(crate) is_after_fork: bool,
    pub(crate) now: Instant,
    /// When the next is due of those that aren't.
    pub(crate) next: Option<Instant>,
}

impl Found {
    fn at(now: Instant) -> Found {
        Found {
            of_ports: false,
            of_times: false,
            is_stopped: false,
            is_after_fork: false,
            now,
            next: None,
        }
    }
}

/// The earlier of two moments, where `None` never comes.
pub(crate) fn earlier(one: Option<Instant>, other: Option<Instant>) -> Option<Instant> {
    match (one, other) {
        (Some(one), Some(other)) => Some(one.min(other)),
        (one, other) => one.or(other),
    }
}

impl Attachments {
    /// Notes who has an event. Those whose port is closed go: they are to be dropped where nobody is asked.
    pub(crate) fn look(&mut self) -> (Found, Vec<Attachment>) {
        let mut found = Found::at(Instant::now());
        let mut gone = Vec::new();
        let mut at = 0;
        while at < self.all.len() {
            let attachment = &mut self.all[at];
            let look = match &mut attachment.member {
                Some(member) => member.look(),
                None => Look::default(),
            };
            if look.is_gone {
                gone.push(self.all.remove(at));
                continue;
            }
            note(attachment, look, &mut found);
            at += 1;
        }
        self.due = 0;
        self.now = Some(found.now);
        (found, gone)
    }

    /// The next that has an event, which is handled now.
    pub(crate) fn take(&mut self) -> Option<WaitSetAttachmentId> {
        let now = self.now?;
        let (attachment, event) = self.next()?;
        attachment.handle(now);
        Some(WaitSetAttachmentId {
            number: attachment.number,
            missed: event == Event::MissedDeadline,
        })
    }

    /// All events are left to the next wait.
    pub(crate) fn put_off(&mut self) {
        while let Some((attachment, _)) = self.next() {
            if let Some(member) = &attachment.member {
                member.ask_again();
            }
        }
    }

    /// Takes it out, for its guard.
    pub(crate) fn remove(&mut self, number: u64) -> Option<Attachment> {
        let at = self.all.binary_search_by_key(&number, |one| one.number);
        let at = at.ok()?;
        self.due -= usize::from(at < self.due);
        Some(self.all.remove(at))
    }

    fn next(&mut self) -> Option<(&mut Attachment, Event)> {
        let found = self.all[self.due..]
            .iter()
            .position(|one| one.event.is_some());
        self.due = found.map_or(self.all.len(), |at| self.due + at);
        let attachment = self.all.get_mut(self.due)?;
        let event = attachment.event.take()?;
        Some((attachment, event))
    }
}

fn note(attachment: &mut Attachment, look: Look, found: &mut Found) {
    found.is_stopped |= look.is_stopped;
    found.is_after_fork |= look.is_after_fork;
    if look.has_event {
        attachment.event = Some(Event::Notification);
        found.of_ports = true;
    } else if matches!(attachment.due, Some(due) if due <= found.now) {
        attachment.event = Some(attachment.when_due());
        found.of_times = true;
    } else {
        found.next = earlier(found.next, attachment.due);
    }
}
