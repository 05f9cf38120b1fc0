// SPDX-License-Identifier: Apache-2.0 OR MIT
//! What is called when a message may have come.

use crate::sys::Wide;
use std::cell::{Cell, RefCell};
use std::panic::{catch_unwind, AssertUnwindSafe};
use std::sync::Arc;

pub(crate) type Listener = Arc<dyn Fn() + Send + Sync>;

/// The listeners of a domain's subscribers.
#[derive(Clone, Default)]
pub(crate) struct Listeners(Vec<(Wide, Listener)>);

// The listeners of so many domains may be put off without taking memory.
const ROOM: usize = 8;

const NONE: Option<Arc<Listeners>> = None;

// What a thread has to do with listeners.
struct Calling {
    // Whether it calls some.
    is_on: Cell<bool>,
    // Those that are to be called after them.
    later: RefCell<[Option<Arc<Listeners>>; ROOM]>,
    // Those for which there is no room.
    last: RefCell<Vec<Arc<Listeners>>>,
}

thread_local! {
    static CALLING: Calling = const {
        Calling {
            is_on: Cell::new(false),
            later: RefCell::new([NONE; ROOM]),
            last: RefCell::new(Vec::new()),
        }
    };
}

/// Whether a listener runs on this thread.
pub(crate) fn is_listening() -> bool {
    CALLING
        .try_with(|calling| calling.is_on.get())
        .unwrap_or(false)
}

impl Calling {
    fn put_off(&self, listeners: &Arc<Listeners>) {
        let is_it = |one: &Arc<Listeners>| Arc::ptr_eq(one, listeners);
        let (mut later, mut last) = (self.later.borrow_mut(), self.last.borrow_mut());
        if later.iter().flatten().chain(last.iter()).any(is_it) {
            return;
        }
        match later.iter_mut().find(|place| place.is_none()) {
            Some(place) => *place = Some(listeners.clone()),
            None => last.push(listeners.clone()),
        }
    }

    fn next(&self) -> Option<Arc<Listeners>> {
        let next = self.later.borrow_mut().iter_mut().find_map(Option::take);
        next.or_else(|| self.last.borrow_mut().pop())
    }
}

impl Listeners {
    /// Of no subscriber.
    #[cfg(feature = "processes")]
    pub(crate) fn of(listeners: impl Iterator<Item = Listener>) -> Arc<Listeners> {
        let listeners = listeners.map(|listener| (Wide::default(), listener));
        Arc::new(Listeners(listeners.collect()))
    }

    /// With this one in place of the subscriber's earlier one, or without any of it. `None` where none is left.
    pub(crate) fn with(&self, port: Wide, listener: Option<Listener>) -> Option<Arc<Listeners>> {
        let mut all = self.clone();
        all.0.retain(|one| one.0 != port);
        all.0.extend(listener.map(|listener| (port, listener)));
        (!all.0.is_empty()).then(|| Arc::new(all))
    }

    /// Calls each, and then those that are to be called because of what they did: so a listener that sends isn't
    /// called inside of itself.
    pub(crate) fn call(self: Arc<Self>) {
        if put_off(&self) {
            return;
        }
        let mut next = Some(self);
        while let Some(listeners) = next {
            for (_, listener) in &listeners.0 {
                // The panic has been reported. It isn't that of the call which brought the message.
                drop(catch_unwind(AssertUnwindSafe(|| listener())));
            }
            next = take_later();
        }
    }
}

// Where listeners run on this thread already, these are called after them.
fn put_off(listeners: &Arc<Listeners>) -> bool {
    let put_off = CALLING.try_with(|calling| {
        let is_on = calling.is_on.replace(true);
        if is_on {
            calling.put_off(listeners);
        }
        is_on
    });
    // A thread that is about to end has no such list, and calls none.
    put_off.unwrap_or(true)
}

// The next that are to be called, or the end of all.
fn take_later() -> Option<Arc<Listeners>> {
    CALLING.with(|calling| {
        let next = calling.next();
        calling.is_on.set(next.is_some());
        next
    })
}
