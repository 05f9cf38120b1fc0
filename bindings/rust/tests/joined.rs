// SPDX-License-Identifier: Apache-2.0 OR MIT
//! A domain of Rust that another language joins: here C, by the calls of its header, with ports and a way to wait of its own.

use iox2_pubsub::{Domain, DomainBuilder, Share};
use iox2_pubsub_sys::shared as c;
use iox2_pubsub_sys::{self as sys, *};
use std::ffi::c_void;
use std::mem::size_of;
use std::ptr::{null, null_mut};
use std::sync::{Condvar, Mutex};
use std::thread::{scope, sleep};
use std::time::Duration;

// What came since somebody last found nothing.
#[derive(Default)]
struct Came(Mutex<u32>, Condvar);

// The other language. What the domain knows of it comes first, and stays at its place.
#[repr(C)]
struct Other {
    joined: c::Joined,
    share: Share,
    came: Came,
    publisher: Mutex<Option<Publisher>>,
    subscriber: Mutex<Subscriber>,
}

// SAFETY: `joined` is the domain's, and is read under its lock alone.
unsafe impl Sync for Other {}

unsafe extern "C" fn wake(joined: *mut c::Joined, brings: u32) {
    let other = &*joined.cast::<Other>();
    *other.came.0.lock().unwrap() |= brings;
    other.came.1.notify_all();
}

unsafe extern "C" fn connect(joined: *mut c::Joined, domain: *mut sys::Domain) {
    let other = &*joined.cast::<Other>();
    if let Some(publisher) = &*other.publisher.lock().unwrap() {
        assert_eq!(iox2ps_publisher_update_connections(domain, publisher), OK);
    }
}

unsafe extern "C" fn made<F: FnMut(*mut sys::Domain) -> u32>(
    domain: *mut sys::Domain,
    what: *mut c_void,
) -> u32 {
    (*what.cast::<F>())(domain)
}

impl Other {
    fn new(share: Share) -> Box<Other> {
        let joined = c::Joined {
            struct_size: size_of::<c::Joined>(),
            wake,
            connect,
            waits_are_stopped: 0,
            reserved: 0,
            before: null_mut(),
            after: null_mut(),
        };
        let other = Box::into_raw(Box::new(Other {
            joined,
            share,
            came: Came::default(),
            publisher: Mutex::default(),
            subscriber: Mutex::default(),
        }));
        // SAFETY: it stays in its box until it has left.
        unsafe {
            let domain = (*other).domain();
            assert_eq!((domain.join)(domain, other.cast()), OK);
            Box::from_raw(other)
        }
    }

    fn domain(&self) -> &c::SharedDomain {
        // SAFETY: the share keeps it.
        unsafe { &*self.share.as_ptr().cast() }
    }

    fn calls<F: FnMut(*mut sys::Domain) -> u32>(&self, brings: u32, mut make: F) -> u32 {
        let what = (&mut make as *mut F).cast();
        // SAFETY: the closure is there until the call returns.
        unsafe { (self.domain().call)(self.domain(), brings, made::<F>, what) }
    }

    // The same again, each time when it was told that this came, until it no longer has this code.
    fn waits<F>(&self, for_what: u32, on: u32, brings: u32, mut make: F) -> u32
    where
        F: FnMut(*mut sys::Domain) -> u32,
    {
        loop {
            let mut is_over = false;
            let code = self.calls(brings, |domain| {
                let code = make(domain);
                is_over = self.joined.waits_are_stopped != 0;
                if code == on {
                    *self.came.0.lock().unwrap() &= !for_what;
                }
                code
            });
            if code != on || is_over {
                return code;
            }
            let came = self.came.0.lock().unwrap();
            drop(self.came.1.wait_while(came, |came| *came & for_what == 0));
        }
    }

    fn make_publisher(&self) {
        let mut publisher = Publisher::default();
        let code = self.calls(c::BRINGS_MESSAGE, |domain| unsafe {
            iox2ps_publisher_create(domain, &mut publisher)
        });
        assert_eq!(code, OK);
        *self.publisher.lock().unwrap() = Some(publisher);
    }

    fn make_subscriber(&self) {
        let subscriber = &mut *self.subscriber.lock().unwrap();
        let code = self.calls(c::BRINGS_SUBSCRIBER, |domain| unsafe {
            iox2ps_subscriber_create(domain, subscriber)
        });
        assert_eq!(code, OK);
    }

    // Where the message lies.
    fn send(&self, number: u64) -> *const u64 {
        let publisher = self.publisher.lock().unwrap().unwrap();
        let (mut loan, mut bytes) = (Loan::default(), null_mut());
        let (mut count, mut blocked) = (0, Blocked::default());
        let code = self.calls(0, |domain| unsafe {
            iox2ps_publisher_loan(domain, &publisher, 8, &mut loan, &mut bytes)
        });
        assert_eq!(code, OK);
        // SAFETY: it is lent, and aligned to its type.
        unsafe { bytes.cast::<u64>().write(number) };
        let brings = c::BRINGS_MESSAGE | c::BRINGS_LOAN;
        let mut code = self.calls(brings, |domain| unsafe {
            iox2ps_loan_send_counted(domain, &loan, &mut count, &mut blocked)
        });
        if code == BLOCKED {
            let brings = brings | c::BRINGS_FREE;
            code = self.waits(c::BRINGS_ROOM, BLOCKED, brings, |domain| unsafe {
                iox2ps_blocked_retry_counted(domain, &blocked, 0, &mut count)
            });
        }
        assert_eq!(code, OK);
        bytes.cast()
    }

    // The message, and where it lies. `None` where none came and waits were stopped.
    fn receive(&self) -> Option<(u64, *const u64)> {
        let subscriber = *self.subscriber.lock().unwrap();
        let (mut sample, mut bytes, mut len) = (Sample::default(), null(), 0);
        let code = self.waits(c::BRINGS_MESSAGE, NO_SAMPLE, c::BRINGS_ROOM, |domain| {
            // SAFETY: the pointers are of locals.
            unsafe {
                iox2ps_subscriber_receive(domain, &subscriber, &mut sample, &mut bytes, &mut len)
            }
        });
        if code == NO_SAMPLE {
            return None;
        }
        assert_eq!((code, len), (OK, 8));
        let place = bytes.cast::<u64>();
        // SAFETY: it is borrowed.
        let number = unsafe { place.read() };
        let code = self.calls(c::BRINGS_LOAN, |domain| unsafe {
            iox2ps_sample_release(domain, &sample)
        });
        assert_eq!(code, OK);
        Some((number, place))
    }

    fn stop(&self, stopped: bool) {
        // SAFETY: the share keeps the domain.
        unsafe { (self.domain().stop_waits)(self.domain(), stopped.into()) };
    }
}

impl Drop for Other {
    fn drop(&mut self) {
        let joined: *mut Other = self;
        // SAFETY: it has joined.
        unsafe { (self.domain().leave)(self.domain(), joined.cast()) };
    }
}

fn keeping(buffer: usize) -> DomainBuilder<u64> {
    Domain::<u64>::builder(7)
        .enable_safe_overflow(false)
        .subscriber_max_buffer_size(buffer)
}

#[test]
fn it_says_what_a_message_is() {
    let one = keeping(1).create_shared().unwrap().share().unwrap();
    // SAFETY: the share keeps it.
    let domain = unsafe { &*one.as_ptr().cast::<c::SharedDomain>() };
    assert_eq!(domain.struct_size, size_of::<c::SharedDomain>());
    assert_eq!((domain.version, domain.is_slice), (VERSION, 0));
    assert_eq!((domain.element_size, domain.element_alignment), (8, 8));
    let many = Domain::<[u16]>::slice_builder(7)
        .max_slice_len(4)
        .create_shared()
        .unwrap()
        .share()
        .unwrap();
    assert_eq!(
        format!("{many:?}"),
        "Share { element_size: 2, is_slice: true, .. }"
    );
    assert_eq!(
        Share::CAPSULE_NAME.to_str(),
        Ok("iox2_pubsub.shared_domain")
    );
}

#[test]
fn messages_cross_in_place_both_ways() {
    let domain = keeping(2).create_shared().unwrap();
    let other = Other::new(domain.share().unwrap());
    let publisher = domain.publisher().unwrap();
    other.make_subscriber();
    let loan = publisher.loan_uninit().unwrap().write_payload(11);
    let place: *const u64 = &*loan;
    assert_eq!(loan.send().unwrap().delivered(), Some(1));
    assert_eq!(other.receive(), Some((11, place)));

    let subscriber = domain.subscriber().unwrap();
    other.make_publisher();
    let place = other.send(12);
    let sample = subscriber.receive().unwrap().unwrap();
    assert_eq!((*sample, &*sample as *const u64), (12, place));
}

const TURNS: u64 = 1000;

#[test]
fn each_wakes_the_other_for_messages() {
    let (asked, answered) = (keeping(1), keeping(1));
    let (asked, answered) = (
        asked.create_shared().unwrap(),
        answered.create_shared().unwrap(),
    );
    let (asks, answers) = (
        Other::new(asked.share().unwrap()),
        Other::new(answered.share().unwrap()),
    );
    let (publisher, subscriber) = (asked.publisher().unwrap(), answered.subscriber().unwrap());
    asks.make_subscriber();
    answers.make_publisher();
    scope(|scope| {
        scope.spawn(|| {
            for _ in 0..TURNS {
                answers.send(asks.receive().unwrap().0 + 1);
            }
        });
        for turn in 0..TURNS {
            assert_eq!(publisher.send_copy(turn).unwrap().delivered(), Some(1));
            assert_eq!(*subscriber.blocking_receive().unwrap().unwrap(), turn + 1);
        }
    });
}

#[test]
fn each_wakes_the_other_for_room() {
    let domain = keeping(1).create_shared().unwrap();
    let other = Other::new(domain.share().unwrap());
    let publisher = domain.publisher().unwrap();
    other.make_subscriber();
    scope(|scope| {
        scope.spawn(|| {
            for turn in 0..TURNS {
                assert!(publisher
                    .blocking_send_copy(turn)
                    .unwrap()
                    .delivered()
                    .is_some());
            }
        });
        for turn in 0..TURNS {
            assert_eq!(other.receive().unwrap().0, turn);
        }
    });
    let domain = keeping(1).create_shared().unwrap();
    let other = Other::new(domain.share().unwrap());
    let subscriber = domain.subscriber().unwrap();
    other.make_publisher();
    scope(|scope| {
        scope.spawn(|| {
            for turn in 0..TURNS {
                other.send(turn);
            }
        });
        for turn in 0..TURNS {
            assert_eq!(*subscriber.blocking_receive().unwrap().unwrap(), turn);
        }
    });
}

#[test]
fn a_reader_gets_what_the_other_side_sends() {
    let domain = keeping(4).create_shared().unwrap();
    let other = Other::new(domain.share().unwrap());
    let subscriber = domain.subscriber().unwrap();
    let mut reader = subscriber.reader();
    other.make_publisher();
    scope(|scope| {
        scope.spawn(|| {
            for turn in 0..TURNS {
                other.send(turn);
            }
        });
        for turn in 0..TURNS {
            assert_eq!(reader.blocking_receive().unwrap(), Some(&turn));
        }
    });
}

#[test]
fn a_subscriber_gets_the_history_of_the_other_side() {
    let domain = Domain::<u64>::builder(7)
        .history_size(1)
        .create_shared()
        .unwrap();
    let other = Other::new(domain.share().unwrap());
    let publisher = domain.publisher().unwrap();
    assert_eq!(publisher.send_copy(5).unwrap().delivered(), Some(0));
    other.make_subscriber();
    assert_eq!(other.receive().unwrap().0, 5);
    other.make_publisher();
    other.send(6);
    assert_eq!(other.receive().unwrap().0, 6);
    let subscriber = domain.subscriber().unwrap();
    let mut sum = 0;
    while let Some(sample) = subscriber.receive().unwrap() {
        sum += *sample;
    }
    assert_eq!(sum, 11);
}

#[test]
fn waits_are_stopped_by_both() {
    let domain = keeping(1).create_shared().unwrap();
    let other = Other::new(domain.share().unwrap());
    let subscriber = domain.subscriber().unwrap();
    other.make_subscriber();
    for by_rust in [true, false] {
        scope(|scope| {
            scope.spawn(|| assert_eq!(other.receive(), None));
            scope.spawn(|| assert!(subscriber.blocking_receive().unwrap().is_none()));
            sleep(Duration::from_millis(10));
            match by_rust {
                true => domain.stop_waits(true),
                false => other.stop(true),
            }
        });
        assert!(domain.waits_are_stopped());
        let later = Other::new(domain.share().unwrap());
        later.make_subscriber();
        assert_eq!(later.receive(), None);
        other.stop(false);
        assert!(!domain.waits_are_stopped());
    }
}

#[test]
fn a_share_keeps_the_domain() {
    let share = keeping(2).create_shared().unwrap().share().unwrap();
    let pointer = share.clone().into_raw();
    let other = Other::new(share);
    // SAFETY: it is taken back once.
    drop(unsafe { Share::from_raw(pointer) });
    other.make_publisher();
    other.make_subscriber();
    let place = other.send(3);
    assert_eq!(other.receive(), Some((3, place)));
}

#[cfg(unix)]
#[test]
fn a_child_has_nothing_of_it() {
    extern "C" {
        fn fork() -> i32;
        fn waitpid(process: i32, status: *mut i32, options: i32) -> i32;
        fn _exit(status: i32) -> !;
    }
    unsafe extern "C" fn nothing(_: *mut sys::Domain, _: *mut c_void) -> u32 {
        OK
    }
    let domain = keeping(1).create_shared().unwrap();
    let other = Other::new(domain.share().unwrap());
    let calls = || {
        let shared = other.domain();
        // SAFETY: nothing is called there.
        unsafe { (shared.call)(shared, 0, nothing, null_mut()) }
    };
    let mut status = -1;
    // SAFETY: the child makes these calls alone, and ends without what a program does at its end.
    unsafe {
        let child = fork();
        if child == 0 {
            other.stop(true);
            let joins = (other.domain().join)(other.domain(), null_mut());
            _exit(i32::from(
                (calls(), joins) != (c::AFTER_FORK, c::AFTER_FORK),
            ));
        }
        assert_eq!(waitpid(child, &mut status, 0), child);
    }
    assert_eq!((status, calls()), (0, OK));
    assert!(!domain.waits_are_stopped());
}
