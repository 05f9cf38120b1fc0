// SPDX-License-Identifier: Apache-2.0 OR MIT
//! What a child of a fork can do with its parent's domains: nothing, and each call says so.
#![cfg(unix)]

use iox2_pubsub::{
    BlockedSend, CallbackProgression, ChannelError, ChannelId, ConnectionFailure, ConnectionId,
    Domain, DomainBuilder, DomainCreateError, DomainLock, Loan, LoanError, ManyThreads, Publisher,
    PublisherCreateError, ReceiveError, Sample, SendError, ShareError, Subscriber,
    SubscriberCreateError, Threads, WaitSet, WaitSetAttachmentError, WaitSetRunError, WaitSetRunResult,
    CHANNEL_STATE_OPEN,
};
#[cfg(feature = "processes")]
use iox2_pubsub::{ListenerCreateError, NodeListFailure, NotifierCreateError};
use std::future::Future;
use std::ops::ControlFlow;
use std::panic::{catch_unwind, set_hook, AssertUnwindSafe};
use std::pin::Pin;
use std::sync::atomic::{AtomicBool, Ordering};
use std::sync::{Arc, Mutex};
use std::task::{Context, Poll, Wake, Waker};
use std::thread::{scope, yield_now};
use std::time::Duration;

extern "C" {
    fn fork() -> i32;
    fn waitpid(process: i32, status: *mut i32, options: i32) -> i32;
    fn _exit(status: i32) -> !;
}

#[cfg(target_os = "linux")]
fn end_with_parent() {
    extern "C" {
        fn prctl(option: i32, ...) -> i32;
    }
    const PR_SET_PDEATHSIG: i32 = 1;
    const SIGKILL: std::os::raw::c_ulong = 9;
    // SAFETY: this option takes a number.
    assert_eq!(unsafe { prctl(PR_SET_PDEATHSIG, SIGKILL) }, 0);
}

#[cfg(not(target_os = "linux"))]
fn end_with_parent() {}

// Runs this in a child, whose panic is a failure here. One that waits for good ends when this program is ended.
#[track_caller]
fn in_child(run: impl FnOnce()) {
    let mut status = -1;
    // SAFETY: the child has this thread alone, and ends without what a program does at its end. The pointer is of a local.
    unsafe {
        let child = fork();
        assert!(child >= 0, "a child");
        if child == 0 {
            end_with_parent();
            // The others may have the lock of what is printed to.
            set_hook(Box::new(|_| {}));
            _exit(i32::from(catch_unwind(AssertUnwindSafe(run)).is_err()));
        }
        assert_eq!(waitpid(child, &mut status, 0), child);
    }
    assert_eq!(status, 0, "the child failed");
}

fn keeping() -> DomainBuilder<u64> {
    Domain::<u64>::builder(1)
        .subscriber_max_buffer_size(2)
        .enable_safe_overflow(false)
}

// One of each.
struct World<M: Threads> {
    domain: Domain<u64, M>,
    publisher: Publisher<u64, M>,
    subscriber: Subscriber<u64, M>,
    loan: Loan<u64, M>,
    sample: Sample<u64, M>,
    waits: Publisher<u64, M>,
    blocked: BlockedSend<u64, M>,
}

impl<M: Threads> World<M> {
    fn of(domain: Domain<u64, M>) -> Self {
        let (publisher, waits) = (domain.publisher().unwrap(), domain.publisher().unwrap());
        let subscriber = domain.subscriber().unwrap();
        publisher.send_copy(1).unwrap().delivered();
        let sample = subscriber.receive().unwrap().unwrap();
        let loan = publisher.loan_uninit().unwrap().write_payload(2);
        for number in 3..5 {
            waits.send_copy(number).unwrap().delivered();
        }
        let blocked = waits.send_copy(5).unwrap().blocked().unwrap();
        World {
            domain,
            publisher,
            subscriber,
            loan,
            sample,
            waits,
            blocked,
        }
    }

    // What a child has of it. The bytes of messages are its own copies.
    fn all_is_refused(self) {
        let World { subscriber, .. } = &self;
        let lent = self.publisher.loan_uninit().map(drop);
        assert_eq!(lent, Err(LoanError::AfterFork));
        let sent = self.publisher.send_copy(7).map(|sent| sent.delivered());
        assert_eq!(sent, Err(SendError::AfterFork));
        let sent = self.publisher.writer().send(7).map(|sent| sent.delivered());
        assert_eq!(sent, Err(SendError::AfterFork));
        let updated = self.publisher.update_connections();
        assert_eq!(updated, Err(ConnectionFailure::AfterFork));
        assert_eq!(subscriber.receive_copy(), Err(ReceiveError::AfterFork));
        let received = subscriber.receive().map(drop);
        assert_eq!(received, Err(ReceiveError::AfterFork));
        assert_eq!(subscriber.iter().count(), 1);
        let waits = subscriber.has_samples();
        assert_eq!(waits, Err(ConnectionFailure::AfterFork));
        let closed = subscriber.close_channel(ChannelId::default(), CHANNEL_STATE_OPEN);
        assert_eq!(closed, Err(ChannelError::AfterFork));
        let (domain, made) = (&self.domain, self.domain.publisher().map(drop));
        assert_eq!(made, Err(PublisherCreateError::AfterFork));
        let made = domain.subscriber().map(drop);
        assert_eq!(made, Err(SubscriberCreateError::AfterFork));
        let recorded = domain.recording().map(drop);
        assert_eq!(recorded, Err(DomainCreateError::AfterFork));
        assert!(catch_unwind(AssertUnwindSafe(|| domain.connection_count())).is_err());
        assert!(catch_unwind(AssertUnwindSafe(|| self.waits.is_blocked())).is_err());
        let mut reader = subscriber.reader_with_capacity(1);
        assert_eq!(reader.receive(), Err(ReceiveError::AfterFork));
        drop(reader);
        assert_eq!((*self.sample, *self.loan), (1, 2));
        let sent = self.loan.send().map(|sent| sent.delivered());
        assert_eq!(sent, Err(SendError::AfterFork));
        let sent = self.blocked.retry(Duration::ZERO);
        assert_eq!(sent.map(|_| ()), Err(SendError::AfterFork));
        // All else is dropped here.
    }

    // Each call on a channel, and each question that has no error to return.
    fn questions_are_refused(&self) {
        let (publisher, subscriber) = (&self.publisher, &self.subscriber);
        let (channel, connection) = (ChannelId::default(), ConnectionId::new(0));
        let state = CHANNEL_STATE_OPEN;
        let is_refused = |result: Result<(), ChannelError>| {
            assert_eq!(result, Err(ChannelError::AfterFork));
        };
        let has = publisher.has_channel_state(channel, connection, state);
        is_refused(has.map(drop));
        let has = publisher.has_disconnect_hint(channel, connection, state);
        is_refused(has.map(drop));
        is_refused(publisher.close_channel(channel, connection, state));
        let has = subscriber.at_least_one_channel_has_state(channel, state);
        is_refused(has.map(drop));
        is_refused(subscriber.set_channel_state(channel, state).map(drop));
        is_refused(subscriber.set_disconnect_hint(channel, state));
        let updated = subscriber.update_connections();
        assert_eq!(updated, Err(ConnectionFailure::AfterFork));
        let panics = |question: &dyn Fn()| {
            assert!(catch_unwind(AssertUnwindSafe(question)).is_err());
        };
        panics(&|| drop(self.domain.warnings()));
        panics(&|| assert_eq!(self.domain.book_count(), 0));
        panics(&|| assert_eq!(self.domain.refused_connections(), 0));
        panics(&|| assert_eq!(self.blocked.subscriber(), subscriber.id()));
        panics(&|| assert_eq!(self.sample.header().publisher_id(), publisher.id()));
        panics(&|| drop(subscriber.reader()));
        panics(&|| assert_eq!(publisher.get_connection_id_of(subscriber.id()), None));
        #[cfg(feature = "processes")]
        self.nodes_are_refused();
    }

    #[cfg(feature = "processes")]
    fn nodes_are_refused(&self) {
        let (domain, refused) = (&self.domain, NodeListFailure::AfterFork);
        assert_eq!(domain.node_id(), Err(refused));
        assert_eq!(domain.nodes().err(), Some(refused));
        assert_eq!(domain.list_publishers().err(), Some(refused));
        assert_eq!(domain.list_subscribers().err(), Some(refused));
        assert_eq!(domain.dead_nodes().err(), Some(refused));
        assert_eq!(domain.cleanup_dead_nodes(), Err(refused));
        assert_eq!(domain.notifier().err(), Some(NotifierCreateError::AfterFork));
        assert_eq!(domain.listener().err(), Some(ListenerCreateError::AfterFork));
    }

    // All is as it was.
    fn goes_on(self) {
        assert_eq!((*self.sample, *self.loan), (1, 2));
        drop(self.sample);
        let received = |number| assert_eq!(self.subscriber.receive_copy(), Ok(Some(number)));
        received(3);
        let retried = self.blocked.retry(Duration::ZERO).unwrap();
        assert_eq!(retried.delivered(), Some(1));
        received(4);
        received(5);
        assert_eq!(self.loan.send().unwrap().delivered(), Some(1));
        received(2);
        assert!(!self.waits.is_blocked());
    }
}

#[test]
fn a_child_is_refused_by_a_domain_of_one_thread() {
    let world = World::of(keeping().create().unwrap());
    // SAFETY: the child has a copy of it, as it is.
    in_child(|| unsafe { std::ptr::read(&world) }.all_is_refused());
    in_child(|| world.questions_are_refused());
    world.goes_on();
}

#[test]
fn a_child_is_refused_by_a_shared_domain() {
    let world = World::of(keeping().create_shared().unwrap());
    // SAFETY: as above.
    in_child(|| unsafe { std::ptr::read(&world) }.all_is_refused());
    in_child(|| world.questions_are_refused());
    // On a thread of the child too, which drops what it has of the parent's.
    in_child(|| {
        // SAFETY: as above.
        let copy = unsafe { std::ptr::read(&world) };
        std::thread::spawn(move || copy.all_is_refused())
            .join()
            .unwrap();
    });
    world.goes_on();
}

// What would wait, and has nobody who wakes it: each call that ends a loan or a blocked send once.
fn waits_are_refused(world: World<ManyThreads>) {
    let World {
        publisher,
        subscriber,
        loan,
        blocked,
        domain,
        ..
    } = world;
    assert_eq!(domain.share().err(), Some(ShareError::AfterFork));
    #[cfg(feature = "processes")]
    {
        let listened = domain.set_dead_node_listener(|_| {});
        assert_eq!(listened, Err(NodeListFailure::AfterFork));
    }
    let hour = Duration::from_secs(3600);
    let refused = ReceiveError::AfterFork;
    assert_eq!(subscriber.blocking_receive().map(drop), Err(refused));
    assert_eq!(subscriber.timed_receive(hour).map(drop), Err(refused));
    let read = subscriber.blocking_for_each(|_| ControlFlow::Continue(()));
    assert_eq!(read, Err(refused));
    let mut reader = subscriber.reader_with_capacity(2);
    assert_eq!(reader.blocking_receive(), Err(refused));
    assert_eq!(reader.timed_receive(hour), Err(refused));
    drop(reader);
    let lent = publisher.timed_loan_uninit(hour).map(drop);
    assert_eq!(lent, Err(LoanError::AfterFork));
    let refused = SendError::AfterFork;
    assert_eq!(publisher.blocking_send_copy(7).map(drop), Err(refused));
    let sent = publisher.timed_send_copy(7, hour).map(drop);
    assert_eq!(sent, Err(refused));
    let mut writer = publisher.writer();
    assert_eq!(writer.blocking_send(7).map(drop), Err(refused));
    assert_eq!(writer.timed_send(7, hour).map(drop), Err(refused));
    drop(writer);
    assert_eq!(loan.timed_send(hour).unwrap_err().error(), refused);
    assert_eq!(blocked.blocking_retry().map(drop), Err(refused));
    subscriber.clear_listener();
}

#[test]
fn a_child_waits_for_nobody() {
    let world = World::of(keeping().create_shared().unwrap());
    // SAFETY: the child has a copy of it, as it is.
    in_child(|| waits_are_refused(unsafe { std::ptr::read(&world) }));
    in_child(|| {
        // SAFETY: as above.
        let World { loan, blocked, .. } = unsafe { std::ptr::read(&world) };
        let sent = loan.blocking_send().map(drop);
        assert_eq!(sent, Err(SendError::AfterFork));
        let retried = blocked.timed_retry(Duration::from_secs(3600)).map(drop);
        assert_eq!(retried, Err(SendError::AfterFork));
    });
    in_child(|| {
        // SAFETY: as above.
        let World { loan, blocked, .. } = unsafe { std::ptr::read(&world) };
        let kept = loan.send_or_keep().unwrap_err();
        assert_eq!(kept.error(), SendError::AfterFork);
        let given_up = blocked.give_up().map(drop);
        assert_eq!(given_up, Err(SendError::AfterFork));
    });
    world.goes_on();
}

struct Task;

impl Wake for Task {
    fn wake(self: Arc<Self>) {}
}

#[test]
fn a_child_does_not_wait() {
    let domain = keeping().create_shared().unwrap();
    let (publisher, subscriber) = (domain.publisher().unwrap(), domain.subscriber().unwrap());
    in_child(|| {
        let refused = Err(ReceiveError::AfterFork);
        assert_eq!(subscriber.blocking_receive_copy(), refused);
        let timed = subscriber.timed_receive_copy(Duration::from_secs(60));
        assert_eq!(timed, refused);
        assert_eq!(subscriber.blocking_iter().count(), 1);
        let lent = publisher.blocking_loan_uninit().map(drop);
        assert_eq!(lent, Err(LoanError::AfterFork));
        let waker = Waker::from(Arc::new(Task));
        let mut future = subscriber.receive_async();
        let polled = Pin::new(&mut future).poll(&mut Context::from_waker(&waker));
        assert!(matches!(polled, Poll::Ready(Err(ReceiveError::AfterFork))));
        assert!(domain.waits_are_stopped());
        domain.stop_waits(false);
        subscriber.set_listener(|| ());
    });
    publisher.send_copy(1).unwrap().delivered();
    assert_eq!(subscriber.blocking_receive_copy(), Ok(Some(1)));
}

#[test]
fn a_childs_set_waits_for_nobody() {
    let domain = keeping().create_shared().unwrap();
    let (publisher, subscriber) = (domain.publisher().unwrap(), domain.subscriber().unwrap());
    let set = WaitSet::new();
    let guard = set.attach_notification(&subscriber).unwrap();
    let stops = |_| CallbackProgression::Stop;
    // Where nothing came since, its parent's set wouldn't ask.
    let nothing = set.wait_and_process_once_with_timeout(stops, Duration::ZERO);
    assert_eq!(nothing, Ok(WaitSetRunResult::AllEventsHandled));
    in_child(|| {
        let refused = WaitSetRunError::AfterFork;
        assert_eq!(set.wait_and_process(stops), Err(refused));
        assert_eq!(refused.code(), WaitSetAttachmentError::AfterFork.code());
        let attached = set.attach_notification(&publisher).map(drop);
        assert_eq!(attached, Err(WaitSetAttachmentError::AfterFork));
        // SAFETY: the child has a copy of it, as it is.
        drop(unsafe { std::ptr::read(&guard) });
        assert!(set.is_empty());
    });
    publisher.send_copy(1).unwrap().delivered();
    let ended = set.wait_and_process(stops);
    assert_eq!(ended, Ok(WaitSetRunResult::StopRequest));
}

// A lock that stays with who has it, as long as this is said.
struct Kept(Mutex<()>);

static IS_KEPT: AtomicBool = AtomicBool::new(false);
static HAS_IT: AtomicBool = AtomicBool::new(false);

// SAFETY: it is a mutex.
unsafe impl DomainLock for Kept {
    fn new() -> Self {
        Kept(Mutex::new(()))
    }

    fn hold<R>(&self, run: impl FnOnce() -> R) -> R {
        let _guard = self.0.lock().unwrap();
        while IS_KEPT.load(Ordering::SeqCst) {
            HAS_IT.store(true, Ordering::SeqCst);
            yield_now();
        }
        run()
    }
}

// Nobody is there in the child to give the lock back.
#[test]
fn a_child_does_not_wait_for_the_lock_of_a_thread_that_it_lacks() {
    let domain = keeping().create_with_lock::<Kept>().unwrap();
    let subscriber = domain.subscriber().unwrap();
    IS_KEPT.store(true, Ordering::SeqCst);
    scope(|scope| {
        scope.spawn(|| subscriber.receive_copy().unwrap());
        while !HAS_IT.load(Ordering::SeqCst) {
            yield_now();
        }
        in_child(|| {
            assert_eq!(subscriber.receive_copy(), Err(ReceiveError::AfterFork));
            // SAFETY: the child has copies of them, as they are.
            drop(unsafe { (std::ptr::read(&subscriber), std::ptr::read(&domain)) });
        });
        IS_KEPT.store(false, Ordering::SeqCst);
    });
}

#[test]
fn a_child_has_domains_of_its_own_and_its_child_has_not() {
    let works = |domain: &Domain<u64>| {
        let (publisher, subscriber) = (domain.publisher().unwrap(), domain.subscriber().unwrap());
        publisher.send_copy(1).unwrap().delivered();
        assert_eq!(subscriber.receive_copy(), Ok(Some(1)));
    };
    let domain = keeping().create().unwrap();
    works(&domain);
    in_child(|| {
        let own = keeping().create().unwrap();
        works(&own);
        in_child(|| {
            let refused = Err(PublisherCreateError::AfterFork);
            assert_eq!(own.publisher().map(drop), refused);
            assert_eq!(domain.publisher().map(drop), refused);
            works(&keeping().create().unwrap());
        });
        works(&own);
    });
    works(&domain);
}

#[test]
fn it_has_one_code_and_one_text_in_all_errors() {
    let codes = [
        DomainCreateError::AfterFork.code(),
        PublisherCreateError::AfterFork.code(),
        SubscriberCreateError::AfterFork.code(),
        LoanError::AfterFork.code(),
        ConnectionFailure::AfterFork.code(),
        ChannelError::AfterFork.code(),
        ReceiveError::AfterFork.code(),
        SendError::from(LoanError::AfterFork).code(),
    ];
    assert_eq!(codes, [SendError::AfterFork.code(); 8]);
    let text = SendError::AfterFork.to_string();
    assert!(text.starts_with("AfterFork: "), "{text}");
    assert_eq!(DomainCreateError::AfterFork.to_string(), text);
}

#[cfg(target_os = "linux")]
mod descriptor {
    use super::{in_child, keeping};
    use std::os::unix::io::AsRawFd;

    #[repr(C)]
    struct PollFd {
        fd: i32,
        events: i16,
        revents: i16,
    }

    extern "C" {
        fn poll(descriptors: *mut PollFd, count: u64, milliseconds: i32) -> i32;
    }

    // A child that takes the signal would take it from its parent.
    #[test]
    fn a_child_takes_nothing_from_its_parents_descriptor() {
        let domain = keeping().create_shared().unwrap();
        let (publisher, subscriber) = (domain.publisher().unwrap(), domain.subscriber().unwrap());
        let descriptor = subscriber.message_fd().unwrap();
        let is_readable = || {
            let (fd, events) = (descriptor.as_raw_fd(), 1);
            let mut one = PollFd {
                fd,
                events,
                revents: 0,
            };
            // SAFETY: the pointer is of a local.
            unsafe { poll(&mut one, 1, 0) == 1 }
        };
        descriptor.reset().unwrap();
        publisher.send_copy(1).unwrap().delivered();
        in_child(|| {
            assert!(descriptor
                .reset()
                .unwrap_err()
                .to_string()
                .contains("AfterFork"));
            // SAFETY: the child has a copy of it, as it is.
            drop(unsafe { std::ptr::read(&descriptor) });
        });
        assert!(is_readable());
        publisher.send_copy(2).unwrap().delivered();
        assert!(is_readable());
        descriptor.reset().unwrap();
        assert!(!is_readable());
        assert_eq!(subscriber.receive_copy(), Ok(Some(1)));
        publisher.send_copy(3).unwrap().delivered();
        assert!(is_readable());
    }
}
