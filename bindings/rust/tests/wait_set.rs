// SPDX-License-Identifier: Apache-2.0 OR MIT
//! Waits for several ports and times.

mod turns;

use iox2_pubsub::{
    CallbackProgression, Domain, LoanError, SendOutcome, SharedDomain, WaitSet,
    WaitSetAttachmentId, WaitSetGuard, WaitSetRunError, WaitSetRunResult,
};
use std::cell::RefCell;
use std::collections::{BTreeMap, HashSet};
use std::mem::forget;
use std::panic::{catch_unwind, AssertUnwindSafe};
use std::thread;
use std::time::{Duration, Instant};
use turns::{asleep_after, stopped_after, turns_of, Watched, WatchedThreads};
use CallbackProgression::{Continue, Stop};

const HOUR: Duration = Duration::from_secs(3600);

fn keeping(buffer: usize) -> SharedDomain<u64> {
    settings(buffer).create_shared().unwrap()
}

fn watched(buffer: usize) -> Domain<u64, WatchedThreads> {
    settings(buffer).create_with_lock::<Watched>().unwrap()
}

fn settings(buffer: usize) -> iox2_pubsub::DomainBuilder<u64> {
    Domain::<u64>::builder(1)
        .enable_safe_overflow(false)
        .subscriber_max_buffer_size(buffer)
}

// The events of one wait.
#[track_caller]
fn once(set: &WaitSet) -> Vec<WaitSetAttachmentId> {
    let mut all = Vec::new();
    let ended = set.wait_and_process_once(|id| {
        all.push(id);
        Continue
    });
    assert_eq!(ended, Ok(WaitSetRunResult::AllEventsHandled));
    all
}

// Those that are there now.
#[track_caller]
fn now(set: &WaitSet) -> Vec<WaitSetAttachmentId> {
    let mut all = Vec::new();
    let take = |id| {
        all.push(id);
        Continue
    };
    let ended = set.wait_and_process_once_with_timeout(take, Duration::ZERO);
    assert_eq!(ended, Ok(WaitSetRunResult::AllEventsHandled));
    all
}

fn none(id: WaitSetAttachmentId) -> CallbackProgression {
    panic!("an event: {id:?}")
}

fn of(guard: &WaitSetGuard<'_, '_>) -> WaitSetAttachmentId {
    WaitSetAttachmentId::from_guard(guard)
}

#[test]
fn subscribers_of_several_domains_have_events_while_messages_wait() {
    let numbers = keeping(4);
    let words = Domain::<[u8]>::slice_builder(2).max_slice_len(8);
    let words = words.create_shared().unwrap();
    let (number, by_number) = (numbers.publisher().unwrap(), numbers.subscriber().unwrap());
    let (word, by_word) = (words.publisher().unwrap(), words.subscriber().unwrap());
    let set = WaitSet::new();
    let first = set.attach_notification(&by_number).unwrap();
    let second = set.attach_notification(&by_word).unwrap();
    assert_eq!(set.len(), 2);
    assert_eq!(now(&set), []);
    let loan = word.loan_slice_uninit(3).unwrap();
    loan.write_from_slice(b"yes").send().unwrap().delivered();
    assert_eq!(once(&set), [of(&second)]);
    number.send_copy(1).unwrap().delivered();
    number.send_copy(2).unwrap().delivered();
    assert_eq!(once(&set), [of(&first), of(&second)]);
    assert_eq!(by_number.receive_copy(), Ok(Some(1)));
    assert_eq!(&*by_word.receive().unwrap().unwrap(), b"yes");
    assert_eq!(once(&set), [of(&first)]);
    assert_eq!(by_number.receive_copy(), Ok(Some(2)));
    assert_eq!(now(&set), []);
}

// Attaching takes the lock once, and a look once for each port to which something may have come.
const TO_ATTACH: usize = 1;
const TO_LOOK: usize = 1;

#[test]
fn a_set_that_sleeps_is_woken() {
    let (first, second) = (watched(4), watched(4));
    let (one, other) = (first.publisher().unwrap(), second.publisher().unwrap());
    let (at_one, at_other) = (first.subscriber().unwrap(), second.subscriber().unwrap());
    thread::scope(|scope| {
        let waits = asleep_after(scope, 2 * (TO_ATTACH + TO_LOOK), || {
            let set = WaitSet::new();
            let of_one = set.attach_notification(&at_one).unwrap();
            let _of_other = set.attach_notification(&at_other).unwrap();
            let mut sum = 0;
            let ended = set.wait_and_process(|id| {
                let subscriber = match id.has_event_from(&of_one) {
                    true => &at_one,
                    false => &at_other,
                };
                while let Some(number) = subscriber.receive_copy().unwrap() {
                    sum += number;
                }
                match sum {
                    11 => Stop,
                    _ => Continue,
                }
            });
            assert_eq!(ended, Ok(WaitSetRunResult::StopRequest));
        });
        other.send_copy(1).unwrap().delivered();
        // It looks, receives twice, and looks again.
        waits.has_had(2 * (TO_ATTACH + TO_LOOK) + 2 + 2 * TO_LOOK);
        one.send_copy(10).unwrap().delivered();
        waits.join();
    });
}

// It has looked at the first, and not at the second.
#[test]
fn what_comes_while_a_set_falls_asleep_is_not_missed() {
    let (first, second) = (watched(4), watched(4));
    let publisher = first.publisher().unwrap();
    let (at_first, at_second) = (first.subscriber().unwrap(), second.subscriber().unwrap());
    thread::scope(|scope| {
        let waits = stopped_after(scope, 2 * TO_ATTACH + TO_LOOK, || {
            let set = WaitSet::new();
            let of_first = set.attach_notification(&at_first).unwrap();
            let _of_second = set.attach_notification(&at_second).unwrap();
            assert_eq!(once(&set), [of(&of_first)]);
        });
        publisher.send_copy(1).unwrap().delivered();
        waits.go_on();
        waits.join();
    });
}

#[test]
fn a_time_passes() {
    let subscriber = keeping(4).subscriber().unwrap();
    let set = WaitSet::new();
    let _guard = set.attach_notification(&subscriber).unwrap();
    let (started, time) = (Instant::now(), Duration::from_millis(20));
    let ended = set.wait_and_process_once_with_timeout(none, time);
    assert_eq!(ended, Ok(WaitSetRunResult::AllEventsHandled));
    assert!(started.elapsed() >= time);
}

#[test]
fn nothing_attached_is_an_error() {
    let set = WaitSet::new();
    assert!(set.is_empty());
    assert_eq!(
        set.wait_and_process(none),
        Err(WaitSetRunError::NoAttachments)
    );
    let guard = set.attach_interval(Duration::ZERO).unwrap();
    assert_eq!((set.len(), once(&set)), (1, vec![of(&guard)]));
    drop(guard);
    let error = set.wait_and_process_once(none).unwrap_err();
    assert!(error.to_string().starts_with("NoAttachments: "));
    assert_eq!(error.code(), 0xffff_fffc);
}

#[test]
fn a_deadline_is_missed_where_no_message_came() {
    let domain = keeping(4);
    let (publisher, subscriber) = (domain.publisher().unwrap(), domain.subscriber().unwrap());
    let set = WaitSet::new();
    let (started, deadline) = (Instant::now(), Duration::from_millis(20));
    let guard = set.attach_deadline(&subscriber, deadline).unwrap();
    for missed in 1..4 {
        let all = once(&set);
        assert!(
            all.len() == 1 && all[0].has_missed_deadline(&guard) && !all[0].has_event_from(&guard)
        );
        assert!(started.elapsed() >= missed * deadline);
    }
    publisher.send_copy(1).unwrap().delivered();
    assert_eq!(once(&set), [of(&guard)]);
}

// Where it didn't begin anew it would be missed earlier.
#[test]
fn a_deadline_begins_anew_with_each_message() {
    let domain = keeping(4);
    let (publisher, subscriber) = (domain.publisher().unwrap(), domain.subscriber().unwrap());
    let set = WaitSet::new();
    let deadline = Duration::from_millis(200);
    let guard = set.attach_deadline(&subscriber, deadline).unwrap();
    thread::sleep(Duration::from_millis(150));
    let came = Instant::now();
    publisher.send_copy(1).unwrap().delivered();
    assert_eq!(once(&set), [of(&guard)]);
    assert_eq!(subscriber.receive_copy(), Ok(Some(1)));
    assert!(once(&set)[0].has_missed_deadline(&guard) && came.elapsed() >= deadline);
}

#[test]
fn a_message_that_is_late_for_its_deadline_is_an_event() {
    let domain = keeping(4);
    let (publisher, subscriber) = (domain.publisher().unwrap(), domain.subscriber().unwrap());
    let set = WaitSet::new();
    let guard = set.attach_deadline(&subscriber, Duration::ZERO).unwrap();
    assert!(once(&set)[0].has_missed_deadline(&guard));
    publisher.send_copy(1).unwrap().delivered();
    assert_eq!(once(&set), [of(&guard)]);
}

#[test]
fn ticks_that_were_due_meanwhile_are_one() {
    let set = WaitSet::new();
    let (started, interval) = (Instant::now(), Duration::from_millis(2));
    let guard = set.attach_interval(interval).unwrap();
    thread::sleep(interval * 100);
    (0..100).for_each(|_| assert_eq!(once(&set), [of(&guard)]));
    assert!(started.elapsed() >= interval * 199);
}

#[test]
fn the_longest_times_are_forever() {
    let domain = keeping(4);
    let (publisher, subscriber) = (domain.publisher().unwrap(), domain.subscriber().unwrap());
    let set = WaitSet::new();
    let _interval = set.attach_interval(Duration::MAX).unwrap();
    let _deadline = set.attach_deadline(&subscriber, Duration::MAX).unwrap();
    assert_eq!(now(&set), []);
    publisher.send_copy(1).unwrap().delivered();
    let ended = set.wait_and_process_once_with_timeout(|_| Stop, Duration::MAX);
    assert_eq!(ended, Ok(WaitSetRunResult::StopRequest));
}

// The function is called for nothing that was detached, by itself or by the one before.
#[test]
fn what_is_detached_is_not_called() {
    let domain = keeping(4);
    let publisher = domain.publisher().unwrap();
    let subscribers: Vec<_> = (0..3).map(|_| domain.subscriber().unwrap()).collect();
    let set = WaitSet::new();
    let attach = |subscriber| set.attach_notification(subscriber).unwrap();
    let mut guards: Vec<_> = subscribers.iter().map(attach).collect();
    publisher.send_copy(1).unwrap().delivered();
    let mut called = Vec::new();
    let ended = set.wait_and_process_once(|id| {
        called.push(id.has_event_from(&guards[0]));
        guards = vec![set.attach_interval(Duration::ZERO).unwrap()];
        Continue
    });
    assert_eq!(ended, Ok(WaitSetRunResult::AllEventsHandled));
    assert_eq!((called, set.len()), (vec![true], 1));
    assert_eq!(once(&set), [of(&guards[0])]);
}

// It is in the round whose function detaches some that were called, and one that wasn't.
#[test]
fn those_behind_what_is_detached_are_called_once() {
    let set = WaitSet::new();
    let attach = || Some(set.attach_interval(Duration::ZERO).unwrap());
    let mut guards: Vec<_> = (0..5).map(|_| attach()).collect();
    let ids: Vec<_> = guards.iter().flatten().map(of).collect();
    let mut called = Vec::new();
    let ended = set.wait_and_process_once(|id| {
        called.push(id);
        if id == ids[2] {
            guards[..2].fill_with(|| None);
            guards[3] = None;
        }
        Continue
    });
    assert_eq!(ended, Ok(WaitSetRunResult::AllEventsHandled));
    assert_eq!(called, [ids[0], ids[1], ids[2], ids[4]]);
}

// A guard that is forgotten keeps nothing borrowed, so that the port may go.
#[test]
fn a_port_that_goes_is_not_called() {
    let domain = keeping(4);
    let (publisher, stays) = (domain.publisher().unwrap(), domain.subscriber().unwrap());
    let set = WaitSet::new();
    let of_stays = set.attach_notification(&stays).unwrap();
    {
        let (subscriber, other) = (domain.subscriber().unwrap(), domain.publisher().unwrap());
        forget(set.attach_deadline(&subscriber, Duration::ZERO).unwrap());
        forget(set.attach_deadline(&other, Duration::ZERO).unwrap());
        publisher.send_copy(1).unwrap().delivered();
        assert_eq!(once(&set).len(), 3);
    }
    publisher.send_copy(2).unwrap().delivered();
    publisher.loan().map(drop).unwrap();
    assert_eq!(once(&set), [of(&of_stays)]);
    assert_eq!(set.len(), 1);
}

#[test]
fn a_forgotten_guard_keeps_its_domain() {
    let set = WaitSet::new();
    {
        let subscriber = keeping(4).subscriber().unwrap();
        forget(set.attach_notification(&subscriber).unwrap());
    }
    let ended = set.wait_and_process_once_with_timeout(none, Duration::ZERO);
    assert_eq!(ended, Err(WaitSetRunError::NoAttachments));
}

#[test]
fn stopped_waits_end_once_no_port_has_an_event() {
    let domain = watched(4);
    let (publisher, subscriber) = (domain.publisher().unwrap(), domain.subscriber().unwrap());
    thread::scope(|scope| {
        let waits = asleep_after(scope, TO_ATTACH + TO_LOOK, || {
            let set = WaitSet::new();
            let _guard = set.attach_notification(&subscriber).unwrap();
            let _forever = set.attach_interval(HOUR).unwrap();
            let ended = set.wait_and_process(none);
            assert_eq!(ended, Ok(WaitSetRunResult::TerminationRequest));
        });
        domain.stop_waits(true);
        waits.join();
    });
    publisher.send_copy(3).unwrap().delivered();
    publisher.send_copy(4).unwrap().delivered();
    let set = WaitSet::new();
    let guard = set.attach_notification(&subscriber).unwrap();
    let always = set.attach_interval(Duration::ZERO).unwrap();
    let mut sum = 0;
    let ended = set.wait_and_process(|id| {
        if id.has_event_from(&guard) {
            sum += subscriber.receive_copy().unwrap().unwrap();
        }
        Continue
    });
    assert_eq!((ended, sum), (Ok(WaitSetRunResult::TerminationRequest), 7));
    let ended = set.wait_and_process_once(none);
    assert_eq!(ended, Ok(WaitSetRunResult::TerminationRequest));
    domain.stop_waits(false);
    assert_eq!(once(&set), [of(&always)]);
}

#[test]
fn an_event_after_a_stop_is_there_where_nothing_else_comes() {
    let (first, second) = (keeping(4), keeping(4));
    let (one, other) = (first.publisher().unwrap(), second.publisher().unwrap());
    let set = WaitSet::new();
    let of_one = set.attach_notification(&one).unwrap();
    let of_other = set.attach_notification(&other).unwrap();
    let ended = set.wait_and_process(|id| {
        assert_eq!(id, of(&of_one));
        Stop
    });
    assert_eq!(ended, Ok(WaitSetRunResult::StopRequest));
    assert_eq!(once(&set), [of(&of_other)]);
    assert_eq!(now(&set), []);
}

// What nothing was called for is there for the next wait: a message, what a publisher waits for, and a tick.
#[test]
fn events_after_a_stop_or_a_panic_stay() {
    let domain = keeping(4);
    let (publisher, subscriber) = (domain.publisher().unwrap(), domain.subscriber().unwrap());
    let set = WaitSet::new();
    let always = set.attach_interval(Duration::ZERO).unwrap();
    let of_subscriber = set.attach_notification(&subscriber).unwrap();
    let of_publisher = set.attach_notification(&publisher).unwrap();
    let tick = set.attach_interval(Duration::from_millis(1)).unwrap();
    publisher.send_copy(1).unwrap().delivered();
    thread::sleep(Duration::from_millis(2));
    let mut called = 0;
    let ended = set.wait_and_process_once(|_| {
        called += 1;
        Stop
    });
    assert_eq!((ended, called), (Ok(WaitSetRunResult::StopRequest), 1));
    let panics = AssertUnwindSafe(|| set.wait_and_process(|_| panic!("meant")));
    assert!(catch_unwind(panics).is_err());
    let all = [
        of(&always),
        of(&of_subscriber),
        of(&of_publisher),
        of(&tick),
    ];
    assert_eq!(once(&set), all);
}

#[test]
fn a_publisher_has_an_event_when_a_loan_may_be_made() {
    let domain = keeping(4);
    let publisher = domain.publisher().unwrap();
    let set = WaitSet::new();
    let guard = set.attach_deadline(&publisher, HOUR).unwrap();
    assert_eq!(once(&set), [of(&guard)]);
    assert_eq!(now(&set), []);
    let mut loans: Vec<_> = (0..2).map(|_| publisher.loan().unwrap()).collect();
    assert_eq!(publisher.loan().map(drop), Err(LoanError::ExceedsMaxLoans));
    assert_eq!(now(&set), []);
    loans.pop();
    assert_eq!(once(&set), [of(&guard)]);
    assert_eq!(now(&set), []);
    drop(guard);
    let guard = set.attach_deadline(&publisher, Duration::from_millis(1));
    let guard = guard.unwrap();
    assert_eq!(once(&set), [of(&guard)]);
    assert!(once(&set)[0].has_missed_deadline(&guard));
}

#[test]
fn a_publisher_has_an_event_when_a_blocked_send_may_be_retried() {
    let domain = watched(1);
    let (publisher, subscriber) = (domain.publisher().unwrap(), domain.subscriber().unwrap());
    publisher.send_copy(1).unwrap().delivered();
    thread::scope(|scope| {
        let sends = asleep_after(scope, TO_ATTACH + TO_LOOK + 2, || {
            let set = WaitSet::new();
            let mut sent = publisher.send_copy(2).unwrap().blocked();
            let _guard = set.attach_notification(&publisher).unwrap();
            let ended = set.wait_and_process(|_| {
                match sent.take().unwrap().retry(Duration::ZERO).unwrap() {
                    SendOutcome::Blocked(again) => sent = Some(again),
                    _ => return Stop,
                }
                Continue
            });
            assert_eq!(ended, Ok(WaitSetRunResult::StopRequest));
        });
        // It makes room, and frees no slot while it is there.
        let sample = subscriber.receive().unwrap().unwrap();
        sends.join();
        assert_eq!(*sample, 1);
    });
    assert_eq!(subscriber.receive_copy(), Ok(Some(2)));
}

#[test]
fn a_function_may_wait() {
    let domain = keeping(4);
    let (publisher, subscriber) = (domain.publisher().unwrap(), domain.subscriber().unwrap());
    let set = WaitSet::new();
    let first = set.attach_notification(&publisher).unwrap();
    let second = set.attach_notification(&subscriber).unwrap();
    let third = set.attach_notification(&publisher).unwrap();
    publisher.send_copy(1).unwrap().delivered();
    let mut outside = Vec::new();
    let ended = set.wait_and_process_once(|id| {
        outside.push(id);
        assert_eq!(once(&set), [of(&second), of(&third)]);
        Continue
    });
    assert_eq!(ended, Ok(WaitSetRunResult::AllEventsHandled));
    assert_eq!(outside, [of(&first)]);
    assert_eq!(once(&set), [of(&second)]);
}

thread_local! {
    static SILENT: RefCell<Option<WaitSetRunResult>> = const { RefCell::new(None) };
}

#[test]
fn a_listener_does_not_wait() {
    let (domain, silent) = (keeping(4), keeping(4));
    let (publisher, subscriber) = (domain.publisher().unwrap(), domain.subscriber().unwrap());
    subscriber.set_listener(move || {
        let (set, nothing) = (WaitSet::new(), silent.subscriber().unwrap());
        let _guard = set.attach_notification(&nothing).unwrap();
        let ended = set.wait_and_process(none).unwrap();
        SILENT.with(|silent| *silent.borrow_mut() = Some(ended));
    });
    publisher.send_copy(1).unwrap().delivered();
    let ended = SILENT.with(|silent| silent.take());
    assert_eq!(ended, Some(WaitSetRunResult::TerminationRequest));
}

#[test]
fn ids_are_keys() {
    let (set, other) = (WaitSet::new(), WaitSet::new());
    let first = set.attach_interval(Duration::ZERO).unwrap();
    let second = other.attach_interval(Duration::ZERO).unwrap();
    assert!(of(&first) < of(&second));
    let ordered = BTreeMap::from([(of(&first), 1), (of(&second), 2)]);
    assert_eq!(ordered[&once(&other)[0]], 2);
    let hashed = HashSet::from([of(&first), of(&second)]);
    assert!(hashed.contains(&once(&set)[0]));
    let subscriber = keeping(4).subscriber().unwrap();
    let deadline = other.attach_deadline(&subscriber, Duration::ZERO).unwrap();
    let missed = once(&other)[1];
    assert!(missed > of(&deadline) && !missed.has_missed_deadline(&second));
    assert!(format!("{other:?} {deadline:?}").starts_with("WaitSet { len: 2"));
}

#[test]
fn a_set_goes_to_another_thread() {
    let set = WaitSet::new();
    let domain = keeping(4);
    let (publisher, subscriber) = (domain.publisher().unwrap(), domain.subscriber().unwrap());
    forget(set.attach_notification(&subscriber).unwrap());
    let waits = thread::spawn(move || once(&set).len());
    publisher.send_copy(1).unwrap().delivered();
    assert_eq!(waits.join().unwrap(), 1);
}

// Its ports have had events, and have none any longer.
#[test]
fn an_idle_set_asks_no_domain() {
    let domain = watched(4);
    let (publisher, subscriber) = (domain.publisher().unwrap(), domain.subscriber().unwrap());
    let set = WaitSet::new();
    let of_subscriber = set.attach_deadline(&subscriber, HOUR).unwrap();
    let of_publisher = set.attach_notification(&publisher).unwrap();
    publisher.send_copy(1).unwrap().delivered();
    assert_eq!(once(&set), [of(&of_subscriber), of(&of_publisher)]);
    assert_eq!(subscriber.receive_copy(), Ok(Some(1)));
    assert_eq!(once(&set), [of(&of_publisher)]);
    assert_eq!(now(&set), []);
    let tick = set.attach_interval(Duration::from_millis(10)).unwrap();
    let ((), turns) = turns_of(|| (0..10).for_each(|_| assert_eq!(once(&set), [of(&tick)])));
    assert_eq!(turns, 0);
}

#[cfg(target_os = "linux")]
mod sleep {
    use super::{keeping, none, of, once, HOUR};
    use iox2_pubsub::{WaitSet, WaitSetRunResult};
    use std::path::Path;
    use std::sync::mpsc;
    use std::time::{Duration, Instant};
    use std::{fs, thread};

    // What the kernel says of a thread: its state, and how often it has slept so far.
    fn sleeps_of(thread: &Path) -> String {
        let status = fs::read_to_string(thread.join("status")).unwrap();
        let is_it = |line: &&str| line.starts_with("State:") || line.starts_with("voluntary_ctxt");
        status.lines().filter(is_it).collect()
    }

    // Whether a thread is found asleep that isn't awake once until it is looked at again, however late that is.
    fn sleeps_on(thread: &Path) -> bool {
        let started = Instant::now();
        while started.elapsed() < Duration::from_secs(60) {
            let before = sleeps_of(thread);
            thread::sleep(Duration::from_millis(200));
            if before.contains("S (sleeping)") && sleeps_of(thread) == before {
                return true;
            }
        }
        false
    }

    // One that looks now and then is awake meanwhile, and one that looks all the time never sleeps.
    #[test]
    fn an_idle_set_sleeps_on() {
        let domain = keeping(4);
        let (publisher, subscriber) = (domain.publisher().unwrap(), domain.subscriber().unwrap());
        let (says, place) = mpsc::channel();
        thread::scope(|scope| {
            let waits = scope.spawn(|| {
                let set = WaitSet::new();
                let guard = set.attach_deadline(&subscriber, HOUR).unwrap();
                let _tick = set.attach_interval(HOUR).unwrap();
                publisher.send_copy(1).unwrap().delivered();
                assert_eq!(once(&set), [of(&guard)]);
                assert_eq!(subscriber.receive_copy(), Ok(Some(1)));
                let says = says; // nobody waits for what a thread says that has panicked
                let thread = fs::canonicalize("/proc/thread-self").unwrap();
                says.send(thread).unwrap();
                let ended = set.wait_and_process_once(none);
                assert_eq!(ended, Ok(WaitSetRunResult::TerminationRequest));
            });
            let has_slept = place.recv().map(|thread| sleeps_on(&thread));
            domain.stop_waits(true);
            waits.join().unwrap();
            assert_eq!(has_slept, Ok(true));
        });
    }
}

// Many senders, and ports that come and go while messages cross.
#[test]
fn each_message_is_received() {
    const MESSAGES: u64 = 500;
    let domains: Vec<_> = (0..4).map(|_| keeping(2)).collect();
    let subscribers: Vec<_> = domains
        .iter()
        .map(|one| one.subscriber().unwrap())
        .collect();
    thread::scope(|scope| {
        for domain in &domains {
            scope.spawn(move || {
                let publisher = domain.publisher().unwrap();
                for number in 0..MESSAGES {
                    publisher.blocking_send_copy(number).unwrap().delivered();
                }
            });
            scope.spawn(move || {
                for _ in 0..MESSAGES / 10 {
                    let (late, set) = (domain.subscriber().unwrap(), WaitSet::new());
                    let _guard = set.attach_deadline(&late, Duration::ZERO).unwrap();
                    assert_eq!(once(&set).len(), 1);
                }
            });
        }
        let set = WaitSet::new();
        let attach = |at: usize| set.attach_notification(&subscribers[at]).unwrap();
        let mut guards: Vec<_> = (0..4).map(attach).collect();
        let mut next = [0; 4];
        let ended = set.wait_and_process(|id| {
            let at = guards.iter().position(|guard| id.has_event_from(guard));
            let at = at.unwrap();
            while let Some(number) = subscribers[at].receive_copy().unwrap() {
                assert_eq!(number, next[at]);
                next[at] += 1;
            }
            guards[at] = attach(at);
            match next {
                [MESSAGES, MESSAGES, MESSAGES, MESSAGES] => Stop,
                _ => Continue,
            }
        });
        assert_eq!(ended, Ok(WaitSetRunResult::StopRequest));
    });
}
