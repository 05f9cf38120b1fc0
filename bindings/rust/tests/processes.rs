// SPDX-License-Identifier: Apache-2.0 OR MIT
//! Domains that processes share by a name. What others do, the program does that is started again.
#![cfg(feature = "processes")]

mod children;

use children::{in_child, name_of, say, wait_for_parent, Process};
use iox2_pubsub::{
    AllocationStrategy, BackpressureStrategy, Domain, DomainOpenErrorKind, LoanError,
    ListenerWaitError, NamedDomainBuilder, NodeListFailure, NotifierNotifyError, PublisherCreateError, ReceiveError, SendError, SharedDomain,
};
use std::fs;
use std::thread::{self, sleep};
use std::time::{Duration, Instant};

// Only what has failed takes so long.
const LONG: Duration = Duration::from_secs(120);

fn numbers(name: &str) -> NamedDomainBuilder<u64> {
    Domain::<u64>::builder(7)
        .enable_safe_overflow(false)
        .backpressure_strategy(BackpressureStrategy::RetryUntilDelivered)
        .name(name)
}

fn shared(name: &str) -> SharedDomain<u64> {
    numbers(name).open_or_create_shared().unwrap()
}

#[track_caller]
fn until(is_so: impl Fn() -> bool) {
    let begun = Instant::now();
    while !is_so() {
        assert!(begun.elapsed() < LONG);
        sleep(Duration::from_millis(1));
    }
}

#[track_caller]
fn refused<T>(opened: Result<T, iox2_pubsub::DomainOpenError>) -> DomainOpenErrorKind {
    let error = opened.err().expect("it is refused");
    assert!(!error.why().is_empty());
    assert!(error.to_string().contains(error.why()));
    assert_eq!(error.kind().code(), error.code());
    error.kind()
}

// ---- messages

const MESSAGES: u64 = 300;

#[test]
#[ignore = "a process of other tests"]
fn sends_numbers() {
    let domain = shared(&in_child());
    let publisher = domain.publisher().unwrap();
    for number in 1..=MESSAGES {
        let sent = publisher.blocking_send_copy(number).unwrap();
        assert_eq!(sent.delivered(), Some(1));
    }
    wait_for_parent();
}

#[test]
fn messages_come_from_another_process() {
    let name = name_of("messages");
    let domain = shared(&name);
    let subscriber = domain.subscriber().unwrap();
    let mut child = Process::start("sends_numbers", &name);
    for number in 1..=MESSAGES {
        let sample = subscriber.timed_receive(LONG).unwrap().unwrap();
        assert_eq!(*sample, number);
        assert_eq!(sample.header().number_of_elements(), 1);
    }
    child.go_on();
    child.end();
    assert!(Domain::exists(&name));
    drop((subscriber, domain));
    assert!(!Domain::exists(&name));
}

#[test]
fn one_thread_receives_them_too() {
    let name = name_of("one_thread");
    let domain = numbers(&name).open_or_create().unwrap();
    let subscriber = domain.subscriber().unwrap();
    let mut child = Process::start("sends_numbers", &name);
    let mut next = 1;
    let begun = Instant::now();
    while next <= MESSAGES {
        for sample in &subscriber {
            assert_eq!(*sample.unwrap(), next);
            next += 1;
        }
        assert!(begun.elapsed() < LONG);
    }
    child.go_on();
    child.end();
}

#[test]
fn threads_of_one_process_get_each_message() {
    let name = name_of("threads");
    let domain = shared(&name);
    let threads: Vec<_> = (0..3)
        .map(|_| {
            let subscriber = domain.subscriber().unwrap();
            thread::spawn(move || {
                let mut reader = subscriber.reader();
                for number in 1..=MESSAGES {
                    assert_eq!(reader.timed_receive(LONG).unwrap(), Some(&number));
                }
            })
        })
        .collect();
    let mut child = Process::start("sends_numbers_to_three", &name);
    threads.into_iter().for_each(|one| one.join().unwrap());
    child.go_on();
    child.end();
}

#[test]
#[ignore = "a process of other tests"]
fn sends_numbers_to_three() {
    let domain = shared(&in_child());
    let publisher = domain.publisher().unwrap();
    let mut writer = publisher.writer();
    for number in 1..=MESSAGES {
        assert_eq!(writer.blocking_send(number).unwrap().delivered(), Some(3));
    }
    drop(writer);
    wait_for_parent();
}

iox2_pubsub::zero_copy_send! {
    #[derive(Clone, Copy, Debug, PartialEq)]
    struct Pose {
        at: [f64; 3],
        time: u64,
    }
}

#[test]
#[ignore = "a process of other tests"]
fn sends_slices() {
    let name = in_child();
    let domain = poses(&name).open().unwrap();
    let publisher = domain.publisher().unwrap();
    for len in 0..=4 {
        let poses = (0..len).map(pose);
        let loan = publisher.loan_slice_uninit(len).unwrap();
        let loan = loan.write_from_fn(|at| poses.clone().nth(at).unwrap());
        assert_eq!(loan.send().unwrap().delivered(), Some(1));
    }
    wait_for_parent();
}

fn pose(number: usize) -> Pose {
    Pose {
        at: [number as f64; 3],
        time: number as u64,
    }
}

fn poses(name: &str) -> NamedDomainBuilder<[Pose]> {
    Domain::<[Pose]>::slice_builder(7)
        .max_slice_len(4)
        .subscriber_max_buffer_size(5)
        .publisher_max_loaned_samples(5)
        .name(name)
}

#[test]
fn slices_of_structs_come() {
    let name = name_of("slices");
    let domain = poses(&name).create_shared().unwrap();
    let subscriber = domain.subscriber().unwrap();
    let mut child = Process::start("sends_slices", &name);
    for len in 0..=4 {
        let sample = subscriber.timed_receive(LONG).unwrap().unwrap();
        assert_eq!(sample.payload(), (0..len).map(pose).collect::<Vec<_>>());
    }
    let found = Domain::list().unwrap();
    let found = found.iter().find(|one| one.name == name).unwrap();
    assert_eq!((&*found.type_name, found.processes), ("[Pose]", 2));
    assert_eq!((found.payload_size, found.payload_alignment), (4 * 32, 8));
    child.go_on();
    child.end();
}

#[test]
fn calls_are_recorded_where_it_is_created_so() {
    let name = name_of("recorded");
    let builder = Domain::<u64>::builder(7).record(1000, 0).name(&name);
    let domain = builder.create().unwrap();
    let publisher = domain.publisher().unwrap();
    assert_eq!(publisher.send_copy(1).unwrap().delivered(), Some(0));
    let recording = domain.recording().unwrap();
    assert!(recording.text.contains("publisher"), "{}", recording.text);
    assert_eq!(recording.missed, 0);
}

// ---- waits

#[test]
#[ignore = "a process of other tests"]
fn sends_when_told() {
    let domain = shared(&in_child());
    let publisher = domain.publisher().unwrap();
    say("is here");
    loop {
        wait_for_parent();
        assert!(publisher.blocking_send_copy(1).unwrap().delivered().is_some());
    }
}

#[test]
fn a_wait_ends_by_what_another_process_sends() {
    let name = name_of("waits");
    let domain = shared(&name);
    let subscriber = domain.subscriber().unwrap();
    let mut child = Process::start("sends_when_told", &name);
    child.hear();
    for _ in 0..20 {
        assert_eq!(subscriber.timed_receive_copy(Duration::ZERO), Ok(None));
        let short = Duration::from_millis(1);
        assert_eq!(subscriber.timed_receive_copy(short), Ok(None));
        child.go_on();
        assert_eq!(subscriber.timed_receive_copy(LONG), Ok(Some(1)));
    }
    domain.stop_waits(true);
    assert_eq!(subscriber.blocking_receive_copy(), Ok(None));
}

#[test]
#[cfg(target_os = "linux")]
fn listeners_tasks_descriptors_and_wait_sets_are_told() {
    use std::future::Future;
    use std::pin::Pin;
    use std::sync::mpsc::channel;
    use std::sync::Arc;
    use std::task::{Context, Wake};

    struct Unparks(thread::Thread);
    impl Wake for Unparks {
        fn wake(self: Arc<Self>) {
            self.0.unpark();
        }
    }

    let name = name_of("told");
    let domain = shared(&name);
    let subscriber = domain.subscriber().unwrap();
    let mut child = Process::start("sends_when_told", &name);
    child.hear();

    let (tells, told) = channel();
    let tells = std::sync::Mutex::new(tells);
    subscriber.set_listener(move || tells.lock().unwrap().send(()).unwrap());
    child.go_on();
    // It is told that a message may have come, and so perhaps too often.
    let mut received = None;
    while received.is_none() {
        told.recv_timeout(LONG).unwrap();
        received = subscriber.receive_copy().unwrap();
    }

    let descriptor = subscriber.message_fd().unwrap();
    child.go_on();
    received = None;
    while received.is_none() {
        until(|| is_readable(&descriptor));
        descriptor.reset().unwrap();
        received = subscriber.receive_copy().unwrap();
    }
    subscriber.clear_listener();

    let waker = Arc::new(Unparks(thread::current())).into();
    let mut future = subscriber.receive_async();
    let mut polled = || Pin::new(&mut future).poll(&mut Context::from_waker(&waker));
    assert!(polled().is_pending());
    child.go_on();
    let begun = Instant::now();
    let sample = loop {
        if let std::task::Poll::Ready(sample) = polled() {
            break sample;
        }
        assert!(begun.elapsed() < LONG);
        thread::park_timeout(LONG);
    };
    assert_eq!(*sample.unwrap().unwrap(), 1);

    let wait_set = iox2_pubsub::WaitSet::new();
    let _guard = wait_set.attach_notification(&subscriber).unwrap();
    let mut count = 0;
    child.go_on();
    let run = wait_set.wait_and_process_once_with_timeout(
        |_| {
            count += 1;
            iox2_pubsub::CallbackProgression::Continue
        },
        LONG,
    );
    assert!(run.is_ok() && count == 1);
    assert_eq!(subscriber.receive_copy(), Ok(Some(1)));
}

#[cfg(target_os = "linux")]
fn is_readable(descriptor: &iox2_pubsub::MessageFd) -> bool {
    use std::os::unix::io::AsRawFd;
    #[repr(C)]
    struct Poll(i32, i16, i16);
    extern "C" {
        fn poll(descriptors: *mut Poll, count: std::os::raw::c_ulong, timeout: i32) -> i32;
    }
    let mut one = Poll(descriptor.as_raw_fd(), 1, 0);
    // SAFETY: it is one.
    unsafe { poll(&mut one, 1, 0) == 1 }
}

#[test]
#[ignore = "a process of other tests"]
fn receives_when_told() {
    let domain = shared(&in_child());
    let subscriber = domain.subscriber().unwrap();
    say("is here");
    let mut number = 0;
    loop {
        wait_for_parent();
        number += 1;
        assert_eq!(subscriber.timed_receive_copy(LONG), Ok(Some(number)));
    }
}

#[test]
fn a_send_waits_for_room_that_another_process_makes() {
    let name = name_of("room");
    let domain = shared(&name);
    let publisher = domain.publisher().unwrap();
    let mut child = Process::start("receives_when_told", &name);
    child.hear();
    for number in 1..=20 {
        // The buffer has room for two.
        if number > 2 {
            child.go_on();
        }
        let sent = publisher.timed_send_copy(number, LONG).unwrap();
        assert_eq!(sent.delivered(), Some(1));
    }
}

#[test]
#[ignore = "a process of other tests"]
fn holds_a_sample() {
    let domain = shared(&in_child());
    let subscriber = domain.subscriber().unwrap();
    say("is here");
    let sample = subscriber.timed_receive(LONG).unwrap().unwrap();
    say("has it");
    wait_for_parent();
    drop(sample);
    wait_for_parent();
}

#[test]
fn a_loan_waits_for_a_slot_that_another_process_has() {
    let name = name_of("slot");
    let domain = shared(&name);
    let publisher = domain
        .publisher_builder()
        .override_sample_preallocation(|_| 1)
        .create()
        .unwrap();
    let mut child = Process::start("holds_a_sample", &name);
    child.hear();
    assert_eq!(publisher.send_copy(7).unwrap().delivered(), Some(1));
    child.hear();
    assert_eq!(publisher.loan_uninit().err(), Some(LoanError::OutOfMemory));
    child.go_on();
    let loan = publisher.timed_loan_uninit(LONG).unwrap();
    drop(loan);
    child.go_on();
    child.end();
}

// ---- deaths

#[test]
#[ignore = "a process of other tests"]
fn holds_all() {
    let domain = shared(&in_child());
    let publishers = [domain.publisher().unwrap(), domain.publisher().unwrap()];
    let loans: Vec<_> = publishers
        .iter()
        .flat_map(|one| [one.loan_uninit().unwrap(), one.loan_uninit().unwrap()])
        .collect();
    let _subscriber = domain.subscriber().unwrap();
    say("has all");
    wait_for_parent();
    drop(loans);
}

#[test]
fn what_a_killed_process_had_is_free() {
    let name = name_of("killed");
    let domain = shared(&name);
    for _ in 0..5 {
        let mut child = Process::start("holds_all", &name);
        child.hear();
        assert_eq!(domain.book_count(), 2);
        assert_eq!(
            domain.publisher().err(),
            Some(PublisherCreateError::ExceedsMaxSupportedPublishers)
        );
        child.kill();
        // At once, since whoever has no room looks for the dead.
        let publisher = domain.publisher().unwrap();
        assert_eq!(domain.book_count(), 1);
        drop(publisher);
    }
    // By itself, though nobody calls or waits.
    let mut child = Process::start("holds_all", &name);
    child.hear();
    child.kill();
    until(|| domain.book_count() == 0);
}

#[test]
fn a_death_ends_the_wait_for_a_slot() {
    let name = name_of("death_of_a_reader");
    let domain = shared(&name);
    let publisher = domain
        .publisher_builder()
        .override_sample_preallocation(|_| 1)
        .create()
        .unwrap();
    let mut child = Process::start("holds_a_sample", &name);
    child.hear();
    assert_eq!(publisher.send_copy(7).unwrap().delivered(), Some(1));
    child.hear();
    thread::scope(|threads| {
        let waits = threads.spawn(|| publisher.timed_loan_uninit(LONG).map(drop));
        child.kill();
        assert_eq!(waits.join().unwrap(), Ok(()));
    });
}

// ---- what is refused

#[test]
#[ignore = "a process of other tests"]
fn has_it() {
    let domain = numbers(&in_child()).open_or_create().unwrap();
    say("has it");
    wait_for_parent();
    drop(domain);
}

#[test]
fn each_cause_is_said() {
    use DomainOpenErrorKind::*;
    let name = name_of("refused");
    assert_eq!(refused(numbers(&name).open()), DoesNotExist);
    assert_eq!(refused(numbers(&name).open_shared()), DoesNotExist);
    let mut child = Process::start("has_it", &name);
    child.hear();
    assert_eq!(refused(numbers(&name).create()), AlreadyExists);
    assert_eq!(refused(numbers(&name).create_shared()), AlreadyExists);
    let others = Domain::<i64>::builder(7).name(&name).open();
    assert_eq!(refused(others), IncompatibleTypes);
    let longer = Domain::<[u64; 2]>::builder(7).name(&name);
    assert_eq!(refused(longer.type_name("u64").open()), IncompatibleTypes);
    let others = Domain::<u64>::builder(7).max_subscribers(3).name(&name);
    assert_eq!(refused(others.open()), IncompatibleSettings);
    let domain = numbers(&name).open().unwrap();
    assert_eq!(refused(numbers(&name).open()), AddressInUse);
    drop(domain);
    child.go_on();
    child.end();
    assert_eq!(refused(numbers(&name).open()), DoesNotExist);

    let mut child = Process::start("has_it_alone", &name);
    child.hear();
    assert_eq!(refused(numbers(&name).open()), ExceedsMaxNumberOfNodes);
    child.kill();
    drop(numbers(&name).open_or_create().unwrap());
    assert_eq!(refused(numbers(&name).open()), DoesNotExist);
    assert_eq!(refused(numbers(&name).book_room(64).create()), OutOfMemory);
    assert_eq!(refused(numbers(&name).payload_room(1 << 40).create()), InternalFailure);
    let large = Domain::<u64>::builder(7).max_subscribers(usize::MAX);
    assert_eq!(refused(large.name(&name).create()), WorstCaseTooLarge);
    assert!(!Domain::exists(&name));
}

#[test]
#[ignore = "a process of other tests"]
fn has_it_alone() {
    let domain = numbers(&in_child()).max_processes(1).create().unwrap();
    say("has it");
    wait_for_parent();
    drop(domain);
}

#[test]
fn what_is_no_name_is_refused() {
    let invalid = DomainOpenErrorKind::InvalidArgument;
    let long = "n".repeat(300);
    for name in ["", "..", "My/../Service", "./b", &*long, "zero\0inside"] {
        assert_eq!(refused(numbers(name).open_or_create()), invalid, "{name}");
        assert_eq!(refused(numbers(name).open_shared()), invalid, "{name}");
        assert!(!Domain::exists(name));
    }
    let name = name_of("no_name");
    for wrong in [
        numbers(&name).max_processes(0),
        numbers(&name).max_processes(65),
        numbers(&name).calls(100),
        numbers(&name).permissions(0o1000),
        numbers(&name).type_name(&long),
        numbers(&name).type_name("zero\0inside"),
    ] {
        assert_eq!(refused(wrong.create()), invalid);
    }
    let longest = "n".repeat(254 - name.len()) + "/" + &name;
    for good in [&*longest, &format!("My/Grüße {name}")] {
        let domain = numbers(good).create().unwrap();
        assert!(Domain::list().unwrap().iter().any(|one| one.name == good));
        drop(domain);
    }
}

#[test]
fn a_file_of_another_program_is_left_alone() {
    let name = name_of("foreign");
    let domain = numbers(&name).create().unwrap();
    let path = file_of(&name);
    drop(domain);
    assert!(!path.exists());
    fs::write(&path, "another program's").unwrap();
    let corrupted = DomainOpenErrorKind::ServiceInCorruptedState;
    assert_eq!(refused(numbers(&name).open_or_create()), corrupted);
    assert!(!Domain::exists(&name));
    assert_eq!(fs::read(&path).unwrap(), b"another program's");
    fs::remove_file(path).unwrap();
}

// The file with the list of calls.
fn file_of(name: &str) -> std::path::PathBuf {
    let is_it = |path: &std::path::PathBuf| {
        let file = path.file_name().unwrap().to_string_lossy();
        file.contains(name) && !file.ends_with("payloads")
    };
    let mut files = fs::read_dir("/dev/shm")
        .unwrap()
        .map(|file| file.unwrap().path());
    files.find(is_it).unwrap()
}

#[test]
#[ignore = "a process of other tests"]
fn sends_too_little() {
    use iox2_pubsub_sys as c;
    let name = std::ffi::CString::new(in_child()).unwrap();
    let type_name = std::ffi::CString::new("u64").unwrap();
    let (mut config, mut publisher) = (c::Config::default(), c::Publisher::default());
    let mut domain = c::Domain {
        domain: std::ptr::null_mut(),
    };
    let (mut count, mut blocked) = (0, c::Blocked::default());
    // SAFETY: the pointers are of locals.
    unsafe {
        c::iox2ps_config_defaults(&mut config, 7, 8, 8);
        config.enable_safe_overflow = 0;
        let (name, type_name) = (name.as_ptr(), type_name.as_ptr());
        let options = std::ptr::null();
        let opened =
            c::processes::iox2ps_domain_open(&mut domain, name, type_name, &config, options);
        assert_eq!(opened, c::OK);
        assert_eq!(c::iox2ps_publisher_create(&mut domain, &mut publisher), c::OK);
        for len in [4, 8] {
            let bytes = 9u64.to_ne_bytes();
            let (bytes, at) = (bytes.as_ptr(), &mut domain);
            let sent =
                c::iox2ps_publisher_send_copy(at, &publisher, bytes, len, &mut count, &mut blocked);
            assert_eq!((sent, count), (c::OK, 1));
            wait_for_parent();
        }
        assert_eq!(c::iox2ps_domain_destroy(&mut domain), c::OK);
    }
}

#[test]
fn a_message_that_is_too_short_is_none() {
    for by in 0..3 {
        let name = name_of("short");
        let domain = Domain::<u64>::builder(7)
            .enable_safe_overflow(false)
            .name(&name)
            .open_or_create_shared()
            .unwrap();
        let subscriber = domain.subscriber().unwrap();
        let mut child = Process::start("sends_too_little", &name);
        let wrong = Some(ReceiveError::WrongLength);
        match by {
            0 => assert_eq!(subscriber.timed_receive(LONG).err(), wrong),
            1 => assert_eq!(subscriber.timed_receive_copy(LONG).err(), wrong),
            _ => assert_eq!(subscriber.reader().timed_receive(LONG).err(), wrong),
        }
        child.go_on();
        assert_eq!(subscriber.timed_receive_copy(LONG), Ok(Some(9)));
        child.go_on();
        child.end();
    }
}

// ---- the end

#[test]
fn a_domain_is_gone_with_its_last_handle() {
    let name = name_of("gone");
    for turn in 0..100 {
        let domain = numbers(&name).create_shared().unwrap();
        let subscriber = domain.subscriber().unwrap();
        if turn % 2 == 0 {
            assert_eq!(subscriber.timed_receive_copy(Duration::from_micros(50)), Ok(None));
        }
        drop(domain);
        assert!(Domain::exists(&name));
        drop(subscriber);
        assert!(!Domain::exists(&name));
    }
}

#[test]
fn a_listener_may_drop_the_last_handle() {
    use std::sync::{Arc, Mutex};
    let name = name_of("listener_drops");
    for _ in 0..10 {
        let domain = shared(&name);
        let subscriber = domain.subscriber().unwrap();
        let mut child = Process::start("sends_once", &name);
        let mine = Arc::new(Mutex::new(None));
        let of_listener = mine.clone();
        subscriber.set_listener(move || drop(of_listener.lock().unwrap().take()));
        *mine.lock().unwrap() = Some((domain, subscriber));
        child.go_on();
        until(|| mine.lock().unwrap().is_none());
        child.end();
        until(|| !Domain::exists(&name));
    }
}

#[test]
#[ignore = "a process of other tests"]
fn sends_once() {
    let domain = shared(&in_child());
    let publisher = domain.publisher().unwrap();
    wait_for_parent();
    publisher.send_copy(1).unwrap().delivered();
}

#[test]
fn waits_end_where_the_files_are_written_over() {
    let name = name_of("damaged");
    let domain = shared(&name);
    let (publisher, subscriber) = (domain.publisher().unwrap(), domain.subscriber().unwrap());
    let (notifier, listener) = (domain.notifier().unwrap(), domain.listener().unwrap());
    let error = thread::scope(|threads| {
        let waits = threads.spawn(|| subscriber.timed_receive(LONG).err());
        let path = file_of(&name);
        let bytes = vec![1; fs::metadata(&path).unwrap().len() as usize - 4096];
        let file = fs::OpenOptions::new().write(true).open(path).unwrap();
        std::os::unix::fs::FileExt::write_all_at(&file, &bytes, 4096).unwrap();
        waits.join().unwrap()
    });
    assert_eq!(error, Some(ReceiveError::Damaged));
    assert_eq!(subscriber.receive_copy(), Err(ReceiveError::Damaged));
    assert_eq!(publisher.loan().err(), Some(LoanError::Damaged));
    assert_eq!(publisher.send_copy(1).err(), Some(SendError::Damaged));
    let growing = domain
        .publisher_builder()
        .allocation_strategy(AllocationStrategy::Static);
    assert_eq!(growing.create().err(), Some(PublisherCreateError::Damaged));
    assert_eq!(notifier.notify(), Err(NotifierNotifyError::Damaged));
    assert_eq!(listener.blocking_wait_one(), Err(ListenerWaitError::Damaged));
    drop((notifier, listener));
    assert_eq!(domain.node_id(), Err(NodeListFailure::Damaged));
    assert_eq!(domain.set_dead_node_listener(|_| {}), Err(NodeListFailure::Damaged));
    drop((publisher, subscriber, domain));
    drop(shared(&name));
}
