// SPDX-License-Identifier: Apache-2.0 OR MIT
//! What a program may do wrong with a domain that processes share: builds and users that don't fit, waits without an end, listeners that
//! panic, and other languages of the process. tests/processes.rs has names, types and settings.
#![cfg(feature = "processes")]

mod children;

use children::{in_child, name_of, say, wait_for_parent, Process};
use iox2_pubsub::{
    Domain, DomainOpenError, DomainOpenErrorKind, NamedDomainBuilder, ShareError, SharedDomain,
};
use std::fs::{read_dir, OpenOptions};
use std::os::unix::fs::FileExt;
use std::path::PathBuf;
use std::sync::mpsc::channel;
use std::sync::Mutex;
use std::thread::{scope, spawn};
use std::time::Duration;

// Only what has failed takes so long.
const LONG: Duration = Duration::from_secs(600);

fn numbers(name: &str) -> NamedDomainBuilder<u64> {
    Domain::<u64>::builder(7).name(name)
}

fn shared(name: &str) -> SharedDomain<u64> {
    numbers(name).open_or_create_shared().unwrap()
}

#[track_caller]
fn refused<T>(opened: Result<T, DomainOpenError>, kind: DomainOpenErrorKind, why: &str) {
    let error = opened.err().expect("it is refused");
    assert_eq!(error.kind(), kind, "{error}");
    assert!(error.why().contains(why), "{error}");
}

// ---- builds and users

// The file with the list of calls, which begins with what tells the build.
fn file_of(name: &str) -> PathBuf {
    let files = read_dir("/dev/shm").unwrap();
    let mut paths = files.map(|file| file.unwrap().path());
    let is_it = |path: &PathBuf| {
        let file = path.file_name().unwrap().to_string_lossy();
        file.contains(name) && !file.ends_with("payloads")
    };
    paths.find(is_it).unwrap()
}

#[test]
#[ignore = "a process of other tests"]
fn has_it() {
    let domain = numbers(&in_child()).create().unwrap();
    say("has it");
    wait_for_parent();
    drop(domain);
}

#[test]
fn another_build_is_refused_with_both_sums() {
    let name = name_of("build");
    let mut child = Process::start("has_it", &name);
    child.hear();
    // SAFETY: it takes nothing.
    let build = unsafe { iox2_pubsub_sys::processes::iox2ps_processes_build() };
    let mut options = OpenOptions::new();
    let file = options.read(true).write(true).open(file_of(&name));
    let file = file.unwrap();
    let mut begins = [0; 64];
    file.read_exact_at(&mut begins, 0).unwrap();
    let is_it = |bytes: &[u8]| bytes == build.to_ne_bytes();
    let at = begins.windows(8).position(is_it).unwrap() as u64;
    let put = |build: u64| file.write_all_at(&build.to_ne_bytes(), at).unwrap();

    put(build + 1);
    let mismatch = DomainOpenErrorKind::VersionMismatch;
    for build in [build, build + 1] {
        refused(numbers(&name).open(), mismatch, &format!("{build:x}"));
        refused(
            numbers(&name).open_or_create_shared(),
            mismatch,
            &format!("{build:x}"),
        );
    }
    put(build);
    drop(numbers(&name).open().unwrap());
    child.go_on();
    child.end();
}

#[test]
#[ignore = "a process of other tests"]
fn is_refused_as_another_user() {
    extern "C" {
        fn getuid() -> u32;
        fn setresuid(real: u32, effective: u32, saved: u32) -> i32;
    }
    const NOBODY: u32 = 65534;
    let name = in_child();
    // Whoever is no root may not read it either, since nobody may.
    // SAFETY: they take numbers.
    assert!(unsafe { getuid() != 0 || setresuid(NOBODY, NOBODY, NOBODY) == 0 });
    let insufficient = DomainOpenErrorKind::InsufficientPermissions;
    refused(numbers(&name).open(), insufficient, "Permission denied");
    refused(
        numbers(&name).open_or_create(),
        insufficient,
        "Permission denied",
    );
    assert!(!Domain::exists(&name));
}

#[test]
fn another_user_is_refused() {
    let name = name_of("user");
    let domain = numbers(&name).permissions(0).create().unwrap();
    Process::start("is_refused_as_another_user", &name).end();
    drop(domain);
}

// ---- waits and listeners

#[test]
#[ignore = "a process of other tests"]
fn sends_when_told() {
    let domain = shared(&in_child());
    let publisher = domain.publisher().unwrap();
    say("is here");
    for number in 1.. {
        wait_for_parent();
        publisher.send_copy(number).unwrap().delivered();
    }
}

#[test]
fn a_wait_goes_on_without_the_handle_of_the_domain_and_ends_when_waits_are_stopped() {
    let name = name_of("closed");
    let domain = shared(&name);
    let (subscriber, other) = (domain.subscriber().unwrap(), domain.clone());
    let mut child = Process::start("sends_when_told", &name);
    child.hear();
    let (tells, told) = channel();
    let waits = spawn(move || {
        tells.send(()).unwrap();
        (
            subscriber.blocking_receive_copy(),
            tells.send(()),
            subscriber.blocking_receive_copy(),
        )
    });
    told.recv().unwrap();
    // Its subscriber keeps the domain.
    drop(domain);
    child.go_on();
    told.recv_timeout(LONG).unwrap();
    child.kill();
    other.stop_waits(true);
    assert_eq!(waits.join().unwrap(), (Ok(Some(1)), Ok(()), Ok(None)));
    drop(other);
    assert!(!Domain::exists(&name));
}

#[test]
fn a_listener_that_panics_is_called_again_and_disturbs_no_other() {
    let name = name_of("panics");
    let domain = shared(&name);
    let (panics, listens) = (domain.subscriber().unwrap(), domain.subscriber().unwrap());
    let (first, of_first) = channel();
    let (second, of_second) = channel();
    let (first, second) = (Mutex::new(first), Mutex::new(second));
    panics.set_listener(move || {
        let told = first.lock().map(|first| first.send(()));
        told.unwrap().unwrap();
        panic!("a listener of a test");
    });
    listens.set_listener(move || second.lock().unwrap().send(()).unwrap());
    let mut child = Process::start("sends_when_told", &name);
    child.hear();
    for number in 1..=3 {
        child.go_on();
        for (subscriber, told) in [(&panics, &of_first), (&listens, &of_second)] {
            // They may be told too often.
            let mut received = None;
            while received.is_none() {
                told.recv_timeout(LONG).unwrap();
                received = subscriber.receive_copy().unwrap();
            }
            assert_eq!(received, Some(number));
        }
    }
    scope(|threads| {
        let waits = threads.spawn(|| panics.timed_receive_copy(LONG));
        child.go_on();
        assert_eq!(waits.join().unwrap(), Ok(Some(4)));
    });
}

// ---- other languages

#[test]
fn no_other_language_of_the_process_joins_it() {
    let name = name_of("share");
    let domain = shared(&name);
    let error = domain.share().err().unwrap();
    assert_eq!(error, ShareError::OfProcesses);
    assert_eq!(error.code(), 0xffff_fffb);
    let way_out = "opens the domain by its name in another process";
    assert!(error.to_string().contains(way_out), "{error}");
    let again = numbers(&name).open_shared();
    refused(again, DomainOpenErrorKind::AddressInUse, &name);
    // In another process it does.
    let mut child = Process::start("sends_when_told", &name);
    child.hear();
    child.kill();
    let ordinary = Domain::<u64>::builder(7).create_shared().unwrap();
    assert!(ordinary.share().is_ok());
}
