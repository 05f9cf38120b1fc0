// SPDX-License-Identifier: Apache-2.0 OR MIT
//! Who is there in a domain that processes share: which process sent a message, which processes and ports there are, and who died.
#![cfg(feature = "processes")]

mod children;

use children::{in_child, name_of, say, wait_for_parent, Process};
use iox2_pubsub::{
    Domain, ManyThreads, NamedDomainBuilder, NodeId, NodeListFailure, NodeState, NodeView,
    SharedDomain, Subscriber,
};
use std::sync::mpsc::{channel, RecvTimeoutError};
use std::sync::{Arc, Mutex};
use std::thread::{scope, sleep};
use std::time::{Duration, Instant};

// Only what has failed takes so long.
const LONG: Duration = Duration::from_secs(600);
const HOUR: Duration = Duration::from_secs(3600);

fn numbers(name: &str) -> NamedDomainBuilder<u64> {
    Domain::<u64>::builder(7).name(name)
}

// One whose thread looks for the dead soon.
fn shared(name: &str) -> SharedDomain<u64> {
    let builder = numbers(name).reap_every(Duration::from_millis(20));
    builder.open_or_create_shared().unwrap()
}

// One that looks for the dead when it is told to.
fn quiet(name: &str) -> Domain<u64> {
    numbers(name).reap_every(HOUR).open_or_create().unwrap()
}

#[test]
#[ignore = "a process of other tests"]
fn sends_and_lends() {
    let domain = quiet(&in_child());
    let publisher = domain.publisher().unwrap();
    let _loan = publisher.loan_uninit().unwrap();
    publisher.send_copy(1).unwrap().delivered();
    say(&domain.node_id().unwrap().to_string());
    wait_for_parent();
}

// With the id that it says.
fn started(name: &str) -> (Process, NodeId) {
    let mut child = Process::start("sends_and_lends", name);
    let id = child.hear().parse().unwrap();
    (child, NodeId::from_value(id))
}

// One that was killed, and its id.
fn killed(name: &str) -> NodeId {
    let (child, id) = started(name);
    child.kill();
    id
}

fn alive(node: &NodeState) -> &NodeView {
    match node {
        NodeState::Alive(view) => view,
        NodeState::Dead(_) => panic!("{node:?}"),
    }
}

#[test]
fn a_message_and_a_port_name_their_process() {
    let name = name_of("named");
    let domain = quiet(&name);
    let subscriber = domain.subscriber().unwrap();
    let (child, its) = started(&name);
    let own = domain.node_id().unwrap();
    assert_ne!(own, its);
    let sample = subscriber.receive().unwrap().unwrap();
    assert_eq!(NodeId::from(sample.header().node_id()), its);

    let nodes: Vec<_> = domain.nodes().unwrap().collect();
    assert_eq!(nodes.len(), 2);
    let (mine, other) = (alive(&nodes[0]), alive(&nodes[1]));
    assert_eq!(
        (nodes[0].node_id(), mine.id(), mine.pid()),
        (own, own, std::process::id())
    );
    assert_eq!(
        (mine.number_of_publishers(), mine.number_of_subscribers()),
        (0, 1)
    );
    assert_eq!((mine.number_of_loans(), mine.number_of_samples()), (0, 1));
    assert_eq!((other.id(), other.pid()), (its, child.id()));
    assert_eq!(
        (other.number_of_publishers(), other.number_of_subscribers()),
        (1, 0)
    );
    assert_eq!((other.number_of_loans(), other.number_of_samples()), (1, 0));

    let publishers: Vec<_> = domain.list_publishers().unwrap().collect();
    let subscribers: Vec<_> = domain.list_subscribers().unwrap().collect();
    assert_eq!((publishers.len(), subscribers.len()), (1, 1));
    let sent_by = sample.header().publisher_id();
    assert_eq!(
        (publishers[0].publisher_id, publishers[0].node_id),
        (sent_by, its)
    );
    let own_port = (subscribers[0].subscriber_id, subscribers[0].node_id);
    assert_eq!(own_port, (subscriber.id(), own));
}

#[test]
fn a_node_of_the_settings_is_named_in_its_place() {
    let name = name_of("settings");
    let node = NodeId::from_value(12 << 64 | 13);
    let builder = Domain::<u64>::builder(7).node_id(node);
    let domain = builder.name(&name).create().unwrap();
    let (publisher, subscriber) = (domain.publisher().unwrap(), domain.subscriber().unwrap());
    publisher.send_copy(1).unwrap().delivered();
    let sample = subscriber.receive().unwrap().unwrap();
    assert_eq!(NodeId::from(sample.header().node_id()), node);
    assert_ne!(domain.node_id().unwrap(), node);
}

#[test]
fn a_dead_process_is_seen_until_what_it_had_is_given_back() {
    let name = name_of("dead");
    let domain = quiet(&name);
    let dead = killed(&name);
    let nodes: Vec<_> = domain.nodes().unwrap().collect();
    match &nodes[1] {
        NodeState::Dead(view) => {
            assert_eq!(view.id(), dead);
            assert_eq!(
                (view.number_of_publishers(), view.number_of_loans()),
                (1, 1)
            );
        }
        NodeState::Alive(_) => panic!("{nodes:?}"),
    }
    assert_eq!(domain.dead_nodes().unwrap().count(), 0);
    assert_eq!(domain.cleanup_dead_nodes(), Ok(1));
    assert_eq!(domain.nodes().unwrap().count(), 1);
    let ids = || -> Vec<_> { domain.dead_nodes().unwrap().map(|one| one.id()).collect() };
    assert_eq!(ids(), [dead]);

    // One that leaves isn't dead.
    let (mut child, _) = started(&name);
    assert_eq!(domain.nodes().unwrap().count(), 2);
    child.go_on();
    child.end();
    assert_eq!(domain.cleanup_dead_nodes(), Ok(0));
    assert_eq!((ids(), domain.nodes().unwrap().count()), (vec![dead], 1));
    let next = killed(&name);
    assert_eq!(domain.cleanup_dead_nodes(), Ok(1));
    assert_eq!(ids(), [dead, next]);
}

#[test]
fn what_is_given_back_helps_those_who_wait() {
    let name = name_of("helps");
    let builder = numbers(&name).reap_every(HOUR);
    let domain = builder.create_shared().unwrap();
    let publisher = domain
        .publisher_builder()
        .override_sample_preallocation(|_| 1)
        .create()
        .unwrap();
    let mut child = Process::start("holds_a_sample", &name);
    child.hear();
    publisher.send_copy(7).unwrap().delivered();
    child.hear();
    scope(|threads| {
        let waits = threads.spawn(|| publisher.timed_loan_uninit(LONG).map(drop));
        child.kill();
        while !waits.is_finished() {
            domain.cleanup_dead_nodes().unwrap();
            sleep(Duration::from_millis(1));
        }
        assert_eq!(waits.join().unwrap(), Ok(()));
    });
}

#[test]
#[ignore = "a process of other tests"]
fn holds_a_sample() {
    let domain = shared(&in_child());
    let subscriber = domain.subscriber().unwrap();
    say("is here");
    let _sample = subscriber.timed_receive(LONG).unwrap().unwrap();
    say("has it");
    wait_for_parent();
}

// ---- listeners

fn until_dead(domain: &SharedDomain<u64>, count: usize) {
    let begun = Instant::now();
    while domain.dead_nodes().unwrap().count() < count {
        assert!(begun.elapsed() < LONG);
        sleep(Duration::from_millis(1));
    }
}

#[test]
fn a_listener_is_told_of_each_death() {
    let name = name_of("told");
    let domain = shared(&name);
    // Nobody is told of those before.
    killed(&name);
    until_dead(&domain, 1);
    let (tells, told) = channel();
    domain
        .set_dead_node_listener(move |node| {
            tells.send(node.clone()).unwrap();
            panic!("a listener of a test");
        })
        .unwrap();
    // A panic isn't that of the next death.
    for _ in 0..2 {
        let dead = killed(&name);
        assert_eq!(told.recv_timeout(LONG).map(|node| node.id()), Ok(dead));
    }
    domain.clear_dead_node_listener().unwrap();
    let gone = RecvTimeoutError::Disconnected;
    assert_eq!(told.recv_timeout(LONG), Err(gone));
    killed(&name);
    until_dead(&domain, 4);
}

type Handles = Arc<Mutex<Option<(SharedDomain<u64>, Subscriber<u64, ManyThreads>)>>>;

#[test]
fn a_listener_does_not_wait_and_may_drop_the_last_handle() {
    let name = name_of("drops");
    let domain = shared(&name);
    let subscriber = domain.subscriber().unwrap();
    let (tells, told) = channel();
    let handles: Handles = Arc::default();
    let mine = handles.clone();
    domain
        .set_dead_node_listener(move |_| {
            let (domain, subscriber) = mine.lock().unwrap().take().unwrap();
            let received = subscriber.blocking_receive_copy();
            drop((domain, subscriber));
            tells.send(received).unwrap();
        })
        .unwrap();
    *handles.lock().unwrap() = Some((domain, subscriber));
    let mut child = Process::start("is_here", &name);
    child.hear();
    child.kill();
    assert_eq!(told.recv_timeout(LONG), Ok(Ok(None)));
    assert!(!Domain::exists(&name));
}

#[test]
#[ignore = "a process of other tests"]
fn is_here() {
    let _domain = quiet(&in_child());
    say("is here");
    wait_for_parent();
}

// ---- what is refused

#[test]
fn a_domain_of_one_process_has_no_nodes() {
    let refused = NodeListFailure::NotShared;
    let domain = Domain::<u64>::builder(7).create().unwrap();
    assert_eq!(domain.node_id(), Err(refused));
    assert_eq!(domain.nodes().err(), Some(refused));
    assert_eq!(domain.list_publishers().err(), Some(refused));
    assert_eq!(domain.list_subscribers().err(), Some(refused));
    assert_eq!(domain.dead_nodes().err(), Some(refused));
    assert_eq!(domain.cleanup_dead_nodes(), Err(refused));
    let domain = Domain::<u64>::builder(7).create_shared().unwrap();
    assert_eq!(domain.node_id(), Err(refused));
    assert_eq!(domain.set_dead_node_listener(|_| {}), Err(refused));
    assert_eq!(domain.clear_dead_node_listener(), Err(refused));
    assert_eq!(refused.to_string(), "the domain is of one process");
    assert_eq!(
        refused.code(),
        iox2_pubsub_sys::processes::PROCESSES_NOT_SHARED
    );
}
