// SPDX-License-Identifier: Apache-2.0 OR MIT
//! This library in Rust: a domain forth and one back, as by_processes.c has them. Who spins and is never blocked has domains of one thread;
//! others have those whose calls may wait, and look without an end where they spin.

use iox2_pubsub::{
    Domain, ManyThreads, MayWait, NamedDomainBuilder, OneThread, Publisher, Subscriber, Threads,
};
use std::cell::RefCell;
use std::ffi::CStr;
use std::mem::MaybeUninit;
use std::os::raw::c_char;

/// As `traffic_t` of figures.h.
#[repr(C)]
pub struct Traffic {
    name: *const c_char,
    bytes: usize,
    subscribers: u32,
    sleeps: bool,
    is_one_way: bool,
    buffer: u32,
}

// Words that needn't be written.
type Message = [MaybeUninit<u64>];

#[derive(Clone, Copy, PartialEq)]
enum Way {
    Forth,
    Back,
}

#[derive(Clone)]
struct Plan {
    name: String,
    words: usize,
    subscribers: usize,
    sleeps: bool,
    is_one_way: bool,
    buffer: usize,
}

impl Plan {
    fn domain(&self, way: Way) -> NamedDomainBuilder<Message> {
        let (number, subscribers) = match way {
            Way::Forth => (0, self.subscribers),
            Way::Back => (1, 1),
        };
        Domain::<Message>::slice_builder(7)
            .max_slice_len(self.words)
            .max_publishers(1)
            .max_subscribers(subscribers)
            .subscriber_max_buffer_size(self.buffer)
            .enable_safe_overflow(false)
            .name(&format!("{}.{number}", self.name))
            .spins(if self.sleeps { 0 } else { u32::MAX })
    }
}

trait Carrier {
    fn send(&self, number: u64);
    fn receive(&self) -> u64;
}

struct Ports<M: Threads> {
    publisher: Option<Publisher<Message, M>>,
    subscriber: Option<Subscriber<Message, M>>,
    words: usize,
}

impl<M: Threads> Ports<M> {
    // Of a process that sends or receives, by what opens a domain.
    fn open(plan: &Plan, process: u32, domain: impl Fn(Way) -> Domain<Message, M>) -> Self {
        let (sends_on, receives_on) = match process {
            0 => (Way::Forth, Way::Back),
            _ => (Way::Back, Way::Forth),
        };
        let sends = process == 0 || (process == 1 && !plan.is_one_way);
        let receives = process > 0 || !plan.is_one_way;
        Ports {
            publisher: sends.then(|| domain(sends_on).publisher().unwrap()),
            subscriber: receives.then(|| domain(receives_on).subscriber().unwrap()),
            words: plan.words,
        }
    }

    fn loan(&self, number: u64) -> iox2_pubsub::Loan<Message, M> {
        let publisher = self.publisher.as_ref().unwrap();
        let mut loan = publisher.loan_slice_uninit(self.words).unwrap();
        loan.payload_mut()[0].write(MaybeUninit::new(number));
        // SAFETY: its words needn't be written.
        unsafe { loan.assume_init() }
    }
}

fn number(sample: &Message) -> u64 {
    // SAFETY: the sender has written it.
    unsafe { sample[0].assume_init() }
}

impl Carrier for Ports<OneThread> {
    fn send(&self, number: u64) {
        let sent = self.loan(number).send().unwrap();
        assert!(sent.delivered().is_some());
    }

    fn receive(&self) -> u64 {
        let subscriber = self.subscriber.as_ref().unwrap();
        loop {
            if let Some(sample) = subscriber.receive().unwrap() {
                return number(&sample);
            }
        }
    }
}

impl<M: MayWait> Carrier for Waiting<M> {
    fn send(&self, number: u64) {
        let sent = self.0.loan(number).blocking_send().unwrap();
        assert!(sent.delivered().is_some());
    }

    fn receive(&self) -> u64 {
        let subscriber = self.0.subscriber.as_ref().unwrap();
        number(&subscriber.blocking_receive().unwrap().unwrap())
    }
}

struct Waiting<M: Threads>(Ports<M>);

thread_local! {
    static PLAN: RefCell<Option<Plan>> = const { RefCell::new(None) };
    static CARRIER: RefCell<Option<Box<dyn Carrier>>> = const { RefCell::new(None) };
}

/// # Safety
///
/// It is such traffic, whose name ends in a zero.
#[no_mangle]
pub unsafe extern "C" fn carrier_begin(traffic: *const Traffic) {
    let traffic = &*traffic;
    let plan = Plan {
        name: CStr::from_ptr(traffic.name).to_str().unwrap().into(),
        words: traffic.bytes / 8,
        subscribers: traffic.subscribers as usize,
        sleeps: traffic.sleeps,
        is_one_way: traffic.is_one_way,
        buffer: traffic.buffer as usize,
    };
    PLAN.with(|it| *it.borrow_mut() = Some(plan));
}

#[no_mangle]
pub extern "C" fn carrier_open(process: u32) {
    let plan = PLAN.with(|it| it.borrow().clone()).unwrap();
    let carrier: Box<dyn Carrier> = match plan.sleeps || plan.is_one_way {
        true => Box::new(Waiting::<ManyThreads>(Ports::open(&plan, process, |way| {
            plan.domain(way).open_or_create_shared().unwrap()
        }))),
        false => Box::new(Ports::open(&plan, process, |way| {
            plan.domain(way).open_or_create().unwrap()
        })),
    };
    CARRIER.with(|it| *it.borrow_mut() = Some(carrier));
}

#[no_mangle]
pub extern "C" fn carrier_send(number: u64) {
    CARRIER.with(|it| it.borrow().as_ref().unwrap().send(number));
}

#[no_mangle]
pub extern "C" fn carrier_receive() -> u64 {
    CARRIER.with(|it| it.borrow().as_ref().unwrap().receive())
}

#[no_mangle]
pub extern "C" fn carrier_close() {
    CARRIER.with(|it| drop(it.borrow_mut().take()));
}
