// SPDX-License-Identifier: Apache-2.0 OR MIT
//! What counts_beside.c counts, as passed_beside.h says, in Rust.

use iox2_pubsub::{Domain, Publisher, Subscriber, Threads};
use std::ffi::{c_void, CStr};
use std::os::raw::c_char;

type Message = [u64; 8];

trait Passes {
    fn pass(&self);
}

struct Ports<M: Threads> {
    publisher: Publisher<Message, M>,
    subscriber: Subscriber<Message, M>,
}

impl<M: Threads> Ports<M> {
    fn of(domain: Domain<Message, M>) -> Self {
        Ports {
            publisher: domain.publisher().unwrap(),
            subscriber: domain.subscriber().unwrap(),
        }
    }
}

impl<M: Threads> Passes for Ports<M> {
    fn pass(&self) {
        let loan = self.publisher.loan_uninit().unwrap();
        let sent = loan.write_payload([42; 8]).send().unwrap();
        assert_eq!(sent.delivered(), Some(1));
        let sample = self.subscriber.receive().unwrap().unwrap();
        assert_eq!(sample[0], 42);
    }
}

/// # Safety
///
/// The name ends in a zero.
#[no_mangle]
pub unsafe extern "C" fn beside_open(name: *const c_char, with_threads: bool) -> *mut c_void {
    let name = CStr::from_ptr(name).to_str().unwrap();
    let domain = Domain::<Message>::builder(7).name(name);
    let passes: Box<dyn Passes> = match with_threads {
        true => Box::new(Ports::of(domain.open_or_create_shared().unwrap())),
        false => Box::new(Ports::of(domain.open_or_create().unwrap())),
    };
    Box::into_raw(Box::new(passes)).cast()
}

/// # Safety
///
/// It is what `beside_open` returned.
#[no_mangle]
pub unsafe extern "C" fn beside_pass(of: *mut c_void) {
    (*of.cast::<Box<dyn Passes>>()).pass();
}

/// # Safety
///
/// As above, and it isn't used any longer.
#[no_mangle]
pub unsafe extern "C" fn beside_close(of: *mut c_void) {
    drop(Box::from_raw(of.cast::<Box<dyn Passes>>()));
}
