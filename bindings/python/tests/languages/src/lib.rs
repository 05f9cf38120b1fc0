// SPDX-License-Identifier: Apache-2.0 OR MIT
//! A camera in Rust, as `camera.cpp` is one in C++: Python loads it, and both use its domain.

use iox2_pubsub::{AnyBytes, Domain, Publisher, Share, SharedDomain, Subscriber};
use iox2_pubsub::{ManyThreads, SendOutcome};
use std::os::raw::{c_char, c_int, c_void};
use std::sync::{Arc, Mutex};

#[derive(Clone, Copy)]
#[repr(C)]
struct Frame {
    place: u64,
    number: u64,
}

// SAFETY: it is two numbers.
unsafe impl AnyBytes for Frame {}

struct Camera {
    domain: SharedDomain<Frame>,
    publisher: Publisher<Frame, ManyThreads>,
    subscriber: Mutex<Option<Arc<Subscriber<Frame, ManyThreads>>>>,
}

static CAMERA: Mutex<Option<Arc<Camera>>> = Mutex::new(None);

fn camera() -> Arc<Camera> {
    CAMERA.lock().unwrap().clone().unwrap()
}

extern "C" {
    fn PyCapsule_New(
        pointer: *mut c_void,
        name: *const c_char,
        destructor: unsafe extern "C" fn(*mut c_void),
    ) -> *mut c_void;
    fn PyCapsule_GetPointer(capsule: *mut c_void, name: *const c_char) -> *mut c_void;
}

unsafe extern "C" fn drop_share(capsule: *mut c_void) {
    let pointer = PyCapsule_GetPointer(capsule, Share::CAPSULE_NAME.as_ptr());
    drop(Share::from_raw(pointer));
}

/// Called with the GIL: a capsule for `Domain.join`.
#[no_mangle]
pub extern "C" fn camera_open(buffer: usize, history: usize) -> *mut c_void {
    let domain = Domain::<Frame>::builder(7)
        .enable_safe_overflow(false)
        .subscriber_max_buffer_size(buffer)
        .history_size(history)
        .create_shared()
        .unwrap();
    let pointer = domain.share().unwrap().into_raw();
    *CAMERA.lock().unwrap() = Some(Arc::new(Camera {
        publisher: domain.publisher().unwrap(),
        subscriber: Mutex::default(),
        domain,
    }));
    // SAFETY: the GIL is held, and the destructor takes the pointer back once.
    unsafe { PyCapsule_New(pointer, Share::CAPSULE_NAME.as_ptr(), drop_share) }
}

/// All others are called without it.
#[no_mangle]
pub extern "C" fn camera_subscribe() {
    let subscriber = Arc::new(camera().domain.subscriber().unwrap());
    *camera().subscriber.lock().unwrap() = Some(subscriber);
}

#[no_mangle]
pub extern "C" fn camera_close() {
    *CAMERA.lock().unwrap() = None;
}

#[no_mangle]
pub extern "C" fn camera_stop_waits(stopped: c_int) {
    camera().domain.stop_waits(stopped != 0);
}

#[no_mangle]
pub extern "C" fn camera_waits_are_stopped() -> c_int {
    camera().domain.waits_are_stopped().into()
}

/// Sends frames with the numbers from `first` on, and waits for room. How many weren't sent.
#[no_mangle]
pub extern "C" fn camera_send(first: u64, count: u64) -> u64 {
    let camera = camera();
    for number in first..first + count {
        let loan = camera.publisher.blocking_loan_uninit().unwrap();
        let mut loan = loan.write_payload(Frame { place: 0, number });
        loan.place = &*loan as *const Frame as u64;
        if let SendOutcome::Blocked(_) = loan.blocking_send().unwrap() {
            return first + count - number;
        }
    }
    0
}

/// Waits for frames with these numbers. How many it didn't get, or that were copied on their way.
#[no_mangle]
pub extern "C" fn camera_receive(first: u64, count: u64) -> u64 {
    let subscriber = camera().subscriber.lock().unwrap().clone().unwrap();
    let mut missed = 0;
    for number in first..first + count {
        let frame = match subscriber.blocking_receive().unwrap() {
            Some(frame) => frame,
            None => return missed + first + count - number,
        };
        let is_there = frame.place == &*frame as *const Frame as u64;
        missed += u64::from(frame.number != number || !is_there);
    }
    missed
}
