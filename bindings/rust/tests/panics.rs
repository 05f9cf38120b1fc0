// SPDX-License-Identifier: Apache-2.0 OR MIT
//! A panic that a program causes names its line, and no line of the crate.

use iox2_pubsub::Domain;
use std::panic::{self, catch_unwind, AssertUnwindSafe};
use std::sync::Mutex;

static PLACE: Mutex<Option<(String, u32)>> = Mutex::new(None);

#[test]
fn a_slice_of_another_length_names_the_line_of_the_program() {
    let domain = Domain::<[u8]>::slice_builder(1)
        .max_slice_len(4)
        .create()
        .unwrap();
    let loan = domain.publisher().unwrap().loan_slice_uninit(4).unwrap();
    let before = panic::take_hook();
    panic::set_hook(Box::new(|panic| {
        let place = panic.location().map(|at| (at.file().to_owned(), at.line()));
        *PLACE.lock().unwrap() = place;
    }));
    let line = line!() + 1;
    let writes = || drop(loan.write_from_slice(&[1, 2]));
    let panicked = catch_unwind(AssertUnwindSafe(writes)).is_err();
    panic::set_hook(before);
    assert!(panicked);
    let place = PLACE.lock().unwrap().take();
    assert_eq!(place, Some((file!().to_owned(), line)));
}
