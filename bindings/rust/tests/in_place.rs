// SPDX-License-Identifier: Apache-2.0 OR MIT
//! Messages that are begun without a value on the stack.
#![forbid(unsafe_code)]

use iox2_pubsub::{write_fields, zeroable, Domain};
use std::panic::{catch_unwind, AssertUnwindSafe};
use std::thread;

const LEN: usize = 4 << 20;

#[derive(Clone, Copy)]
struct Image {
    width: u32,
    pixels: [u8; LEN],
}

zeroable!(Image { width, pixels });

// Zeros are no value of it.
#[derive(Clone, Copy, Debug, PartialEq)]
#[repr(u8)]
enum Format {
    Gray = 7,
    Red,
}

#[derive(Clone, Copy)]
struct Movie {
    format: Format,
    frames: [Frame; 3],
}

#[derive(Clone, Copy)]
struct Frame(u64, [u16; LEN]);

// On a thread that hasn't room for one message.
fn on_a_small_stack(run: impl FnOnce() + Send + 'static) {
    let small = thread::Builder::new().stack_size(LEN / 8);
    small.spawn(run).unwrap().join().unwrap();
}

#[test]
fn zeros_are_lent_of_what_has_no_default() {
    on_a_small_stack(|| {
        let domain = Domain::<Image>::builder(1).create().unwrap();
        let (publisher, subscriber) = (domain.publisher().unwrap(), domain.subscriber().unwrap());
        for round in 0..4 {
            let mut image = publisher.loan_zeroed().unwrap();
            assert_eq!(image.width, 0);
            assert!(image.pixels.iter().all(|pixel| *pixel == 0));
            image.width = round;
            image.pixels.fill(0xff);
            assert_eq!(image.send().unwrap().delivered(), Some(1));
            let got = subscriber.receive().unwrap().unwrap();
            assert_eq!((got.width, got.pixels[LEN - 1]), (round, 0xff));
        }
    });
}

#[test]
fn zeros_are_lent_of_slices_and_of_what_waits() {
    let domain = Domain::<[[u32; 3]]>::slice_builder(1)
        .max_slice_len(5)
        .create_shared()
        .unwrap();
    let publisher = domain.publisher().unwrap();
    for len in [5, 0, 1] {
        let mut values = publisher.loan_slice_zeroed(len).unwrap();
        assert_eq!(*values, vec![[0; 3]; len]);
        values.fill([u32::MAX; 3]);
        values.send().unwrap().delivered();
        let waited = publisher.blocking_loan_slice_uninit(len).unwrap();
        assert_eq!(*waited.write_zeroed(), vec![[0; 3]; len]);
    }
}

#[test]
fn a_message_is_written_field_by_field() {
    on_a_small_stack(|| {
        let domain = Domain::<Movie>::builder(1).create().unwrap();
        let (publisher, subscriber) = (domain.publisher().unwrap(), domain.subscriber().unwrap());
        let loan = publisher.loan_uninit().unwrap();
        let movie = loan.write_in_place(|movie| {
            write_fields!(movie, Movie {
                frames => |frames| frames.write_each(|number, frame| {
                    write_fields!(frame, Frame {
                        0: number as u64,
                        1 => |samples| samples.write_from_fn(|index| (index + number) as u16),
                    })
                }),
                format: Format::Red,
            })
        });
        movie.send().unwrap().delivered();
        let movie = subscriber.receive().unwrap().unwrap();
        assert_eq!(movie.format, Format::Red);
        for (number, frame) in movie.frames.iter().enumerate() {
            assert_eq!(frame.0, number as u64);
            assert_eq!(
                (frame.1[1], frame.1[300]),
                (1 + number as u16, 300 + number as u16)
            );
        }
    });
}

#[test]
fn values_and_zeros_are_parts_too() {
    #[derive(Clone, Copy, Debug, PartialEq)]
    struct Point {
        x: f32,
        y: [i16; 2],
        format: Format,
    }
    let domain = Domain::<Point>::builder(1).create().unwrap();
    let publisher = domain.publisher().unwrap();
    let place = || publisher.loan_uninit().unwrap();
    let value = Point {
        x: 0.0,
        y: [3, 4],
        format: Format::Gray,
    };
    assert_eq!(*place().write_in_place(|point| point.write(value)), value);
    let loan = place().write_in_place(|point| {
        write_fields!(point, Point { x => |x| x.write_zeroed(), y: [3, 4], format: value.format })
    });
    assert_eq!(*loan, value);
}

#[test]
fn a_loan_comes_back_where_writing_it_panics() {
    let domain = Domain::<[u64; 8]>::builder(1)
        .publisher_max_loaned_samples(1)
        .create()
        .unwrap();
    let publisher = domain.publisher().unwrap();
    for _ in 0..3 {
        let writes = || {
            let loan = publisher.loan_uninit().unwrap();
            let write = |index| [1, 2, 3][index];
            drop(loan.write_in_place(|values| values.write_from_fn(write)));
        };
        assert!(catch_unwind(AssertUnwindSafe(writes)).is_err());
    }
    let loan = publisher.loan_zeroed().unwrap();
    assert_eq!(*loan, [0; 8]);
}
