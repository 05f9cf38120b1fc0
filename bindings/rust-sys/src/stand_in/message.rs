// SPDX-License-Identifier: Apache-2.0 OR MIT
//! A message and its bytes.

use std::alloc::{alloc, alloc_zeroed, dealloc, Layout};
use std::cell::Cell;
use std::rc::Rc;

/// A message, as long as somebody holds it. Its bytes are memory of their own, so that one who uses them afterwards, or beyond
/// their end, is seen.
pub(super) struct Message {
    pub(super) number: u64,
    pub(super) publisher: u64,
    pub(super) start: *mut u8,
    pub(super) len: usize,
    layout: Layout,
    // How many messages of its publisher are held.
    held: Rc<Cell<usize>>,
}

impl Message {
    /// `None` where there is no memory for so many bytes.
    pub(super) fn new(
        number: u64,
        publisher: u64,
        len: usize,
        is_zeroed: bool,
        held: Rc<Cell<usize>>,
    ) -> Option<Rc<Message>> {
        let layout = Layout::from_size_align(len.max(1), 16).ok()?;
        // SAFETY: the layout has a size.
        let start = unsafe {
            if is_zeroed {
                alloc_zeroed(layout)
            } else {
                alloc(layout)
            }
        };
        if start.is_null() {
            return None;
        }
        held.set(held.get() + 1);
        Some(Rc::new(Message {
            number,
            publisher,
            start,
            len,
            layout,
            held,
        }))
    }
}

impl Drop for Message {
    fn drop(&mut self) {
        self.held.set(self.held.get() - 1);
        // SAFETY: it was taken with this layout, and nobody holds the message.
        unsafe { dealloc(self.start, self.layout) };
    }
}
