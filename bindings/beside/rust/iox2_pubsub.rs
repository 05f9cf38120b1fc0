// SPDX-License-Identifier: Apache-2.0 OR MIT
//! `lengths.h` by this library's crate: a loan whose bytes nobody chose.
use iox2_pubsub::{Domain, Publisher, Subscriber};
use lengths::{has, write};

struct World {
    publisher: Publisher<[u8]>,
    subscriber: Subscriber<[u8]>,
    length: usize,
}

impl World {
    fn new(length: usize) -> Option<Self> {
        let domain = Domain::<[u8]>::slice_builder(1)
            .max_slice_len(length)
            .subscriber_max_buffer_size(2)
            .subscriber_max_borrowed_samples(2)
            .publisher_max_loaned_samples(2)
            .create()
            .ok()?;
        Some(World {
            publisher: domain.publisher().ok()?,
            subscriber: domain.subscriber().ok()?,
            length,
        })
    }

    fn pass(&mut self, word: u64) -> Option<bool> {
        let loan = self.publisher.loan_slice_uninit(self.length).ok()?;
        // SAFETY: the bytes are those of an earlier message, or 0, which is what this measures.
        let mut loan = unsafe { loan.assume_init() };
        write(&mut loan, word);
        let sent = loan.send().ok()?;
        let sample = self.subscriber.receive().ok()??;
        Some(sent.delivered() == Some(1) && has(&sample, word) && sample.len() == self.length)
    }
}

lengths::library!(World);
