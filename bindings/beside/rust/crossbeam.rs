// SPDX-License-Identifier: Apache-2.0 OR MIT
//! `lengths.h` by two bounded channels of crossbeam: one has the messages, eight `Arc<[u8]>`, and the other those that were read.
use crossbeam::channel::{bounded, Receiver, Sender};
use lengths::{has, write, BUFFERS};
use std::sync::Arc;

type Ends = (Sender<Arc<[u8]>>, Receiver<Arc<[u8]>>);

struct World {
    queue: Ends,
    pool: Ends,
}

impl World {
    fn new(len: usize) -> Option<Self> {
        let world = World {
            queue: bounded(BUFFERS),
            pool: bounded(BUFFERS),
        };
        for _ in 0..BUFFERS {
            world.pool.0.try_send(vec![0; len].into()).ok()?;
        }
        Some(world)
    }

    fn pass(&mut self, word: u64) -> Option<bool> {
        let mut loan = self.pool.1.try_recv().ok()?;
        write(Arc::get_mut(&mut loan)?, word);
        self.queue.0.try_send(loan).ok()?;
        let received = self.queue.1.try_recv().ok()?;
        let is_there = has(&received, word);
        self.pool.0.try_send(received).ok()?;
        Some(is_there)
    }
}

lengths::library!(World);
