// SPDX-License-Identifier: Apache-2.0 OR MIT
//! `lengths.h` by a pool: eight `Rc<[u8]>`, each of which goes back when it has been read.
use lengths::{has, write, BUFFERS};
use std::collections::VecDeque;
use std::rc::Rc;

struct World {
    pool: Vec<Rc<[u8]>>,
    queue: VecDeque<Rc<[u8]>>,
}

impl World {
    fn new(len: usize) -> Option<Self> {
        Some(World {
            pool: (0..BUFFERS).map(|_| vec![0; len].into()).collect(),
            queue: VecDeque::with_capacity(BUFFERS),
        })
    }

    fn pass(&mut self, word: u64) -> Option<bool> {
        let mut loan = self.pool.pop()?;
        write(Rc::get_mut(&mut loan)?, word);
        self.queue.push_back(loan);
        let received = self.queue.pop_front()?;
        let is_there = has(&received, word);
        self.pool.push(received);
        Some(is_there)
    }
}

lengths::library!(World);
