// SPDX-License-Identifier: Apache-2.0 OR MIT
//! `lengths.h` by tokio's broadcast channel, in which each receiver gets every message: eight `Arc<[u8]>`, each of which goes back when it has been
//! read.
use lengths::{has, write, BUFFERS};
use std::sync::Arc;
use tokio::sync::broadcast::{channel, Receiver, Sender};

struct World {
    pool: Vec<Arc<[u8]>>,
    sender: Sender<Arc<[u8]>>,
    receiver: Receiver<Arc<[u8]>>,
}

impl World {
    fn new(len: usize) -> Option<Self> {
        let (sender, receiver) = channel(BUFFERS);
        Some(World {
            pool: (0..BUFFERS).map(|_| vec![0; len].into()).collect(),
            sender,
            receiver,
        })
    }

    fn pass(&mut self, word: u64) -> Option<bool> {
        let mut loan = self.pool.pop()?;
        write(Arc::get_mut(&mut loan)?, word);
        let receivers = self.sender.send(loan).ok()?;
        let received = self.receiver.try_recv().ok()?;
        let is_there = receivers == 1 && has(&received, word);
        self.pool.push(received);
        Some(is_there)
    }
}

lengths::library!(World);
