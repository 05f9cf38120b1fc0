// SPDX-License-Identifier: Apache-2.0 OR MIT
//! One subscriber may lose messages, another may not. The domain has no overflow, and a display closes its channel while it is busy,
//! so that sends pass it over. A send still waits for it if two messages arrive between its opening and its next receive.
//! Fails if a recorder misses a frame.
use iox2_pubsub::{ChannelId, Domain, ManyThreads, Subscriber, CHANNEL_STATE_OPEN};
use std::thread::{self, sleep};
use std::time::Duration;

const FRAMES: u32 = 100;

// Shows one frame after the other, and what is sent meanwhile is none of them.
fn show(display: &Subscriber<u32, ManyThreads>) {
    let channel = ChannelId::new(0);
    while let Some(frame) = display.blocking_receive().unwrap() {
        display.close_channel(channel, CHANNEL_STATE_OPEN).unwrap(); // busy: sends pass it over
        sleep(Duration::from_millis(5)); // draws the frame
        drop(frame);
        let ready = display.set_channel_state(channel, CHANNEL_STATE_OPEN); // ready for the next one
        ready.unwrap();
    }
}

// The number of each frame.
fn record(recorder: &Subscriber<u32, ManyThreads>) -> Vec<u32> {
    let frames = recorder.blocking_iter().map(|frame| *frame.unwrap());
    frames.collect()
}

fn main() -> Result<(), Box<dyn std::error::Error>> {
    let domain = Domain::<u32>::builder(7)
        .enable_safe_overflow(false)
        .subscriber_max_buffer_size(8)
        .create_shared()?;
    let recorder = domain.subscriber()?;
    let display = domain.subscriber_builder().buffer_size(1).create()?;
    let camera = domain.publisher()?;
    let shows = thread::spawn(move || show(&display));
    let records = thread::spawn(move || record(&recorder));
    for number in 0..FRAMES {
        drop(camera.blocking_send_copy(number)?);
        sleep(Duration::from_millis(1));
    }
    domain.stop_waits(true);
    shows.join().unwrap();
    let recorded = records.join().unwrap();
    println!("recorded {} of {FRAMES} frames", recorded.len());
    assert!(recorded.into_iter().eq(0..FRAMES));
    Ok(())
}
