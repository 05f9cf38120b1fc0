// SPDX-License-Identifier: Apache-2.0 OR MIT
//! A subscriber learns that no message came within its deadline. A message that came before it looks is in time.
use iox2_pubsub::{CallbackProgression, Domain, WaitSet, WaitSetRunResult};
use std::time::Duration;

#[derive(Clone, Copy)]
struct Speed {
    rpm: u32,
}

fn main() -> Result<(), Box<dyn std::error::Error>> {
    let domain = Domain::<Speed>::builder(7).create_shared()?;
    let (wheel, subscriber) = (domain.publisher()?, domain.subscriber()?);
    let set = WaitSet::new();
    let of_speed = set.attach_deadline(&subscriber, Duration::from_millis(20))?;
    let send = |rpm| wheel.send_copy(Speed { rpm }).unwrap().delivered();
    assert_eq!(send(12), Some(1));
    let ended = set.wait_and_process(|id| {
        if id.has_missed_deadline(&of_speed) {
            println!("no speed in time: stop");
            return CallbackProgression::Stop;
        }
        let speed = subscriber.receive_copy().unwrap().unwrap();
        println!("{} rpm", speed.rpm);
        if speed.rpm == 12 {
            assert_eq!(send(31), Some(1)); // and then none
        }
        CallbackProgression::Continue
    })?;
    assert_eq!(ended, WaitSetRunResult::StopRequest);
    Ok(())
}
