// SPDX-License-Identifier: Apache-2.0 OR MIT
//! One thread waits for readings and for commands, which are two domains. It tells where no reading came in time, then ticks, and
//! ends by a command.
use iox2_pubsub::{CallbackProgression, Domain, ManyThreads, Publisher, WaitSet, WaitSetRunResult};
use std::thread;
use std::time::Duration;

#[derive(Clone, Copy)]
struct Reading {
    celsius: f64,
}

#[derive(Clone, Copy)]
enum Command {
    Stop,
}

const READINGS: u32 = 3;
const TICKS: u32 = 3;
const INTERVAL: Duration = Duration::from_millis(5);

fn sense(sensor: Publisher<Reading, ManyThreads>) {
    for number in 0..READINGS {
        let celsius = 20.0 + f64::from(number) / 2.0;
        let sent = sensor.blocking_send_copy(Reading { celsius }).unwrap();
        assert_eq!(sent.delivered(), Some(1));
        thread::sleep(INTERVAL);
    }
}

fn main() -> Result<(), Box<dyn std::error::Error>> {
    let weather = Domain::<Reading>::builder(7).enable_safe_overflow(false);
    let weather = weather.create_shared()?;
    let control = Domain::<Command>::builder(8).create_shared()?;
    let thermometer = weather.subscriber()?;
    let (commander, commands) = (control.publisher()?, control.subscriber()?);

    let set = WaitSet::new();
    let mut of_thermometer = set.attach_notification(&thermometer)?;
    let of_commands = set.attach_notification(&commands)?;
    let mut of_ticks = None;
    let (mut read, mut ticked) = (0, 0);
    let sensor = weather.publisher()?;
    let sensor = thread::spawn(move || sense(sensor));
    let ended = set.wait_and_process(|id| {
        if id.has_event_from(&of_thermometer) {
            for reading in &thermometer {
                println!("{:.1} °C", reading.unwrap().celsius);
                read += 1;
            }
            if read == READINGS {
                of_thermometer = set.attach_deadline(&thermometer, INTERVAL * 4).unwrap();
            }
        } else if id.has_missed_deadline(&of_thermometer) {
            println!("no reading came in time");
            of_thermometer = set.attach_notification(&thermometer).unwrap();
            of_ticks = Some(set.attach_interval(INTERVAL).unwrap());
        } else if matches!(&of_ticks, Some(guard) if id.has_event_from(guard)) {
            ticked += 1;
            println!("tick {ticked}");
            if ticked == TICKS {
                of_ticks = None; // detaches it
                commander.send_copy(Command::Stop).unwrap().delivered();
            }
        }
        match id.has_event_from(&of_commands) {
            true => CallbackProgression::Stop,
            false => CallbackProgression::Continue,
        }
    })?;
    if ended == WaitSetRunResult::StopRequest {
        println!("stopped");
    }
    sensor.join().unwrap();
    Ok(())
}
