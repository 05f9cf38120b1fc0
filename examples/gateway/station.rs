// SPDX-License-Identifier: Apache-2.0 OR MIT
//! What both programs in Rust have: a domain of readings, its ports, and the gateway that joins it to a topic of DDS.
use iox2_pubsub::dds::{Gateway, Settings};
use iox2_pubsub::{Domain, Publisher, Subscriber};
use std::error::Error;
use std::time::Duration;

pub const READINGS: usize = 5;
pub const MOST_SECONDS: usize = 600;

pub struct Station {
    publisher: Publisher<f64>,
    subscriber: Subscriber<f64>,
    gateway: Gateway<f64>,
}

impl Station {
    /// The history keeps what was sent for a process that comes later, or hasn't met this one yet.
    pub fn open() -> Result<Station, Box<dyn Error>> {
        let topic = std::env::args().nth(1);
        let domain = Domain::<f64>::builder(7)
            .history_size(READINGS)
            .subscriber_max_buffer_size(READINGS)
            .create()?;
        Ok(Station {
            publisher: domain.publisher()?,
            subscriber: domain.subscriber()?,
            gateway: Gateway::open(
                &domain,
                Settings::topic(topic.as_deref().unwrap_or("example/celsius")),
            )?,
        })
    }

    pub fn send(&self, celsius: f64) -> Result<(), Box<dyn Error>> {
        self.publisher.send_copy(celsius)?.delivered();
        Ok(())
    }

    /// Waits a second at most for the topic.
    pub fn wait_a_second(&self) {
        self.gateway.wait(Duration::from_secs(1));
    }

    /// The next message of the other process, if there is one. This process' own come, too.
    pub fn receive(&self) -> Result<Option<f64>, Box<dyn Error>> {
        for sample in &self.subscriber {
            let sample = sample?;
            if self.gateway.origin(&sample).is_some() {
                return Ok(Some(*sample));
            }
        }
        Ok(None)
    }

    /// Whether a process that sends to the topic is there.
    #[allow(dead_code)] // the display asks
    pub fn has_writer(&self) -> bool {
        self.gateway.peers().writers > 0
    }
}
