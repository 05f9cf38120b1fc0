// SPDX-License-Identifier: Apache-2.0 OR MIT
//! Domains to try numbers in, and calls that have to be refused.

use iox2_pubsub_sys::*;
use std::mem::MaybeUninit;
use std::ptr::{null, null_mut};
use std::slice;

// ---- what calls write to, and calls that are refused

// Where calls write.
#[repr(C)]
#[derive(Clone, Copy, Debug, PartialEq)]
pub struct Outs {
    pub publisher: Publisher,
    pub subscriber: Subscriber,
    pub loan: Loan,
    pub blocked: Blocked,
    pub sample: Sample,
    pub header: Header,
    pub config: Config,
    pub warning: Warning,
    pub id: Wide,
    pub written: *mut u8,
    pub read: *const u8,
    pub count: usize,
    pub len: usize,
    pub number: u64,
    pub answer: u32,
    pub bytes: [u8; 32],
}

impl Outs {
    // Filled with a byte that no call writes there.
    pub fn filled() -> Outs {
        let mut outs = MaybeUninit::<Outs>::uninit();
        // SAFETY: each field may have any bits.
        unsafe {
            outs.as_mut_ptr().write_bytes(0xa5, 1);
            outs.assume_init()
        }
    }
}

// The call returns this code and has written nothing.
#[track_caller]
pub fn refused(code: u32, call: impl FnOnce(&mut Outs) -> u32) {
    let mut outs = Outs::filled();
    assert_eq!(call(&mut outs), code);
    assert_eq!(outs, Outs::filled());
}

pub fn publisher_is_refused(domain: &mut Domain, publisher: &Publisher, code: u32) {
    let bytes = [1u8; 8];
    unsafe {
        refused(code, |_| iox2ps_publisher_close(domain, publisher));
        refused(code, |outs| {
            iox2ps_publisher_is_blocked(domain, publisher, &mut outs.answer)
        });
        refused(code, |outs| {
            let (receiver, out) = (Wide::default(), &mut outs.count);
            iox2ps_publisher_get_connection_id_of(domain, publisher, &receiver, out)
        });
        for channel in [0, 1] {
            refused(code, |outs| {
                let out = &mut outs.answer;
                iox2ps_publisher_has_channel_state(domain, publisher, channel, 0, 0, out)
            });
            refused(code, |outs| {
                let out = &mut outs.answer;
                iox2ps_publisher_has_disconnect_hint(domain, publisher, channel, 0, 0, out)
            });
            refused(code, |_| {
                iox2ps_publisher_close_channel(domain, publisher, channel, 0, 0)
            });
        }
        refused(code, |_| {
            iox2ps_publisher_update_connections(domain, publisher)
        });
        for len in [8, usize::MAX] {
            refused(code, |outs| {
                iox2ps_publisher_loan(domain, publisher, len, &mut outs.loan, &mut outs.written)
            });
        }
        refused(code, |outs| {
            let (count, blocked) = (&mut outs.count, &mut outs.blocked);
            iox2ps_publisher_send_copy(domain, publisher, bytes.as_ptr(), 8, count, blocked)
        });
    }
}

pub fn subscriber_is_refused(domain: &mut Domain, subscriber: &Subscriber, code: u32) {
    unsafe {
        refused(code, |_| iox2ps_subscriber_close(domain, subscriber));
        refused(code, |outs| {
            iox2ps_subscriber_has_samples(domain, subscriber, &mut outs.answer)
        });
        for channel in [0, 1] {
            refused(code, |outs| {
                let out = &mut outs.answer;
                iox2ps_subscriber_at_least_one_channel_has_state(
                    domain, subscriber, channel, 0, out,
                )
            });
            refused(code, |outs| {
                let out = &mut outs.answer;
                iox2ps_subscriber_set_channel_state(domain, subscriber, channel, 0, out)
            });
            refused(code, |_| {
                iox2ps_subscriber_close_channel(domain, subscriber, channel, 0)
            });
            refused(code, |_| {
                iox2ps_subscriber_set_disconnect_hint(domain, subscriber, channel, 0)
            });
        }
        refused(code, |_| {
            iox2ps_subscriber_update_connections(domain, subscriber)
        });
        refused(code, |outs| {
            let (sample, read, len) = (&mut outs.sample, &mut outs.read, &mut outs.len);
            iox2ps_subscriber_receive(domain, subscriber, sample, read, len)
        });
        refused(code, |outs| {
            let (bytes, len, sample) = (&mut outs.bytes, &mut outs.len, &mut outs.sample);
            iox2ps_subscriber_receive_copy(domain, subscriber, bytes.as_mut_ptr(), 32, len, sample)
        });
    }
}

pub fn loan_is_refused(domain: &mut Domain, loan: &Loan, code: u32) {
    unsafe {
        refused(code, |outs| {
            iox2ps_loan_send(domain, loan, &mut outs.count, &mut outs.blocked)
        });
        for channel in 0..2 {
            refused(code, |outs| {
                let (count, blocked) = (&mut outs.count, &mut outs.blocked);
                iox2ps_loan_deliver_offset_to_connection(domain, loan, channel, 0, count, blocked)
            });
        }
        refused(code, |_| iox2ps_loan_discard(domain, loan));
        refused(code, |outs| {
            iox2ps_loan_payload(domain, loan, &mut outs.written, &mut outs.len)
        });
    }
}

pub fn blocked_is_refused(domain: &mut Domain, blocked: &Blocked, code: u32) {
    unsafe {
        refused(code, |outs| {
            iox2ps_blocked_subscriber(domain, blocked, &mut outs.id)
        });
        refused(code, |outs| {
            iox2ps_blocked_retry(domain, blocked, 1, &mut outs.count)
        });
        refused(code, |outs| {
            iox2ps_blocked_give_up(domain, blocked, &mut outs.count)
        });
    }
}

pub fn sample_is_refused(domain: &mut Domain, sample: &Sample, code: u32) {
    unsafe {
        refused(code, |outs| {
            iox2ps_sample_payload(domain, sample, &mut outs.read, &mut outs.len)
        });
        refused(code, |outs| {
            iox2ps_sample_copy(domain, sample, outs.bytes.as_mut_ptr(), 32, &mut outs.len)
        });
        refused(code, |outs| {
            iox2ps_sample_header(domain, sample, &mut outs.header)
        });
        refused(code, |_| iox2ps_sample_release(domain, sample));
    }
}

// Each call on a box without a domain.
pub fn no_domain_is_there(domain: &mut Domain, world: &World) {
    let config = defaults(1, 8, 8);
    let (publisher_options, subscriber_options) = options_of(&config);
    let code = NO_DOMAIN;
    publisher_is_refused(domain, &world.publisher, code);
    subscriber_is_refused(domain, &world.subscriber, code);
    loan_is_refused(domain, &world.loan, code);
    blocked_is_refused(domain, &world.blocked, code);
    sample_is_refused(domain, &world.sample, code);
    unsafe {
        refused(code, |outs| {
            iox2ps_publisher_create(domain, &mut outs.publisher)
        });
        refused(code, |outs| {
            iox2ps_publisher_create_with(domain, &publisher_options, &mut outs.publisher)
        });
        refused(code, |outs| {
            iox2ps_subscriber_create(domain, &mut outs.subscriber)
        });
        refused(code, |outs| {
            iox2ps_subscriber_create_with(domain, &subscriber_options, &mut outs.subscriber)
        });
        refused(code, |outs| iox2ps_domain_config(domain, &mut outs.config));
        refused(code, |outs| {
            iox2ps_domain_connection_count(domain, &mut outs.count)
        });
        refused(code, |outs| {
            iox2ps_domain_book_count(domain, &mut outs.count)
        });
        refused(code, |outs| {
            iox2ps_domain_refused_connections(domain, &mut outs.number)
        });
        refused(code, |outs| {
            iox2ps_domain_warning_count(domain, &mut outs.count)
        });
        refused(code, |outs| {
            iox2ps_domain_warning(domain, 0, &mut outs.warning)
        });
        refused(code, |_| iox2ps_domain_destroy(domain));
    }
    assert!(domain.domain.is_null());
}

// ---- domains, and calls that are right

pub fn defaults(service_id: u64, size: usize, alignment: usize) -> Config {
    let mut config = Config::default();
    unsafe { iox2ps_config_defaults(&mut config, service_id, size, alignment) };
    config
}

pub fn options_of(config: &Config) -> (PublisherOptions, SubscriberOptions) {
    let (mut publisher, mut subscriber) = Default::default();
    unsafe {
        iox2ps_publisher_options_of(config, &mut publisher);
        iox2ps_subscriber_options_of(config, &mut subscriber);
    }
    (publisher, subscriber)
}

pub fn domain_of(config: &Config) -> Domain {
    let mut domain = Domain { domain: null_mut() };
    assert_eq!(unsafe { iox2ps_domain_create(&mut domain, config) }, OK);
    domain
}

pub fn destroy(domain: &mut Domain) {
    assert_eq!(unsafe { iox2ps_domain_destroy(domain) }, OK);
    assert!(domain.domain.is_null());
}

pub fn publisher_of(domain: &mut Domain) -> Publisher {
    let mut publisher = Publisher::default();
    assert_eq!(
        unsafe { iox2ps_publisher_create(domain, &mut publisher) },
        OK
    );
    publisher
}

pub fn subscriber_of(domain: &mut Domain) -> Subscriber {
    let mut subscriber = Subscriber::default();
    let code = unsafe { iox2ps_subscriber_create(domain, &mut subscriber) };
    assert_eq!(code, OK);
    subscriber
}

pub fn lend(domain: &mut Domain, publisher: &Publisher, len: usize) -> (Loan, *mut u8) {
    let (mut loan, mut start) = (Loan::default(), null_mut());
    let code = unsafe { iox2ps_publisher_loan(domain, publisher, len, &mut loan, &mut start) };
    assert_eq!(code, OK);
    (loan, start)
}

pub fn send(domain: &mut Domain, publisher: &Publisher, bytes: &[u8]) -> (u32, Blocked) {
    let (mut receivers, mut blocked) = (0, Blocked::default());
    let (start, len) = (bytes.as_ptr(), bytes.len());
    let code = unsafe {
        iox2ps_publisher_send_copy(domain, publisher, start, len, &mut receivers, &mut blocked)
    };
    (code, blocked)
}

pub fn send_value(domain: &mut Domain, publisher: &Publisher, value: u64) -> (u32, Blocked) {
    send(domain, publisher, &value.to_ne_bytes())
}

pub fn receive(domain: &mut Domain, subscriber: &Subscriber) -> (Sample, &'static [u8]) {
    let (mut sample, mut start, mut len) = (Sample::default(), null(), 0);
    let code =
        unsafe { iox2ps_subscriber_receive(domain, subscriber, &mut sample, &mut start, &mut len) };
    assert_eq!(code, OK);
    // SAFETY: the tests read it until it is released.
    (sample, unsafe { slice::from_raw_parts(start, len) })
}

pub fn release(domain: &mut Domain, sample: &Sample) {
    assert_eq!(unsafe { iox2ps_sample_release(domain, sample) }, OK);
}

pub fn value_of(bytes: &[u8]) -> u64 {
    u64::from_ne_bytes(bytes.try_into().unwrap())
}

// ---- a domain in which all kinds of handles are live

// A loan is out, a message is borrowed, and a send of the publisher `waiting` waits.
pub struct World {
    pub domain: Domain,
    pub publisher: Publisher,
    pub waiting: Publisher,
    pub subscriber: Subscriber,
    pub loan: Loan,
    pub blocked: Blocked,
    pub sample: Sample,
    pub read: &'static [u8],
    pub written: *mut u8,
}

impl World {
    pub fn begin(service_id: u64) -> World {
        let mut config = defaults(service_id, 8, 8);
        config.enable_safe_overflow = 0;
        config.subscriber_max_buffer_size = 1;
        config.max_subscribers = 2;
        let mut domain = domain_of(&config);
        let (publisher, waiting) = (publisher_of(&mut domain), publisher_of(&mut domain));
        let subscriber = subscriber_of(&mut domain);
        assert_eq!(send_value(&mut domain, &publisher, 11).0, OK);
        let (sample, read) = receive(&mut domain, &subscriber);
        let (loan, written) = lend(&mut domain, &publisher, 8);
        assert_eq!(send_value(&mut domain, &waiting, 12).0, OK);
        let (code, blocked) = send_value(&mut domain, &waiting, 13);
        assert_eq!(code, BLOCKED);
        World {
            domain,
            publisher,
            waiting,
            subscriber,
            loan,
            blocked,
            sample,
            read,
            written,
        }
    }

    // Nothing of it has changed: each handle does what it is for, once.
    pub fn end(mut self) {
        let domain = &mut self.domain;
        let (mut start, mut count, mut len) = (null(), 0, 0);
        unsafe {
            let code = iox2ps_sample_payload(domain, &self.sample, &mut start, &mut len);
            assert_eq!((code, start, len), (OK, self.read.as_ptr(), 8));
            assert_eq!(value_of(self.read), 11);
            release(domain, &self.sample);
            take(domain, &self.subscriber, 12, self.waiting.id);
            let code = iox2ps_blocked_retry(domain, &self.blocked, 0, &mut count);
            assert_eq!((code, count), (OK, 1));
            take(domain, &self.subscriber, 13, self.waiting.id);
            self.written.cast::<u64>().write(14);
            let mut blocked = Blocked::default();
            let code = iox2ps_loan_send(domain, &self.loan, &mut count, &mut blocked);
            assert_eq!((code, count), (OK, 1));
            take(domain, &self.subscriber, 14, self.publisher.id);
            assert_eq!(iox2ps_subscriber_close(domain, &self.subscriber), OK);
            assert_eq!(iox2ps_publisher_close(domain, &self.publisher), OK);
            assert_eq!(iox2ps_publisher_close(domain, &self.waiting), OK);
        }
        destroy(domain);
    }
}

// Receives this message of this publisher, and gives it back.
pub fn take(domain: &mut Domain, subscriber: &Subscriber, value: u64, origin: Wide) {
    let (sample, read) = receive(domain, subscriber);
    assert_eq!((value_of(read), sample.origin), (value, origin));
    release(domain, &sample);
}
