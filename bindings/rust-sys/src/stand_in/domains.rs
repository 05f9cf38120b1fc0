// SPDX-License-Identifier: Apache-2.0 OR MIT
//! Settings and domains.

use super::model::Model;
use super::{code, there};
use crate::*;
use std::mem::size_of;
use std::ptr::null_mut;

#[no_mangle]
unsafe extern "C" fn iox2ps_version() -> u32 {
    VERSION
}

#[no_mangle]
unsafe extern "C" fn iox2ps_config_defaults_sized(
    config: *mut Config,
    struct_size: usize,
    service_id: u64,
    payload_size: usize,
    payload_alignment: usize,
) {
    if struct_size != size_of::<Config>() {
        (*config).struct_size = 0;
        return;
    }
    *config = Config {
        struct_size,
        service_id: super::wide(service_id),
        payload_size,
        payload_alignment,
        max_publishers: 2,
        max_subscribers: 8,
        subscriber_max_buffer_size: 2,
        subscriber_max_borrowed_samples: 2,
        number_of_channels: 1,
        subscriber_expired_connection_buffer: 128,
        publisher_max_loaned_samples: 2,
        enable_safe_overflow: 1,
        ..Config::default()
    };
}

#[no_mangle]
unsafe extern "C" fn iox2ps_publisher_options_of_sized(
    config: *const Config,
    options: *mut PublisherOptions,
    struct_size: usize,
) {
    if struct_size != size_of::<PublisherOptions>() || !has_size(&*config) {
        (*options).struct_size = 0;
        return;
    }
    *options = PublisherOptions {
        struct_size,
        max_loaned_samples: (*config).publisher_max_loaned_samples,
        initial_max_slice_len: (*config).payload_size,
        backpressure_strategy: (*config).backpressure_strategy,
        ..PublisherOptions::default()
    };
}

#[no_mangle]
unsafe extern "C" fn iox2ps_subscriber_options_of_sized(
    config: *const Config,
    options: *mut SubscriberOptions,
    struct_size: usize,
) {
    if struct_size != size_of::<SubscriberOptions>() || !has_size(&*config) {
        (*options).struct_size = 0;
        return;
    }
    *options = SubscriberOptions {
        struct_size,
        buffer_size: (*config).subscriber_max_buffer_size,
        ..SubscriberOptions::default()
    };
}

pub(super) fn worst_case(config: &Config, loans: usize) -> Option<usize> {
    let of_one = config
        .subscriber_max_buffer_size
        .max(1)
        .checked_add(config.subscriber_max_borrowed_samples)?;
    let ends = config
        .max_subscribers
        .checked_mul(config.number_of_channels.max(1))?;
    let waiting = ends.checked_mul(of_one)?;
    waiting.checked_add(config.history_size)?.checked_add(loans)
}

#[no_mangle]
unsafe extern "C" fn iox2ps_worst_case_slots(
    config: *const Config,
    loans: usize,
    slots: *mut usize,
) -> u32 {
    code(sound(&*config).and_then(|()| {
        *slots = worst_case(&*config, loans).ok_or(WORST_CASE_TOO_LARGE)?;
        Ok(())
    }))
}

#[no_mangle]
unsafe extern "C" fn iox2ps_error_text_at(_: u32, text: *mut *const u8, len: *mut usize) {
    const TEXT: &[u8] = b"a code of what stands in for the archive\0";
    *text = TEXT.as_ptr();
    *len = TEXT.len() - 1;
}

#[no_mangle]
unsafe extern "C" fn iox2ps_domain_create(domain: *mut Domain, config: *const Config) -> u32 {
    if !(*domain).domain.is_null() {
        return HAS_DOMAIN;
    }
    code(sound(&*config).map(|()| {
        (*domain).domain = Box::into_raw(Box::new(Model::new(*config))).cast();
    }))
}

fn has_size(config: &Config) -> bool {
    config.struct_size == size_of::<Config>()
}

// The code of the first setting that is invalid.
fn sound(config: &Config) -> Result<(), u32> {
    let alignment = config.payload_alignment;
    if !has_size(config) {
        return Err(INVALID_STRUCT_SIZE);
    }
    if !matches!(alignment, 1 | 2 | 4 | 8 | 16) {
        return Err(INVALID_PAYLOAD_ALIGNMENT);
    }
    if config.payload_size % alignment != 0 {
        return Err(INVALID_PAYLOAD_SIZE);
    }
    match config.backpressure_strategy {
        0 | 1 => Ok(()),
        _ => Err(INVALID_BACKPRESSURE_STRATEGY),
    }
}

#[no_mangle]
unsafe extern "C" fn iox2ps_domain_create_recorded(
    domain: *mut Domain,
    config: *const Config,
    _: usize,
    _: usize,
) -> u32 {
    iox2ps_domain_create(domain, config)
}

#[no_mangle]
unsafe extern "C" fn iox2ps_domain_recording(
    domain: *mut Domain,
    _: *mut u8,
    _: usize,
    len: *mut usize,
    missed: *mut u64,
) -> u32 {
    code(there(domain).map(|_| {
        *len = 0;
        *missed = 0;
    }))
}

#[no_mangle]
unsafe extern "C" fn iox2ps_domain_destroy(domain: *mut Domain) -> u32 {
    if (*domain).domain.is_null() {
        return NO_DOMAIN;
    }
    drop(Box::from_raw((*domain).domain.cast::<Model>()));
    (*domain).domain = null_mut();
    OK
}

#[no_mangle]
unsafe extern "C" fn iox2ps_domain_config_sized(
    domain: *mut Domain,
    config: *mut Config,
    struct_size: usize,
) -> u32 {
    code(there(domain).and_then(|model| {
        if struct_size != size_of::<Config>() {
            return Err(INVALID_STRUCT_SIZE);
        }
        *config = model.config;
        Ok(())
    }))
}

#[no_mangle]
unsafe extern "C" fn iox2ps_domain_connection_count(domain: *mut Domain, count: *mut usize) -> u32 {
    code(there(domain).map(|model| *count = model.connections.len()))
}

#[no_mangle]
unsafe extern "C" fn iox2ps_domain_book_count(domain: *mut Domain, count: *mut usize) -> u32 {
    code(there(domain).map(|model| {
        let is_there = |id| model.publisher(id).is_some();
        let books = model.books.iter();
        *count = books
            .filter(|(id, held)| is_there(*id) || held.get() > 0)
            .count();
    }))
}

#[no_mangle]
unsafe extern "C" fn iox2ps_domain_refused_connections(
    domain: *mut Domain,
    count: *mut u64,
) -> u32 {
    code(there(domain).map(|_| *count = 0))
}

#[no_mangle]
unsafe extern "C" fn iox2ps_domain_warning_count(domain: *mut Domain, count: *mut usize) -> u32 {
    code(there(domain).map(|_| *count = 0))
}

#[no_mangle]
unsafe extern "C" fn iox2ps_domain_warning(domain: *mut Domain, _: usize, _: *mut Warning) -> u32 {
    there(domain).err().unwrap_or(NOT_LIVE)
}
