// SPDX-License-Identifier: Apache-2.0 OR MIT
//! What stands in for the archive where Miri runs a program, which can't call it, and in tests of this: a small model of a domain
//! under the C calls. Each message is memory of its own, so that Miri sees who uses its bytes too long.
//!
//! It has neither texts, recordings nor warnings, and memory is refused by the system alone.

mod domains;
mod memory;
mod message;
mod model;
mod ports;
mod sends;

use crate::*;
use model::Model;

// A domain that is there and belongs to these numbers, or the code to return.
//
// # Safety
//
// What a caller of the header owes.
unsafe fn there<'d>(domain: *mut Domain) -> Result<&'d mut Model, u32> {
    let model = (*domain).domain.cast::<Model>();
    model.as_mut().ok_or(NO_DOMAIN)
}

// The same where the handle is of this domain.
unsafe fn of_service<'d>(domain: *mut Domain, service_id: Wide) -> Result<&'d mut Model, u32> {
    let model = there(domain)?;
    match model.config.service_id == service_id {
        true => Ok(model),
        false => Err(NOT_LIVE),
    }
}

fn wide(number: u64) -> Wide {
    Wide {
        low: number,
        high: 0,
    }
}

// Of an id that names nothing, one that nothing has.
fn number(wide: Wide) -> u64 {
    match wide.high {
        0 => wide.low,
        _ => 0,
    }
}

fn code(result: Result<(), u32>) -> u32 {
    result.err().unwrap_or(OK)
}
