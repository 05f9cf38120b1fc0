// SPDX-License-Identifier: Apache-2.0 OR MIT
use std::time::{Duration, Instant};

// When that much time has passed; for good, if that is beyond the clock.
pub(crate) fn after(timeout: Duration) -> Option<Instant> {
    Instant::now().checked_add(timeout)
}
