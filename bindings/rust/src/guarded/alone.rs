// SPDX-License-Identifier: Apache-2.0 OR MIT
//! A domain that no other process has.

use super::{Guarded, Seen, State};
use crate::lock::DomainLock;
use crate::threads::{Brings, Waits};
use crate::waiting::Wake;
use std::time::Instant;

#[derive(Default)]
pub(super) struct Others {}

impl Others {
    #[inline(always)]
    pub(super) fn end(&mut self, _: bool) {}
}

#[derive(Default)]
pub(super) struct OfOthers {}

impl State {
    #[inline(always)]
    pub(super) fn is_awake(&mut self) {}

    #[inline(always)]
    pub(super) fn hands_over(&mut self) {}
}

impl<L: DomainLock> Guarded<L> {
    pub(crate) fn is_of_processes(&self) -> Option<bool> {
        self.with(|_| false)
    }

    #[inline(always)]
    pub(super) fn begins_to_sleep(&self, _: &mut State, _: Brings) -> (Option<u64>, Option<Wake>) {
        (None, None)
    }

    #[inline(always)]
    pub(super) fn takes_duty(&self, _: &mut State) -> bool {
        false
    }

    #[inline(always)]
    pub(super) fn sleeps_for_all(&self, _: u64, _: Option<Instant>) {}

    #[inline(always)]
    pub(super) fn listens_to_others(&self, _: &mut State, _: Brings) -> Option<Wake> {
        None
    }

    #[inline(always)]
    pub(super) fn looks_at_others(&self, _: Waits, _: Seen) -> Option<bool> {
        None
    }

    #[inline(always)]
    pub(super) fn calls_of_all(&self, _: &mut State) -> u64 {
        0
    }
}
