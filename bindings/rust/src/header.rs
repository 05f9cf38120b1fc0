// SPDX-License-Identifier: Apache-2.0 OR MIT
//! Where a message comes from.

use crate::ids::{number, UniquePublisherId};
use crate::sys;

/// Where a message comes from, and how many elements it has.
#[derive(Clone, Copy, Debug, PartialEq, Eq, Hash)]
pub struct Header {
    node_id: u128,
    publisher_id: UniquePublisherId,
    number_of_elements: usize,
}

impl Header {
    // Of a message whose elements have `size` bytes each. One of no size is the only one.
    pub(crate) fn of(header: &sys::Header, size: usize) -> Header {
        let bytes = header.number_of_elements as usize;
        Header {
            node_id: number(header.node_id),
            publisher_id: UniquePublisherId::of(header.publisher),
            number_of_elements: bytes.checked_div(size).unwrap_or(1),
        }
    }

    /// The node that the settings of the domain name; or, where they name none, the process that sent it, of a domain that processes
    /// share. [`NodeId::from`](crate::NodeId) makes an id of it.
    #[must_use]
    pub fn node_id(&self) -> u128 {
        self.node_id
    }

    /// The id of the publisher that sent it.
    #[must_use]
    pub fn publisher_id(&self) -> UniquePublisherId {
        self.publisher_id
    }

    /// How many values a slice has; 1 of a single value.
    #[must_use]
    pub fn number_of_elements(&self) -> usize {
        self.number_of_elements
    }
}
