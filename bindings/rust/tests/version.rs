// SPDX-License-Identifier: Apache-2.0 OR MIT
//! What becomes of a program that is linked to the archive of another version. `tools/bindings` runs the ignored test, and has
//! the linker take this file's version for the archive's.

use iox2_pubsub::{Domain, DomainCreateError};
use iox2_pubsub_sys::{iox2ps_version, VERSION};

#[no_mangle]
extern "C" fn __wrap_iox2ps_version() -> u32 {
    VERSION + 1
}

#[test]
fn the_archive_is_of_the_crates_version() {
    assert_eq!(unsafe { iox2ps_version() }, VERSION);
    let parts = [VERSION >> 16, VERSION >> 8 & 0xff, VERSION & 0xff];
    assert_eq!(
        parts.map(|part| part.to_string()).join("."),
        env!("CARGO_PKG_VERSION")
    );
    assert!(Domain::<u64>::builder(1).create().is_ok());
}

#[test]
#[ignore = "needs -Wl,--wrap=iox2ps_version"]
fn no_domain_is_made_over_an_archive_of_another_version() {
    let other = DomainCreateError::OtherVersion;
    assert_eq!(Domain::<u64>::builder(1).create().unwrap_err(), other);
    assert_eq!(
        Domain::<[u8]>::slice_builder(1)
            .create_shared()
            .unwrap_err(),
        other
    );
    assert_eq!(other.code(), u32::MAX);
    assert_eq!(
        other.to_string(),
        "OtherVersion: the archive isn't of the crate's version"
    );
}
