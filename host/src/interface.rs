//! The number of the interface.

use std::error::Error;
use std::fmt;

use crate::raw;

/// The number of the interface that this crate is written for.
pub const INTERFACE: u32 = 7;

/// The archive has another interface than the crate.
#[derive(Debug, Clone, Copy, PartialEq, Eq, Hash)]
#[non_exhaustive]
pub struct InterfaceMismatch {
    /// The number that the archive gives.
    pub archive: u32,
    /// The number that the crate is written for, [`INTERFACE`].
    pub host: u32,
}

impl fmt::Display for InterfaceMismatch {
    fn fmt(&self, f: &mut fmt::Formatter<'_>) -> fmt::Result {
        let InterfaceMismatch { archive, host } = self;
        write!(f, "the archive has interface {archive}, this crate is written for {host}: build both from one checkout")
    }
}

impl Error for InterfaceMismatch {}

/// Whether the archive has the interface that this crate is written for. A station asks once, when it starts: no other
/// call asks, so that none pays for it.
///
/// # Errors
///
/// [`InterfaceMismatch`], with both numbers. No call should follow: an archive of another interface may take and give
/// other structs.
///
/// ```
/// rumchivoat::check_interface()?;
/// # Ok::<(), rumchivoat::InterfaceMismatch>(())
/// ```
pub fn check_interface() -> Result<(), InterfaceMismatch> {
    same(raw::interface())
}

fn same(archive: u32) -> Result<(), InterfaceMismatch> {
    if archive == INTERFACE { Ok(()) } else { Err(InterfaceMismatch { archive, host: INTERFACE }) }
}

#[cfg(test)]
mod tests {
    use super::*;

    #[test]
    fn the_archive_has_the_crates_interface() {
        assert_eq!(check_interface(), Ok(()));
    }

    #[test]
    fn another_interface_is_told_with_both_numbers() {
        for archive in [0, INTERFACE + 1, u32::MAX] {
            assert_eq!(same(archive), Err(InterfaceMismatch { archive, host: INTERFACE }));
        }
        let told = InterfaceMismatch { archive: 1, host: 2 }.to_string();
        assert_eq!(told, "the archive has interface 1, this crate is written for 2: build both from one checkout");
    }
}
