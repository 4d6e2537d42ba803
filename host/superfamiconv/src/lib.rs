//! The Rust that was ported, unchanged, and its calls with plain numbers.
//!
//! The build script puts the Rust's files into one tree with stand-ins for the modules that its text lacks. Where the
//! Rust's text is absent the crate still compiles, [`PRESENT`] is false and every call panics.

pub mod bank;

use std::io::{self, Write};

#[cfg(present)]
include!(concat!(env!("OUT_DIR"), "/rust/root.rs"));

#[cfg_attr(present, path = "plain.rs")]
#[cfg_attr(not(present), path = "absent.rs")]
pub mod plain;

#[cfg_attr(present, path = "pictures.rs")]
#[cfg_attr(not(present), path = "absent_pictures.rs")]
pub mod pictures;

/// Whether the Rust's text was there when this crate was compiled.
pub const PRESENT: bool = cfg!(present);

/// Whether there is no Rust to compare with. Then a line says what is skipped, why, and which variable helps: on standard
/// error itself, for a test that passes is not shown what it prints.
pub fn absent(what: &str) -> bool {
    if !PRESENT {
        let line = format!("{what} {ABSENT}\n");
        io::stderr().write_all(line.as_bytes()).expect("standard error can be written");
    }
    !PRESENT
}

/// One line that says why there is nothing to compare with, where there is not.
pub const ABSENT: &str = concat!(
    "skipped: the Rust's text is not in ",
    env!("RUMCHIVOAT_RUST_LOOKED_IN"),
    " (RUMCHIVOAT_RUST can name its folder)"
);
