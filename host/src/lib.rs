//! The station's calls for the sixteen modes, safe.
//!
//! Behind each function stands one of the archive `librumchivoat.a`, which was proved to answer every input as document
//! 01 says: refused or done, with one content of the lent bytes. A refused call leaves every lent byte as it was; a call
//! that is done leaves the bytes after the written length as they were.
//!
//! ```
//! use rumchivoat::{MapSize, Mode, Settings};
//!
//! # fn main() -> Result<(), Box<dyn std::error::Error>> {
//! // once, when the station starts
//! rumchivoat::check_interface()?;
//!
//! // a picture of two tiles, 16x8 pixels, a byte each
//! let settings = Settings::new(Mode::Snes, 4, MapSize { columns: 2, rows: 1 }).flips().discarding();
//! let converted = settings.convert_to_vec(&[7; 128])?;
//! assert_eq!((converted.tiles.len(), converted.map), (32, vec![0, 0, 0, 0]));
//! # Ok(())
//! # }
//! ```
//!
//! A snes_mode7 picture comes to the console as one block, in which map and tiles stand byte beside byte: [`mode7_make`]
//! makes it from what a conversion gives, and [`mode7_split`] takes it apart. A tile that comes as native bytes is
//! mirrored as it is: [`flip_tile`].
//!
//! # Two layers
//!
//! The plain calls ([`convert`], [`pack_colors`], [`Set::add`], [`Run::take`] ..) take numbers and lent slices, as the
//! archive does, and answer a [`Refusal`]: they cost what the archive's calls cost. The typed layer ([`Settings`],
//! [`Strips`], [`TileSet`], [`Title`], [`Entry`], the calls that end in `_to_vec`) is thin over them. It names what is
//! easily swapped, ties a set to its store, a title to the store that it has in common with others and a run to its
//! buffers, and answers [`Refused`], whose words tell the values:
//! `refused 15: tile index 4096 is too large: pce has tiles 0 to 4095`.
//!
//! A mode is given as a [`Mode`] or by its number, so that a number read from elsewhere needs no check of its own: a
//! number above 15 is answered with [`Refusal::Mode`].
//!
//! ```
//! use rumchivoat::{Mode, Refusal, pack_colors};
//!
//! let mut bytes = [0; 2];
//! assert_eq!(pack_colors(Mode::Snes, &[31, 0, 16, 255], &mut bytes), Ok(2));
//! assert_eq!(bytes, [0x1f, 0x40]);
//! assert_eq!(pack_colors(16u32, &[31, 0, 16, 255], &mut bytes), Err(Refusal::Mode));
//! ```
//!
//! # The archive's interface
//!
//! Crate and archive are built from one checkout. The archive gives the number of its interface, and the crate is written
//! for [`INTERFACE`]. An archive with another number, or from before there was one, is refused when the crate is built,
//! so that no call has to look. [`check_interface`] asks once more at run time: a station calls it when it starts, where
//! the archive is not linked by the crate's own build. A refusal that the crate does not know is [`Refusal::Unknown`]: no
//! answer makes the crate panic.
//!
//! # Threads and stack
//!
//! A call works on what it is lent and on its own stack: it keeps nothing between calls, waits for nothing and allocates
//! nothing (the calls that give a `Vec` allocate it). So calls may run in any number of threads at once, and every type
//! here is `Send` and `Sync`. [`stack`] says how much stack the calls take: [`stack::CONVERT`] bytes suffice for a
//! conversion, [`stack::STRIP`] for a strip, [`stack::RUN`] for the program on slices, [`stack::OTHERS`] for any other
//! call.

#![cfg_attr(
    not(test),
    warn(
        clippy::expect_used,
        clippy::indexing_slicing,
        clippy::missing_errors_doc,
        clippy::panic,
        clippy::todo,
        clippy::unreachable,
        clippy::unwrap_used
    )
)]

mod color;
mod entry;
mod interface;
mod mode;
mod mode7;
mod picture;
mod raw;
mod refusal;
mod refused;
mod set;
mod sheet;
pub mod stack;
mod strip;
mod tile;
mod tile_set;
mod title;

pub use color::{
    Rounding, pack_colors, pack_colors_to_vec, reduce_channel, scale_up, unpack_colors, unpack_colors_to_vec,
};
pub use entry::{Entry, attribute, pack_entry, tile_index, unpack_entry};
pub use interface::{INTERFACE, InterfaceMismatch, check_interface};
pub use mode::{Mode, UnknownMode};
pub use mode7::{MODE7_BLOCK, MODE7_HALF, Mode7Halves, mode7_make, mode7_make_to_vec, mode7_split, mode7_split_to_vec};
pub use picture::{Converted, MapSize, Picture, Settings, convert, redraw};
pub use refusal::Refusal;
pub use refused::{Cause, Refused};
pub use set::{Logical, Native, Place, Set, logical_number, native_number};
pub use sheet::{LONGEST_TEXT, Ran, Text, run, run_to_vec};
pub use strip::{Run, Strips};
pub use tile::{TileSize, flip_tile, flip_tile_to_vec, pack_tile, pack_tile_to_vec, unpack_tile, unpack_tile_to_vec};
pub use tile_set::{SetSettings, TileSet};
pub use title::{Held, Title};

/// The README's example is compiled and run as well.
#[cfg(doctest)]
#[doc = include_str!("../README.md")]
struct Readme;

#[cfg(test)]
mod tests {
    use super::*;

    fn is_shared_by_threads<T: Send + Sync>() {}

    #[test]
    fn every_type_is_shared_by_threads() {
        is_shared_by_threads::<(Mode, UnknownMode, Refusal, Refused, Cause, InterfaceMismatch)>();
        is_shared_by_threads::<(Rounding, Entry, TileSize, MapSize, Settings, Picture, Converted)>();
        is_shared_by_threads::<(Set, SetSettings, Place, Native, Logical, Ran, Text)>();
        is_shared_by_threads::<(TileSet<Vec<u8>>, TileSet<&mut [u8]>)>();
        is_shared_by_threads::<(Held, Title<Vec<u8>>, Title<&mut [u8]>)>();
        is_shared_by_threads::<(Run, Strips<Vec<u8>>, Strips<&mut [u8]>, Mode7Halves)>();
    }
}
