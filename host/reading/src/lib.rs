//! Document 01, with what document 02 changes of it, read once more, in plain Rust.
//!
//! Nothing here is taken from the port or from the Rust: each definition follows a sentence of the documents, by sums,
//! quotients and lists of bits rather than by masks and shifts, so that a slip of one is not repeated in another. Every
//! call answers as the station's calls do: a refusal is the documents' number, and lent bytes change only on success.

mod channel;
mod colors;
mod entries;
mod mode7;
mod modes;
mod pictures;
mod random;
mod sets;
mod sheets;
mod strips;
mod tiles;
mod titles;

pub use channel::{reduce_channel, scale_up};
pub use colors::{pack_colors, packed_length, unpack_colors, unpacked_count};
pub use entries::{Entry, attribute, pack_entry, tile_index, unpack_entry};
pub use mode7::{mode7_make, mode7_split};
pub use modes::{MODES, Row, row};
pub use pictures::{Picture, Settings, convert, cut_tiles, redraw};
pub use random::Random;
pub use sets::{
    Place, Set, flipped, logical_number, native_number, set_add, set_look_up, set_new, set_read, set_reset, set_shapes,
    set_sizes, set_write,
};
pub use sheets::{KEYS, Text, run};
pub use strips::{Run, strip_end, strip_start, strip_take};
pub use tiles::{Shape, flip_tile, native_shapes, pack_tile, unpack_tile};
pub use titles::{Held, title_add, title_look_up};

/// A value, or the number of a refusal.
pub type Answer<T> = Result<T, u32>;

/// Refusal 11 where the buffer is shorter than the bytes to be written; else these bytes at its start.
fn write(bytes: &[u8], out: &mut [u8]) -> Answer<usize> {
    if out.len() < bytes.len() {
        return Err(11);
    }
    out[..bytes.len()].copy_from_slice(bytes);
    Ok(bytes.len())
}
