//! "Mode 7 image as the console holds it."
//!
//! Map and tiles are first what the document calls them, rows of places and tiles of pixels; a block is read off them
//! byte by byte. It is split by sorting the places of its bytes into even ones and odd ones.

use crate::{Answer, write};

/// "16,384 pairs", and the most bytes "on either side".
const PAIRS: usize = 16_384;

/// "A 128 by 128 map": the places of a row, and the rows.
const SIDE: usize = 128;

/// "The 256 tiles of 64 pixels."
const TILES: usize = 256;
const PIXELS: usize = 64;

/// So many parts of so many bytes each, one after the other, from bytes "that may be shorter, filling with 0".
fn parts(bytes: &[u8], count: usize, length: usize) -> Vec<Vec<u8>> {
    let filled = bytes.iter().copied().chain(std::iter::repeat(0)).take(count * length).collect::<Vec<u8>>();
    filled.chunks(length).map(<[u8]>::to_vec).collect()
}

/// Refusals 7, 11: "7 for more than 16,384 bytes on either side". "In each pair the even byte from a 128 by 128 map, the
/// odd byte from the 256 tiles of 64 pixels."
pub fn mode7_make(tiles: &[u8], map: &[u8], out: &mut [u8]) -> Answer<usize> {
    if [tiles, map].iter().any(|side| side.len() > PAIRS) {
        return Err(7);
    }
    let (tiles, map) = (parts(tiles, TILES, PIXELS), parts(map, SIDE, SIDE));
    let byte = |place: usize| match (place / 2, place % 2) {
        (pair, 0) => map[pair / SIDE][pair % SIDE],
        (pair, _) => tiles[pair / PIXELS][pair % PIXELS],
    };
    write(&(0..2 * PAIRS).map(byte).collect::<Vec<u8>>(), out)
}

/// Refusals 7, 11: 7 for "a block of another length", "11 for short outputs". "Split a block into its two halves."
pub fn mode7_split(block: &[u8], tiles: &mut [u8], map: &mut [u8]) -> Answer<usize> {
    if block.len() != 2 * PAIRS {
        return Err(7);
    }
    if [&tiles, &map].iter().any(|half| half.len() < PAIRS) {
        return Err(11);
    }
    let (even, odd): (Vec<usize>, Vec<usize>) = (0..block.len()).partition(|place| place % 2 == 0);
    let bytes = |places: Vec<usize>| places.into_iter().map(|place| block[place]).collect::<Vec<u8>>();
    write(&bytes(even), map)?;
    write(&bytes(odd), tiles)
}
