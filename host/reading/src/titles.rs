//! "Two titles, one common tile store."
//!
//! A title's tiles are made one list, the common ones and then its own, and each is held against the given tile pixel by
//! pixel, at the place that a flip brings it to.

use crate::sets::{held_row, set_add};
use crate::{Answer, Place, Set, Shape};

/// What a look-up finds: "the tile's pixels are handed back as a part of whichever of the two lent stores holds it".
#[derive(Debug, Clone, Copy, PartialEq, Eq)]
pub struct Held {
    /// The tile's place in the title, with its flip.
    pub place: Place,
    /// Whether the common store holds it.
    pub common: bool,
    /// Where the part begins.
    pub at: usize,
    /// How long it is.
    pub len: usize,
}

/// The most tiles of a title: "common count plus own count may not pass 65,535".
const MOST: u64 = 65_535;

fn both_counts(set: Set, common_count: u32) -> u64 {
    u64::from(common_count) + u64::from(set.stored)
}

/// Refusals 1, 3, 4, 6 and 7: "6 also when the common count exceeds its store or the counts pass 65,535".
fn check(set: Set, common_count: u32, common: &[u8], store: &[u8], pixels: &[u8]) -> Answer<()> {
    held_row(set, store)?;
    let area = set.shape.pixels();
    if u64::from(common_count) * area as u64 > common.len() as u64 || both_counts(set, common_count) > MOST {
        return Err(6);
    }
    if pixels.len() == area { Ok(()) } else { Err(7) }
}

/// The tiles, "the common store first, then the title's own": which store, where in it, and the pixels.
fn tiles<'a>(set: Set, common_count: u32, common: &'a [u8], store: &'a [u8]) -> Vec<(bool, usize, &'a [u8])> {
    let area = set.shape.pixels();
    let part = |is_common, store: &'a [u8], tile: u32| {
        let at = tile as usize * area;
        (is_common, at, &store[at..at + area])
    };
    let shared = (0..common_count).map(|tile| part(true, common, tile));
    shared.chain((0..set.stored).map(|tile| part(false, store, tile))).collect()
}

/// Whether a tile, flipped, is the given one with each pixel cut to its low depth bits.
fn is_image(shape: Shape, tile: &[u8], (flip_h, flip_v): (bool, bool), pixels: &[u8]) -> bool {
    let (width, height) = (shape.width as usize, shape.height as usize);
    pixels.iter().enumerate().all(|(place, &pixel)| {
        let (x, y) = (place % width, place / width);
        let (x, y) = (if flip_h { width - 1 - x } else { x }, if flip_v { height - 1 - y } else { y });
        u32::from(tile[y * width + x]) == u32::from(pixel) % 2u32.pow(shape.depth)
    })
}

fn find(set: Set, common_count: u32, common: &[u8], store: &[u8], pixels: &[u8]) -> Option<Held> {
    let flips: &[(bool, bool)] = match set.flips {
        true => &[(false, false), (true, false), (false, true), (true, true)],
        false => &[(false, false)],
    };
    (0..).zip(tiles(set, common_count, common, store)).find_map(|(place, (common, at, tile))| {
        let &(flip_h, flip_v) = flips.iter().find(|&&flip| is_image(set.shape, tile, flip, pixels))?;
        Some(Held { place: Place { place, flip_h, flip_v }, common, at, len: tile.len() })
    })
}

/// Refusals 1, 3, 4, 6, 7.
pub fn title_look_up(set: Set, common_count: u32, common: &[u8], store: &[u8], pixels: &[u8]) -> Answer<Option<Held>> {
    check(set, common_count, common, store, pixels)?;
    Ok(find(set, common_count, common, store, pixels))
}

/// Refusals 1, 3, 4, 6, 7, 12, 13: "12 also when one more tile would pass it". "With discarding on a common match counts
/// as discarded; with it off every added tile is stored", which is the own set's business.
pub fn title_add(set: Set, common_count: u32, common: &[u8], store: &mut [u8], pixels: &[u8]) -> Answer<Set> {
    check(set, common_count, common, store, pixels)?;
    if set.discarding && find(set, common_count, common, store, pixels).is_some() {
        return Ok(Set { discarded: set.discarded.checked_add(1).ok_or(13u32)?, ..set });
    }
    if both_counts(set, common_count) == MOST {
        return Err(12);
    }
    let stored = set_add(Set { discarding: false, ..set }, store, pixels)?;
    Ok(Set { discarding: set.discarding, ..stored })
}
