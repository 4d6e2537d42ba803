//! Sets, and tiles that nearly match.

use reading::{MODES, Random, Shape};
use rumchivoat::{Place, Set};

use super::told;

/// The port's new set.
pub fn new_set(shape: Shape, flips: bool, discarding: bool, limit: u32) -> Result<Set, u32> {
    let Shape { mode, depth, width, height } = shape;
    told(Set::new(mode, depth, width, height, flips, discarding, limit))
}

/// The port's reading of a set.
pub fn read_set(shape: Shape, flips: bool, bytes: &[u8], store: &mut [u8]) -> Result<Set, u32> {
    let Shape { mode, depth, width, height } = shape;
    told(Set::read(mode, depth, width, height, flips, bytes, store))
}

/// Whether the tiles are pce_sprite's.
pub fn is_sprite(shape: Shape) -> bool {
    MODES[shape.mode as usize].name == "pce_sprite"
}

/// The tiles of a row of them in a set's bytes: at 8x8 and in pce_sprite one, else T = R/H, where "R = 16 cells a row for
/// snes and 1 for others".
pub fn tiles_a_row(shape: Shape) -> usize {
    let cells = if MODES[shape.mode as usize].name == "snes" { 16 } else { 1 };
    let native = is_sprite(shape) || (shape.width, shape.height) == (8, 8);
    if native { 1 } else { 8 * cells / shape.width as usize }
}

/// The bytes of what a set is read by: "whole cells", and of pce_sprite whole tiles.
pub fn part_bytes(shape: Shape) -> usize {
    if is_sprite(shape) { shape.bytes() } else { 8 * shape.depth as usize }
}

/// Every whole number of cells, or of sprites: up to three rows of tiles and one more, and to 49 at least.
pub fn whole_lengths(shape: Shape) -> impl Iterator<Item = usize> {
    let part = part_bytes(shape);
    let rows = 3 * tiles_a_row(shape) * shape.bytes() / part;
    (0..=rows.max(48) + 1).map(move |parts| parts * part)
}

/// A place's number and flips.
pub fn place_fields(place: Place) -> (u32, bool, bool) {
    (place.place.0, place.flip_h, place.flip_v)
}

/// Flips and discarding, on and off.
pub const SETTINGS: [(bool, bool); 4] = [(false, false), (false, true), (true, false), (true, true)];

/// So many tiles, most of them made of earlier ones: mirrored, made their own mirror image, one pixel off, or with bits
/// above the depth. Random tiles alone would never show which flip is tried first.
pub fn near_tiles(shape: Shape, count: usize, random: &mut Random) -> Vec<Vec<u8>> {
    let mut tiles = vec![random.pixels(shape.depth, shape.pixels())];
    while tiles.len() < count {
        let earlier = &tiles[random.below(tiles.len() as u32) as usize];
        tiles.push(near_tile(shape, earlier, random));
    }
    tiles
}

fn near_tile(shape: Shape, tile: &[u8], random: &mut Random) -> Vec<u8> {
    let mut image = reading::flipped(tile, shape.width, random.flag(), random.flag());
    match random.below(8) {
        0 => random.pixels(shape.depth, tile.len()),
        1 => vec![random.below(1 << shape.depth) as u8; tile.len()],
        // a flip undoes itself: the larger of both pixels stands at both places
        2 | 3 => image.iter().zip(tile).map(|(&one, &other)| one.max(other)).collect(),
        4 => image.iter().map(|&pixel| pixel | (random.byte() & !low_bits(shape.depth))).collect(),
        5 | 6 => {
            let place = one_place(tile.len(), random);
            image[place] ^= 1 << random.below(shape.depth);
            image
        }
        _ => image,
    }
}

fn low_bits(depth: u32) -> u8 {
    ((1u32 << depth) - 1) as u8
}

/// The first place, the last, or any.
fn one_place(length: usize, random: &mut Random) -> usize {
    match random.below(3) {
        0 => 0,
        1 => length - 1,
        _ => random.below(length as u32) as usize,
    }
}
