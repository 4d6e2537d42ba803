//! Native flips against the unchanged Rust, which flips pixels alone: its unpacking, its flip and its packing.

use reading::{MODES, Random, Shape};
use rumchivoat::{Mode, Refusal};
use superfamiconv::plain;

use super::common::{FLIPS, Flip, cells, flip_tile, lengths_around_tiles, single_bits, writes};
use super::refuses;
use super::tiles::Said::{self, Bytes, Panic};
use super::tiles::{
    assert_bytes_or, enough_bytes, name, native_pixels, packed, packs_any_length, packs_at, said, unpacks_any_length,
    unpacks_at,
};

pub fn rust_flips(shape: Shape, flip: Flip, bytes: &[u8]) -> Said {
    said(|| plain::flip_tile(plain::mode(shape.mode), shape.depth, flip.0, flip.1, bytes))
}

/// A native tile under a flip, by the Rust: its pixels are turned to the mirror that the Rust's own tile has under this
/// flip. At depth 1 the Rust panics in unpacking: there it packs the turned pixels.
fn rust_flipped(shape: Shape, flip: Flip, bytes: &[u8]) -> Vec<u8> {
    let pixels = native_pixels(shape, bytes);
    let turned = plain::flipped(&pixels, shape.width, flip.0, flip.1);
    assert_eq!(plain::matching_flip(&pixels, &turned), Some(flip), "{shape:?} {bytes:?}");
    let theirs = packed(shape, &turned);
    let due = if shape.depth == 1 { Panic } else { Bytes(theirs.clone()) };
    assert_eq!(rust_flips(shape, flip, bytes), due, "{shape:?} {flip:?} {bytes:?}");
    theirs
}

fn same_flipped(shape: Shape, bytes: &[u8], random: &mut Random) -> u64 {
    let mut count = 0;
    for flip in FLIPS {
        let case = || format!("flip_tile {shape:?} {flip:?} {bytes:?}");
        let theirs = rust_flipped(shape, flip, bytes);
        count += writes(case, &theirs, random, |out| flip_tile(shape, flip, bytes, out));
    }
    count
}

fn refuses_flipping(shape: Shape, flip: Flip, bytes: &[u8], refusal: Refusal, random: &mut Random) -> u64 {
    let case = || format!("flip_tile {shape:?} {flip:?} {bytes:?}");
    refuses(case, refusal, random, |out| flip_tile(shape, flip, bytes, out))
}

/// Each bit of each byte of every native tile of 8x8. One pixel alone is at another place under each flip.
pub fn single_bit_tiles() -> u64 {
    let (mut count, mut random) = (0, Random::new(91));
    for shape in cells() {
        for bytes in single_bits(shape.bytes(), 8) {
            count += same_flipped(shape, &bytes, &mut random);
        }
    }
    count
}

pub fn random_tiles() -> u64 {
    let (mut count, mut random) = (0, Random::new(92));
    for shape in cells() {
        for _ in 0..1000 {
            count += same_flipped(shape, &random.bytes(shape.bytes()), &mut random);
        }
    }
    count
}

/// What the Rust says to a number of bytes that is not the tile's: what it unpacks of them is flipped in rows of eight,
/// and packed.
fn flips_any_length(shape: Shape, flip: Flip, bytes: &[u8]) -> Said {
    match unpacks_any_length(shape, bytes) {
        Bytes(pixels) => packs_any_length(shape, &plain::flipped(&pixels, shape.width, flip.0, flip.1)),
        other => other,
    }
}

/// The port answers 7 to every other length.
pub fn tiles_of_every_length() -> u64 {
    let (mut count, mut random) = (0, Random::new(93));
    for shape in cells() {
        for length in (0..=80).chain(lengths_around_tiles()).filter(|&length| length != shape.bytes()) {
            let bytes = random.bytes(length);
            for flip in FLIPS {
                let expected = flips_any_length(shape, flip, &bytes);
                assert_eq!(rust_flips(shape, flip, &bytes), expected, "{shape:?} {flip:?} {bytes:?}");
                count += refuses_flipping(shape, flip, &bytes, Refusal::Length, &mut random);
            }
        }
    }
    count
}

/// The port answers 3 to every depth that the mode has not; the Rust flips where it both unpacks and packs.
pub fn tiles_of_every_depth() -> u64 {
    let (mut count, mut random) = (0, Random::new(94));
    for shape in cells() {
        let (name, depths) = (name(shape), MODES[shape.mode as usize].depths);
        for depth in (0..=8).filter(|depth| !depths.contains(depth)) {
            let deep = Shape { depth, ..shape };
            let bytes = random.bytes(enough_bytes(shape));
            for flip in FLIPS {
                let case = || format!("the Rust's flip of {deep:?} {flip:?} {bytes:?}");
                let should = unpacks_at(name, depth) && packs_at(name, depth);
                let otherwise = if ["ngp", "ngpc"].contains(&name) { Said::Err } else { Panic };
                assert_bytes_or(otherwise, should, rust_flips(deep, flip, &bytes), case);
                count += refuses_flipping(deep, flip, &bytes, Refusal::Depth, &mut random);
            }
        }
    }
    count
}

/// The port answers 2 in pce_sprite, whatever comes; the Rust unpacks no sprite of 8x8.
pub fn sprites() -> u64 {
    let (mut count, mut random) = (0, Random::new(95));
    for (depth, length) in (0..=8).flat_map(|depth| [0, 1, 31, 32, 33, 127, 128, 129, 1024].map(|n| (depth, n))) {
        let shape = Shape { mode: Mode::PceSprite.number(), depth, width: 8, height: 8 };
        let bytes = random.bytes(length);
        for flip in FLIPS {
            assert_eq!(rust_flips(shape, flip, &bytes), Said::Err, "{shape:?} {flip:?} {bytes:?}");
            count += refuses_flipping(shape, flip, &bytes, Refusal::PceSprite, &mut random);
        }
    }
    count
}
