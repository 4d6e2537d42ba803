//! Tiles against the unchanged Rust.

use std::fmt;
use std::panic::{self, AssertUnwindSafe};
use std::thread;

use reading::{MODES, Random, Shape, native_shapes};
use rumchivoat::Refusal;
use superfamiconv::plain;

use super::common::{lengths_around_tiles, pack_tile, single_bits, unpack_tile, writes};
use super::refuses;

/// What the Rust says to a tile call.
#[derive(Debug, PartialEq)]
pub enum Said {
    Bytes(Vec<u8>),
    Err,
    Panic,
}

use Said::{Bytes, Panic};

impl fmt::Display for Said {
    fn fmt(&self, f: &mut fmt::Formatter<'_>) -> fmt::Result {
        match self {
            Bytes(bytes) => f.write_str(&tile_text(bytes)),
            Said::Err => f.write_str("Err"),
            Panic => f.write_str("panic"),
        }
    }
}

/// The bytes, with the zeros at their end counted: `55 33, 14 x 00`.
pub fn tile_text(bytes: &[u8]) -> String {
    let zeros = bytes.iter().rev().take_while(|&&byte| byte == 0).count();
    let start = super::hex(&bytes[..bytes.len() - zeros]);
    match (start.as_str(), zeros) {
        ("", 0) => "nothing".to_owned(),
        ("", _) => format!("{zeros} x 00"),
        (_, 0) => start,
        _ => format!("{start}, {zeros} x 00"),
    }
}

/// What a call of the Rust answers, or `Err` where it panics; the text of a panic is not shown.
pub fn quietly<T>(call: impl FnOnce() -> T) -> thread::Result<T> {
    let hook = panic::take_hook();
    panic::set_hook(Box::new(|_| ()));
    let answer = panic::catch_unwind(AssertUnwindSafe(call));
    panic::set_hook(hook);
    answer
}

/// What a call of the Rust says.
pub fn said(call: impl FnOnce() -> Result<Vec<u8>, String>) -> Said {
    match quietly(call) {
        Ok(Ok(bytes)) => Bytes(bytes),
        Ok(Err(_)) => Said::Err,
        Err(_) => Panic,
    }
}

pub fn rust_packs(shape: Shape, pixels: &[u8]) -> Said {
    let Shape { mode, depth, width, height } = shape;
    said(|| plain::pack_tile(plain::mode(mode), depth, width, height, pixels))
}

pub fn rust_unpacks(shape: Shape, bytes: &[u8]) -> Said {
    let Shape { mode, depth, width, height } = shape;
    said(|| plain::unpack_tile(plain::mode(mode), depth, width, height, bytes))
}

/// What the Rust packs, where it packs.
pub fn packed(shape: Shape, pixels: &[u8]) -> Vec<u8> {
    let Shape { mode, depth, width, height } = shape;
    plain::pack_tile(plain::mode(mode), depth, width, height, pixels).expect("the Rust packs a native tile")
}

/// What the Rust unpacks, where it unpacks.
fn unpacked(shape: Shape, bytes: &[u8]) -> Vec<u8> {
    let Shape { mode, depth, width, height } = shape;
    plain::unpack_tile(plain::mode(mode), depth, width, height, bytes).expect("the Rust unpacks a native tile")
}

/// The pixels that the Rust packs to these bytes: at depth 1 it panics in unpacking, and its packing is inverted.
fn unpacked_at_depth_1(shape: Shape, bytes: &[u8]) -> Vec<u8> {
    assert_eq!(rust_unpacks(shape, bytes), Panic, "{shape:?} {bytes:?}");
    let mut pixels = vec![0; shape.pixels()];
    assert_eq!(unpack_tile(shape, bytes, &mut pixels), Ok(pixels.len()), "{shape:?} {bytes:?}");
    assert!(pixels.iter().all(|&pixel| pixel < 2), "{shape:?} {bytes:?}");
    assert_eq!(packed(shape, &pixels), bytes, "{shape:?}");
    pixels
}

/// The pixels of a native tile, by the Rust.
pub fn native_pixels(shape: Shape, bytes: &[u8]) -> Vec<u8> {
    if shape.depth == 1 { unpacked_at_depth_1(shape, bytes) } else { unpacked(shape, bytes) }
}

fn same_packed(shape: Shape, pixels: &[u8], random: &mut Random) -> u64 {
    let case = || format!("pack_tile {shape:?} {pixels:?}");
    writes(case, &packed(shape, pixels), random, |out| pack_tile(shape, pixels, out))
}

fn same_unpacked(shape: Shape, bytes: &[u8], random: &mut Random) -> u64 {
    let case = || format!("unpack_tile {shape:?} {bytes:?}");
    writes(case, &native_pixels(shape, bytes), random, |out| unpack_tile(shape, bytes, out))
}

fn refuses_packing(shape: Shape, pixels: &[u8], refusal: Refusal, random: &mut Random) -> u64 {
    let case = || format!("pack_tile {shape:?} {pixels:?}");
    refuses(case, refusal, random, |out| pack_tile(shape, pixels, out))
}

fn refuses_unpacking(shape: Shape, bytes: &[u8], refusal: Refusal, random: &mut Random) -> u64 {
    let case = || format!("unpack_tile {shape:?} {bytes:?}");
    refuses(case, refusal, random, |out| unpack_tile(shape, bytes, out))
}

/// Each bit of each pixel, and each bit of each byte, of every native tile.
pub fn single_bit_tiles() -> u64 {
    let (mut count, mut random) = (0, Random::new(31));
    for shape in native_shapes() {
        for pixels in single_bits(shape.pixels(), shape.depth) {
            count += same_packed(shape, &pixels, &mut random);
        }
        for bytes in single_bits(shape.bytes(), 8) {
            count += same_unpacked(shape, &bytes, &mut random);
        }
    }
    count
}

pub fn random_tiles() -> u64 {
    let (mut count, mut random) = (0, Random::new(32));
    for shape in native_shapes() {
        for _ in 0..1000 {
            let pixels = random.pixels(shape.depth, shape.pixels());
            count += same_packed(shape, &pixels, &mut random);
            let bytes = random.bytes(shape.bytes());
            count += same_unpacked(shape, &bytes, &mut random);
        }
    }
    count
}

/// A pixel too large in every place of a tile: the port answers 8, the Rust packs the low bits.
pub fn pixels_too_large() -> u64 {
    let (mut count, mut random) = (0, Random::new(33));
    for shape in native_shapes().filter(|shape| shape.depth < 8) {
        let tile = random.pixels(shape.depth, shape.pixels());
        let least = 1 << shape.depth;
        for place in 0..shape.pixels() {
            for value in [least, 256 - least, 255, least + random.below(256 - least)] {
                let (mut pixels, mut low_bits) = (tile.clone(), tile.clone());
                pixels[place] = value as u8;
                low_bits[place] = (value % least) as u8;
                assert_eq!(packed(shape, &pixels), packed(shape, &low_bits), "{shape:?} {pixels:?}");
                count += refuses_packing(shape, &pixels, Refusal::Pixel, &mut random);
            }
        }
    }
    count
}

/// How the Rust takes a tile that is not of the required length or size.
enum Taking {
    /// A byte a pixel, whatever comes.
    AsTheyAre,
    /// Two pixels a byte, whatever comes.
    Nibbles,
    /// A byte for each eight pixels; unpacking looks for two bytes a row.
    OnePlane,
    /// A tile at least, in steps of so many pixels.
    Tile { step: usize },
    /// A sprite at least; unpacking asks for its length.
    Sprite,
}

use Taking::{AsTheyAre, Nibbles, OnePlane, Sprite, Tile};

pub fn name(shape: Shape) -> &'static str {
    MODES[shape.mode as usize].name
}

fn taking(shape: Shape) -> Taking {
    match (name(shape), shape.depth) {
        ("snes_mode7" | "gba_affine", _) | ("gba", 8) => AsTheyAre,
        ("gba" | "md" | "wsc_packed", _) => Nibbles,
        ("gb" | "gbc", 1) => OnePlane,
        ("ngp" | "ngpc", _) => Tile { step: 1 },
        ("sms" | "gg", _) | ("wsc", 4) => Tile { step: 4 },
        ("pce_sprite", _) => Sprite,
        _ => Tile { step: 8 },
    }
}

/// So many bytes of these pixels, packed tile by tile, the last one filled up with 0.
fn packed_tile_by_tile(shape: Shape, pixels: &[u8], length: usize) -> Vec<u8> {
    let tiles = pixels.chunks(shape.pixels()).map(|tile| {
        let mut tile = tile.to_vec();
        tile.resize(shape.pixels(), 0);
        packed(shape, &tile)
    });
    let mut bytes = tiles.collect::<Vec<_>>().concat();
    bytes.truncate(length);
    bytes
}

/// What the Rust says to any number of pixels.
pub fn packs_any_length(shape: Shape, pixels: &[u8]) -> Said {
    let (length, whole) = (pixels.len(), shape.pixels());
    match taking(shape) {
        AsTheyAre => Bytes(pixels.to_vec()),
        Nibbles => Bytes(packed_tile_by_tile(shape, pixels, length / 2)),
        OnePlane if length % 8 == 0 => Bytes(packed_tile_by_tile(shape, pixels, length / 8)),
        Tile { .. } if length == 0 => Bytes(vec![0; shape.bytes()]),
        Tile { step } if length >= whole && length % step == 0 => Bytes(packed(shape, &pixels[..whole])),
        Sprite if length >= whole => Bytes(packed(shape, &pixels[..whole])),
        OnePlane | Tile { .. } | Sprite => Panic,
    }
}

/// What the Rust says to a number of bytes that is not the tile's.
pub fn unpacks_any_length(shape: Shape, bytes: &[u8]) -> Said {
    let (length, whole) = (bytes.len(), shape.bytes());
    match taking(shape) {
        AsTheyAre => Bytes(bytes.to_vec()),
        Nibbles if length < whole => {
            let filled_up = [bytes, &vec![0; whole - length]].concat();
            Bytes(unpacked(shape, &filled_up))
        }
        OnePlane if length >= 15 => {
            let every_other: Vec<u8> = bytes.iter().copied().step_by(2).take(whole).collect();
            Bytes(unpacked_at_depth_1(shape, &every_other))
        }
        Tile { .. } if length > whole => Bytes(unpacked(shape, &bytes[..whole])),
        Nibbles | OnePlane | Tile { .. } => Panic,
        Sprite => Said::Err,
    }
}

/// The port answers 7 to every other length; the Rust takes it as `Taking` says.
pub fn tiles_of_every_length() -> u64 {
    let (mut count, mut random) = (0, Random::new(34));
    for shape in native_shapes() {
        for length in (0..=80).chain(lengths_around_tiles()) {
            let pixels = random.pixels(shape.depth, length);
            if length != shape.pixels() {
                assert_eq!(rust_packs(shape, &pixels), packs_any_length(shape, &pixels), "{shape:?} {pixels:?}");
                count += refuses_packing(shape, &pixels, Refusal::Length, &mut random);
            }
            let bytes = random.bytes(length);
            if length != shape.bytes() {
                assert_eq!(rust_unpacks(shape, &bytes), unpacks_any_length(shape, &bytes), "{shape:?} {bytes:?}");
                count += refuses_unpacking(shape, &bytes, Refusal::Length, &mut random);
            }
        }
    }
    count
}

/// Widths and heights around those of native tiles.
const SIDES: [u32; 13] = [0, 7, 8, 9, 15, 16, 17, 31, 32, 33, 63, 64, 65];

/// What the Rust says to a native tile's pixels with another width and height: it asks for them in planes, ngp, ngpc
/// and sprites alone.
fn packs_any_size(shape: Shape, pixels: &[u8]) -> Said {
    match taking(shape) {
        AsTheyAre | Nibbles => Bytes(packed(shape, pixels)),
        OnePlane | Tile { .. } | Sprite => Said::Err,
    }
}

/// What the Rust says to a native tile's bytes with so many pixels asked for: the tile, filled up with 0, and a panic
/// where it has no place.
fn unpacks_any_size(shape: Shape, bytes: &[u8], asked: usize) -> Said {
    match taking(shape) {
        AsTheyAre => Bytes(bytes.to_vec()),
        Nibbles | Tile { .. } if asked >= shape.pixels() => {
            let mut pixels = unpacked(shape, bytes);
            pixels.resize(asked, 0);
            Bytes(pixels)
        }
        Nibbles | Tile { .. } | OnePlane => Panic,
        Sprite => Said::Err,
    }
}

/// The port answers 4 to every size that is not native.
pub fn tiles_of_every_size() -> u64 {
    let (mut count, mut random) = (0, Random::new(35));
    let native: Vec<Shape> = native_shapes().collect();
    for &shape in &native {
        for (width, height) in SIDES.iter().flat_map(|&width| SIDES.map(|height| (width, height))) {
            let sized = Shape { width, height, ..shape };
            if native.contains(&sized) {
                continue;
            }
            let pixels = random.pixels(shape.depth, shape.pixels());
            assert_eq!(rust_packs(sized, &pixels), packs_any_size(shape, &pixels), "{sized:?} {pixels:?}");
            count += refuses_packing(sized, &pixels, Refusal::Size, &mut random);
            let bytes = random.bytes(shape.bytes());
            let expected = unpacks_any_size(shape, &bytes, sized.pixels());
            assert_eq!(rust_unpacks(sized, &bytes), expected, "{sized:?} {bytes:?}");
            count += refuses_unpacking(sized, &bytes, Refusal::Size, &mut random);
        }
    }
    count
}

/// Whether the Rust packs at a depth that the mode has not; elsewhere it panics.
pub fn packs_at(name: &str, depth: u32) -> bool {
    match name {
        "ws" | "wsc" | "sms" | "gg" => [2, 4].contains(&depth),
        "gba" | "gba_affine" | "md" | "wsc_packed" => [4, 8].contains(&depth),
        "ngp" | "ngpc" => false,
        _ => true,
    }
}

/// Whether the Rust unpacks at a depth that the mode has not; elsewhere it panics, or in ngp and ngpc gives `Err`.
pub fn unpacks_at(name: &str, depth: u32) -> bool {
    match name {
        "ws" | "wsc" | "sms" | "gg" => [2, 4].contains(&depth),
        "ngp" | "ngpc" => false,
        _ => true,
    }
}

/// Fails unless the Rust gave bytes, where it should, and this elsewhere.
pub fn assert_bytes_or(otherwise: Said, should: bool, said: Said, case: impl Fn() -> String) {
    match said {
        Bytes(_) => assert!(should, "{}", case()),
        said => assert_eq!((said, should), (otherwise, false), "{}", case()),
    }
}

/// The port answers 3 to every depth that the mode has not.
pub fn tiles_of_every_depth() -> u64 {
    let (mut count, mut random) = (0, Random::new(36));
    for shape in native_shapes() {
        let depths = MODES[shape.mode as usize].depths;
        for depth in (0..=8).filter(|depth| !depths.contains(depth)) {
            let deep = Shape { depth, ..shape };
            let pixels = random.pixels(1, shape.pixels());
            let case = || format!("the Rust's pack_tile {deep:?} {pixels:?}");
            assert_bytes_or(Panic, packs_at(name(shape), depth), rust_packs(deep, &pixels), case);
            count += refuses_packing(deep, &pixels, Refusal::Depth, &mut random);

            let bytes = random.bytes(enough_bytes(shape));
            let case = || format!("the Rust's unpack_tile {deep:?} {bytes:?}");
            let otherwise = if ["ngp", "ngpc"].contains(&name(shape)) { Said::Err } else { Panic };
            assert_bytes_or(otherwise, unpacks_at(name(shape), depth), rust_unpacks(deep, &bytes), case);
            count += refuses_unpacking(deep, &bytes, Refusal::Depth, &mut random);
        }
    }
    count
}

/// A number of bytes that the Rust takes at every depth at which it unpacks.
pub fn enough_bytes(shape: Shape) -> usize {
    match taking(shape) {
        AsTheyAre | Nibbles => 32,
        OnePlane | Tile { .. } => 64,
        Sprite => shape.bytes(),
    }
}
