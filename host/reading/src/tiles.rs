//! "Tile bytes".

use crate::{Answer, MODES, row, write};

/// What a call is told of its tile.
#[derive(Debug, Clone, Copy, PartialEq, Eq)]
pub struct Shape {
    /// The mode's number.
    pub mode: u32,
    /// The bits of a pixel.
    pub depth: u32,
    /// The pixels of a row.
    pub width: u32,
    /// The rows.
    pub height: u32,
}

impl Shape {
    /// The pixels of a tile.
    pub fn pixels(self) -> usize {
        (self.width * self.height) as usize
    }

    /// The bytes of a native tile: "depth x 8 bytes" for 8x8, and no bit unused in a sprite.
    pub fn bytes(self) -> usize {
        self.pixels() * self.depth as usize / 8
    }
}

/// "Pce_sprite: widths 16, 32, heights 16, 32, 64."
pub(crate) const SPRITE_SIZES: [(u32, u32); 6] = [(16, 16), (16, 32), (16, 64), (32, 16), (32, 32), (32, 64)];

/// "8x8 .. in every mode but pce_sprite."
fn native_sizes(name: &str) -> &'static [(u32, u32)] {
    match name {
        "pce_sprite" => &SPRITE_SIZES,
        _ => &[(8, 8)],
    }
}

/// Every mode and depth, at each size of a native tile.
pub fn native_shapes() -> impl Iterator<Item = Shape> {
    let rows = (0..).zip(&MODES);
    let depths = rows.flat_map(|(mode, row)| row.depths.iter().map(move |&depth| (mode, row, depth)));
    depths.flat_map(|(mode, row, depth)| {
        native_sizes(row.name).iter().map(move |&(width, height)| Shape { mode, depth, width, height })
    })
}

/// How a tile's bits stand in its bytes.
#[derive(Clone, Copy)]
enum Layout {
    /// "For each pair of planes .., for each row, low plane byte then high."
    PlanePairs,
    /// "Depth 1: one byte a row."
    OnePlane,
    /// "Each row is four bytes, planes 0 to 3."
    FourPlanes,
    /// "Two bytes a row. With px = 7 - x .."
    TwoBitFields,
    /// "First pixel of each two in the low nibble."
    LowNibbleFirst,
    /// "In the high nibble."
    HighNibbleFirst,
    /// "Pixels as they are."
    AsTheyAre,
    /// "Cells of 16x16, columns of cells left to right, each top to bottom."
    Cells,
}

use Layout::{AsTheyAre, Cells, FourPlanes, HighNibbleFirst, LowNibbleFirst, OnePlane, PlanePairs, TwoBitFields};

/// The layout of a mode and one of its depths.
#[rustfmt::skip]
fn layout(name: &str, depth: u32) -> Layout {
    match (name, depth) {
        ("gb" | "gbc", 1)                                       => OnePlane,
        ("snes" | "gb" | "gbc" | "pce", _) | ("ws" | "wsc", 2)  => PlanePairs,
        ("wsc", 4) | ("sms" | "gg", _)                          => FourPlanes,
        ("ngp" | "ngpc", _)                                     => TwoBitFields,
        ("gba", 4) | ("md", _)                                  => LowNibbleFirst,
        ("wsc_packed", _)                                       => HighNibbleFirst,
        ("snes_mode7", _) | ("gba", 8) | ("gba_affine", _)      => AsTheyAre,
        ("pce_sprite", _)                                       => Cells,
        _ => unreachable!("the sixteen names are above, each with its depths"),
    }
}

/// Where a plane's bit of the pixel in column x of row y stands: the byte, and the bit's place in it from the bottom.
fn place(layout: Layout, height: u32, x: u32, y: u32, plane: u32) -> (u32, u32) {
    let pixel = 8 * y + x;
    match layout {
        PlanePairs => (plane / 2 * 16 + y * 2 + plane % 2, 7 - x),
        OnePlane => (y, 7 - x),
        FourPlanes => (y * 4 + plane, 7 - x),
        TwoBitFields => {
            let px = 7 - x;
            (y * 2 + px / 4, 2 * (px % 4) + plane)
        }
        LowNibbleFirst => (pixel / 2, pixel % 2 * 4 + plane),
        HighNibbleFirst => (pixel / 2, (1 - pixel % 2) * 4 + plane),
        AsTheyAre => (pixel, plane),
        Cells => {
            let cell = x / 16 * (height / 16) + y / 16;
            (cell * 128 + plane * 32 + y % 16 * 2 + x % 16 / 8, x % 8)
        }
    }
}

/// A bit of a tile, on both sides.
struct Bit {
    pixel: usize,
    plane: usize,
    byte: usize,
    place: usize,
}

/// Every bit of every pixel of a native tile.
fn bits(name: &str, shape: Shape) -> impl Iterator<Item = Bit> {
    let Shape { depth, width, height, .. } = shape;
    let layout = layout(name, depth);
    let bit = move |x: u32, y: u32, plane: u32| {
        let (byte, place) = place(layout, height, x, y, plane);
        let [pixel, plane, byte, place] = [y * width + x, plane, byte, place].map(|number| number as usize);
        Bit { pixel, plane, byte, place }
    };
    (0..height)
        .flat_map(move |y| (0..width).map(move |x| (x, y)))
        .flat_map(move |(x, y)| (0..depth).map(move |plane| bit(x, y, plane)))
}

/// What each bit of a byte counts for, from the bottom.
const WEIGHTS: [u8; 8] = [1, 2, 4, 8, 16, 32, 64, 128];

fn bit_of(byte: u8, place: usize) -> u8 {
    byte / WEIGHTS[place] % 2
}

/// Refusals 1, 3 and 4: the name of a native tile's mode.
fn native_name(shape: Shape) -> Answer<&'static str> {
    let row = row(shape.mode)?;
    if !row.depths.contains(&shape.depth) {
        return Err(3);
    }
    if !native_sizes(row.name).contains(&(shape.width, shape.height)) {
        return Err(4);
    }
    Ok(row.name)
}

/// Refusals 1, 3, 4, 7, 8, 11.
pub fn pack_tile(shape: Shape, pixels: &[u8], out: &mut [u8]) -> Answer<usize> {
    let name = native_name(shape)?;
    if pixels.len() != shape.pixels() {
        return Err(7);
    }
    if pixels.iter().any(|&pixel| u32::from(pixel) >= 2u32.pow(shape.depth)) {
        return Err(8);
    }
    let mut bytes = vec![0; shape.bytes()];
    bits(name, shape).for_each(|bit| {
        bytes[bit.byte] += bit_of(pixels[bit.pixel], bit.plane) * WEIGHTS[bit.place];
    });
    write(&bytes, out)
}

/// Refusals 1, 3, 4, 7, 11.
pub fn unpack_tile(shape: Shape, bytes: &[u8], out: &mut [u8]) -> Answer<usize> {
    let name = native_name(shape)?;
    if bytes.len() != shape.bytes() {
        return Err(7);
    }
    let mut pixels = vec![0; shape.pixels()];
    bits(name, shape).for_each(|bit| {
        pixels[bit.pixel] += bit_of(bytes[bit.byte], bit.place) * WEIGHTS[bit.plane];
    });
    write(&pixels, out)
}

/// Where a place of eight goes: as far from the other end, where they are reversed.
fn turned(place: usize, reversed: bool) -> usize {
    if reversed { 7 - place } else { place }
}

/// Refusals 1, 2, 3, 7, 11, "in that order": "2 for pce_sprite", "7 for a length that is not one tile". "The native
/// flip equals unpack, flip, pack", where "h reverses each row, v the order of rows, hv both": each pixel goes by itself
/// from its column and row to those it has then.
pub fn flip_tile(mode: u32, depth: u32, flip_h: bool, flip_v: bool, bytes: &[u8], out: &mut [u8]) -> Answer<usize> {
    if row(mode)?.name == "pce_sprite" {
        return Err(2);
    }
    let shape = Shape { mode, depth, width: 8, height: 8 };
    let (mut pixels, mut flipped) = ([0; 64], [0; 64]);
    unpack_tile(shape, bytes, &mut pixels)?;
    for (x, y) in (0..8).flat_map(|x| (0..8).map(move |y| (x, y))) {
        let [from, to] = [(x, y), (turned(x, flip_h), turned(y, flip_v))].map(|(x, y)| 8 * y + x);
        flipped[to] = pixels[from];
    }
    pack_tile(shape, &flipped, out)
}
