//! The Rust's calls, with modes by number and colours, entries and tiles made of plain numbers.

use std::collections::BTreeSet;

use crate::color::{NormalizedColor, Rgba8888};
use crate::dither::Dither;
use crate::mode::color::{ColorRounding, ModeColor};
use crate::mode::map::ModeMap;
use crate::mode::tile::ModeTile;
use crate::quant::Method;
use crate::{tile, tileset};

/// The Rust's mode.
pub type Mode = crate::mode::Mode;

/// The Rust's colour at a mode's own precision.
pub type Color = crate::color::ReducedColor;

/// The Rust's map entry.
pub type Entry = crate::map::Mapentry;

/// The Rust's tile.
pub type Tile = tile::Tile;

/// The Rust's tile set.
pub type Tileset = tileset::Tileset;

/// The Rust's image, of which a set's tile is made.
pub type Image = crate::image::Image;

/// The mode of a number, in document 01's order, which is the order of the Rust's variants.
pub fn mode(number: u32) -> Mode {
    use crate::mode::Mode::*;
    [Snes, SnesMode7, Gb, Gbc, Gba, GbaAffine, Md, Sms, Gg, Pce, PceSprite, Ngp, Ngpc, Ws, Wsc, WscPacked]
        [number as usize]
}

/// The name that the Rust shows for a mode.
pub fn name(mode: Mode) -> String {
    mode.to_string()
}

/// Colours of four bytes each: r, g, b, a.
pub fn colors(bytes: &[u8]) -> Vec<Color> {
    bytes.chunks_exact(4).map(|c| crate::color::ReducedColor(Rgba8888::from_bytes([c[0], c[1], c[2], c[3]]))).collect()
}

/// The four bytes of each colour.
pub fn rgba(colors: &[Color]) -> Vec<u8> {
    colors.iter().flat_map(|color| color.to_bytes()).collect()
}

/// An entry of these fields.
pub fn entry(tile: u32, palette: u32, flip_h: bool, flip_v: bool, priority: bool) -> Entry {
    Entry { tile_index: tile, palette_index: palette, flip_h, flip_v, priority }
}

/// The fields of an entry: tile, palette, flip h, flip v, priority.
pub fn fields(entry: Entry) -> (u32, u32, bool, bool, bool) {
    (entry.tile_index, entry.palette_index, entry.flip_h, entry.flip_v, entry.priority)
}

/// `ModeTile::pack_tile`.
#[inline]
pub fn pack_tile(mode: Mode, depth: u32, width: u32, height: u32, pixels: &[u8]) -> Result<Vec<u8>, String> {
    ModeTile::pack_tile(&mode, pixels, depth, width, height)
}

/// `ModeTile::unpack_tile`.
#[inline]
pub fn unpack_tile(mode: Mode, depth: u32, width: u32, height: u32, bytes: &[u8]) -> Result<Vec<u8>, String> {
    ModeTile::unpack_tile(&mode, bytes, depth, width, height)
}

/// The Rust's `tile.rs` compiled once more, as it is, beside a function that hands out what it keeps private.
#[allow(warnings, clippy::all, clippy::pedantic)]
mod open_tile {
    include!(concat!(env!("OUT_DIR"), "/rust/open_tile.rs"));

    pub fn v(source: &[u8], width: u32) -> Vec<u8> {
        flipped_v(source, width)
    }
}

/// A tile's pixels under a flip, as `Tile::with_mirrors` makes them: `flipped_h`, which is public, the private
/// `flipped_v`, and for both h of v.
#[inline]
pub fn flipped(pixels: &[u8], width: u32, flip_h: bool, flip_v: bool) -> Vec<u8> {
    match (flip_h, flip_v) {
        (false, false) => pixels.to_vec(),
        (true, false) => tile::flipped_h(pixels, width),
        (false, true) => open_tile::v(pixels, width),
        (true, true) => tile::flipped_h(&open_tile::v(pixels, width), width),
    }
}

/// What the Rust has in the place of a native flip: `ModeTile::unpack_tile` of 8x8, the flip of the pixels, and
/// `ModeTile::pack_tile`.
#[inline]
pub fn flip_tile(mode: Mode, depth: u32, flip_h: bool, flip_v: bool, bytes: &[u8]) -> Result<Vec<u8>, String> {
    let pixels = unpack_tile(mode, depth, 8, 8, bytes)?;
    pack_tile(mode, depth, 8, 8, &flipped(&pixels, 8, flip_h, flip_v))
}

/// Which of an 8x8 tile's mirrors these pixels are: flip h and flip v, by `Tile::matching_flip`. Mirrors are made alike
/// in every mode and depth.
pub fn matching_flip(pixels: &[u8], turned: &[u8]) -> Option<(bool, bool)> {
    let tile = Tile::with_mirrors(Mode::Snes, 8, 8, 8, pixels.to_vec(), Vec::new(), false);
    tile.matching_flip(turned).map(|flip| (flip.h, flip.v))
}

/// `ModeColor::pack_colors`.
#[inline]
pub fn pack_colors(mode: Mode, colors: &[Color]) -> Result<Vec<u8>, String> {
    ModeColor::pack_colors(&mode, colors)
}

/// `ModeColor::unpack_colors`.
#[inline]
pub fn unpack_colors(mode: Mode, bytes: &[u8]) -> Result<Vec<Color>, String> {
    ModeColor::unpack_colors(&mode, bytes)
}

/// The Rust's private `reduce_channel`, through the red of `reduce_color`. The gray modes reduce a colour's luma, so
/// there the colour is one whose luma is `value`.
pub fn reduce_channel(mode: Mode, value: u8, nearest: bool) -> u8 {
    let color = match mode {
        Mode::Gb | Mode::Ngp | Mode::Ws => of_luma(value),
        _ => NormalizedColor::new(value, value, value, 255),
    };
    mode.reduce_color(color, ColorRounding::from(nearest)).r
}

/// A colour of this luma: the gray of this value, or that gray with a little more red where the Rust's floating point
/// gives the gray one less.
fn of_luma(value: u8) -> NormalizedColor {
    let reds = value..=value.saturating_add(1);
    reds.map(|red| NormalizedColor::new(red, value, value, 255))
        .find(|color| color.luma_u8() == value)
        .expect("every value is the luma of a colour")
}

/// What the Rust's `reduce_color` makes of the gray of this value: in the gray modes the gray's luma is reduced, which
/// for 22 of the 256 grays is one less than the value.
pub fn reduce_gray(mode: Mode, value: u8, nearest: bool) -> u8 {
    let gray = NormalizedColor::new(value, value, value, 255);
    mode.reduce_color(gray, ColorRounding::from(nearest)).r
}

/// The Rust's private `scale_up`, through the red of `normalize_color`.
pub fn scale_up(mode: Mode, component: u8) -> u8 {
    mode.normalize_color(Color::new(component, component, component, 0)).r
}

/// `ModeMap::mapentry_size`.
pub fn mapentry_size(mode: Mode) -> usize {
    ModeMap::mapentry_size(&mode)
}

/// `ModeMap::pack_mapentry`.
#[inline]
pub fn pack_mapentry(mode: Mode, entry: Entry) -> Vec<u8> {
    ModeMap::pack_mapentry(&mode, entry)
}

/// `ModeMap::unpack_mapentry`.
#[inline]
pub fn unpack_mapentry(mode: Mode, bytes: &[u8]) -> Entry {
    ModeMap::unpack_mapentry(&mode, bytes)
}

/// `ModeMap::get_tile_index`.
pub fn get_tile_index(mode: Mode, entry: Entry) -> Vec<u8> {
    ModeMap::get_tile_index(&mode, entry)
}

/// `ModeMap::get_attribute`.
pub fn get_attribute(mode: Mode, entry: Entry) -> u8 {
    ModeMap::get_attribute(&mode, entry)
}

/// An image of so many pixels a row, which are the tile's.
pub fn image(width: u32, height: u32, pixels: &[u8]) -> Image {
    Image {
        width,
        height,
        src_x: 0,
        src_y: 0,
        data: Vec::new(),
        indexed_data: pixels.to_vec(),
        palette: Vec::new(),
        colors: BTreeSet::new(),
    }
}

/// `Tileset::new`, of tiles that are taken as they are.
pub fn tileset(mode: Mode, depth: u32, width: u32, height: u32, flips: bool, discarding: bool, limit: u32) -> Tileset {
    let (no_discard, no_flip, no_remap) = (!discarding, !flips, true);
    let (quant, dither, rounding) = (Method::Off, Dither::Off, ColorRounding::Truncate);
    Tileset::new(mode, depth, width, height, no_discard, no_flip, no_remap, quant, dither, rounding, limit)
}

/// `Tileset::add`.
#[inline]
pub fn add(set: &mut Tileset, tile: &Image) -> Result<(), String> {
    set.add(tile, None)
}

/// `Tileset::index_of` and `Tile::matching_flip`, as the Rust's `Map::add` has them: the place, flip h and flip v.
#[inline]
pub fn look_up(set: &Tileset, mode: Mode, depth: u32, tile: &Image) -> Option<(u32, bool, bool)> {
    let tile = Tile::from_image(tile, mode, depth, true).expect("the image has pixels");
    let place = set.index_of(&tile)?;
    let flip = set.tiles()[place].matching_flip(tile.data()).expect("the tile at this place matches");
    Some((place as u32, flip.h, flip.v))
}

/// How many tiles a set has stored and discarded.
pub fn counts(set: &Tileset) -> (u32, u32) {
    (set.size() as u32, set.discarded_tiles)
}

/// The set with another count of discarded tiles.
pub fn with_discarded(mut set: Tileset, discarded: u32) -> Tileset {
    set.discarded_tiles = discarded;
    set
}

/// The pixels of a set's tiles, one tile after the other.
pub fn tile_pixels(set: &Tileset) -> Vec<u8> {
    set.tiles().iter().flat_map(|tile| tile.data()).copied().collect()
}

/// The pixels of a set's last tile.
pub fn last_tile(set: &Tileset) -> Vec<u8> {
    set.tiles().last().expect("the set has a tile").data().to_vec()
}

/// `Tileset::to_native_data`.
pub fn to_native_data(set: &Tileset) -> Result<Vec<u8>, String> {
    set.to_native_data()
}

/// `Tileset::from_native_data`.
pub fn from_native_data(
    mode: Mode,
    depth: u32,
    width: u32,
    height: u32,
    flips: bool,
    bytes: &[u8],
) -> Result<Tileset, String> {
    Tileset::from_native_data(bytes, mode, depth, width, height, !flips)
}

/// `Tile::from_native` for each tile of these bytes, as `Tileset::from_native_data` reads tiles of 8x8. It reads no
/// sprites.
pub fn tiles_from_native(
    mode: Mode,
    depth: u32,
    width: u32,
    height: u32,
    flips: bool,
    bytes: &[u8],
) -> Result<Vec<Tile>, String> {
    let tiles = bytes.chunks_exact((width * height * depth / 8) as usize);
    tiles.map(|tile| Tile::from_native(tile, mode, depth, !flips, width, height)).collect()
}

/// `native_tile_index`.
pub fn native_tile_index(mode: Mode, width: u32, height: u32, tile: u32) -> u32 {
    tileset::native_tile_index(tile, mode, width, height)
}

/// `logical_tile_index`.
pub fn logical_tile_index(mode: Mode, width: u32, height: u32, cell: u32) -> u32 {
    tileset::logical_tile_index(cell, mode, width, height)
}
