//! Pictures by the Rust: its `Image` sliced, its `Tileset` and its `Map`, and its `preview`.
//!
//! The Rust's set takes pixels as they are (`no_remap`), its map and its preview only colours. So each pixel is given a
//! colour of its own, which the mode's precision keeps apart from the others: found again in a palette of these colours,
//! it is the pixel.

use crate::color::{NormalizedColor, ReducedColor};
use crate::dither::Dither;
use crate::image::{self, Image};
use crate::map::Map;
use crate::mode::color::{ColorRounding, ModeColor};
use crate::palette::Palette;
use crate::plain::{self, Mode, Tileset};
use crate::quant::Method;

/// The Rust's palettes, with which a map is drawn.
pub type Palettes = Palette;

/// What a picture is converted by.
#[derive(Clone, Copy)]
pub struct Settings {
    /// The mode.
    pub mode: Mode,
    /// The bits of a pixel.
    pub depth: u32,
    /// Whether a tile matches its mirror images.
    pub flip: bool,
    /// Whether a tile that matches is not stored.
    pub discard: bool,
    /// The most tiles; 0 for no limit.
    pub limit: u32,
    /// The palette index of every entry.
    pub palette: u32,
    /// The tiles of a row.
    pub columns: u32,
    /// The rows of tiles.
    pub rows: u32,
}

/// A picture converted.
pub struct Converted {
    /// The set of its tiles.
    pub set: Tileset,
    /// Whether the set holds more tiles than its limit, as `is_full` says.
    pub is_full: bool,
    /// The map's bytes.
    pub map: Vec<u8>,
    /// How many places of the map `Map::add` left blank.
    pub blank: u32,
}

/// `Mode::max_tile_count`.
pub fn max_tile_count(mode: Mode) -> u32 {
    mode.max_tile_count()
}

/// A colour for each pixel, at the mode's precision: a number for each component in turn; the gray modes have grays.
fn reduced_colors(mode: Mode, depth: u32) -> Vec<ReducedColor> {
    let top = u32::from(u8::MAX >> mode.channel_shift());
    let color = |pixel: u32| match mode {
        Mode::Gb | Mode::Ngp | Mode::Ws => [pixel; 3],
        _ => [pixel % (top + 1), pixel / (top + 1) % (top + 1), pixel / (top + 1) / (top + 1)],
    };
    let [r, g, b] = [0, 1, 2].map(|component| move |pixel: u32| color(pixel)[component] as u8);
    (0..1 << depth).map(|pixel| ReducedColor::new(r(pixel), g(pixel), b(pixel), 255)).collect()
}

/// The same colours at full precision.
fn colors(mode: Mode, depth: u32) -> Vec<NormalizedColor> {
    let reduced = reduced_colors(mode, depth);
    let colors: Vec<NormalizedColor> = reduced.iter().map(|&color| mode.normalize_color(color)).collect();
    let again = colors.iter().map(|&color| mode.reduce_color(color, ColorRounding::Truncate));
    assert!(again.eq(reduced), "the mode's precision keeps each pixel's colour");
    colors
}

/// So many palettes of these colours.
fn palette(mode: Mode, depth: u32, count: usize) -> Palette {
    let mut palette = Palette::new(mode, count, 1 << depth, ColorRounding::Truncate);
    for _ in 0..count {
        palette.add_subpalette_with(&reduced_colors(mode, depth)).expect("there is room for the palette");
    }
    palette
}

/// A palette of these colours for each palette index of the mode.
pub fn palettes(mode: Mode, depth: u32) -> Palettes {
    palette(mode, depth, mode.default_palette_count() as usize)
}

/// An image of these pixels, which its colours show cut to the depth.
fn image(settings: Settings, pixels: &[u8]) -> Image {
    let Settings { mode, depth, columns, rows, .. } = settings;
    let colors = colors(mode, depth);
    let data: Vec<NormalizedColor> = pixels.iter().map(|&pixel| colors[usize::from(pixel) % colors.len()]).collect();
    Image { colors: image::colors_in(&data), data, ..plain::image(8 * columns, 8 * rows, pixels) }
}

/// A set of the picture's tiles, and a map that takes tiles below `most`.
pub fn convert(settings: Settings, most: u32, pixels: &[u8]) -> Converted {
    let Settings { mode, depth, flip, discard, limit, columns, rows, .. } = settings;
    let slices: Vec<Image> = image(settings, pixels).sliced(8, 8, mode).collect();
    let mut set = plain::tileset(mode, depth, 8, 8, flip, discard, limit);
    for slice in &slices {
        plain::add(&mut set, slice).expect("the image has pixels");
    }
    let (quant, dither, rounding) = (Method::Off, Dither::Off, ColorRounding::Truncate);
    let mut map = Map::new(mode, columns, rows, 8, 8, most, quant, dither, rounding);
    let palette = palette(mode, depth, 1);
    let mut blank = 0;
    for (place, slice) in (0..).zip(&slices) {
        let (x, y) = (place % columns, place / columns);
        let taken = map.add(slice, &set, &palette, depth, x, y).expect("the palette has every colour of the tile");
        blank += u32::from(!taken);
    }
    map.add_palette_base_offset(settings.palette as i32);
    Converted { is_full: set.is_full(), set, map: map.to_native_data(0, 0, false), blank }
}

/// `Map::from_native_data` and `Map::preview`, over a set: the pixels.
pub fn redraw(set: &Tileset, settings: Settings, map: &[u8]) -> Result<Vec<u8>, String> {
    let Settings { mode, depth, columns, rows, .. } = settings;
    let map = Map::from_native_data(map, mode, columns, rows, 8, 8, 0, 0, false)?;
    let drawn = map.preview(set, &palettes(mode, depth))?;
    let colors = colors(mode, depth);
    let pixel = |color| colors.iter().position(|&other| other == color).expect("each colour is a pixel's") as u8;
    Ok(drawn.data.into_iter().map(pixel).collect())
}

/// `Map::get_snes_mode7_interleaved_data`, of a map of these bytes over a set of these tile bytes: a byte of the map and a
/// byte of the tiles by turns, as many of each as the longer has.
pub fn mode7_interleaved(columns: u32, rows: u32, tiles: &[u8], map: &[u8]) -> Result<Vec<u8>, String> {
    let set = plain::from_native_data(Mode::SnesMode7, 8, 8, 8, false, tiles)?;
    let map = Map::from_native_data(map, Mode::SnesMode7, columns, rows, 8, 8, 0, 0, false)?;
    map.get_snes_mode7_interleaved_data(&set)
}

/// The pixels of each tile as an image, without colours.
fn tile_images(settings: Settings, pixels: &[u8]) -> Vec<Image> {
    let line = 8 * settings.columns as usize;
    let corners = (0..pixels.len()).step_by(8 * line).flat_map(|row| (0..line).step_by(8).map(move |x| row + x));
    let tile = |corner: usize| (0..8).flat_map(move |y| &pixels[corner + y * line..][..8]).copied();
    corners.map(|corner| plain::image(8, 8, &tile(corner).collect::<Vec<u8>>())).collect()
}

/// What the Rust does for a picture, without its colours: each tile added to its set, then looked up as `Map::add` does,
/// the set's bytes and the entries' bytes. This is what the port's conversion does as well.
pub fn convert_pixels(settings: Settings, pixels: &[u8]) -> (Vec<u8>, Vec<u8>) {
    let Settings { mode, depth, flip, discard, limit, palette, .. } = settings;
    let tiles = tile_images(settings, pixels);
    let mut set = plain::tileset(mode, depth, 8, 8, flip, discard, limit);
    for tile in &tiles {
        plain::add(&mut set, tile).expect("the image has pixels");
    }
    let entry = |tile| {
        let (place, flip_h, flip_v) = plain::look_up(&set, mode, depth, tile).expect("the tile is in the set");
        plain::entry(place, palette, flip_h, flip_v, false)
    };
    let map = tiles.iter().flat_map(|tile| plain::pack_mapentry(mode, entry(tile))).collect();
    (plain::to_native_data(&set).expect("the Rust writes 8x8 tiles"), map)
}

/// What the Rust does to redraw: the set and the map read, and the preview, in colours. Answers the number of pixels.
pub fn redraw_colors(settings: Settings, palettes: &Palettes, tiles: &[u8], map: &[u8]) -> usize {
    let Settings { mode, depth, columns, rows, .. } = settings;
    let set = plain::from_native_data(mode, depth, 8, 8, true, tiles).expect("the tiles are whole");
    let map = Map::from_native_data(map, mode, columns, rows, 8, 8, 0, 0, false).expect("the map is whole");
    map.preview(&set, palettes).expect("the set has every tile of the map").data.len()
}
