//! "Pictures".

use crate::entries::{Entry, pack_entry, unpack_entry};
use crate::modes::Row;
use crate::sets::{Place, flipped, set_add, set_look_up, set_new};
use crate::tiles::{Shape, pack_tile, unpack_tile};
use crate::{Answer, row, write};

/// What a picture is converted by.
#[derive(Debug, Clone, Copy, PartialEq, Eq)]
pub struct Settings {
    /// The mode's number.
    pub mode: u32,
    /// The bits of a pixel.
    pub depth: u32,
    /// Whether flips are on.
    pub flip: bool,
    /// Whether discarding is on.
    pub discard: bool,
    /// The most tiles; 0 for no limit.
    pub limit: u32,
    /// The palette index of every entry.
    pub palette: u32,
    /// The tiles of a row.
    pub columns: u32,
    /// The rows of tiles.
    pub rows: u32,
}

/// What a conversion answers.
#[derive(Debug, Clone, Copy, PartialEq, Eq)]
pub struct Picture {
    /// The tiles stored.
    pub tiles: u32,
    /// The tiles discarded.
    pub discarded: u32,
    /// The bytes written to the tile buffer.
    pub tile_bytes: usize,
    /// The bytes written to the map.
    pub map_bytes: usize,
}

/// Refusals 1, 2, 3 and 4: the row of a picture's mode.
pub(crate) fn picture_row(mode: u32, depth: u32, columns: u32, rows: u32) -> Answer<&'static Row> {
    let row = row(mode)?;
    if row.name == "pce_sprite" {
        return Err(2);
    }
    if !row.depths.contains(&depth) {
        return Err(3);
    }
    let allowed = 1..=64;
    if !allowed.contains(&columns) || !allowed.contains(&rows) {
        return Err(4);
    }
    Ok(row)
}

/// A picture's tiles are native ones.
pub(crate) fn tile_shape(mode: u32, depth: u32) -> Shape {
    Shape { mode, depth, width: 8, height: 8 }
}

/// The places of a picture's pixels, tile after tile, "left to right, top to bottom": each tile's, row by row.
fn pixel_places(columns: u32, rows: u32) -> impl Iterator<Item = Vec<usize>> {
    let corners = (0..rows).flat_map(move |row| (0..columns).map(move |column| (8 * column, 8 * row)));
    corners.map(move |(left, top)| {
        let lines = (top..top + 8).flat_map(|y| (left..left + 8).map(move |x| (x, y)));
        lines.map(|(x, y)| (y * 8 * columns + x) as usize).collect()
    })
}

/// The tiles of a picture, "cut to the depth".
pub fn cut_tiles(depth: u32, columns: u32, rows: u32, pixels: &[u8]) -> Vec<Vec<u8>> {
    let cut = |place: usize| (u32::from(pixels[place]) % 2u32.pow(depth)) as u8;
    pixel_places(columns, rows).map(|places| places.into_iter().map(cut).collect()).collect()
}

/// "Need is the number of tiles .. that match no earlier tile of the picture under the allowed flips (with discarding
/// off, all)."
fn need(flip: bool, discard: bool, tiles: &[Vec<u8>]) -> usize {
    let flips: &[(bool, bool)] =
        if flip { &[(false, false), (true, false), (false, true), (true, true)] } else { &[(false, false)] };
    let is_new = |tile: &Vec<u8>, earlier: &[Vec<u8>]| {
        let images: Vec<Vec<u8>> = flips.iter().map(|&(h, v)| flipped(tile, 8, h, v)).collect();
        !earlier.iter().any(|other| images.contains(other))
    };
    tiles.iter().enumerate().filter(|(place, tile)| !discard || is_new(tile, &tiles[..*place])).count()
}

/// "Room is the least of the limit if not 0, 2^(tile bits), and whole tiles in the tile buffer."
pub(crate) fn room(row: &Row, settings: Settings, buffer: usize) -> usize {
    let limit = if settings.limit == 0 { usize::MAX } else { settings.limit as usize };
    let whole = buffer / tile_shape(settings.mode, settings.depth).bytes();
    [limit, 2usize.pow(row.tile_bits), whole].into_iter().min().expect("there are three")
}

pub(crate) fn entry_of(place: Place, palette: u32) -> Entry {
    let Place { place, flip_h, flip_v } = place;
    Entry { tile: place, palette, flip_h, flip_v, priority: false }
}

/// Refusals 1, 2, 3, 4, 5, 7, 16, 11, 12. "Tiles are taken .. as by adding to an empty set; each entry has the look-up's
/// place and flip, the given palette index, priority 0."
pub fn convert(settings: Settings, pixels: &[u8], tiles: &mut [u8], map: &mut [u8]) -> Answer<Picture> {
    let Settings { mode, depth, flip, discard, palette, columns, rows, .. } = settings;
    let row = picture_row(mode, depth, columns, rows)?;
    if flip && !row.flips {
        return Err(5);
    }
    let count = (columns * rows) as usize;
    if pixels.len() != 64 * count {
        return Err(7);
    }
    if u64::from(palette) >= 2u64.pow(row.palette_bits) {
        return Err(16);
    }
    if map.len() < count * row.entry_bytes {
        return Err(11);
    }
    let cut = cut_tiles(depth, columns, rows, pixels);
    if room(row, settings, tiles.len()) < need(flip, discard, &cut) {
        return Err(12);
    }

    let shape = tile_shape(mode, depth);
    let mut store = vec![0; 64 * count];
    let mut set = set_new(shape, flip, discard, 0)?;
    for tile in &cut {
        set = set_add(set, &mut store, tile)?;
    }
    for (tile, bytes) in store.chunks_exact(64).zip(tiles.chunks_exact_mut(shape.bytes())).take(set.stored as usize) {
        pack_tile(shape, tile, bytes)?;
    }
    for (tile, bytes) in cut.iter().zip(map.chunks_exact_mut(row.entry_bytes)) {
        let place = set_look_up(set, &store, tile)?.expect("each tile of the picture is in the set");
        pack_entry(mode, entry_of(place, palette), bytes)?;
    }
    Ok(Picture {
        tiles: set.stored,
        discarded: set.discarded,
        tile_bytes: set.stored as usize * shape.bytes(),
        map_bytes: count * row.entry_bytes,
    })
}

/// Refusals 1, 2, 3, 4, 7, 11. "Redrawing takes mode, depth, columns, rows, tile bytes in whole tiles and exactly the
/// map's bytes .. each entry draws its tile under its flip."
pub fn redraw(
    mode: u32,
    depth: u32,
    columns: u32,
    rows: u32,
    tiles: &[u8],
    map: &[u8],
    out: &mut [u8],
) -> Answer<usize> {
    let row = picture_row(mode, depth, columns, rows)?;
    let shape = tile_shape(mode, depth);
    let count = (columns * rows) as usize;
    if !tiles.len().is_multiple_of(shape.bytes()) || map.len() != count * row.entry_bytes {
        return Err(7);
    }
    let entries: Vec<Entry> =
        map.chunks_exact(row.entry_bytes).map(|bytes| unpack_entry(mode, bytes)).collect::<Answer<_>>()?;
    // "tile bytes that end before a tile the map names"
    if entries.iter().any(|entry| (entry.tile as usize + 1) * shape.bytes() > tiles.len()) {
        return Err(7);
    }
    let mut pixels = vec![0; 64 * count];
    for (entry, places) in entries.iter().zip(pixel_places(columns, rows)) {
        let start = entry.tile as usize * shape.bytes();
        let mut tile = [0; 64];
        unpack_tile(shape, &tiles[start..start + shape.bytes()], &mut tile)?;
        for (place, pixel) in places.into_iter().zip(flipped(&tile, 8, entry.flip_h, entry.flip_v)) {
            pixels[place] = pixel;
        }
    }
    write(&pixels, out)
}
