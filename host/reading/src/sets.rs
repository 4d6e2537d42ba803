//! "Sets and whole tiles".
//!
//! Whole tiles are laid out on a sheet of R x 8 pixels a row, row of tiles after row of tiles, and the sheet is cut into
//! cells: document 01's two formulas say where a cell then stands, and are written by themselves below.

use crate::modes::Row;
use crate::tiles::{SPRITE_SIZES, Shape, pack_tile, unpack_tile};
use crate::{Answer, MODES, row, write};

/// A set's settings and state.
#[derive(Debug, Clone, Copy, PartialEq, Eq)]
pub struct Set {
    /// Mode, depth, width and height of its tiles.
    pub shape: Shape,
    /// Whether a tile matches its mirror images.
    pub flips: bool,
    /// Whether a tile that matches is not stored.
    pub discarding: bool,
    /// The most tiles; 0 for no limit.
    pub limit: u32,
    /// The tiles stored.
    pub stored: u32,
    /// The tiles discarded.
    pub discarded: u32,
}

/// "A place with its flip."
#[derive(Debug, Clone, Copy, PartialEq, Eq)]
pub struct Place {
    /// The tile's place among the stored ones.
    pub place: u32,
    /// Each row reversed.
    pub flip_h: bool,
    /// The order of rows reversed.
    pub flip_v: bool,
}

const SIDES: [u32; 4] = [8, 16, 32, 64];

/// "Snes tiles: width and height each 8, 16, 32 or 64. Pce_sprite: its six sizes. Others: width 8, height 8, 16, 32 or
/// 64."
pub fn set_sizes(name: &str) -> Vec<(u32, u32)> {
    let widths: &[u32] = match name {
        "pce_sprite" => return SPRITE_SIZES.to_vec(),
        "snes" => &SIDES,
        _ => &[8],
    };
    widths.iter().flat_map(|&width| SIDES.map(|height| (width, height))).collect()
}

/// Every mode and depth, at each size of a set's tiles.
pub fn set_shapes() -> impl Iterator<Item = Shape> {
    let rows = (0..).zip(&MODES);
    let depths = rows.flat_map(|(mode, row)| row.depths.iter().map(move |&depth| (mode, row, depth)));
    depths.flat_map(|(mode, row, depth)| {
        set_sizes(row.name).into_iter().map(move |(width, height)| Shape { mode, depth, width, height })
    })
}

/// Refusal 4: "tile size not allowed".
fn check_size(row: &Row, width: u32, height: u32) -> Answer<()> {
    if set_sizes(row.name).contains(&(width, height)) { Ok(()) } else { Err(4) }
}

/// Refusals 1, 3 and 4.
fn set_row(shape: Shape) -> Answer<&'static Row> {
    let row = row(shape.mode)?;
    if !row.depths.contains(&shape.depth) {
        return Err(3);
    }
    check_size(row, shape.width, shape.height)?;
    Ok(row)
}

/// "Room is the least of 65,535, the store's whole tiles, and the limit if not 0."
fn room(set: Set, store: &[u8]) -> usize {
    let limit = if set.limit == 0 { usize::MAX } else { set.limit as usize };
    [65_535, store.len() / set.shape.pixels(), limit].into_iter().min().expect("there are three")
}

/// Refusals 1, 3, 4 and 6: "set state counts more tiles than its room".
pub(crate) fn held_row(set: Set, store: &[u8]) -> Answer<&'static Row> {
    let row = set_row(set.shape)?;
    if set.stored as usize > room(set, store) { Err(6) } else { Ok(row) }
}

/// Refusals 1, 3, 4. "New and reset sets have counts 0."
pub fn set_new(shape: Shape, flips: bool, discarding: bool, limit: u32) -> Answer<Set> {
    set_row(shape)?;
    Ok(Set { shape, flips, discarding, limit, stored: 0, discarded: 0 })
}

/// Refusals 1, 3, 4.
pub fn set_reset(set: Set) -> Answer<Set> {
    set_new(set.shape, set.flips, set.discarding, set.limit)
}

/// Refusals 1, 3, 4, 6, 7: the given pixels, cut "to their low depth bits".
fn given_tile(set: Set, store: &[u8], pixels: &[u8]) -> Answer<Vec<u8>> {
    held_row(set, store)?;
    if pixels.len() != set.shape.pixels() {
        return Err(7);
    }
    Ok(pixels.iter().map(|&pixel| (u32::from(pixel) % 2u32.pow(set.shape.depth)) as u8).collect())
}

/// "H reverses each row, v the order of rows, hv both."
pub fn flipped(tile: &[u8], width: u32, flip_h: bool, flip_v: bool) -> Vec<u8> {
    let mut rows: Vec<Vec<u8>> = tile.chunks(width as usize).map(<[u8]>::to_vec).collect();
    if flip_h {
        rows.iter_mut().for_each(|row| row.reverse());
    }
    if flip_v {
        rows.reverse();
    }
    rows.concat()
}

/// "The first stored tile, flips tried as identity, h, v, hv; identity only with flips off."
fn find(set: Set, store: &[u8], tile: &[u8]) -> Option<Place> {
    let tried = [(false, false), (true, false), (false, true), (true, true)];
    let allowed = if set.flips { &tried[..] } else { &tried[..1] };
    // a flip undoes itself: the given tile is turned, once
    let images = allowed.iter().map(|&(h, v)| (h, v, flipped(tile, set.shape.width, h, v))).collect::<Vec<_>>();
    (0..set.stored).zip(store.chunks_exact(set.shape.pixels())).find_map(|(place, stored)| {
        let (flip_h, flip_v, _) = images.iter().find(|(_, _, image)| image == stored)?;
        Some(Place { place, flip_h: *flip_h, flip_v: *flip_v })
    })
}

/// Refusals 1, 3, 4, 6, 7.
pub fn set_look_up(set: Set, store: &[u8], pixels: &[u8]) -> Answer<Option<Place>> {
    let tile = given_tile(set, store, pixels)?;
    Ok(find(set, store, &tile))
}

/// Refusals 1, 3, 4, 6, 7, 12, 13. "With discarding on, a match adds one to discarded and stores nothing; otherwise the
/// tile goes at the end, or 12."
pub fn set_add(set: Set, store: &mut [u8], pixels: &[u8]) -> Answer<Set> {
    let tile = given_tile(set, store, pixels)?;
    if set.discarding && find(set, store, &tile).is_some() {
        let discarded = set.discarded.checked_add(1).ok_or(13u32)?;
        return Ok(Set { discarded, ..set });
    }
    if set.stored as usize == room(set, store) {
        return Err(12);
    }
    let at = set.stored as usize * tile.len();
    store[at..at + tile.len()].copy_from_slice(&tile);
    Ok(Set { stored: set.stored + 1, ..set })
}

/// "R = 16 cells a row for snes and 1 for others."
fn row_cells(row: &Row) -> u32 {
    if row.name == "snes" { 16 } else { 1 }
}

fn cell_of(shape: Shape) -> Shape {
    Shape { width: 8, height: 8, ..shape }
}

/// Whether a set's tiles are written as they are: "but for 8x8 and pce_sprite".
fn is_native(row: &Row, shape: Shape) -> bool {
    row.name == "pce_sprite" || (shape.width, shape.height) == (8, 8)
}

/// Where pixel x, y of a tile stands on the sheet: its column and its row.
fn on_sheet(row: &Row, shape: Shape, tile: u32, x: u32, y: u32) -> (u32, u32) {
    let tiles_a_row = row_cells(row) * 8 / shape.width;
    (tile % tiles_a_row * shape.width + x, tile / tiles_a_row * shape.height + y)
}

/// The pixels of a tile, left to right and top to bottom.
fn places(shape: Shape) -> impl Iterator<Item = (u32, u32)> {
    (0..shape.height).flat_map(move |y| (0..shape.width).map(move |x| (x, y)))
}

/// The cells of the sheet on which so many tiles of the store are laid out, each 64 pixels.
fn laid_out(row: &Row, set: Set, store: &[u8]) -> Vec<[u8; 64]> {
    let (cells_a_row, shape) = (row_cells(row), set.shape);
    let tiles_a_row = cells_a_row * 8 / shape.width;
    let rows = set.stored.div_ceil(tiles_a_row) * shape.height / 8;
    let mut cells = vec![[0; 64]; (rows * cells_a_row) as usize];
    for (tile, pixels) in (0..set.stored).zip(store.chunks_exact(shape.pixels())) {
        for ((x, y), &pixel) in places(shape).zip(pixels) {
            let (column, line) = on_sheet(row, shape, tile, x, y);
            let cell = line / 8 * cells_a_row + column / 8;
            cells[cell as usize][(line % 8 * 8 + column % 8) as usize] = pixel;
        }
    }
    cells
}

fn packed(shape: Shape, pixels: &[u8]) -> Vec<u8> {
    let mut bytes = vec![0; shape.bytes()];
    pack_tile(shape, pixels, &mut bytes).expect("the pixels are a native tile's");
    bytes
}

/// Refusals 1, 3, 4, 6, 8, 11.
pub fn set_write(set: Set, store: &[u8], out: &mut [u8]) -> Answer<usize> {
    let row = held_row(set, store)?;
    let tiles = &store[..set.stored as usize * set.shape.pixels()];
    if tiles.iter().any(|&pixel| u32::from(pixel) >= 2u32.pow(set.shape.depth)) {
        return Err(8);
    }
    let bytes: Vec<u8> = if is_native(row, set.shape) {
        tiles.chunks_exact(set.shape.pixels()).flat_map(|tile| packed(set.shape, tile)).collect()
    } else {
        laid_out(row, set, store).iter().flat_map(|cell| packed(cell_of(set.shape), cell)).collect()
    };
    write(&bytes, out)
}

/// A tile of the sheet that these cells are; `None` where one of its cells is missing.
fn taken(row: &Row, shape: Shape, cells: &[Vec<u8>], tile: u32) -> Option<Vec<u8>> {
    places(shape)
        .map(|(x, y)| {
            let (column, line) = on_sheet(row, shape, tile, x, y);
            let cell = cells.get((line / 8 * row_cells(row) + column / 8) as usize)?;
            Some(cell[(line % 8 * 8 + column % 8) as usize])
        })
        .collect()
}

fn unpacked(shape: Shape, bytes: &[u8]) -> Vec<u8> {
    let mut pixels = vec![0; shape.pixels()];
    unpack_tile(shape, bytes, &mut pixels).expect("the bytes are a native tile's");
    pixels
}

/// What a set's bytes are read by: "whole cells", but in pce_sprite "tile by tile, with no padding".
fn read_by(row: &Row, shape: Shape) -> Shape {
    if row.name == "pce_sprite" { shape } else { cell_of(shape) }
}

/// Refusals 1, 3, 4, 7, 11, 12. "Reading takes whole cells (else 7), stops at the first incomplete tile and does not
/// discard." Of pce_sprite "a length that is not whole tiles is 7".
pub fn set_read(shape: Shape, flips: bool, bytes: &[u8], store: &mut [u8]) -> Answer<Set> {
    let row = set_row(shape)?;
    let part = read_by(row, shape);
    if !bytes.len().is_multiple_of(part.bytes()) {
        return Err(7);
    }
    let parts: Vec<Vec<u8>> = bytes.chunks_exact(part.bytes()).map(|bytes| unpacked(part, bytes)).collect();
    let tiles: Vec<Vec<u8>> = match is_native(row, shape) {
        true => parts,
        false => (0..).map_while(|tile| taken(row, shape, &parts, tile)).collect(),
    };
    let pixels = tiles.concat();
    if store.len() < pixels.len() {
        return Err(11);
    }
    if tiles.len() > 65_535 {
        return Err(12);
    }
    store[..pixels.len()].copy_from_slice(&pixels);
    Ok(Set { shape, flips, discarding: true, limit: 0, stored: tiles.len() as u32, discarded: 0 })
}

/// R, H, V and T, of a mode other than pce_sprite and one of its sizes: refusals 1, 2 and 4.
fn grid(mode: u32, width: u32, height: u32) -> Answer<[u32; 4]> {
    let row = row(mode)?;
    if row.name == "pce_sprite" {
        return Err(2);
    }
    check_size(row, width, height)?;
    let (r, h, v) = (row_cells(row), width / 8, height / 8);
    Ok([r, h, v, r / h])
}

/// Refusal 4: "a tile number above 65,535".
fn tile_number(tile: u32) -> Answer<u32> {
    if tile > 65_535 { Err(4) } else { Ok(tile) }
}

/// Refusals 1, 2, 4. "At 8x8 they agree. Otherwise .. tile n starts at (n/T) x V x R + (n mod T) x H."
pub fn native_number(mode: u32, width: u32, height: u32, logical: u32) -> Answer<u32> {
    let [r, h, v, t] = grid(mode, width, height)?;
    let n = tile_number(logical)?;
    if (width, height) == (8, 8) { Ok(n) } else { Ok((n / t) * v * r + (n % t) * h) }
}

/// Refusals 1, 2, 4. "Cell c belongs to tile ((c/R)/V) x T + (c mod R)/H."
pub fn logical_number(mode: u32, width: u32, height: u32, native: u32) -> Answer<u32> {
    let [r, h, v, t] = grid(mode, width, height)?;
    let c = native;
    tile_number(if (width, height) == (8, 8) { c } else { ((c / r) / v) * t + (c % r) / h })
}
