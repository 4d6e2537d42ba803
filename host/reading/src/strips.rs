//! "Take the picture in strips."
//!
//! The tiles already written are read back from the tile bytes into a set, and a strip's tiles are added to it one after
//! the other: "matching must be against the tile bytes already written".

use crate::Answer;
use crate::entries::pack_entry;
use crate::modes::Row;
use crate::pictures::{Picture, Settings, cut_tiles, entry_of, picture_row, room, tile_shape};
use crate::sets::{Set, set_add, set_look_up};
use crate::tiles::{Shape, pack_tile, unpack_tile};

/// "The station keeps one run record": the settings, and what has come of the picture.
#[derive(Debug, Clone, Copy, PartialEq, Eq)]
pub struct Run {
    /// What the run "starts with".
    pub settings: Settings,
    /// The rows of tiles that have come.
    pub taken: u32,
    /// The tiles stored.
    pub tiles: u32,
    /// The tiles discarded.
    pub discarded: u32,
}

/// Refusals 1, 2, 3, 4 and 5.
fn run_row(settings: Settings) -> Answer<&'static Row> {
    let Settings { mode, depth, flip, columns, rows, .. } = settings;
    let row = picture_row(mode, depth, columns, rows)?;
    if flip && !row.flips { Err(5) } else { Ok(row) }
}

/// Refusal 16: "a picture's palette index too large".
fn check_palette(row: &Row, settings: Settings) -> Answer<()> {
    if u64::from(settings.palette) < 2u64.pow(row.palette_bits) { Ok(()) } else { Err(16) }
}

/// Refusal 6: "a record that counts more tiles than its room or more rows than its picture".
fn check_counts(row: &Row, run: Run, buffer: usize) -> Answer<()> {
    let too_many_tiles = run.tiles as usize > room(row, run.settings, buffer);
    if too_many_tiles || run.taken > run.settings.rows { Err(6) } else { Ok(()) }
}

/// The entries of so many rows.
fn entries(settings: Settings, rows: u32) -> usize {
    (settings.columns * rows) as usize
}

/// Refusals 1, 2, 3, 4, 5, 16. "A run starts with the settings."
pub fn strip_start(settings: Settings) -> Answer<Run> {
    let row = run_row(settings)?;
    check_palette(row, settings)?;
    Ok(Run { settings, taken: 0, tiles: 0, discarded: 0 })
}

/// Refusals 19 and 7, of a strip's length: "a strip past it, checked after 6; a strip that is not whole rows, or is empty,
/// is 7". How many rows the strip has.
fn strip_rows(run: Run, length: usize) -> Answer<u32> {
    let Run { settings, taken, .. } = run;
    if length > 64 * entries(settings, settings.rows - taken) {
        return Err(19);
    }
    let row_of_tiles = 64 * entries(settings, 1);
    if length == 0 || !length.is_multiple_of(row_of_tiles) { Err(7) } else { Ok((length / row_of_tiles) as u32) }
}

/// The set that the run has stored, as its bytes tell it, and a store with room for so many tiles more.
fn stored_set(run: Run, shape: Shape, tiles: &[u8], more: usize) -> Answer<(Set, Vec<u8>)> {
    let Settings { flip, discard, .. } = run.settings;
    let stored = run.tiles as usize;
    let mut store = vec![0; 64 * (stored + more)];
    for (bytes, pixels) in tiles.chunks_exact(shape.bytes()).zip(store.chunks_exact_mut(64)).take(stored) {
        unpack_tile(shape, bytes, pixels)?;
    }
    Ok((Set { shape, flips: flip, discarding: discard, limit: 0, stored: run.tiles, discarded: 0 }, store))
}

/// Refusals 1, 2, 3, 4, 5, 6, 19, 7, 16, 11, 12, 13. "Takes strips of whole tile rows, one or more at a time": the new
/// tiles after those that the record counts, the entries after those of the rows that have come. "The map buffer must hold
/// the whole picture's map at every strip, else 11."
pub fn strip_take(run: &mut Run, pixels: &[u8], tiles: &mut [u8], map: &mut [u8]) -> Answer<Picture> {
    let Run { settings, taken, tiles: stored, discarded } = *run;
    let Settings { mode, depth, palette, columns, rows, .. } = settings;
    let row = run_row(settings)?;
    check_counts(row, *run, tiles.len())?;
    let come = strip_rows(*run, pixels.len())?;
    check_palette(row, settings)?;
    if map.len() < entries(settings, rows) * row.entry_bytes {
        return Err(11);
    }

    let shape = tile_shape(mode, depth);
    let cut = cut_tiles(depth, columns, come, pixels);
    let (mut set, mut store) = stored_set(*run, shape, tiles, cut.len())?;
    for tile in &cut {
        set = set_add(set, &mut store, tile)?;
    }
    if set.stored as usize > room(row, settings, tiles.len()) {
        return Err(12);
    }
    let discarded = discarded.checked_add(set.discarded).ok_or(13u32)?;

    let places = store.chunks_exact(64).zip(tiles.chunks_exact_mut(shape.bytes()));
    for (tile, bytes) in places.take(set.stored as usize).skip(stored as usize) {
        pack_tile(shape, tile, bytes)?;
    }
    for (tile, bytes) in cut.iter().zip(map.chunks_exact_mut(row.entry_bytes).skip(entries(settings, taken))) {
        let place = set_look_up(set, &store, tile)?.expect("each tile of the strip is in the set");
        pack_entry(mode, entry_of(place, palette), bytes)?;
    }
    *run = Run { settings, taken: taken + come, tiles: set.stored, discarded };
    Ok(so_far(row, *run))
}

/// What the record counts, and how long that makes the tile bytes and the map bytes.
fn so_far(row: &Row, run: Run) -> Picture {
    let Run { settings, taken, tiles, discarded } = run;
    Picture {
        tiles,
        discarded,
        tile_bytes: tiles as usize * tile_shape(settings.mode, settings.depth).bytes(),
        map_bytes: entries(settings, taken) * row.entry_bytes,
    }
}

/// Refusals 1, 2, 3, 4, 5, 6, 19, 16. The run "ends when all rows have come": "asking to end early is refused, and the run
/// goes on". No tile buffer bounds the room here.
pub fn strip_end(run: Run) -> Answer<Picture> {
    let row = run_row(run.settings)?;
    check_counts(row, run, usize::MAX)?;
    if run.taken < run.settings.rows {
        return Err(19);
    }
    check_palette(row, run.settings)?;
    Ok(so_far(row, run))
}
