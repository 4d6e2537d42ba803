//! Pictures of every kind, and the port's calls on them.

use reading::{MODES, Picture, Random, Row, Settings, Shape, native_shapes};

use super::sets::near_tiles;
use super::told;

/// A conversion: its answer, and the tile buffer and the map as it leaves them.
pub type Converted = (Result<Picture, u32>, Vec<u8>, Vec<u8>);

/// The port's settings.
pub fn asked(settings: Settings) -> rumchivoat::Settings {
    let Settings { mode, depth, flip, discard, limit, palette, columns, rows } = settings;
    let size = rumchivoat::MapSize { columns, rows };
    let mut asked = rumchivoat::Settings::new(mode, depth, size).limit(limit).palette(palette);
    (asked.flip, asked.discard) = (flip, discard);
    asked
}

/// The port's `convert`.
pub fn convert(settings: Settings, pixels: &[u8], tiles: &mut [u8], map: &mut [u8]) -> Result<Picture, u32> {
    told(rumchivoat::convert(asked(settings), pixels, tiles, map)).map(as_read)
}

/// The port's conversion in strips of so many rows each: the answer of the end, or of the first strip that is refused.
pub fn convert_in_strips(
    settings: Settings,
    cutting: &[u32],
    pixels: &[u8],
    tiles: &mut [u8],
    map: &mut [u8],
) -> Result<Picture, u32> {
    let mut run = told(rumchivoat::Run::start(asked(settings)))?;
    let mut rest = pixels;
    for &rows in cutting {
        let (strip, later) = rest.split_at(run.row_len() * rows as usize);
        told(run.take(strip, tiles, map))?;
        rest = later;
    }
    told(run.end()).map(as_read)
}

/// So many rows in strips of any height.
pub fn any_cutting(rows: u32, random: &mut Random) -> Vec<u32> {
    let (mut left, mut strips) = (rows, Vec::new());
    while left > 0 {
        // one row more often than all that are left
        let strip = 1 + random.below(left).min(random.below(left));
        strips.push(strip);
        left -= strip;
    }
    strips
}

/// What a conversion answers, as the reading has it.
pub fn as_read(picture: rumchivoat::Picture) -> Picture {
    let rumchivoat::Picture { tiles, discarded, tile_bytes, map_bytes, .. } = picture;
    Picture { tiles, discarded, tile_bytes, map_bytes }
}

/// The port's `redraw`, told the settings of the picture.
pub fn redraw(settings: Settings, tiles: &[u8], map: &[u8], out: &mut [u8]) -> Result<usize, u32> {
    let Settings { mode, depth, columns, rows, .. } = settings;
    told(rumchivoat::redraw(mode, depth, columns, rows, tiles, map, out))
}

/// What a conversion answers on a tile buffer and a map that hold noise, and what they hold then.
pub fn converted(
    (tiles, map): (&[u8], &[u8]),
    call: impl FnOnce(&mut [u8], &mut [u8]) -> Result<Picture, u32>,
) -> Converted {
    let (mut tiles, mut map) = (tiles.to_vec(), map.to_vec());
    let answer = call(&mut tiles, &mut map);
    (answer, tiles, map)
}

/// The mode's row of the table.
pub fn row_of(settings: Settings) -> &'static Row {
    &MODES[settings.mode as usize]
}

/// The tiles of a picture, all counted.
pub fn places(settings: Settings) -> usize {
    (settings.columns * settings.rows) as usize
}

pub fn map_bytes(settings: Settings) -> usize {
    places(settings) * row_of(settings).entry_bytes
}

pub fn tile_size(settings: Settings) -> usize {
    8 * settings.depth as usize
}

/// The most tiles that the mode's entries can name.
pub fn most_tiles(settings: Settings) -> usize {
    1 << row_of(settings).tile_bits
}

/// A picture of one tile in every mode and depth that has maps; palette 0, no limit, flips off and discarding on.
pub fn picture_modes() -> impl Iterator<Item = Settings> {
    let shapes = native_shapes().filter(|shape| MODES[shape.mode as usize].entry_bytes > 0);
    shapes.map(|Shape { mode, depth, .. }| Settings {
        mode,
        depth,
        flip: false,
        discard: true,
        limit: 0,
        palette: 0,
        columns: 1,
        rows: 1,
    })
}

/// Flips, where the mode has them, and discarding, on and off.
pub fn with_every_flag(settings: Settings) -> impl Iterator<Item = Settings> {
    let flips: &[bool] = if row_of(settings).flips { &[false, true] } else { &[false] };
    flips.iter().flat_map(move |&flip| [false, true].map(|discard| Settings { flip, discard, ..settings }))
}

/// What a picture's tiles are like.
#[derive(Debug, Clone, Copy, PartialEq, Eq)]
pub enum Kind {
    /// Any bytes, also bits above the depth.
    Random,
    /// A dot or two on a ground: few tiles, often again, many their own mirror images.
    Dots,
    /// Made of earlier ones: mirrored, made symmetric, one pixel off, with bits above the depth.
    Near,
    /// An earlier one, mirrored, with two pixels exchanged: as many pixels of each value.
    Exchanged,
    /// All the same.
    Same,
}

impl Kind {
    pub const ALL: [Kind; 5] = [Kind::Random, Kind::Dots, Kind::Near, Kind::Exchanged, Kind::Same];

    /// So many tiles.
    pub fn tiles(self, depth: u32, count: usize, random: &mut Random) -> Vec<Vec<u8>> {
        match self {
            Kind::Random => (0..count).map(|_| random.bytes(64)).collect(),
            Kind::Dots => (0..count).map(|_| dots(depth, random)).collect(),
            Kind::Near => near_tiles(Shape { mode: 0, depth, width: 8, height: 8 }, count, random),
            Kind::Exchanged => exchanged(depth, count, random),
            Kind::Same => vec![random.pixels(depth, 64); count],
        }
    }

    /// The pixels of a picture.
    pub fn picture(self, settings: Settings, random: &mut Random) -> Vec<u8> {
        picture_of(settings, &self.tiles(settings.depth, places(settings), random))
    }
}

fn dots(depth: u32, random: &mut Random) -> Vec<u8> {
    let mut tile = vec![random.below(2) as u8; 64];
    for _ in 0..random.below(3) {
        tile[random.below(64) as usize] = random.below(1 << depth) as u8;
    }
    tile
}

fn exchanged(depth: u32, count: usize, random: &mut Random) -> Vec<Vec<u8>> {
    let mut tiles = vec![random.pixels(depth, 64)];
    while tiles.len() < count {
        let earlier = &tiles[random.below(tiles.len() as u32) as usize];
        let mut tile = reading::flipped(earlier, 8, random.flag(), random.flag());
        tile.swap(random.below(64) as usize, random.below(64) as usize);
        tiles.push(tile);
    }
    tiles
}

/// The pixels of a picture that has these tiles, left to right and top to bottom.
pub fn picture_of(settings: Settings, tiles: &[Vec<u8>]) -> Vec<u8> {
    let lines = |row: &[Vec<u8>]| (0..64).step_by(8).flat_map(|y| line(row, y)).collect::<Vec<u8>>();
    tiles.chunks(settings.columns as usize).flat_map(lines).collect()
}

/// A line of a row of tiles.
fn line(row: &[Vec<u8>], start: usize) -> Vec<u8> {
    row.iter().flat_map(|tile| &tile[start..start + 8]).copied().collect()
}

/// So many tiles, at most 4,096, of which no two match under any flip.
pub fn different_tiles(depth: u32, count: usize) -> Vec<Vec<u8>> {
    (0..count as u32).map(|number| numbered_tile(depth, number)).collect()
}

/// A tile with the 12 bits of a number from its second row on. The first row and the last row's first pixel show which
/// way up it is: no flip leaves them.
fn numbered_tile(depth: u32, number: u32) -> Vec<u8> {
    let mut tile = vec![0; 64];
    tile[..8].fill(((1u32 << depth) - 1) as u8);
    for (bit, pixel) in tile[8..20].iter_mut().enumerate() {
        *pixel = (number >> bit & 1) as u8;
    }
    tile[56] = 1;
    tile
}
