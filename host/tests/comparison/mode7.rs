//! Mode 7 blocks against the unchanged Rust's `Map`, which puts map bytes and tile bytes by turns.
//!
//! The Rust puts as many pairs as the longer of both has bytes, document 02 always 16,384: so the Rust's bytes are the
//! front of the port's block, and the rest of it is 0. The Rust does not split.

use reading::Random;
use superfamiconv::pictures;

use super::common::{assert_writes, told, writes};
use super::tiles::Said::{self, Bytes, Panic};
use super::tiles::said;

/// The bytes of a block, and of each of its halves.
const BLOCK: usize = 32_768;
const HALF: usize = 16_384;

/// The bytes of a tile.
const TILE: usize = 64;

fn make(tiles: &[u8], map: &[u8], out: &mut [u8]) -> Result<usize, u32> {
    told(rumchivoat::mode7_make(tiles, map, out))
}

/// A block over buffers of noise that are a byte longer than the halves: the answer, the tile buffer and the map.
fn split(block: &[u8], noise: &[u8]) -> (Result<usize, u32>, Vec<u8>, Vec<u8>) {
    let (mut tiles, mut map) = (noise.to_vec(), noise.to_vec());
    let answer = told(rumchivoat::mode7_split(block, &mut tiles, &mut map));
    (answer, tiles, map)
}

/// So many bytes, filled with 0.
fn filled(bytes: &[u8], length: usize) -> Vec<u8> {
    let mut filled = bytes.to_vec();
    filled.resize(length, 0);
    filled
}

/// Fails unless splitting gives both inputs back, with the 0 fill, and leaves the byte after each.
fn splits_into(block: &[u8], tiles: &[u8], map: &[u8], random: &mut Random) -> u64 {
    let noise = random.bytes(HALF + 1);
    let (answer, split_tiles, split_map) = split(block, &noise);
    let case = format!("{} tile bytes and {} map bytes", tiles.len(), map.len());
    assert_eq!(answer, Ok(HALF), "split into {case}");
    for (half, given) in [(split_tiles, tiles), (split_map, map)] {
        assert!(half[..HALF] == filled(given, HALF), "split into {case}");
        assert_eq!(half[HALF], noise[HALF], "the byte after the half, split into {case}");
    }
    1
}

/// What the Rust puts by turns is no block where it is shorter: the port does not split it.
fn does_not_split(bytes: &[u8], random: &mut Random) -> u64 {
    let noise = random.bytes(HALF + 1);
    assert!(split(bytes, &noise) == (Err(7), noise.clone(), noise), "{} bytes split", bytes.len());
    1
}

/// Made alike: the Rust's bytes, and 0 after them up to a block's length; and taken apart again.
fn same_block(columns: u32, rows: u32, tiles: &[u8], map: &[u8], random: &mut Random) -> u64 {
    let theirs = pictures::mode7_interleaved(columns, rows, tiles, map).expect("the tiles and the map are whole");
    assert_eq!(theirs.len(), 2 * tiles.len().max(map.len()), "{columns}x{rows}, {} tile bytes", tiles.len());
    let block = filled(&theirs, BLOCK);
    let case = || format!("mode7_make {columns}x{rows}, {} tile bytes", tiles.len());
    let made = writes(case, &block, random, |out| make(tiles, map, out));
    let is_block = theirs.len() == BLOCK;
    let refused = if is_block { 0 } else { does_not_split(&theirs, random) };
    made + refused + splits_into(&block, tiles, map, random)
}

/// So many tiles and a map of this size, of any bytes.
fn same_random(columns: u32, rows: u32, tiles: usize, random: &mut Random) -> u64 {
    let (tiles, map) = (random.bytes(TILE * tiles), random.bytes((columns * rows) as usize));
    same_block(columns, rows, &tiles, &map, random)
}

/// Maps of every shape that a block's map holds, or its bytes: a picture's, a row, a column, and the longest row.
pub fn maps_of_every_shape() -> u64 {
    const SIDES: [u32; 13] = [1, 2, 3, 7, 16, 31, 32, 33, 63, 64, 65, 127, 128];
    let (mut count, mut random) = (0, Random::new(83));
    let square = SIDES.iter().flat_map(|&columns| SIDES.map(|rows| (columns, rows)));
    for (columns, rows) in square.chain([(256, 64), (64, 256), (16_383, 1), (16_384, 1), (1, 16_384)]) {
        for tiles in [0, 1, random.below(257) as usize, 256] {
            count += same_random(columns, rows, tiles, &mut random);
        }
    }
    count
}

/// Every number of tiles, beside a single entry, the map of the largest picture, and the whole map. Beside that one the
/// Rust's bytes are the block, all of it.
pub fn every_number_of_tiles() -> u64 {
    let (mut count, mut random) = (0, Random::new(84));
    for tiles in 0..=HALF / TILE {
        for (columns, rows) in [(1, 1), (64, 64), (128, 128)] {
            count += same_random(columns, rows, tiles, &mut random);
        }
    }
    count
}

/// Each bit of each of some entries, and of some pixels, all else 0: in the first and last rows and tiles, and between.
pub fn single_bits() -> u64 {
    let (mut count, mut random) = (0, Random::new(85));
    let places = [0, 1, 2, 63, 64, 127, 128, 129, 8191, 8192, 16_255, 16_256, 16_382, 16_383];
    for (place, bit) in places.iter().flat_map(|&place| (0..8).map(move |bit| (place, bit))) {
        let (mut set, clear) = (vec![0; HALF], vec![0; HALF]);
        set[place] = 1 << bit;
        count += same_block(128, 128, &set, &clear, &mut random);
        count += same_block(128, 128, &clear, &set, &mut random);
    }
    count
}

fn rust_says(columns: u32, rows: u32, tiles: &[u8], map: &[u8]) -> Said {
    said(|| pictures::mode7_interleaved(columns, rows, tiles, map))
}

/// The smallest input of each kind of difference, as docs/DIFFERENCES.md has it.
pub fn known_differences() -> u64 {
    let random = &mut Random::new(86);
    differences_inside(random) + more_than_a_block(random)
}

/// Inside the domain: the Rust's bytes end with the longer of both inputs; it takes whole tiles alone, and no empty map.
fn differences_inside(random: &mut Random) -> u64 {
    let mut count = 0;
    let mut differ = |columns: u32, tiles: &[u8], map: &[u8], rust: Said, front: &[u8]| {
        let case = || format!("mode7_make {columns}x1, {} tile bytes", tiles.len());
        assert_eq!(rust_says(columns, 1, tiles, map), rust, "{}", case());
        count += 1 + writes(case, &filled(front, BLOCK), random, |out| make(tiles, map, out));
    };
    differ(1, &[], &[7], Bytes(vec![7, 0]), &[7, 0]);
    // the Rust takes whole tiles
    differ(1, &[3], &[7], Said::Err, &[7, 3]);
    // the Rust panics on a map of no columns
    differ(0, &[], &[], Panic, &[]);
    count
}

/// Where document 02 answers 7: the Rust takes any number of entries and of tiles.
fn more_than_a_block(random: &mut Random) -> u64 {
    let mut count = 0;
    let mut differ = |columns: u32, tiles: &[u8], map: &[u8]| {
        let longer = vec![0; 2 * tiles.len().max(map.len())];
        assert_eq!(rust_says(columns, 1, tiles, map), Bytes(longer), "{columns}x1, {} tile bytes", tiles.len());
        let case = || format!("mode7_make {columns}x1, {} tile bytes", tiles.len());
        count += 1 + assert_writes(case, Err(7), &random.bytes(BLOCK + 1), |out| make(tiles, map, out));
    };
    differ(16_385, &[], &[0; HALF + 1]);
    differ(1, &[0; HALF + TILE], &[0]);
    count
}
