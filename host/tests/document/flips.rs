//! Native flips against document 02: what is written is the reading's, and what the port itself unpacks and packs.

use reading::{Random, Shape};
use rumchivoat::Mode;

use super::common::{
    FLIPS, Flip, assert_writes, cells, flip_tile, lengths_around_tiles, on_noise, pack_tile, rooms, single_bits,
    unpack_tile, writes,
};
use super::tiles::{DEPTHS, choices};
use super::titles::Framed;
use super::{MODE_NUMBERS, print_count};

fn read_flip(shape: Shape, (flip_h, flip_v): Flip, bytes: &[u8], out: &mut [u8]) -> Result<usize, u32> {
    reading::flip_tile(shape.mode, shape.depth, flip_h, flip_v, bytes, out)
}

fn same_flipped(shape: Shape, flip: Flip, bytes: &[u8], noise: &[u8]) -> u64 {
    let (answer, flipped) = on_noise(noise, |out| read_flip(shape, flip, bytes, out));
    let case = || format!("flip_tile {shape:?} {flip:?} {bytes:?} in {} bytes", noise.len());
    let expected = answer.map(|length| &flipped[..length]);
    assert_writes(case, expected, noise, |out| flip_tile(shape, flip, bytes, out))
}

fn same_under_each_flip(shape: Shape, bytes: &[u8], noise: &[u8]) -> u64 {
    FLIPS.iter().map(|&flip| same_flipped(shape, flip, bytes, noise)).sum()
}

/// A native tile that is flipped as read, under each flip.
fn flips_as_read(shape: Shape, bytes: &[u8], random: &mut Random) -> u64 {
    let mut flipped = vec![0; shape.bytes()];
    let mut count = 0;
    for flip in FLIPS {
        assert_eq!(read_flip(shape, flip, bytes, &mut flipped), Ok(flipped.len()));
        let case = || format!("flip_tile {shape:?} {flip:?} {bytes:?}");
        count += writes(case, &flipped, random, |out| flip_tile(shape, flip, bytes, out));
    }
    count
}

/// The tile under a flip.
fn flipped(shape: Shape, flip: Flip, bytes: &[u8]) -> Vec<u8> {
    let mut out = vec![0xa5; shape.bytes()];
    assert_eq!(flip_tile(shape, flip, bytes, &mut out), Ok(shape.bytes()), "{shape:?} {flip:?} {bytes:?}");
    out
}

/// A row's bytes, and the same row's reversed, in a mode and a depth whose rows stand one after the other: as the first
/// row of a tile it becomes the last one.
#[test]
fn flips_by_hand() {
    let rows: [(Mode, &[u8], &[u8]); 9] = [
        (Mode::Gb, &[0x35], &[0xac]),
        (Mode::Snes, &[0x55, 0x33], &[0xaa, 0xcc]),
        (Mode::Ngp, &[0x1b, 0x1b], &[0xe4, 0xe4]),
        (Mode::Ngpc, &[0x00, 0x1b], &[0xe4, 0x00]),
        (Mode::Sms, &[0x01, 0x0f, 0x00, 0xe8], &[0x80, 0xf0, 0x00, 0x17]),
        (Mode::Gba, &[0x21, 0, 0, 0], &[0, 0, 0, 0x12]),
        (Mode::Md, &[0x10, 0x32, 0x54, 0x76], &[0x67, 0x45, 0x23, 0x01]),
        (Mode::WscPacked, &[0x12, 0, 0, 0xab], &[0xba, 0, 0, 0x21]),
        (Mode::SnesMode7, &[1, 2, 3, 4, 5, 6, 7, 255], &[255, 7, 6, 5, 4, 3, 2, 1]),
    ];
    for (mode, row, reversed) in rows {
        let shape = Shape { mode: mode.number(), depth: row.len() as u32, width: 8, height: 8 };
        let others = vec![0; 7 * row.len()];
        let (first, last) = (|row: &[u8]| [row, &others].concat(), |row: &[u8]| [&others, row].concat());
        let due = [first(row), first(reversed), last(row), last(reversed)];
        assert_eq!(FLIPS.map(|flip| flipped(shape, flip, &first(row))), due, "{mode}");
    }
}

#[test]
fn flips_of_every_mode_and_depth() {
    let (mut count, mut random) = (0, Random::new(161));
    let input = random.bytes(8192);
    for mode in MODE_NUMBERS.into_iter().chain([99]) {
        for depth in DEPTHS {
            let shape = Shape { mode, depth, width: 8, height: 8 };
            for length in lengths_for(depth) {
                for room in lengths_for(depth) {
                    count += same_under_each_flip(shape, &input[..length], &random.bytes(room));
                }
            }
        }
    }
    print_count("flips of every mode and depth", count);
}

/// The lengths of tiles of depths 1, 2, 4 and 8, of a sprite, and those around the depth's own where it is small: one
/// less, one more, half and twice as much.
fn lengths_for(depth: u32) -> impl Iterator<Item = usize> {
    let own = 8 * depth as usize;
    let around = [own.saturating_sub(1), own, own + 1, own / 2, 2 * own];
    [0, 8, 16, 32, 64, 128].into_iter().chain(around.into_iter().filter(|&length| length <= 8192))
}

#[test]
fn flips_of_every_length() {
    let (mut count, mut random) = (0, Random::new(162));
    for shape in cells() {
        for length in (0..=80).chain(lengths_around_tiles()) {
            let bytes = random.bytes(length);
            for room in rooms(shape.bytes()).chain([0, length]) {
                count += same_under_each_flip(shape, &bytes, &random.bytes(room));
            }
        }
    }
    print_count("flips of every length", count);
}

/// Each bit of a tile by itself.
#[test]
fn single_bit_flips() {
    let (mut count, mut random) = (0, Random::new(163));
    for shape in cells() {
        for bytes in single_bits(shape.bytes(), 8) {
            count += flips_as_read(shape, &bytes, &mut random);
        }
    }
    print_count("single bits flipped", count);
}

/// Each value of each byte, all else 0: every entry of a table, for every place that may look it up.
#[test]
fn each_value_of_each_byte() {
    let (mut count, mut random) = (0, Random::new(164));
    for shape in cells() {
        for (place, value) in (0..shape.bytes()).flat_map(|place| (0..=255).map(move |value| (place, value))) {
            let mut bytes = vec![0; shape.bytes()];
            bytes[place] = value;
            count += same_under_each_flip(shape, &bytes, &random.bytes(shape.bytes() + 1));
        }
    }
    print_count("each value of each byte flipped", count);
}

#[test]
fn random_flips() {
    let (mut count, mut random) = (0, Random::new(165));
    for shape in cells() {
        for _ in 0..500 {
            let bytes = random.bytes(shape.bytes());
            count += flips_as_read(shape, &bytes, &mut random);
        }
    }
    print_count("random tiles flipped", count);
}

/// "The native flip equals unpack, flip, pack", all three by the port but for the flip, which is the reading's of rows.
#[test]
fn a_flip_is_unpack_flip_pack() {
    let (mut count, mut random) = (0, Random::new(166));
    for shape in cells() {
        let (mut pixels, mut packed) = (vec![0; shape.pixels()], vec![0; shape.bytes()]);
        for _ in 0..500 {
            let bytes = random.bytes(shape.bytes());
            assert_eq!(unpack_tile(shape, &bytes, &mut pixels), Ok(pixels.len()));
            for flip in FLIPS {
                let turned = reading::flipped(&pixels, shape.width, flip.0, flip.1);
                assert_eq!(pack_tile(shape, &turned, &mut packed), Ok(packed.len()));
                assert_eq!(flipped(shape, flip, &bytes), packed, "{shape:?} {flip:?} {bytes:?}");
                count += 1;
            }
        }
    }
    print_count("flips by unpacking and packing", count);
}

/// "Each undoes itself, h then v is hv, order does not matter": one after the other, two flips are those that only one
/// of them has. With neither h nor v the bytes are copied.
#[test]
fn flips_compose() {
    let (mut count, mut random) = (0, Random::new(167));
    for shape in cells() {
        for _ in 0..200 {
            let bytes = random.bytes(shape.bytes());
            assert_eq!(flipped(shape, (false, false), &bytes), bytes, "{shape:?}");
            for (one, other) in FLIPS.iter().flat_map(|&one| FLIPS.map(|other| (one, other))) {
                let both = (one.0 != other.0, one.1 != other.1);
                let again = flipped(shape, other, &flipped(shape, one, &bytes));
                assert_eq!(again, flipped(shape, both, &bytes), "{shape:?} {one:?}, then {other:?} of {bytes:?}");
                count += 1;
            }
        }
    }
    print_count("two flips, one after the other", count);
}

/// A station flips one tile after the other, of any mode, in the same buffer, and some are refused: what is not written
/// is as it was, before the buffer and after it too, and so is the tile that came.
#[test]
fn one_tile_after_the_other() {
    let (mut count, mut random) = (0, Random::new(168));
    let mut buffer = random.bytes(80);
    let cells: Vec<Shape> = cells().collect();
    for turn in 0..20_000 {
        let shape = cells[random.below(cells.len() as u32) as usize];
        let flip = (random.flag(), random.flag());
        // every fifth tile may be of any length, and every seventh has a buffer of any
        let length = if turn % 5 == 4 { random.below(70) as usize } else { shape.bytes() };
        let room = if turn % 7 == 6 { random.below(70) as usize } else { 80 };
        let given = Framed::new(&random.bytes(length), &[], &mut random);
        let mut out = Framed::new(&buffer[..room], &[], &mut random);
        let answer = flip_tile(shape, flip, given.slice(), out.slice_mut());
        let before = buffer.clone();
        let case = || format!("flip_tile {shape:?} {flip:?} {:?} in {room} bytes", given.slice());
        assert_eq!(answer, read_flip(shape, flip, given.slice(), &mut buffer[..room]), "{}", case());
        assert!(given.is_as_it_was(), "what was given to {}", case());
        assert!(out.holds(&buffer[..room]), "the bytes after {}", case());
        let written = answer.unwrap_or(0);
        assert_eq!(buffer[written..], before[written..], "the bytes left by {}", case());
        count += 1;
    }
    print_count("flips in the same buffer", count);
}

/// The mode, or one that calls for the first of these refusals.
fn damaged_mode(mode: u32, refusals: &[u32]) -> u32 {
    match () {
        () if refusals.contains(&1) => 16,
        () if refusals.contains(&2) => Mode::PceSprite.number(),
        () => mode,
    }
}

/// "Refusals: 1, 2 for pce_sprite, 3, 7 for a length that is not one tile, 11 for a short output, in that order":
/// whichever apply, the first is given, and the buffer is as it was.
#[test]
fn the_first_refusal_of_flipping() {
    let (mut count, mut random) = (0, Random::new(169));
    for (shape, refusals) in cells().flat_map(|shape| choices(&[1, 2, 3, 7, 11]).map(move |chosen| (shape, chosen))) {
        let own = shape.bytes();
        let depths = if refusals.contains(&3) { vec![0, 3, 9, u32::MAX] } else { vec![shape.depth] };
        for depth in depths {
            for (other, short) in [(0, 0), (own - 1, own - 1), (own + 1, own / 2), (2 * own, 1), (128, own - 1)] {
                let length = if refusals.contains(&7) { other } else { own };
                let noise = random.bytes(if refusals.contains(&11) { short } else { own });
                let asked = Shape { mode: damaged_mode(shape.mode, &refusals), depth, ..shape };
                let bytes = random.bytes(length);
                let expected = refusals.first().map_or(Ok(own), |&first| Err(first));
                for flip in FLIPS {
                    let (answer, left) = on_noise(&noise, |out| flip_tile(asked, flip, &bytes, out));
                    assert_eq!(answer, expected, "{asked:?} {flip:?} {refusals:?} {length} in {}", noise.len());
                    assert!(answer.is_ok() || left == noise, "the bytes left by {asked:?} {flip:?} {refusals:?}");
                    count += 1;
                }
            }
        }
    }
    print_count("a flip's refusals together", count);
}
