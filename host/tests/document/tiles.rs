//! Tiles against document 01.

use reading::{Random, Shape, native_shapes};
use rumchivoat::Mode;

use super::common::{
    assert_writes, lengths_around_tiles, on_noise, pack_tile, rooms, single_bits, unpack_tile, writes,
};
use super::{MODE_NUMBERS, print_count};

/// Every depth, numbers between and beyond, and numbers that end in a depth's bits.
pub const DEPTHS: [u32; 13] = [0, 1, 2, 3, 4, 5, 6, 7, 8, 9, 34, 258, u32::MAX];

/// Widths and heights around those of native tiles, and some whose products or low bits are a native tile's.
pub const SIDES: [u32; 18] = [0, 7, 8, 9, 15, 16, 17, 31, 32, 33, 63, 64, 65, 264, 65_536, 65_552, 1 << 31, u32::MAX];

/// The pixels of the largest native tile.
const MOST_PIXELS: usize = 32 * 64;

fn same_packed(shape: Shape, pixels: &[u8], noise: &[u8]) -> u64 {
    let (answer, bytes) = on_noise(noise, |out| reading::pack_tile(shape, pixels, out));
    let case = || format!("pack_tile {shape:?} {pixels:?} in {} bytes", noise.len());
    let expected = answer.map(|length| &bytes[..length]);
    assert_writes(case, expected, noise, |out| pack_tile(shape, pixels, out))
}

fn same_unpacked(shape: Shape, bytes: &[u8], noise: &[u8]) -> u64 {
    let (answer, pixels) = on_noise(noise, |out| reading::unpack_tile(shape, bytes, out));
    let case = || format!("unpack_tile {shape:?} {bytes:?} in {} bytes", noise.len());
    let expected = answer.map(|length| &pixels[..length]);
    assert_writes(case, expected, noise, |out| unpack_tile(shape, bytes, out))
}

/// In buffers of noise one byte short, exact, one byte long, and in one of no bytes.
fn same_packed_in_every_room(shape: Shape, pixels: &[u8], random: &mut Random) -> u64 {
    rooms(shape.bytes()).chain([0]).map(|room| same_packed(shape, pixels, &random.bytes(room))).sum()
}

fn same_unpacked_in_every_room(shape: Shape, bytes: &[u8], random: &mut Random) -> u64 {
    rooms(shape.pixels()).chain([0]).map(|room| same_unpacked(shape, bytes, &random.bytes(room))).sum()
}

/// So many bytes that begin with these; the others are 0.
fn beginning(start: &[u8], length: usize) -> Vec<u8> {
    let mut bytes = start.to_vec();
    bytes.resize(length, 0);
    bytes
}

/// Examples (a) to (c), as document 01 spells them.
#[test]
fn marked_examples() {
    let examples: [(Mode, u32, &[u8], &[u8]); 4] = [
        (Mode::Snes, 2, &[0, 1, 2, 3, 0, 1, 2, 3], &[0x55, 0x33]),
        (Mode::Ngp, 2, &[0, 1, 2, 3, 0, 1, 2, 3], &[0x1b, 0x1b]),
        (Mode::Gba, 4, &[1, 2], &[0x21]),
        (Mode::WscPacked, 4, &[1, 2], &[0x12]),
    ];
    for (mode, depth, pixels, bytes) in examples {
        let shape = Shape { mode: mode.number(), depth, width: 8, height: 8 };
        packs_and_unpacks(shape, &beginning(pixels, 64), &beginning(bytes, 8 * depth as usize));
    }
}

/// Example (d): "pce_sprite 16x16, only (9,0) = 8: byte 97 is 02."
#[test]
fn marked_sprite() {
    let shape = Shape { mode: Mode::PceSprite.number(), depth: 4, width: 16, height: 16 };
    let (mut pixels, mut bytes) = (vec![0; 256], vec![0; 128]);
    pixels[9] = 8;
    bytes[97] = 0x02;
    packs_and_unpacks(shape, &pixels, &bytes);
}

fn packs_and_unpacks(shape: Shape, pixels: &[u8], bytes: &[u8]) {
    let packed = on_noise(&vec![0xa5; bytes.len()], |out| pack_tile(shape, pixels, out));
    assert_eq!(packed, (Ok(bytes.len()), bytes.to_vec()), "{shape:?}");
    let unpacked = on_noise(&vec![0xa5; pixels.len()], |out| unpack_tile(shape, bytes, out));
    assert_eq!(unpacked, (Ok(pixels.len()), pixels.to_vec()), "{shape:?}");
}

/// Native tiles that are packed as read.
fn packs_as_read(shape: Shape, pixels: &[u8], random: &mut Random) -> u64 {
    let mut bytes = vec![0; shape.bytes()];
    assert_eq!(reading::pack_tile(shape, pixels, &mut bytes), Ok(bytes.len()));
    writes(|| format!("pack_tile {shape:?} {pixels:?}"), &bytes, random, |out| pack_tile(shape, pixels, out))
}

fn unpacks_as_read(shape: Shape, bytes: &[u8], random: &mut Random) -> u64 {
    let mut pixels = vec![0; shape.pixels()];
    assert_eq!(reading::unpack_tile(shape, bytes, &mut pixels), Ok(pixels.len()));
    writes(|| format!("unpack_tile {shape:?} {bytes:?}"), &pixels, random, |out| unpack_tile(shape, bytes, out))
}

#[test]
fn single_bit_tiles() {
    let (mut count, mut random) = (0, Random::new(21));
    for shape in native_shapes() {
        for pixels in single_bits(shape.pixels(), shape.depth) {
            count += packs_as_read(shape, &pixels, &mut random);
        }
        for bytes in single_bits(shape.bytes(), 8) {
            count += unpacks_as_read(shape, &bytes, &mut random);
        }
    }
    print_count("single-bit tiles", count);
}

#[test]
fn random_tiles() {
    let (mut count, mut random) = (0, Random::new(22));
    for shape in native_shapes() {
        for _ in 0..500 {
            let pixels = random.pixels(shape.depth, shape.pixels());
            count += packs_as_read(shape, &pixels, &mut random);
            let bytes = random.bytes(shape.bytes());
            count += unpacks_as_read(shape, &bytes, &mut random);
        }
    }
    print_count("random tiles", count);
}

#[test]
fn tiles_of_every_length() {
    let (mut count, mut random) = (0, Random::new(23));
    for shape in native_shapes() {
        for length in (0..=80).chain(lengths_around_tiles()) {
            // with pixels that the depth holds, and with any
            for depth in [shape.depth, 8] {
                let pixels = random.pixels(depth, length);
                count += same_packed_in_every_room(shape, &pixels, &mut random);
            }
            let bytes = random.bytes(length);
            count += same_unpacked_in_every_room(shape, &bytes, &mut random);
        }
    }
    print_count("tiles of every length", count);
}

#[test]
fn tiles_of_every_mode_depth_and_size() {
    let mut count = 0;
    let (input, noise) = (vec![0; MOST_PIXELS], Random::new(24).bytes(MOST_PIXELS));
    for mode in MODE_NUMBERS {
        for depth in DEPTHS {
            for width in SIDES {
                for height in SIDES {
                    let shape = Shape { mode, depth, width, height };
                    for length in lengths_for(shape) {
                        count += same_packed(shape, &input[..length], &noise);
                        count += same_unpacked(shape, &input[..length], &noise);
                    }
                }
            }
        }
    }
    print_count("tiles of every mode, depth and size", count);
}

/// No byte, the lengths of an 8x8 tile, and the lengths that the shape itself asks for, where they are small.
fn lengths_for(shape: Shape) -> impl Iterator<Item = usize> {
    let pixels = u64::from(shape.width) * u64::from(shape.height);
    let bytes = pixels.saturating_mul(shape.depth.into()) / 8;
    let small = move |length: u64| usize::try_from(length).ok().filter(|&length| length <= MOST_PIXELS);
    [0, 8, 64].into_iter().chain(small(pixels)).chain(small(bytes))
}

#[test]
fn a_pixel_too_large_is_8() {
    let (mut count, mut random) = (0, Random::new(25));
    for shape in native_shapes() {
        let tile = random.pixels(shape.depth, shape.pixels());
        let least = 1 << shape.depth;
        for place in 0..shape.pixels() {
            for value in [least - 1, least, 255] {
                let mut pixels = tile.clone();
                // at depth 8 the least too large is no byte
                pixels[place] = u8::try_from(value).unwrap_or(255);
                for room in [shape.bytes(), shape.bytes() - 1] {
                    count += same_packed(shape, &pixels, &random.bytes(room));
                }
            }
        }
    }
    print_count("large pixels in every place", count);
}

#[test]
fn tiles_return() {
    let mut random = Random::new(26);
    for shape in native_shapes() {
        let (mut pixels, mut bytes) = (vec![0; shape.pixels()], vec![0; shape.bytes()]);
        for _ in 0..200 {
            let tile = random.pixels(shape.depth, shape.pixels());
            assert_eq!(pack_tile(shape, &tile, &mut bytes), Ok(bytes.len()));
            assert_eq!(unpack_tile(shape, &bytes, &mut pixels), Ok(pixels.len()));
            assert_eq!(pixels, tile, "{shape:?}");

            let packed = random.bytes(shape.bytes());
            assert_eq!(unpack_tile(shape, &packed, &mut pixels), Ok(pixels.len()));
            assert_eq!(pack_tile(shape, &pixels, &mut bytes), Ok(bytes.len()));
            assert_eq!(bytes, packed, "{shape:?}");
        }
    }
}

/// Every choice of these refusals.
pub fn choices(refusals: &[u32]) -> impl Iterator<Item = Vec<u32>> {
    (0..1 << refusals.len()).map(move |choice: u32| {
        let chosen = refusals.iter().zip(0..).filter(|(_, place)| choice >> place & 1 == 1);
        chosen.map(|(&refusal, _)| refusal).collect()
    })
}

/// The shape with a mode, depth and width that call for these refusals.
fn damaged(shape: Shape, refusals: &[u32]) -> Shape {
    Shape {
        mode: if refusals.contains(&1) { 16 } else { shape.mode },
        depth: if refusals.contains(&3) { 3 } else { shape.depth },
        width: if refusals.contains(&4) { 9 } else { shape.width },
        height: shape.height,
    }
}

/// "Where several apply, the lowest number is given": whichever of packing's do.
#[test]
fn the_lowest_refusal_of_packing() {
    for shape in native_shapes() {
        for refusals in choices(&[1, 3, 4, 7, 8, 11]) {
            // at depth 8 no byte is too large
            if shape.depth == 8 && refusals.contains(&8) {
                continue;
            }
            let mut pixels = vec![0; shape.pixels()];
            if refusals.contains(&8) {
                pixels[63] = 255;
            }
            if refusals.contains(&7) {
                pixels.push(0);
            }
            let room = shape.bytes() - usize::from(refusals.contains(&11));
            let answer = pack_tile(damaged(shape, &refusals), &pixels, &mut vec![0; room]);
            let expected = refusals.first().map_or(Ok(shape.bytes()), |&lowest| Err(lowest));
            assert_eq!(answer, expected, "{shape:?} {refusals:?}");
        }
    }
}

/// And whichever of unpacking's.
#[test]
fn the_lowest_refusal_of_unpacking() {
    for shape in native_shapes() {
        for refusals in choices(&[1, 3, 4, 7, 11]) {
            let length = shape.bytes() + usize::from(refusals.contains(&7));
            let room = shape.pixels() - usize::from(refusals.contains(&11));
            let answer = unpack_tile(damaged(shape, &refusals), &vec![0; length], &mut vec![0; room]);
            let expected = refusals.first().map_or(Ok(shape.pixels()), |&lowest| Err(lowest));
            assert_eq!(answer, expected, "{shape:?} {refusals:?}");
        }
    }
}
