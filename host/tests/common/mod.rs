//! What both test files use: calls on lent buffers of noise, and tiles.

pub mod pictures;
pub mod sets;

use std::io::Write;

use reading::{Random, Shape, native_shapes};
use rumchivoat::Refusal;

/// Says a line also where the output of a test that passes is not shown.
pub fn say(line: &str) {
    writeln!(std::io::stderr(), "{line}").expect("standard error can be written");
}

/// A call's answer, with document 01's number where it is a refusal.
pub fn told<T>(answer: Result<T, Refusal>) -> Result<T, u32> {
    answer.map_err(Refusal::number)
}

/// What a call answers on a lent buffer that holds `noise`, and what the buffer holds then.
pub fn on_noise(noise: &[u8], call: impl FnOnce(&mut [u8]) -> Result<usize, u32>) -> (Result<usize, u32>, Vec<u8>) {
    let mut buffer = noise.to_vec();
    let answer = call(&mut buffer);
    (answer, buffer)
}

/// The sizes of buffer to try where `needed` bytes are to be written: one byte short, exact, one byte long.
pub fn rooms(needed: usize) -> impl Iterator<Item = usize> {
    needed.saturating_sub(1)..=needed + 1
}

/// Fails unless the call answers `expected` and the buffer holds it: the bytes, then the noise that was there; after a
/// refusal the noise alone. Answers 1, the comparison made.
pub fn assert_writes(
    case: impl Fn() -> String,
    expected: Result<&[u8], u32>,
    noise: &[u8],
    call: impl FnOnce(&mut [u8]) -> Result<usize, u32>,
) -> u64 {
    let (answer, buffer) = on_noise(noise, call);
    let bytes = expected.unwrap_or(&[]);
    assert_eq!(answer, expected.map(<[u8]>::len), "{}", case());
    assert_eq!(&buffer[..bytes.len()], bytes, "bytes written by {}", case());
    assert_eq!(buffer[bytes.len()..], noise[bytes.len()..], "bytes left by {}", case());
    1
}

/// Fails unless the call writes these bytes in buffers of noise that are exact and one byte long, and is refused with 11
/// in one that is one byte short.
pub fn writes(
    case: impl Fn() -> String,
    bytes: &[u8],
    random: &mut Random,
    call: impl Fn(&mut [u8]) -> Result<usize, u32>,
) -> u64 {
    rooms(bytes.len())
        .map(|room| {
            let expected = if room < bytes.len() { Err(11) } else { Ok(bytes) };
            assert_writes(|| format!("{} in {room} bytes", case()), expected, &random.bytes(room), &call)
        })
        .sum()
}

/// The port's `pack_tile`, told the shape.
pub fn pack_tile(shape: Shape, pixels: &[u8], out: &mut [u8]) -> Result<usize, u32> {
    let Shape { mode, depth, width, height } = shape;
    told(rumchivoat::pack_tile(mode, depth, width, height, pixels, out))
}

/// The port's `unpack_tile`, told the shape.
pub fn unpack_tile(shape: Shape, bytes: &[u8], out: &mut [u8]) -> Result<usize, u32> {
    let Shape { mode, depth, width, height } = shape;
    told(rumchivoat::unpack_tile(mode, depth, width, height, bytes, out))
}

/// What a call is told of a flip: h, and v.
pub type Flip = (bool, bool);

/// The four flips: none, each, and both.
pub const FLIPS: [Flip; 4] = [(false, false), (true, false), (false, true), (true, true)];

/// Every mode and depth that has native tiles of 8x8: all but pce_sprite's.
pub fn cells() -> impl Iterator<Item = Shape> {
    native_shapes().filter(|shape| (shape.width, shape.height) == (8, 8))
}

/// The port's `flip_tile`, told the shape, of which it takes mode and depth.
pub fn flip_tile(shape: Shape, flip: Flip, bytes: &[u8], out: &mut [u8]) -> Result<usize, u32> {
    told(rumchivoat::flip_tile(shape.mode, shape.depth, flip.0, flip.1, bytes, out))
}

/// Every way to set one of the low `bits` bits in one of so many bytes, all else 0.
pub fn single_bits(length: usize, bits: u32) -> impl Iterator<Item = Vec<u8>> {
    (0..length).flat_map(move |place| {
        (0..bits).map(move |bit| {
            let mut bytes = vec![0; length];
            bytes[place] = 1 << bit;
            bytes
        })
    })
}

/// The lengths of tiles, pixels and bytes, are powers of two: each, one less and one more.
pub fn lengths_around_tiles() -> impl Iterator<Item = usize> {
    (0..=12).flat_map(|power| [(1 << power) - 1, 1 << power, (1 << power) + 1])
}
