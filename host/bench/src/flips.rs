//! Native tiles flipped as they are, beside the way through their pixels: unpacked, flipped, packed.
//!
//! In the main table that way is the Rust's. In a table of the port alone it is the port's `unpack_tile` and `pack_tile`
//! with a plain flip of the pixels between them, all buffers lent: what a station does that has no `flip_tile`.

use std::hint::black_box;

use reading::{Random, Shape, native_shapes};
use rumchivoat::{flip_tile, pack_tile, unpack_tile};
use superfamiconv::plain;

use crate::{Measured, TILES, alone, measured, print_head, print_least, print_line, shape_text};

#[derive(Clone, Copy)]
struct Flip {
    h: bool,
    v: bool,
}

const FLIPS: [Flip; 3] = [Flip { h: true, v: false }, Flip { h: false, v: true }, Flip { h: true, v: true }];

impl Flip {
    /// The call, as a line names it.
    fn call(self) -> &'static str {
        match (self.h, self.v) {
            (false, false) => "flip_tile",
            (true, false) => "flip_tile, h",
            (false, true) => "flip_tile, v",
            (true, true) => "flip_tile, hv",
        }
    }
}

/// A tile's eight rows.
type Pixels = [[u8; 8]; 8];

/// A flip of so many tiles of a shape, whose bytes are any.
struct Case {
    shape: Shape,
    flip: Flip,
    bytes: Vec<u8>,
}

/// Each flip of each mode and depth. Pce_sprite alone has no tiles of 8x8.
fn cases(random: &mut Random) -> impl Iterator<Item = Case> {
    let shapes = || native_shapes().filter(|shape| shape.width == 8);
    let flips = FLIPS.into_iter().flat_map(move |flip| shapes().map(move |shape| (shape, flip)));
    flips.map(|(shape, flip)| Case { shape, flip, bytes: random.bytes(TILES * shape.bytes()) })
}

impl Case {
    /// Flips each tile, by this way of flipping one, into its place of the buffer.
    fn flip_all(&self, out: &mut [u8], mut flip_one: impl FnMut(Shape, Flip, &[u8], &mut [u8])) {
        let (shape, flip) = black_box((self.shape, self.flip));
        let places = out.chunks_exact_mut(shape.bytes());
        for (tile, place) in black_box(&self.bytes).chunks_exact(shape.bytes()).zip(places) {
            flip_one(shape, flip, tile, place);
        }
        black_box(out);
    }

    /// The tiles' bytes for the Rust: at depth 1 it runs off a tile's 8, and is given 16, of which it reads every other
    /// one.
    fn rust_bytes(&self) -> Vec<u8> {
        if self.shape.depth > 1 {
            return self.bytes.clone();
        }
        self.bytes.iter().flat_map(|&byte| [byte, 0]).collect()
    }

    /// The line of two ways to flip these tiles, which come to the same bytes.
    fn line(&self, mut port: impl FnMut(&mut Vec<u8>), mut beside: impl FnMut(&mut Vec<u8>)) -> Measured {
        let [mut ours, mut theirs] = [(); 2].map(|()| vec![0; self.bytes.len()]);
        port(&mut ours);
        beside(&mut theirs);
        let (call, mode) = (self.flip.call(), shape_text(self.shape));
        assert!(ours == theirs, "{call}: both come to the same in {mode}");
        measured(call, mode, TILES, || port(&mut ours), || beside(&mut theirs))
    }
}

fn as_it_is(shape: Shape, flip: Flip, tile: &[u8], place: &mut [u8]) {
    flip_tile(shape.mode, shape.depth, flip.h, flip.v, tile, place).expect("the tile is native");
}

fn through_pixels(pixels: &mut Pixels, shape: Shape, flip: Flip, tile: &[u8], place: &mut [u8]) {
    let Shape { mode, depth, width, height } = shape;
    unpack_tile(mode, depth, width, height, tile, pixels.as_flattened_mut()).expect("the tile is native");
    flip_pixels(pixels, flip);
    pack_tile(mode, depth, width, height, pixels.as_flattened(), place).expect("the pixels are of this depth");
}

/// Each row backwards, the rows backwards, or all pixels.
fn flip_pixels(pixels: &mut Pixels, flip: Flip) {
    match (flip.h, flip.v) {
        (false, false) => {}
        (true, false) => pixels.iter_mut().for_each(|row| row.reverse()),
        (false, true) => pixels.reverse(),
        (true, true) => pixels.as_flattened_mut().reverse(),
    }
}

/// The port's flip beside the Rust's unpacking, flip and packing.
pub fn lines(random: &mut Random) -> impl Iterator<Item = Measured> {
    cases(random).map(|case| beside_the_rust(&case))
}

fn beside_the_rust(case: &Case) -> Measured {
    let (mode, bytes) = (plain::mode(case.shape.mode), case.rust_bytes());
    case.line(
        |out| case.flip_all(out, as_it_is),
        |data| {
            let (mode, depth, flip) = black_box((mode, case.shape.depth, case.flip));
            data.clear();
            for tile in black_box(&bytes).chunks_exact(bytes.len() / TILES) {
                data.extend(plain::flip_tile(mode, depth, flip.h, flip.v, tile).expect("the tile is native"));
            }
            black_box(data);
        },
    )
}

/// The port's flip beside its own way through the pixels: no comparison with the Rust.
pub fn print_table(random: &mut Random) {
    println!(
        "\nthe port alone, no Rust: flip_tile, and unpack_tile, a flip of the 64 pixels, pack_tile; ns for one tile\n"
    );
    print_head("flip_tile", "pixels", "ratio");
    let table: Vec<Measured> = cases(random).map(|case| beside_its_pixels(&case)).inspect(print_line).collect();
    let [h, v, hv] = FLIPS.map(pixels_alone);
    println!("\nthe flip of the 64 pixels alone: h {h:.3}, v {v:.3}, hv {hv:.3}");
    print_least(&table);
}

fn beside_its_pixels(case: &Case) -> Measured {
    let mut pixels = Pixels::default();
    case.line(
        |out| case.flip_all(out, as_it_is),
        |out| case.flip_all(out, |shape, flip, tile, place| through_pixels(&mut pixels, shape, flip, tile, place)),
    )
}

/// The time of the flip that stands between unpacking and packing.
fn pixels_alone(flip: Flip) -> f64 {
    let mut tiles = vec![Pixels::default(); TILES];
    alone(TILES, || {
        let flip = black_box(flip);
        for pixels in black_box(&mut tiles) {
            flip_pixels(pixels, flip);
        }
        black_box(&tiles);
    })
}
