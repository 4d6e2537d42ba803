//! Runs of adds and look-ups, and tile numbers.

use reading::{MODES, Random, Shape, flipped, set_shapes};
use superfamiconv::plain;

use crate::list::List;
use crate::{hex, shape_text};

/// Tiles of a run by the pixels of one: enough for each change below, and lines that are not long.
fn run_length(shape: Shape) -> usize {
    match shape.pixels() {
        64 => 10,
        // example (l): a second row of tiles
        256 if shape.mode == 0 => 9,
        _ => 5,
    }
}

/// 8x8 in every mode and depth, and a few larger ones: those of snes, md and pce_sprite that make short lines.
fn shapes() -> impl Iterator<Item = Shape> {
    let larger = [(0, 2, 16, 16), (0, 4, 16, 8), (0, 2, 8, 16), (0, 2, 32, 8), (6, 4, 8, 16), (10, 4, 16, 16)];
    set_shapes().filter(move |shape| {
        let Shape { mode, depth, width, height } = *shape;
        shape.pixels() == 64 || larger.contains(&(mode, depth, width, height))
    })
}

/// Flips and discarding of the runs of a shape: both on, and for snes and gb every choice; of 16x16 all are stored.
fn settings(shape: Shape) -> &'static [(bool, bool)] {
    const EVERY: [(bool, bool); 4] = [(true, true), (true, false), (false, true), (false, false)];
    match (MODES[shape.mode as usize].name, shape.depth, shape.width, shape.height) {
        ("snes" | "gb", 2, 8, 8) => &EVERY,
        ("snes", _, 16, 16) => &EVERY[1..2],
        _ => &EVERY[..1],
    }
}

/// A tile of few colours, then tiles made of it and of each other.
fn run_tiles(shape: Shape, random: &mut Random) -> Vec<Vec<u8>> {
    let mirrored = |tile: &[u8], h: bool, v: bool| flipped(tile, shape.width, h, v);
    let joined = |one: &[u8], other: &[u8]| -> Vec<u8> { one.iter().zip(other).map(|(a, b)| *a.max(b)).collect() };
    let first = random.pixels(shape.depth.min(2), shape.pixels());
    let mut one_off = first.clone();
    one_off[shape.pixels() - 1] ^= 1;
    // its own mirror image under h; turned upside down it has two flips, of which v is tried first
    let across = joined(&first, &mirrored(&first, true, false));
    let around = joined(&first, &mirrored(&first, true, true));
    let above: Vec<u8> = one_off.iter().map(|&pixel| pixel | 1 << (shape.depth % 8)).collect();
    let tiles = [
        first.clone(),
        mirrored(&first, true, true),
        across.clone(),
        mirrored(&across, false, true),
        one_off,
        mirrored(&first, true, false),
        around.clone(),
        mirrored(&around, false, true),
        mirrored(&first, false, true),
        above,
    ];
    tiles.into_iter().take(run_length(shape)).collect()
}

/// What the Rust answers of each tile: where it is before it is added, with its flip, and how many are stored then.
fn add_run(list: &mut List, shape: Shape, (flips, discarding): (bool, bool), random: &mut Random) {
    let Shape { mode, depth, width, height } = shape;
    let rust = plain::mode(mode);
    let mut set = plain::tileset(rust, depth, width, height, flips, discarding, 0);
    let (mut answers, tiles) = (Vec::new(), run_tiles(shape, random));
    for tile in &tiles {
        let tile = plain::image(width, height, tile);
        let found = plain::look_up(&set, rust, depth, &tile);
        plain::add(&mut set, &tile).expect("the image has pixels");
        let (place, h, v) = found.map_or((NOTHING, false, false), |(place, h, v)| (place as u8, h, v));
        answers.extend([place, u8::from(h) + 2 * u8::from(v), plain::counts(&set).0 as u8]);
    }
    let (flips, discarding) = (u8::from(flips), u8::from(discarding));
    let bytes = plain::to_native_data(&set).expect("the Rust writes a set");
    let (shape, tiles) = (shape_text(shape), hex(&tiles.concat()));
    list.line(&format!("set {shape} {flips} {discarding} {} {tiles} {}", hex(&answers), hex(&bytes)));
}

/// The place where nothing is found.
const NOTHING: u8 = 0xff;

pub fn add_runs(list: &mut List, random: &mut Random) {
    for shape in shapes() {
        for &settings in settings(shape) {
            add_run(list, shape, settings, random);
        }
    }
}

/// Random cells, read as a set: two tiles and, of those larger than a cell, one cell more.
fn add_read(list: &mut List, shape: Shape, random: &mut Random) {
    let Shape { mode, depth, width, height } = shape;
    let (across, down, row) = (width / 8, height / 8, if mode == 0 { 16 } else { 1 });
    let second = plain::native_tile_index(plain::mode(mode), width, height, 1);
    let cells = second + (down - 1) * row + across + u32::from(shape.pixels() > 64);
    let bytes = random.bytes((cells * depth * 8) as usize);
    let set = plain::from_native_data(plain::mode(mode), depth, width, height, true, &bytes);
    let set = set.expect("the bytes are whole cells");
    let (stored, _) = plain::counts(&set);
    list.line(&format!("cells {} {} {stored} {}", shape_text(shape), hex(&bytes), hex(&plain::tile_pixels(&set))));
}

pub fn add_reads(list: &mut List, random: &mut Random) {
    let read = |shape: &Shape| shape.depth > 1 && MODES[shape.mode as usize].name != "pce_sprite";
    shapes().filter(read).for_each(|shape| add_read(list, shape, random));
}

/// Every size of snes and md, at the edges of rows of tiles and at the last tile.
pub fn add_numbers(list: &mut List) {
    let depth_2_or_4 = |shape: &Shape| (shape.mode == 0 && shape.depth == 2) || shape.mode == 6;
    for Shape { mode, width, height, .. } in set_shapes().filter(depth_2_or_4) {
        let rust = plain::mode(mode);
        for tile in [0, 1, 7, 8, 9, 65_535] {
            let cell = plain::native_tile_index(rust, width, height, tile);
            list.line(&format!("native {mode} {width} {height} {tile} {cell}"));
            let tile = plain::logical_tile_index(rust, width, height, cell + 1);
            if tile <= 65_535 {
                list.line(&format!("logical {mode} {width} {height} {} {tile}", cell + 1));
            }
        }
    }
}
