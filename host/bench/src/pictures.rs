//! Whole pictures: conversion, at once and in strips, and redrawing.
//!
//! The Rust's side of `convert` is its set, its look-up, its entries and its packing, on pixels: the colours that its map
//! goes through are left out, so that both do the same. `convert, whole` has the Rust as it stands, with its image and
//! its map. `strips` has the port take the picture of the `convert` line above it in strips of one row of tiles; the Rust
//! has no strips, and converts it at once. Its redrawing draws colours, for it draws nothing else.

use std::hint::black_box;

use reading::{MODES, Random, Shape};
use rumchivoat::{MapSize, Mode, Picture, Run, Settings, convert, redraw};
use superfamiconv::{pictures, plain};

use crate::{Measured, measured, turn_about};

/// What tiles are like.
#[derive(Clone, Copy)]
enum Kind {
    /// Two differ in nearly every pixel.
    Any,
    /// One tile with two pixels exchanged: any sum over the pixels is the same.
    Near,
    /// Blank but for three dots.
    Sparse,
}

use Kind::{Any, Near, Sparse};

/// A square picture of so many tiles a side, of which so many are different, each as often as the others.
struct Case {
    mode: Mode,
    depth: u32,
    side: u32,
    name: &'static str,
    different: usize,
    kind: Kind,
}

const fn case(mode: Mode, depth: u32, side: u32, name: &'static str, different: usize, kind: Kind) -> Case {
    Case { mode, depth, side, name, different, kind }
}

/// As many different tiles as the mode's entries can name, or fewer.
#[rustfmt::skip]
const CASES: &[Case] = &[
    //   mode    depth side  name       different  kind
    case(Mode::Snes, 4,  32, "different",    1024, Any),
    case(Mode::Snes, 4,  32, "half",          512, Any),
    case(Mode::Snes, 4,  32, "same",            1, Any),
    case(Mode::Snes, 4,  32, "near",         1024, Near),
    case(Mode::Snes, 4,  32, "sparse",       1024, Sparse),
    case(Mode::Snes, 4,  64, "quarter",      1024, Any),
    case(Mode::Snes, 4,  64, "same",            1, Any),
    case(Mode::Snes, 4,  64, "near",         1024, Near),
    case(Mode::Snes, 4,  64, "sparse",       1024, Sparse),
    case(Mode::Md,   4,  64, "half",         2048, Any),
    case(Mode::Pce,  4,  64, "different",    4096, Any),
    case(Mode::Pce,  4,  64, "sparse",       4096, Sparse),
    case(Mode::Snes, 2,  32, "half",          512, Any),
    case(Mode::Snes, 8,  32, "half",          512, Any),
    case(Mode::Gb,   1,  16, "different",     256, Any),
    case(Mode::Gb,   1,  16, "same",            1, Any),
    case(Mode::Sms,  4,  32, "half",          512, Any),
    case(Mode::Gba,  8,  32, "half",          512, Any),
    case(Mode::Gba,  8,  32, "same",            1, Any),
];

/// The cases that are redrawn as well.
const REDRAWN: [&str; 2] = ["half", "different"];

/// The side of the pictures that the Rust converts as a whole as well.
const WHOLE: u32 = 32;

/// The side of those that come in strips as well, a row of tiles at a time.
const IN_STRIPS: u32 = 64;

impl Case {
    fn row(&self) -> &'static reading::Row {
        &MODES[self.mode.number() as usize]
    }

    fn text(&self) -> String {
        let Case { mode, depth, side, name, .. } = self;
        format!("{mode} {depth} {side}x{side} {name}")
    }

    /// Flips off, and on where the mode has them.
    fn flips(&self) -> &'static [bool] {
        if self.row().flips { &[false, true] } else { &[false] }
    }

    fn settings(&self, flip: bool) -> Settings {
        let size = MapSize { columns: self.side, rows: self.side };
        let settings = Settings::new(self.mode, self.depth, size).discarding();
        if flip { settings.flips() } else { settings }
    }

    fn tile(&self, base: &[u8], random: &mut Random) -> Vec<u8> {
        let mut place = || random.below(64) as usize;
        let places = [place(), place(), place()];
        match self.kind {
            Any => random.pixels(self.depth, 64),
            Near => {
                let mut tile = base.to_vec();
                tile.swap(places[0], places[1]);
                tile
            }
            Sparse => {
                let mut tile = vec![0; 64];
                for place in places {
                    tile[place] = 1 + random.below((1 << self.depth) - 1) as u8;
                }
                tile
            }
        }
    }

    /// The different tiles, of which no two match.
    fn different_tiles(&self, random: &mut Random) -> Vec<Vec<u8>> {
        let shape = Shape { mode: self.mode.number(), depth: self.depth, width: 8, height: 8 };
        let base = random.pixels(self.depth, 64);
        let mut store = vec![0; 64 * self.different];
        let mut set = reading::set_new(shape, true, true, 0).expect("8x8 tiles are a set's");
        while (set.stored as usize) < self.different {
            set = reading::set_add(set, &mut store, &self.tile(&base, random)).expect("there is room");
        }
        store.chunks_exact(64).map(<[u8]>::to_vec).collect()
    }

    /// The picture's pixels: the different tiles over and over, mirrored where flips are on.
    fn pixels(&self, flip: bool, random: &mut Random) -> Vec<u8> {
        let different = self.different_tiles(random);
        let tiles: Vec<Vec<u8>> = (0..(self.side * self.side) as usize)
            .map(|place| {
                let (h, v) = if flip { (random.flag(), random.flag()) } else { (false, false) };
                reading::flipped(&different[place % different.len()], 8, h, v)
            })
            .collect();
        let line = |row: &[Vec<u8>], y: usize| row.iter().flat_map(|tile| &tile[8 * y..][..8]).copied().collect();
        tiles.chunks(self.side as usize).flat_map(|row| (0..8).flat_map(move |y| -> Vec<u8> { line(row, y) })).collect()
    }
}

/// Every case, flips off and on where the mode has them.
pub fn lines(random: &mut Random) -> impl Iterator<Item = Measured> {
    CASES
        .iter()
        .flat_map(|case| case.flips().iter().flat_map(|&flip| case_lines(case, flip, random)).collect::<Vec<_>>())
}

fn rust_settings(settings: Settings) -> pictures::Settings {
    let Settings { mode, depth, flip, discard, limit, palette, columns, rows, .. } = settings;
    pictures::Settings { mode: plain::mode(mode), depth, flip, discard, limit, palette, columns, rows }
}

fn case_lines(case: &Case, flip: bool, random: &mut Random) -> Vec<Measured> {
    let (settings, pixels) = (case.settings(flip), case.pixels(flip, random));
    let (tiles, map) = pictures::convert_pixels(rust_settings(settings), &pixels);
    assert_eq!(tiles.len(), case.different * 8 * case.depth as usize, "{}", case.text());
    let theirs = rust_settings(settings);
    let call = if flip { "convert, flips" } else { "convert" };
    let mut lines = vec![converting(call, case, settings, &pixels, (&tiles, &map), |pixels| {
        black_box(pictures::convert_pixels(theirs, pixels));
    })];
    if case.side == IN_STRIPS {
        lines.push(in_strips(case, settings, &pixels, (&tiles, &map)));
    }
    if flip && case.side == WHOLE {
        let most = pictures::max_tile_count(theirs.mode);
        lines.push(converting("convert, whole", case, settings, &pixels, (&tiles, &map), |pixels| {
            let converted = pictures::convert(theirs, most, pixels);
            black_box(plain::to_native_data(&converted.set).expect("the Rust writes 8x8 tiles"));
        }));
    }
    // at depth 1 the Rust panics
    if REDRAWN.contains(&case.name) && case.depth > 1 {
        lines.push(redrawing(case, settings, &tiles, &map));
    }
    lines
}

fn converting(
    call: &'static str,
    case: &Case,
    settings: Settings,
    pixels: &[u8],
    (tiles, map): (&[u8], &[u8]),
    mut rust: impl FnMut(&[u8]),
) -> Measured {
    let (mut tile_buffer, mut map_buffer) = (vec![0; tiles.len()], vec![0; map.len()]);
    convert(settings, pixels, &mut tile_buffer, &mut map_buffer).expect("there is room");
    assert!(tile_buffer == tiles && map_buffer == map, "both sides convert {} alike", case.text());
    measured(
        call,
        case.text(),
        (case.side * case.side) as usize,
        || {
            let pixels = black_box(pixels);
            black_box(convert(settings, pixels, &mut tile_buffer, &mut map_buffer).expect("there is room"));
        },
        || rust(black_box(pixels)),
    )
}

/// Takes a picture row by row of its tiles, as from a bus, with one record.
fn take_rows(settings: Settings, pixels: &[u8], tiles: &mut [u8], map: &mut [u8]) -> Picture {
    let mut run = Run::start(settings).expect("the settings are good");
    for strip in pixels.chunks_exact(run.row_len()) {
        run.take(strip, tiles, map).expect("there is room");
    }
    run.end().expect("all rows have come")
}

/// The port in strips, and the Rust on the whole.
fn in_strips(case: &Case, settings: Settings, pixels: &[u8], (tiles, map): (&[u8], &[u8])) -> Measured {
    let theirs = rust_settings(settings);
    let (mut tile_buffer, mut map_buffer) = (vec![0; tiles.len()], vec![0; map.len()]);
    take_rows(settings, pixels, &mut tile_buffer, &mut map_buffer);
    assert!(tile_buffer == tiles && map_buffer == map, "strips of {} come to the whole", case.text());
    measured(
        if settings.flip { "strips, flips" } else { "strips" },
        case.text(),
        (case.side * case.side) as usize,
        || {
            black_box(take_rows(settings, black_box(pixels), &mut tile_buffer, &mut map_buffer));
        },
        || {
            black_box(pictures::convert_pixels(theirs, black_box(pixels)));
        },
    )
}

/// A picture in strips beside the same picture at once. Both are the port's: the Rust has no strips.
pub fn print_table(random: &mut Random) {
    println!(
        "\nthe port alone, no Rust: {IN_STRIPS} strips of one row of tiles, and convert on the same picture; ns for one \
         tile\n"
    );
    println!("{:<37} {:>5} {:>9} {:>9} {:>14}", "picture", "items", "strips", "convert", "strips/convert");
    for case in CASES.iter().filter(|case| case.side == IN_STRIPS) {
        for &flip in case.flips() {
            let (settings, pixels) = (case.settings(flip), case.pixels(flip, random));
            let items = (case.side * case.side) as usize;
            let (strips, whole) = beside_the_whole(settings, &pixels, items);
            let picture = format!("{}{}", case.text(), if flip { ", flips" } else { "" });
            println!("{picture:<37} {items:>5} {strips:>9.3} {whole:>9.3} {:>14.2}", strips / whole);
        }
    }
}

/// The times for a tile of this picture in strips and at once.
fn beside_the_whole(settings: Settings, pixels: &[u8], items: usize) -> (f64, f64) {
    let tile_len = settings.tile_len().expect("the settings are good");
    let [mut tiles, mut whole_tiles] = [(); 2].map(|()| vec![0; tile_len]);
    let [mut map, mut whole_map] = [(); 2].map(|()| vec![0; 2 * items]);
    let taken = take_rows(settings, pixels, &mut tiles, &mut map);
    let converted = convert(settings, pixels, &mut whole_tiles, &mut whole_map).expect("there is room");
    assert!(taken == converted && tiles == whole_tiles && map == whole_map, "strips come to the whole");
    turn_about(
        items,
        || {
            black_box(take_rows(settings, black_box(pixels), &mut tiles, &mut map));
        },
        || {
            black_box(convert(settings, black_box(pixels), &mut whole_tiles, &mut whole_map).expect("there is room"));
        },
    )
}

fn redrawing(case: &Case, settings: Settings, tiles: &[u8], map: &[u8]) -> Measured {
    let Settings { mode, depth, columns, rows, flip, .. } = settings;
    let theirs = rust_settings(settings);
    let palettes = pictures::palettes(theirs.mode, depth);
    let mut out = vec![0; (64 * columns * rows) as usize];
    measured(
        if flip { "redraw, flips" } else { "redraw" },
        case.text(),
        (columns * rows) as usize,
        || {
            let written = redraw(mode, depth, columns, rows, black_box(tiles), black_box(map), &mut out);
            black_box(written.expect("the bytes are a picture's"));
        },
        || {
            black_box(pictures::redraw_colors(theirs, &palettes, black_box(tiles), black_box(map)));
        },
    )
}
