//! Makes the fixed list: a sample of the Rust's answers, the same in every run.
//!
//! `cargo run --release --offline --bin sample` in host/ prints it; with `-- --write` it goes to crates/replay/stdin, and
//! that file changes only when the whole list is made. Every answer is the Rust's own; every input is one that document
//! 01 answers with 0, as `reading` tells.

mod file;
mod list;
mod sets;

use std::env;
use std::io::{self, Write};
use std::path::Path;
use std::process::ExitCode;

use list::List;
use reading::{MODES, Random, Row, Shape, native_shapes};
use superfamiconv::bank::without_bank;
use superfamiconv::plain;

const HEAD: &str = "\
# A sample of the Rust's answers (SuperFamiconv 566522204e, compiled unchanged), on inputs that document 01 answers with 0.
# Made by `cargo run --release --offline --bin sample` in host/: edges first, then xorshift numbers of a fixed seed.
# One case a line. Modes are numbers; bytes are hexadecimal, - where there are none; H V PRIORITY NEAREST are 0 or 1.
# colors MODE RGBA BYTES                       pack_colors
# palette MODE BYTES RGBA                      unpack_colors
# reduce MODE VALUE NEAREST RESULT             reduce_channel
# scale MODE COMPONENT RESULT                  scale_up
# entry MODE TILE PALETTE H V PRIORITY BYTES   pack_mapentry
# read MODE BYTES TILE PALETTE H V PRIORITY    unpack_mapentry; in ws without the bit that only the Rust reads
# index MODE TILE PALETTE H V PRIORITY BYTES   get_tile_index
# attribute MODE TILE PALETTE H V PRIORITY VALUE   get_attribute
# tile MODE DEPTH WIDTH HEIGHT PIXELS BYTES    pack_tile; a pixel is a byte
# pixels MODE DEPTH WIDTH HEIGHT BYTES PIXELS  unpack_tile, but at depth 1, where the Rust panics
# set MODE DEPTH WIDTH HEIGHT FLIPS DISCARDING ANSWERS TILES BYTES   index_of, matching_flip and add of tile after tile in
#   an empty set, then to_native_data; ANSWERS has three bytes a tile: its place before it is added, ff where nothing is
#   found; 1 for h, 2 for v; how many tiles are stored when it is added
# cells MODE DEPTH WIDTH HEIGHT BYTES STORED PIXELS   from_native_data, flips on, but at depth 1
# native MODE WIDTH HEIGHT LOGICAL NATIVE      native_tile_index
# logical MODE WIDTH HEIGHT NATIVE LOGICAL     logical_tile_index";

/// Colours of a random case: with their bytes they stay below 160 digits.
const MOST_COLORS: u32 = 12;

/// Random tiles of a mode and depth, of 8x8 and of 16x16; larger sprites would make long lines.
const TILES: usize = 5;
const SPRITES: usize = 1;

/// A mode, its row and the Rust's name for it.
struct Case {
    mode: u32,
    row: &'static Row,
    rust: plain::Mode,
}

/// Where the program `replay` reads the list.
const PLACE: &str = concat!(env!("CARGO_MANIFEST_DIR"), "/../../crates/replay/stdin");

const USAGE: &str = "usage: sample [--write]";

fn main() -> ExitCode {
    let words: Vec<String> = env::args().skip(1).collect();
    let told = match words.iter().map(String::as_str).collect::<Vec<_>>()[..] {
        [] => made().and_then(|list| print(&list)),
        ["--write"] => made().and_then(|list| write(&list)),
        _ => Err(USAGE.to_owned()),
    };
    match told {
        Ok(()) => ExitCode::SUCCESS,
        Err(told) => {
            eprintln!("{told}");
            ExitCode::FAILURE
        }
    }
}

fn print(list: &List) -> Result<(), String> {
    io::stdout().write_all(list.text().as_bytes()).map_err(|error| format!("the list cannot be printed: {error}"))
}

fn write(list: &List) -> Result<(), String> {
    file::replace(Path::new(PLACE), list.text())?;
    eprintln!("crates/replay/stdin has {} lines", list.text().lines().count());
    Ok(())
}

/// The whole list, or why there is none.
fn made() -> Result<List, String> {
    if !superfamiconv::PRESENT {
        return Err(format!("the fixed list is {}", superfamiconv::ABSENT));
    }
    let mut list = List::default();
    list.line(HEAD);
    let mut random = Random::new(1);
    for add in [add_colors, add_palettes, add_channels, add_entries, add_reads] {
        for (mode, row) in (0..).zip(&MODES) {
            add(&mut list, &Case { mode, row, rust: plain::mode(mode) }, &mut random);
        }
    }
    for add in [add_tiles, add_pixels] {
        for shape in native_shapes().filter(|shape| shape.pixels() <= 256) {
            add(&mut list, shape, &mut random);
        }
    }
    sets::add_runs(&mut list, &mut random);
    sets::add_reads(&mut list, &mut random);
    sets::add_numbers(&mut list);
    Ok(list)
}

fn hex(bytes: &[u8]) -> String {
    if bytes.is_empty() {
        return "-".to_owned();
    }
    bytes.iter().map(|byte| format!("{byte:02x}")).collect()
}

/// Whether the mode packs so many colours.
fn packs(case: &Case, colors: usize) -> bool {
    reading::packed_length(case.mode, 4 * colors).is_ok()
}

/// A number of colours that the mode packs.
fn some_colors(case: &Case, random: &mut Random) -> usize {
    let count = 1 + random.below(MOST_COLORS) as usize;
    if packs(case, count) { count } else { 4 }
}

fn add_colors(list: &mut List, case: &Case, random: &mut Random) {
    let top = case.row.top as u8;
    let corners = (0..8).flat_map(|corner| [corner & 1, corner >> 1 & 1, corner >> 2 & 1].map(|on| on * top));
    let corners: Vec<u8> = corners.collect::<Vec<u8>>().chunks(3).flat_map(|c| [c[0], c[1], c[2], 255]).collect();
    if packs(case, 0) {
        add_packed(list, case, &[]);
        add_packed(list, case, &corners);
    } else {
        corners.chunks(16).for_each(|four| add_packed(list, case, four));
    }
    for _ in 0..14 {
        let count = some_colors(case, random);
        add_packed(list, case, &random.colors(case.row.top, count));
    }
}

fn add_packed(list: &mut List, case: &Case, rgba: &[u8]) {
    let bytes = plain::pack_colors(case.rust, &plain::colors(rgba)).expect("the mode packs so many colours");
    list.line(&format!("colors {} {} {}", case.mode, hex(rgba), hex(&bytes)));
}

fn add_palettes(list: &mut List, case: &Case, random: &mut Random) {
    let length = |colors: usize| reading::packed_length(case.mode, 4 * colors);
    let unpacks = |length: &usize| reading::unpacked_count(case.mode, *length).is_ok();
    let four = length(4).expect("every mode packs four colours");
    for bytes in [vec![0; four], vec![255; four]] {
        add_unpacked(list, case, &bytes);
    }
    if unpacks(&0) {
        add_unpacked(list, case, &[]);
    }
    for _ in 0..14 {
        let count = some_colors(case, random);
        // unused bits are as random as the others
        let some = length(count).ok().filter(unpacks).unwrap_or(four);
        add_unpacked(list, case, &random.bytes(some));
    }
}

fn add_unpacked(list: &mut List, case: &Case, bytes: &[u8]) {
    let colors = plain::unpack_colors(case.rust, bytes).expect("the mode unpacks so many bytes");
    list.line(&format!("palette {} {} {}", case.mode, hex(bytes), hex(&plain::rgba(&colors))));
}

fn add_channels(list: &mut List, case: &Case, random: &mut Random) {
    let edges = [0, 1, 127, 128, 254, 255];
    let values = edges.into_iter().chain((0..12).map(|_| random.byte()));
    for value in values {
        for nearest in [false, true] {
            let result = plain::reduce_channel(case.rust, value, nearest);
            list.line(&format!("reduce {} {value} {} {result}", case.mode, u8::from(nearest)));
        }
    }
    for component in 0..=case.row.top as u8 {
        list.line(&format!("scale {} {component} {}", case.mode, plain::scale_up(case.rust, component)));
    }
}

/// The edges of each field, then random entries, each as the mode holds it.
fn entries(row: &Row, random: &mut Random) -> Vec<plain::Entry> {
    let (tiles, palettes) = (1 << row.tile_bits, 1 << row.palette_bits);
    let mut entries = vec![plain::entry(0, 0, false, false, false)];
    entries.extend((0..row.tile_bits).map(|bit| plain::entry(1 << bit, 0, false, false, false)));
    entries.extend((0..row.palette_bits).map(|bit| plain::entry(0, 1 << bit, false, false, false)));
    if row.flips {
        entries.push(plain::entry(0, 0, true, false, false));
        entries.push(plain::entry(0, 0, false, true, false));
    }
    if row.priority {
        entries.push(plain::entry(0, 0, false, false, true));
    }
    entries.push(plain::entry(tiles - 1, palettes - 1, row.flips, row.flips, row.priority));
    entries.extend((0..12).map(|_| {
        let (tile, palette) = (random.below(tiles), random.below(palettes));
        let mut flag = |has: bool| random.flag() && has;
        plain::entry(tile, palette, flag(row.flips), flag(row.flips), flag(row.priority))
    }));
    entries
}

/// The fields of an entry as the list has them.
fn fields(entry: plain::Entry) -> String {
    let (tile, palette, h, v, priority) = plain::fields(entry);
    format!("{tile} {palette} {} {} {}", u8::from(h), u8::from(v), u8::from(priority))
}

fn add_entries(list: &mut List, case: &Case, random: &mut Random) {
    if case.row.entry_bytes == 0 {
        return;
    }
    for entry in entries(case.row, random) {
        let (mode, fields) = (case.mode, fields(entry));
        list.line(&format!("entry {mode} {fields} {}", hex(&plain::pack_mapentry(case.rust, entry))));
        list.line(&format!("index {mode} {fields} {}", hex(&plain::get_tile_index(case.rust, entry))));
        list.line(&format!("attribute {mode} {fields} {}", plain::get_attribute(case.rust, entry)));
    }
}

fn add_reads(list: &mut List, case: &Case, random: &mut Random) {
    let size = case.row.entry_bytes;
    if size == 0 {
        return;
    }
    let bits = (0..8 * size).map(|bit| (1u32 << bit).to_le_bytes()[..size].to_vec());
    // where the two differ there is nothing to replay
    let bits = bits.filter(|bytes| without_bank(case.mode, bytes) == *bytes);
    let words = bits.chain([vec![0; size], vec![255; size]]).collect::<Vec<_>>();
    for bytes in words.into_iter().chain((0..14).map(|_| random.bytes(size))) {
        let bytes = without_bank(case.mode, &bytes);
        list.line(&format!("read {} {} {}", case.mode, hex(&bytes), fields(plain::unpack_mapentry(case.rust, &bytes))));
    }
}

/// So many bytes, `first` and its successors, each cut to the low bits.
fn counting(first: usize, bits: u32, length: usize) -> Vec<u8> {
    (first..first + length).map(|number| (number % (1 << bits)) as u8).collect()
}

/// So many bytes of 0 but for one.
fn all_but_one(length: usize, place: usize, value: u8) -> Vec<u8> {
    let mut bytes = vec![0; length];
    bytes[place] = value;
    bytes
}

/// Tiles of `length` bytes, `bits` of each used: edges, then random ones. A sprite has one of each.
fn tiles(length: usize, bits: u32, sprite: bool, random: &mut Random) -> Vec<Vec<u8>> {
    let mut tiles = vec![counting(1, bits, length)];
    if !sprite {
        tiles.push(all_but_one(length, 1, 1));
        tiles.push(all_but_one(length, length - 1, 1 << (bits - 1)));
    }
    tiles.extend((0..if sprite { SPRITES } else { TILES }).map(|_| random.pixels(bits, length)));
    tiles
}

/// A shape as the list has it.
fn shape_text(shape: Shape) -> String {
    let Shape { mode, depth, width, height } = shape;
    format!("{mode} {depth} {width} {height}")
}

fn add_tiles(list: &mut List, shape: Shape, random: &mut Random) {
    let Shape { mode, depth, width, height } = shape;
    for pixels in tiles(shape.pixels(), depth, width > 8, random) {
        let bytes = plain::pack_tile(plain::mode(mode), depth, width, height, &pixels);
        let bytes = bytes.expect("the Rust packs a native tile");
        list.line(&format!("tile {} {} {}", shape_text(shape), hex(&pixels), hex(&bytes)));
    }
}

fn add_pixels(list: &mut List, shape: Shape, random: &mut Random) {
    let Shape { mode, depth, width, height } = shape;
    if depth == 1 {
        return;
    }
    for bytes in tiles(shape.bytes(), 8, width > 8, random) {
        let pixels = plain::unpack_tile(plain::mode(mode), depth, width, height, &bytes);
        let pixels = pixels.expect("the Rust unpacks a native tile");
        list.line(&format!("pixels {} {} {}", shape_text(shape), hex(&bytes), hex(&pixels)));
    }
}
