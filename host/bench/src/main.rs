//! The benchmark: port and unchanged Rust on the same inputs, turn about, in one run.
//!
//! `cargo run --release --offline --bin bench` in host/. For each call and mode it prints the median processor time of
//! one colour, entry or tile on either side, and the ratio: above 1 the port is the faster. Tiles are of each depth,
//! sprites of the smallest and the largest size; of a set or a title, one add or one look-up; of a picture, one of its
//! tiles. Four tables more have the port alone: `run` on the largest sheets beside `convert` on their pictures, a title's
//! look-up beside the set's over as many tiles, pictures in strips beside the same pictures at once, and tiles flipped as
//! they are beside the same by way of their pixels. The last has the mode 7 block beside plain Rust loops, which are not
//! the Rust's.

mod flips;
mod mode7;
mod pictures;
mod sets;
mod sheets;

use std::fs;
use std::hint::black_box;

use reading::{MODES, Random, Row, Shape, native_shapes};
use superfamiconv::plain;

const COLORS: usize = 256;
const ENTRIES: usize = 1024;
const TILES: usize = 64;
const RUNS: usize = 15;
/// How long one run of one side should take: long beside the clock's grain, short beside the machine's moods.
const RUN_NANOSECONDS: f64 = 1_000_000.0;

/// A line of a table: the port's time, and the one beside it, which is the Rust's in the main table.
struct Measured {
    call: &'static str,
    mode: String,
    items: usize,
    port: f64,
    beside: f64,
}

impl Measured {
    fn ratio(&self) -> f64 {
        self.beside / self.port
    }
}

/// A mode on both sides.
struct Sides {
    number: u32,
    row: &'static Row,
    rust: plain::Mode,
}

fn main() {
    if superfamiconv::absent("benchmark") {
        return;
    }
    println!("{}; median of {RUNS} runs, ns of processor time for one colour, entry or tile\n", processor());
    print_head("port", "Rust", "Rust/port");
    let mut random = Random::new(1);
    // a sequence by itself, so that the inputs of the other lines do not depend on how many flips there are
    let mut flips_random = Random::new(2);
    let mut table = Vec::new();
    for measure in [pack_colors, unpack_colors, pack_entries, unpack_entries] {
        for (number, row) in (0..).zip(&MODES) {
            let sides = Sides { number, row, rust: plain::mode(number) };
            table.extend(measure(&sides, &mut random).inspect(print_line));
        }
    }
    for measure in [pack_tiles, unpack_tiles] {
        for shape in timed_shapes() {
            let line = measure(shape, &mut random);
            print_line(&line);
            table.push(line);
        }
    }
    table.extend(flips::lines(&mut flips_random).inspect(print_line));
    table.extend(sets::byte_lines(&mut random).inspect(print_line));
    table.extend(sets::lines(&mut random).inspect(print_line));
    table.extend(pictures::lines(&mut random).inspect(print_line));
    print_least(&table);
    sheets::print_table(&mut random);
    sets::print_table(&mut random);
    pictures::print_table(&mut random);
    flips::print_table(&mut flips_random);
    mode7::print_table(&mut random);
}

fn print_head(port: &str, beside: &str, ratio: &str) {
    println!("{:<14} {:<22} {:>5} {port:>9} {beside:>9} {ratio:>10}", "call", "mode", "items");
}

fn print_line(line: &Measured) {
    let Measured { call, mode, items, port, beside } = line;
    println!("{call:<14} {mode:<22} {items:>5} {port:>9.3} {beside:>9.3} {:>10.2}", line.ratio());
}

/// The line in which the port gains least.
fn print_least(table: &[Measured]) {
    let least = table.iter().min_by(|a, b| a.ratio().total_cmp(&b.ratio())).expect("the table has lines");
    println!("\nleast ratio: {:.2}, {} in {}", least.ratio(), least.call, least.mode);
}

/// The processor, as Linux tells it.
fn processor() -> String {
    let told = fs::read_to_string("/proc/cpuinfo").unwrap_or_default();
    let field = |name: &str| {
        let line = told.lines().find(|line| line.starts_with(name))?;
        Some(line.split_once(':')?.1.trim().to_owned())
    };
    let part = || Some(format!("implementer {}, part {}", field("CPU implementer")?, field("CPU part")?));
    let name = field("model name").or_else(part).unwrap_or_else(|| "unknown processor".to_owned());
    format!("{}: {name}", std::env::consts::ARCH)
}

/// C's `timespec`.
#[repr(C)]
struct Time {
    seconds: i64,
    nanoseconds: i64,
}

unsafe extern "C" {
    fn clock_gettime(clock: i32, time: *mut Time) -> i32;
}

/// Linux's clock of the processor time of the calling thread.
const THREAD_CLOCK: i32 = 3;

/// The processor time of this thread so far. Where other work shares the machine, time that passes would count it, and
/// count it more in the longer calls.
fn thread_nanoseconds() -> f64 {
    let mut time = Time { seconds: 0, nanoseconds: 0 };
    let status = unsafe { clock_gettime(THREAD_CLOCK, &mut time) };
    assert_eq!(status, 0, "Linux has this clock");
    1e9 * time.seconds as f64 + time.nanoseconds as f64
}

fn nanoseconds(times: usize, call: &mut impl FnMut()) -> f64 {
    let began = thread_nanoseconds();
    for _ in 0..times {
        call();
    }
    (thread_nanoseconds() - began) / times as f64
}

/// How many calls fill a run; the first calls also warm the caches.
fn times_for_a_run(call: &mut impl FnMut()) -> usize {
    let first = nanoseconds(1, call);
    let one = nanoseconds(if first < RUN_NANOSECONDS { 64 } else { 1 }, call).max(1.0);
    (RUN_NANOSECONDS / one).ceil() as usize
}

fn median(mut times: Vec<f64>) -> f64 {
    times.sort_by(f64::total_cmp);
    times[times.len() / 2]
}

fn measured(
    call: &'static str,
    mode: impl Into<String>,
    items: usize,
    port: impl FnMut(),
    beside: impl FnMut(),
) -> Measured {
    let (port, beside) = turn_about(items, port, beside);
    Measured { call, mode: mode.into(), items, port, beside }
}

/// The median times of two calls for one of so many items, run turn about.
fn turn_about(items: usize, mut first: impl FnMut(), mut second: impl FnMut()) -> (f64, f64) {
    let times = (times_for_a_run(&mut first), times_for_a_run(&mut second));
    let runs = (0..RUNS).map(|_| (nanoseconds(times.0, &mut first), nanoseconds(times.1, &mut second)));
    for_one(items, runs)
}

/// The same for calls of which each takes a run by itself, the second on something that is made for it: making it and
/// letting it go are not timed.
fn turn_about_on<T>(
    items: usize,
    mut first: impl FnMut(),
    mut make: impl FnMut() -> T,
    mut second: impl FnMut(&mut T),
) -> (f64, f64) {
    let runs = (0..=RUNS).map(|_| {
        let mut made = make();
        (nanoseconds(1, &mut first), nanoseconds(1, &mut || second(&mut made)))
    });
    // the first run warms the caches
    for_one(items, runs.skip(1))
}

/// The medians of both sides, for one of so many items.
fn for_one(items: usize, runs: impl Iterator<Item = (f64, f64)>) -> (f64, f64) {
    let (first, second): (Vec<f64>, Vec<f64>) = runs.unzip();
    (median(first) / items as f64, median(second) / items as f64)
}

/// The median time of a call that has no other beside it.
fn alone(items: usize, mut call: impl FnMut()) -> f64 {
    let times = times_for_a_run(&mut call);
    median((0..RUNS).map(|_| nanoseconds(times, &mut call)).collect()) / items as f64
}

/// 256 colours, or the four of gb and ws; ngp packs 256 and unpacks four.
fn packable(sides: &Sides) -> usize {
    if reading::packed_length(sides.number, 4 * COLORS).is_ok() { COLORS } else { 4 }
}

fn pack_colors(sides: &Sides, random: &mut Random) -> Option<Measured> {
    let count = packable(sides);
    let rgba = random.colors(sides.row.top, count);
    let colors = plain::colors(&rgba);
    let mut out = vec![0; 2 * COLORS];
    Some(measured(
        "pack_colors",
        sides.row.name,
        count,
        || {
            let written = rumchivoat::pack_colors(black_box(sides.number), black_box(&rgba), black_box(&mut out));
            black_box(written.expect("the colours are the mode's"));
        },
        || {
            let bytes = plain::pack_colors(black_box(sides.rust), black_box(&colors));
            black_box(bytes.expect("the colours are the mode's"));
        },
    ))
}

fn unpack_colors(sides: &Sides, random: &mut Random) -> Option<Measured> {
    let lengths = [2 * COLORS, COLORS, 4, 2, 1];
    let holds = |length: &usize| matches!(reading::unpacked_count(sides.number, *length), Ok(COLORS | 4));
    let length = lengths.into_iter().find(holds).expect("every mode unpacks 256 colours or four");
    let bytes = random.bytes(length);
    let count = reading::unpacked_count(sides.number, length).expect("the length is the mode's");
    let mut out = vec![0; 4 * COLORS];
    Some(measured(
        "unpack_colors",
        sides.row.name,
        count,
        || {
            let written = rumchivoat::unpack_colors(black_box(sides.number), black_box(&bytes), black_box(&mut out));
            black_box(written.expect("the bytes are the mode's"));
        },
        || {
            let colors = plain::unpack_colors(black_box(sides.rust), black_box(&bytes));
            black_box(colors.expect("the bytes are the mode's"));
        },
    ))
}

/// Random bytes of 1,024 entries; `None` in pce_sprite, which has none.
fn entry_bytes(sides: &Sides, random: &mut Random) -> Option<Vec<u8>> {
    let size = sides.row.entry_bytes;
    (size > 0).then(|| random.bytes(size * ENTRIES))
}

fn pack_entries(sides: &Sides, random: &mut Random) -> Option<Measured> {
    let bytes = entry_bytes(sides, random)?;
    let size = sides.row.entry_bytes;
    let read = |bytes| rumchivoat::unpack_entry(sides.number, bytes).expect("the bytes are an entry's");
    let ours: Vec<rumchivoat::Entry> = bytes.chunks_exact(size).map(read).collect();
    let theirs: Vec<plain::Entry> =
        ours.iter().map(|e| plain::entry(e.tile, e.palette, e.flip_h, e.flip_v, e.priority)).collect();
    let mut out = vec![0; bytes.len()];
    let mut data = Vec::with_capacity(bytes.len());
    Some(measured(
        "pack_entry",
        sides.row.name,
        ENTRIES,
        || {
            let mode = black_box(sides.number);
            for (entry, place) in black_box(&ours).iter().zip(out.chunks_exact_mut(size)) {
                rumchivoat::pack_entry(mode, *entry, place).expect("the entry is the mode's");
            }
            black_box(&out);
        },
        || {
            let mode = black_box(sides.rust);
            data.clear();
            for &entry in black_box(&theirs) {
                data.extend(plain::pack_mapentry(mode, entry));
            }
            black_box(&data);
        },
    ))
}

fn unpack_entries(sides: &Sides, random: &mut Random) -> Option<Measured> {
    let bytes = entry_bytes(sides, random)?;
    let size = sides.row.entry_bytes;
    let mut ours = Vec::with_capacity(ENTRIES);
    let mut theirs = Vec::with_capacity(ENTRIES);
    Some(measured(
        "unpack_entry",
        sides.row.name,
        ENTRIES,
        || {
            let mode = black_box(sides.number);
            ours.clear();
            let read = |b| rumchivoat::unpack_entry(mode, b).expect("the bytes are an entry's");
            ours.extend(black_box(&bytes).chunks_exact(size).map(read));
            black_box(&ours);
        },
        || {
            let mode = black_box(sides.rust);
            theirs.clear();
            theirs.extend(black_box(&bytes).chunks_exact(size).map(|b| plain::unpack_mapentry(mode, b)));
            black_box(&theirs);
        },
    ))
}

/// Every mode and depth: 8x8, and of the sprites the smallest and the largest.
fn timed_shapes() -> impl Iterator<Item = Shape> {
    native_shapes().filter(|shape| [(8, 8), (16, 16), (32, 64)].contains(&(shape.width, shape.height)))
}

/// Mode and depth, and a sprite's size.
fn shape_text(shape: Shape) -> String {
    let Shape { mode, depth, width, height } = shape;
    let name = MODES[mode as usize].name;
    if width == 8 { format!("{name} {depth}") } else { format!("{name} {depth} {width}x{height}") }
}

fn pack_tiles(shape: Shape, random: &mut Random) -> Measured {
    let Shape { mode, depth, width, height } = shape;
    let rust = plain::mode(mode);
    let pixels = random.pixels(depth, TILES * shape.pixels());
    let mut out = vec![0; TILES * shape.bytes()];
    let mut data = Vec::with_capacity(out.len());
    measured(
        "pack_tile",
        shape_text(shape),
        TILES,
        || {
            let (mode, depth) = black_box((mode, depth));
            let places = out.chunks_exact_mut(shape.bytes());
            for (tile, place) in black_box(&pixels).chunks_exact(shape.pixels()).zip(places) {
                rumchivoat::pack_tile(mode, depth, width, height, tile, place).expect("the tile is native");
            }
            black_box(&out);
        },
        || {
            let (mode, depth) = black_box((rust, depth));
            data.clear();
            for tile in black_box(&pixels).chunks_exact(shape.pixels()) {
                data.extend(plain::pack_tile(mode, depth, width, height, tile).expect("the tile is native"));
            }
            black_box(&data);
        },
    )
}

/// At depth 1 the Rust runs off a tile's 8 bytes: there it is given 16, of which it reads every other one.
fn unpack_tiles(shape: Shape, random: &mut Random) -> Measured {
    let Shape { mode, depth, width, height } = shape;
    let rust = plain::mode(mode);
    let bytes = random.bytes(TILES * shape.bytes());
    let rust_size = shape.bytes().max(16);
    let rust_bytes = if depth == 1 { random.bytes(TILES * rust_size) } else { bytes.clone() };
    let mut out = vec![0; TILES * shape.pixels()];
    let mut data = Vec::with_capacity(out.len());
    measured(
        "unpack_tile",
        shape_text(shape),
        TILES,
        || {
            let (mode, depth) = black_box((mode, depth));
            let places = out.chunks_exact_mut(shape.pixels());
            for (tile, place) in black_box(&bytes).chunks_exact(shape.bytes()).zip(places) {
                rumchivoat::unpack_tile(mode, depth, width, height, tile, place).expect("the tile is native");
            }
            black_box(&out);
        },
        || {
            let (mode, depth) = black_box((rust, depth));
            data.clear();
            for tile in black_box(&rust_bytes).chunks_exact(rust_size) {
                data.extend(plain::unpack_tile(mode, depth, width, height, tile).expect("the tile is native"));
            }
            black_box(&data);
        },
    )
}
