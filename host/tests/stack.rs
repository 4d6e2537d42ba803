//! How much stack each call takes: measured, held to what `rumchivoat::stack` says, and tried on threads that have no
//! more than that.

use std::hint::black_box;
use std::thread;

use rumchivoat::{
    Entry, LONGEST_TEXT, Logical, MODE7_BLOCK, MODE7_HALF, MapSize, Mode, Native, Rounding, Run, Set, SetSettings,
    Settings, Strips, TileSet, TileSize, Title, attribute, check_interface, convert, flip_tile, flip_tile_to_vec,
    logical_number, mode7_make, mode7_make_to_vec, mode7_split, mode7_split_to_vec, native_number, pack_colors,
    pack_colors_to_vec, pack_entry, pack_tile, pack_tile_to_vec, redraw, reduce_channel, run, run_to_vec, scale_up,
    stack, tile_index, unpack_colors, unpack_colors_to_vec, unpack_entry, unpack_tile, unpack_tile_to_vec,
};

/// What Rust's start of a thread takes of its stack, before and after the call, with the system's share of it. The
/// system may give more than was asked for: glibc no less than 16 KiB on x86-64, and 128 KiB on aarch64.
const THREAD_START: usize = 32 * 1024;

/// How far `stack` may be above what is measured: a figure that is too large is to be mended as well.
const SLACK: usize = 16 * 1024;

/// A call with its inputs, which are not on the stack.
struct Call {
    name: &'static str,
    stated: usize,
    /// Answers whether the call was done.
    call: Box<dyn FnMut() -> bool + Send>,
    done: bool,
}

fn call(name: &'static str, stated: usize, done: bool, call: impl FnMut() -> bool + Send + 'static) -> Call {
    Call { name, stated, call: Box::new(call), done }
}

/// Tiles of which no two match: each byte is the high byte of a number that a fixed rule makes of the one before.
fn different_pixels(length: usize) -> Vec<u8> {
    let numbers = std::iter::successors(Some(1u32), |n| Some(n.wrapping_mul(1_664_525).wrapping_add(1_013_904_223)));
    numbers.map(|number| (number >> 24) as u8).take(length).collect()
}

fn settings(mode: Mode, depth: u32, side: u32) -> Settings {
    let settings = Settings::new(mode, depth, MapSize { columns: side, rows: side }).discarding();
    if mode.has_flips() { settings.flips() } else { settings }
}

/// The largest pictures, one tile, and refused ones: what its settings refuse takes no more than another call.
fn conversions() -> Vec<Call> {
    let no_mode = Settings::new(16u32, 4, MapSize { columns: 1, rows: 1 });
    let cases = [
        ("convert, pce 64x64", stack::CONVERT, settings(Mode::Pce, 4, 64), true),
        ("convert, snes 32x32 with flips", stack::CONVERT, settings(Mode::Snes, 8, 32), true),
        ("convert, gb 1x1", stack::CONVERT, settings(Mode::Gb, 1, 1), true),
        ("convert, no room", stack::CONVERT, settings(Mode::Snes, 8, 32).limit(1023), false),
        ("convert, no such palette", stack::OTHERS, settings(Mode::Snes, 8, 32).palette(8), false),
        ("convert, no such mode", stack::OTHERS, no_mode, false),
    ];
    let mut calls = Vec::new();
    for (name, stated, settings, done) in cases {
        let pixels = different_pixels(64 * (settings.columns * settings.rows) as usize);
        let (mut tiles, mut map) = (vec![0; 4096 * 64], vec![0; 2 * 4096]);
        let given = pixels.clone();
        calls.push(call(name, stated, done, move || convert(settings, &given, &mut tiles, &mut map).is_ok()));
        let to_vec = move || settings.convert_to_vec(&pixels).is_ok();
        calls.push(call("  the same to a vec", stated, done, to_vec));
    }
    calls
}

/// The largest pictures row by row, all rows but the last and then that one, one tile, and refused strips. A run takes
/// its strips again and again, from what its record was before them.
fn strips() -> Vec<Call> {
    let pce = settings(Mode::Pce, 4, 64);
    let snes = settings(Mode::Snes, 8, 32);
    let cases: [(_, Settings, Vec<u32>, bool); 7] = [
        ("Run::take, pce 64x64 row by row", pce, vec![1; 64], true),
        ("Run::take, pce 64x64 at once", pce, vec![64], true),
        ("Run::take, pce 64x64 but the last", pce, vec![63, 1], true),
        ("Run::take, snes 32x32 with flips", snes, vec![31, 1], true),
        ("Run::take, gb 1x1", settings(Mode::Gb, 1, 1), vec![1], true),
        ("Run::take, no room", snes.limit(1023), vec![31, 1], false),
        ("Run::take, past the last row", snes, vec![31, 2], false),
    ];
    let mut calls = Vec::new();
    for (name, settings, heights, done) in cases {
        let rows: u32 = heights.iter().sum();
        let pixels = different_pixels(64 * (settings.columns * rows) as usize);
        let (mut tiles, mut map) = (vec![0; 4096 * 64], vec![0; 2 * 4096]);
        let begun = Run::start(settings).unwrap();
        calls.push(call(name, stack::STRIP, done, move || {
            let (mut run, mut rest) = (begun, &pixels[..]);
            heights.iter().all(|&rows| {
                let (strip, later) = rest.split_at(run.row_len() * rows as usize);
                rest = later;
                run.take(strip, &mut tiles, &mut map).is_ok()
            })
        }));
    }
    let pixels = different_pixels(64 * 64 * 64);
    let (tiles, map) = (vec![0; pce.tile_len().unwrap()], vec![0; pce.map_len().unwrap()]);
    let mut typed = Strips::start(pce, tiles, map).unwrap();
    typed.take(&pixels[..63 * 64 * 64]).unwrap();
    let early = typed.clone();
    let mut whole = typed.clone();
    whole.take(&pixels[63 * 64 * 64..]).unwrap();
    let last = pixels[63 * 64 * 64..].to_vec();
    let refused = last[1..].to_vec();
    let mut short = typed.clone();
    let (begun, mut tiles, mut map) = typed.into_parts();
    let mut of_no_mode = Run { mode: 16, ..begun };
    calls.extend([
        call("Run::take, the last of pce 64x64", stack::STRIP, true, move || {
            let mut run = begun;
            run.take(&last, &mut tiles, &mut map).is_ok()
        }),
        call("Strips::take, a wrong length", stack::STRIP, false, move || short.take(&refused).is_ok()),
        call("Run::take, no such mode", stack::STRIP, false, move || of_no_mode.take(&[], &mut [], &mut []).is_ok()),
        call("Run::start", stack::OTHERS, true, move || Run::start(pce).is_ok()),
        call("Run::start, no such palette", stack::OTHERS, false, move || Run::start(pce.palette(16)).is_ok()),
        call("Strips::end", stack::OTHERS, true, move || whole.end().is_ok()),
        call("Strips::end, too early", stack::OTHERS, false, move || early.end().is_ok()),
    ]);
    calls
}

fn sheet(mode: &str, side: u32) -> Vec<u8> {
    let lines = format!("mode={mode}\ndepth=8\nflip=1\ndiscard=1\nlimit=0\npalette=7\ncolumns={side}\nrows={side}\n");
    [lines.as_bytes(), &different_pixels(64 * (side * side) as usize)].concat()
}

fn runs() -> Vec<Call> {
    let cases = [
        ("run, snes 32x32", sheet("snes", 32), LONGEST_TEXT, true),
        ("run, snes 1x1", sheet("snes", 1), LONGEST_TEXT, true),
        ("run, a picture refused", sheet("gb", 32), LONGEST_TEXT, false),
        ("run, no sheet", sheet("Snes", 32), LONGEST_TEXT, false),
        ("run, the text does not fit", sheet("snes", 32), 67_000, false),
    ];
    let mut calls = Vec::new();
    for (name, input, space, done) in cases {
        let (given, mut out) = (input.clone(), vec![0; space]);
        let is_report = move || run(&given, &mut out).is_ok_and(|ran| ran.told.is_none());
        calls.push(call(name, stack::RUN, done, is_report));
        if space == LONGEST_TEXT {
            let to_vec = move || run_to_vec(&input).is_ok_and(|text| text.told.is_none());
            calls.push(call("  the same to a vec", stack::RUN, done, to_vec));
        }
    }
    calls
}

/// Every mode and depth, with a size of its native tiles.
fn tile_shapes() -> Vec<(u32, u32, TileSize)> {
    let sprite = TileSize { width: 32, height: 64 };
    let native = |mode| if mode == Mode::PceSprite { sprite } else { TileSize::CELL };
    let shapes = Mode::ALL.into_iter().flat_map(|mode| mode.depths().iter().map(move |&depth| (mode, depth)));
    shapes.map(|(mode, depth)| (mode.number(), depth, native(mode))).collect()
}

/// A call for a mode, depth and size, with a buffer; whether it was done.
type TileCall = Box<dyn FnMut(u32, u32, TileSize, &mut [u8]) -> bool + Send>;

fn tiles() -> Vec<Call> {
    let over_shapes = |name, done, mut each: TileCall| {
        let (shapes, mut out) = (tile_shapes(), vec![0; 2048]);
        call(name, stack::OTHERS, done, move || {
            shapes.iter().all(|&(mode, depth, size)| each(mode, depth, size, &mut out))
        })
    };
    let pixels = vec![1; 2048];
    let count = |size: TileSize| (size.width * size.height) as usize;
    let [one, two, three, four, five] = [(); 5].map(|()| pixels.clone());
    let packed = move |mode, depth, size: TileSize, out: &mut [u8]| {
        pack_tile(mode, depth, size.width, size.height, &one[..count(size)], out).is_ok()
    };
    let unpacked = move |mode, depth, size: TileSize, out: &mut [u8]| {
        let bytes = &two[..count(size) * depth as usize / 8];
        unpack_tile(mode, depth, size.width, size.height, bytes, out).is_ok()
    };
    let refused = move |mode, depth, size: TileSize, out: &mut [u8]| {
        pack_tile(mode, depth, size.width, size.height, &three[..1], out).is_ok()
    };
    let packed_to_vec = move |mode, depth, size: TileSize, _: &mut [u8]| {
        pack_tile_to_vec(mode, depth, size, &four[..count(size)]).is_ok()
    };
    let unpacked_to_vec = move |mode, depth, size: TileSize, _: &mut [u8]| {
        unpack_tile_to_vec(mode, depth, size, &five[..count(size) * depth as usize / 8]).is_ok()
    };
    vec![
        over_shapes("pack_tile", true, Box::new(packed)),
        over_shapes("unpack_tile", true, Box::new(unpacked)),
        over_shapes("pack_tile, a wrong length", false, Box::new(refused)),
        over_shapes("pack_tile_to_vec", true, Box::new(packed_to_vec)),
        over_shapes("unpack_tile_to_vec", true, Box::new(unpacked_to_vec)),
    ]
}

/// A call for a mode, a depth and the flips h and v, with a tile and a buffer; whether it was done.
type FlipCall = fn(u32, u32, (bool, bool), &[u8], &mut [u8]) -> bool;

/// Under each flip, in every mode and depth: sprites are refused, and other tiles for their length or their buffer's.
fn flips() -> Vec<Call> {
    let sprite = Mode::PceSprite.number();
    let (sprites, others): (Vec<_>, Vec<_>) = tile_shapes().into_iter().partition(|&(mode, ..)| mode == sprite);
    let over = |shapes: &[(u32, u32, TileSize)], name, done, each: FlipCall| {
        let (shapes, tile, mut out) = (shapes.to_vec(), different_pixels(64), vec![0; 64]);
        call(name, stack::OTHERS, done, move || {
            shapes.iter().all(|&(mode, depth, _)| {
                let flips = [(false, false), (true, false), (false, true), (true, true)];
                flips.iter().all(|&flip| each(mode, depth, flip, &tile[..8 * depth as usize], &mut out))
            })
        })
    };
    let flip: FlipCall = |mode, depth, (h, v), tile, out| flip_tile(mode, depth, h, v, tile, out).is_ok();
    let to_vec: FlipCall = |mode, depth, (h, v), tile, _| flip_tile_to_vec(mode, depth, h, v, tile).is_ok();
    vec![
        over(&others, "flip_tile", true, flip),
        over(&sprites, "flip_tile, a sprite", false, flip),
        over(&others, "flip_tile, no room", false, |mode, depth, (h, v), tile, out| {
            flip_tile(mode, depth, h, v, tile, &mut out[..tile.len() - 1]).is_ok()
        }),
        over(&others, "flip_tile_to_vec", true, to_vec),
        over(&sprites, "flip_tile_to_vec, a sprite", false, to_vec),
        over(&others, "flip_tile_to_vec, a wrong length", false, |mode, depth, (h, v), tile, _| {
            flip_tile_to_vec(mode, depth, h, v, &tile[1..]).is_ok()
        }),
    ]
}

fn colors() -> Vec<Call> {
    let others = |name, done, each: fn(Mode, &[u8], &mut [u8]) -> bool| {
        let (four, mut out) = (vec![1; 16], vec![0; 16]);
        call(name, stack::OTHERS, done, move || Mode::ALL.into_iter().all(|mode| each(mode, &four, &mut out)))
    };
    /// The bytes of four colours.
    fn four(mode: Mode) -> usize {
        pack_colors_to_vec(mode, &[1; 16]).map_or(0, |bytes| bytes.len())
    }
    vec![
        others("pack_colors", true, |mode, colors, out| pack_colors(mode, colors, out).is_ok()),
        others("pack_colors, above the top", false, |mode, _, out| pack_colors(mode, &[255; 16], out).is_ok()),
        others("pack_colors_to_vec", true, |mode, colors, _| pack_colors_to_vec(mode, colors).is_ok()),
        others("unpack_colors", true, |mode, bytes, out| unpack_colors(mode, &bytes[..four(mode)], out).is_ok()),
        others("unpack_colors_to_vec", true, |mode, bytes, _| unpack_colors_to_vec(mode, &bytes[..four(mode)]).is_ok()),
        others("unpack_colors, a wrong length", false, |mode, bytes, _| {
            unpack_colors_to_vec(mode, &bytes[..7]).is_ok()
        }),
        others("reduce_channel", true, |mode, _, _| reduce_channel(mode, 200, Rounding::Nearest).is_ok()),
        others("scale_up", true, |mode, _, _| scale_up(mode, 3).is_ok()),
        others("scale_up, above the top", false, |mode, _, _| scale_up(mode, 32).is_ok()),
        others("check_interface", true, |_, _, _| check_interface().is_ok()),
    ]
}

fn entries() -> Vec<Call> {
    let others = |name, done, each: fn(Mode, Entry, &mut [u8]) -> bool| {
        let modes: Vec<Mode> = Mode::ALL.into_iter().filter(|mode| mode.entry_bytes().is_some()).collect();
        let mut out = vec![0; 2];
        let entry = Entry { tile: 255, ..Entry::default() };
        call(name, stack::OTHERS, done, move || modes.iter().all(|&mode| each(mode, entry, &mut out)))
    };
    vec![
        others("pack_entry", true, |mode, entry, out| pack_entry(mode, entry, out).is_ok()),
        others("pack_entry, no such tile", false, |mode, entry, out| {
            pack_entry(mode, Entry { tile: 4096, ..entry }, out).is_ok()
        }),
        others("Entry::pack", true, |mode, entry, out| entry.pack(mode, out).is_ok()),
        others("Entry::pack_to_vec", true, |mode, entry, _| entry.pack_to_vec(mode).is_ok()),
        others("unpack_entry", true, |mode, _, out| {
            unpack_entry(mode, &out[..mode.entry_bytes().unwrap_or(0)]).is_ok()
        }),
        others("Entry::unpack, a wrong length", false, |mode, _, _| Entry::unpack(mode, &[0; 3]).is_ok()),
        others("tile_index", true, |mode, entry, out| tile_index(mode, entry, out).is_ok()),
        others("attribute", true, |mode, entry, _| attribute(mode, entry).is_ok()),
    ]
}

/// Snes tiles of 64x64, the largest, sprites of 32x64, and native numbers.
fn sets() -> Vec<Call> {
    let size = TileSize { width: 64, height: 64 };
    let settings = SetSettings::new(Mode::Snes, 8, size).flips().discarding();
    let tile = different_pixels(4096);
    let mut full = TileSet::new(settings, vec![0; 4 * 4096]).unwrap();
    for tile in different_pixels(4 * 4096).chunks_exact(4096) {
        full.add(tile).unwrap();
    }
    let bytes = full.write_to_vec().unwrap();
    let (set, store) = full.clone().into_parts();
    let other =
        |name, done, each: Box<dyn FnMut() -> bool + Send>| Call { name, stated: stack::OTHERS, call: each, done };
    let (mut added, mut out) = (store.clone(), vec![0; bytes.len()]);
    let (mut reset, mut emptied, mut filled) = (set, set, full.clone());
    let (one, two, three, four) = (tile.clone(), tile.clone(), tile.clone(), tile);
    let (looked, written, read, kept) = (store.clone(), store, bytes.clone(), bytes);
    let mut space = vec![0; 16 * 4096];
    let (board, mut sprites) = (different_pixels(4 * 1024), vec![0; 4 * 2048]);
    vec![
        other("Set::with_settings", true, Box::new(move || Set::with_settings(settings).is_ok())),
        other("Set::reset", true, Box::new(move || reset.reset().is_ok())),
        other("Set::look_up", true, Box::new(move || set.look_up(&looked, &one).is_ok())),
        other(
            "Set::add",
            true,
            Box::new(move || {
                emptied.stored = 0;
                emptied.add(&mut added, &two).is_ok()
            }),
        ),
        other("TileSet::add, a wrong length", false, Box::new(move || filled.add(&three[1..]).is_ok())),
        other("Set::write", true, Box::new(move || set.write(&written, &mut out).is_ok())),
        other("TileSet::write_to_vec", true, Box::new(move || full.write_to_vec().is_ok())),
        other("Set::read", true, Box::new(move || Set::read(Mode::Snes, 8, 64, 64, true, &read, &mut space).is_ok())),
        other(
            "Set::read, sprites",
            true,
            Box::new(move || Set::read(Mode::PceSprite, 4, 32, 64, true, &board, &mut sprites).is_ok()),
        ),
        other(
            "TileSet::read, no store",
            false,
            Box::new(move || TileSet::read(Mode::Snes, 8, size, true, &kept, vec![0; 1]).is_ok()),
        ),
        other("Set::new, no such size", false, Box::new(move || Set::new(Mode::Md, 4, 16, 8, true, true, 0).is_ok())),
        other("native_number", true, Box::new(|| native_number(Mode::Snes, 16, 16, Logical(8)).is_ok())),
        other("logical_number", true, Box::new(|| logical_number(Mode::Snes, 16, 16, Native(33)).is_ok())),
        other("Set::look_up, a wrong length", false, Box::new(move || set.look_up(&four, &four[1..]).is_ok())),
    ]
}

/// Snes tiles of 64x64, two of them common and two the title's own. The common store is there as long as the program.
fn titles() -> Vec<Call> {
    let settings = SetSettings::new(Mode::Snes, 8, TileSize { width: 64, height: 64 }).flips().discarding();
    let tiles = different_pixels(5 * 4096);
    let common: &'static [u8] = tiles[..2 * 4096].to_vec().leak();
    let mut title = Title::new(settings, 2, common, vec![0; 2 * 4096]).unwrap();
    for tile in tiles[2 * 4096..4 * 4096].chunks_exact(4096) {
        title.add(tile).unwrap();
    }
    let (set, mut store) = title.clone().into_own().into_parts();
    let (last, other) = (tiles[3 * 4096..4 * 4096].to_vec(), tiles[4 * 4096..].to_vec());
    let (mut emptied, mut full, own) = (set, title.clone(), store.clone());
    let [one, two, three, four] = [other.clone(), other.clone(), last, other];
    let others =
        |name, done, each: Box<dyn FnMut() -> bool + Send>| Call { name, stated: stack::OTHERS, call: each, done };
    vec![
        others("Set::title_look_up", true, Box::new(move || set.title_look_up(2, common, &own, &one).is_ok())),
        others(
            "Set::title_add",
            true,
            Box::new(move || {
                emptied.stored = 0;
                emptied.title_add(2, common, &mut store, &two).is_ok()
            }),
        ),
        others("Title::look_up", true, Box::new(move || title.look_up(&three).is_ok_and(|held| held.is_some()))),
        others("Title::add, no room", false, Box::new(move || full.add(&four).is_ok())),
        others("Title::new, no such tiles", false, Box::new(move || Title::new(settings, 3, common, [0; 64]).is_ok())),
    ]
}

fn redraws() -> Vec<Call> {
    let cases = [("redraw", Mode::Snes, 8, 32), ("redraw, pce 64x64", Mode::Pce, 4, 64)];
    let mut calls = Vec::new();
    for (name, mode, depth, side) in cases {
        let settings = settings(mode, depth, side);
        let pixels: Vec<u8> = different_pixels(64 * (side * side) as usize).iter().map(|p| p >> (8 - depth)).collect();
        let converted = settings.convert_to_vec(&pixels).unwrap();
        let (kept, mut out) = (converted.clone(), vec![0; pixels.len()]);
        calls.push(call(name, stack::OTHERS, true, move || {
            let done = redraw(mode, depth, side, side, &converted.tiles, &converted.map, &mut out).is_ok();
            done && out == pixels
        }));
        let (tiles, map) = (kept.tiles.clone(), kept.map.clone());
        calls.push(call("  the same to a vec", stack::OTHERS, true, move || {
            settings.redraw_to_vec(&tiles, &map).is_ok()
        }));
        let missing = move || settings.redraw_to_vec(&kept.tiles[..32 * 8], &kept.map).is_ok();
        calls.push(call("  a tile that is not there", stack::OTHERS, false, missing));
    }
    calls
}

/// Whole inputs, inputs that have ended, and ones of a wrong length, in buffers that are long enough and too short.
fn blocks() -> Vec<Call> {
    let makes = |name, done, tiles: usize, map: usize, room: usize| {
        let (tiles, map, mut out) = (different_pixels(tiles), different_pixels(map), vec![0; room]);
        call(name, stack::OTHERS, done, move || mode7_make(&tiles, &map, &mut out).is_ok())
    };
    let splits = |name, done, block: usize, room: usize| {
        let (block, mut tiles, mut map) = (different_pixels(block), vec![0; room], vec![0; room]);
        call(name, stack::OTHERS, done, move || mode7_split(&block, &mut tiles, &mut map).is_ok())
    };
    let [half, longer, block, short] = [MODE7_HALF, MODE7_HALF + 1, MODE7_BLOCK, MODE7_BLOCK - 1].map(different_pixels);
    let also_half = half.clone();
    let made = move || mode7_make_to_vec(&half, &half).is_ok();
    let refused = move || mode7_make_to_vec(&also_half, &longer).is_ok();
    vec![
        makes("mode7_make", true, MODE7_HALF, MODE7_HALF, MODE7_BLOCK),
        makes("mode7_make, a picture", true, 100 * 64, 4096, MODE7_BLOCK + 1),
        makes("mode7_make, of nothing", true, 0, 0, MODE7_BLOCK),
        makes("mode7_make, a wrong length", false, MODE7_HALF + 1, 0, MODE7_BLOCK),
        makes("mode7_make, no room", false, MODE7_HALF, MODE7_HALF, MODE7_BLOCK - 1),
        call("mode7_make_to_vec", stack::OTHERS, true, made),
        call("mode7_make_to_vec, a wrong length", stack::OTHERS, false, refused),
        splits("mode7_split", true, MODE7_BLOCK, MODE7_HALF),
        splits("mode7_split, a wrong length", false, MODE7_BLOCK + 1, MODE7_HALF),
        splits("mode7_split, no room", false, MODE7_BLOCK, MODE7_HALF - 1),
        call("mode7_split_to_vec", stack::OTHERS, true, move || mode7_split_to_vec(&block).is_ok()),
        call("mode7_split_to_vec, a wrong length", stack::OTHERS, false, move || mode7_split_to_vec(&short).is_ok()),
    ]
}

fn calls() -> Vec<Call> {
    let pictures = [conversions(), strips(), runs(), redraws(), blocks()];
    let others = [tiles(), flips(), colors(), entries(), sets(), titles()];
    pictures.into_iter().chain(others).flatten().collect()
}

/// What no call leaves all over its stack.
const PATTERN: u8 = 0xa5;

/// How much is painted, and how much below the caller is not, because painting and looking take some themselves.
const PAINTED: usize = 1024 * 1024;
const OWN: usize = 1024;

/// An address just below the frame of the caller.
#[inline(never)]
fn below_the_caller() -> usize {
    let here = 0u8;
    black_box(&raw const here) as usize
}

/// Fills the stack with the pattern from this address down. Volatile, for nothing that Rust knows of reads it.
#[inline(never)]
fn paint(top: usize) {
    for address in top - PAINTED..top {
        // safe: this thread's stack reaches so far down and is mapped, and no live frame is below the caller's but this
        // function's own, which is above `top`
        unsafe { (address as *mut u8).write_volatile(PATTERN) };
    }
}

/// The lowest address that no longer holds the pattern; `top` where all of them do.
#[inline(never)]
fn deepest(top: usize) -> usize {
    // safe: as in `paint`
    let changed = |&address: &usize| unsafe { (address as *const u8).read_volatile() } != PATTERN;
    (top - PAINTED..top).find(changed).unwrap_or(top)
}

/// How far below this function the call goes: its own frame, and those of all that it calls.
#[inline(never)]
fn depth_of(call: &mut dyn FnMut() -> bool) -> (usize, bool) {
    let top = below_the_caller();
    paint(top - OWN);
    let done = black_box(call());
    (top - deepest(top - OWN), done)
}

#[test]
fn the_stated_figures_are_what_the_calls_take() {
    // room for what is painted, and for the test around it
    let measure = || -> Vec<(&str, usize, usize)> {
        calls()
            .into_iter()
            .map(|mut call| {
                let (depth, done) = depth_of(&mut *call.call);
                assert_eq!(done, call.done, "{}", call.name);
                (call.name, call.stated, depth)
            })
            .collect()
    };
    let thread = thread::Builder::new().stack_size(2 * PAINTED).spawn(measure).expect("a thread can be started");
    let measured = thread.join().expect("the measuring ends");
    println!("{:<34} {:>9} {:>9}", "call", "bytes", "stated");
    for (name, stated, depth) in &measured {
        let most = if *depth <= OWN { format!("<= {OWN}") } else { depth.to_string() };
        println!("{name:<34} {most:>9} {stated:>9}");
        assert!(depth <= stated, "{name} takes {depth} bytes of stack, and {stated} are stated");
    }
    for stated in [stack::CONVERT, stack::STRIP, stack::RUN] {
        let most = measured.iter().filter(|call| call.1 == stated).map(|call| call.2).max().unwrap_or(0);
        assert!(stated <= most + SLACK, "{stated} bytes of stack are stated, and {most} were taken");
    }
}

#[test]
fn every_call_runs_on_a_thread_with_the_stated_stack() {
    for Call { name, stated, call, done } in calls() {
        let thread = thread::Builder::new().stack_size(stated + THREAD_START).spawn(call);
        let answer = thread.expect("a thread can be started").join().expect("the call ends");
        assert_eq!(answer, done, "{name}");
    }
}
