//! The port against the unchanged Rust on the same inputs: values, lengths, refusals, bytes written and bytes left.
//!
//! Where document 01 answers 0 the two agree, but for `DIFFERENCES_INSIDE`. Where it refuses and the Rust answers or
//! panics, the difference is asserted as such; `DIFFERENCES` has the smallest input of each kind.

mod common;
#[path = "comparison/flips.rs"]
mod flips;
#[path = "comparison/mode7.rs"]
mod mode7;
#[path = "comparison/pictures.rs"]
mod pictures;
#[path = "comparison/sets.rs"]
mod sets;
#[path = "comparison/tiles.rs"]
mod tiles;

use common::{Flip, assert_writes, say, told, writes};
use reading::{MODES, Random, Row, Shape};
use rumchivoat::{Entry, Mode, Refusal, Rounding};
use superfamiconv::bank::{WS_BANK, without_bank};
use superfamiconv::plain;
use tiles::tile_text;

/// A part of the comparison: its name, and a run that answers how many comparisons it made.
type Part = (&'static str, fn() -> u64);

#[test]
fn the_port_and_the_rust() {
    if superfamiconv::absent("comparison with the Rust") {
        return;
    }
    let parts: [Part; 45] = [
        ("modes", modes),
        ("single-bit tiles, both ways", tiles::single_bit_tiles),
        ("random tiles, both ways", tiles::random_tiles),
        ("pixels too large", tiles::pixels_too_large),
        ("tiles of every length", tiles::tiles_of_every_length),
        ("tiles of every size", tiles::tiles_of_every_size),
        ("tiles of every depth", tiles::tiles_of_every_depth),
        ("single-bit tiles flipped", flips::single_bit_tiles),
        ("random tiles flipped", flips::random_tiles),
        ("flips of every length", flips::tiles_of_every_length),
        ("flips of every depth", flips::tiles_of_every_depth),
        ("flips in pce_sprite", flips::sprites),
        ("every colour word, both ways", every_color_word),
        ("colours of every length", colors_of_every_length),
        ("random palettes", random_palettes),
        ("components above the top", components_above),
        ("channels", channels),
        ("every entry word, both ways", every_entry_word),
        ("every entry and just beyond", every_entry_and_just_beyond),
        ("random entries", random_entries),
        ("entries of every length", entries_of_every_length),
        ("entries in pce_sprite", entries_in_pce_sprite),
        ("runs of adds and look-ups, sets written", sets::runs_of_adds),
        ("thousands of adds", sets::thousands_of_adds),
        ("every pattern looked up in every other", sets::every_pattern),
        ("sets of every count, written and read", sets::sets_of_every_count),
        ("sets of every number of cells", sets::sets_of_every_number_of_cells),
        ("sets of every length", sets::sets_of_every_length),
        ("full sets", sets::full_sets),
        ("every tile number", sets::every_tile_number),
        ("pictures of every kind", pictures::pictures_of_every_kind),
        ("pictures of every side", pictures::pictures_of_every_side),
        ("large pictures", pictures::large_pictures),
        ("pictures and limits", pictures::limits),
        ("as many tiles as entries can name", pictures::as_many_tiles_as_entries_can_name),
        ("any map redrawn", pictures::any_map),
        ("every entry drawn", pictures::every_entry_drawn),
        ("maps and tiles of every length, redrawn", pictures::maps_and_tiles_of_every_length),
        ("pictures converted by one and redrawn by the other", pictures::there_and_back),
        ("flips and palettes that are none", pictures::flips_and_palettes_that_are_none),
        ("pictures stopped by max_tile_count", pictures::stopped_by_max_tile_count),
        ("mode 7 blocks of maps of every shape", mode7::maps_of_every_shape),
        ("mode 7 blocks of every number of tiles", mode7::every_number_of_tiles),
        ("mode 7 blocks of a single bit", mode7::single_bits),
        ("known differences", every_known_difference),
    ];
    let mut sum = 0;
    for (name, part) in parts {
        let count = part();
        println!("comparison with the Rust, {name}: {count}");
        sum += count;
    }
    say(&format!("comparison with the Rust: {sum} comparisons in {} parts, all as expected", parts.len()));
}

fn every_known_difference() -> u64 {
    known_differences() + sets::known_differences() + pictures::known_differences() + mode7::known_differences()
}

fn rows() -> impl Iterator<Item = (u32, &'static Row, plain::Mode)> {
    (0..).zip(&MODES).map(|(number, row)| (number, row, plain::mode(number)))
}

/// Fails unless the call is refused with this number in buffers of noise of several sizes.
fn refuses(
    case: impl Fn() -> String,
    refusal: Refusal,
    random: &mut Random,
    call: impl Fn(&mut [u8]) -> Result<usize, u32>,
) -> u64 {
    [0, 1, 2, 64]
        .map(|room| {
            let noise = random.bytes(room);
            assert_writes(|| format!("{} in {room} bytes", case()), Err(refusal.number()), &noise, &call)
        })
        .iter()
        .sum()
}

/// The Rust's `Err` is document 01's 7, its bytes are the port's bytes.
fn same_packed(mode: u32, rust: plain::Mode, colors: &[u8], random: &mut Random) -> u64 {
    let case = || format!("pack_colors mode {mode} {colors:?}");
    let call = |out: &mut [u8]| told(rumchivoat::pack_colors(mode, colors, out));
    match plain::pack_colors(rust, &plain::colors(colors)) {
        Ok(bytes) => writes(case, &bytes, random, call),
        Err(_) => refuses(case, Refusal::Length, random, call),
    }
}

fn same_unpacked(mode: u32, rust: plain::Mode, bytes: &[u8], random: &mut Random) -> u64 {
    let case = || format!("unpack_colors mode {mode} {bytes:?}");
    let call = |out: &mut [u8]| told(rumchivoat::unpack_colors(mode, bytes, out));
    match plain::unpack_colors(rust, bytes) {
        Ok(colors) => writes(case, &plain::rgba(&colors), random, call),
        Err(_) => refuses(case, Refusal::Length, random, call),
    }
}

fn rust_entry(entry: Entry) -> plain::Entry {
    plain::entry(entry.tile, entry.palette, entry.flip_h, entry.flip_v, entry.priority)
}

fn port_entry(entry: plain::Entry) -> Entry {
    let (tile, palette, flip_h, flip_v, priority) = plain::fields(entry);
    Entry { tile, palette, flip_h, flip_v, priority }
}

/// Read alike, but where ws has the bit that the Rust alone reads: there its tile index is 512 more.
fn same_read(mode: u32, rust: plain::Mode, bytes: &[u8]) -> u64 {
    let theirs = port_entry(plain::unpack_mapentry(rust, bytes));
    let bank = if without_bank(mode, bytes) == bytes { 0 } else { 512 };
    let entry = Entry { tile: theirs.tile - bank, ..theirs };
    assert_eq!(rumchivoat::unpack_entry(mode, bytes), Ok(entry), "unpack_entry mode {mode} {bytes:?}");
    1
}

fn same_entry_calls(mode: u32, rust: plain::Mode, entry: Entry, random: &mut Random) -> u64 {
    let theirs = rust_entry(entry);
    let case = |call: &'static str| move || format!("{call} mode {mode} {entry:?}");
    let pack = |out: &mut [u8]| told(rumchivoat::pack_entry(mode, entry, out));
    let index = |out: &mut [u8]| told(rumchivoat::tile_index(mode, entry, out));
    let attribute = rumchivoat::attribute(mode, entry);
    assert_eq!(attribute, Ok(plain::get_attribute(rust, theirs)), "{}", case("attribute")());
    1 + writes(case("pack_entry"), &plain::pack_mapentry(rust, theirs), random, pack)
        + writes(case("tile_index"), &plain::get_tile_index(rust, theirs), random, index)
}

fn refused_entry_calls(mode: u32, entry: Entry, refusal: Refusal, random: &mut Random) -> u64 {
    let case = |call: &'static str| move || format!("{call} mode {mode} {entry:?}");
    let pack = |out: &mut [u8]| told(rumchivoat::pack_entry(mode, entry, out));
    let index = |out: &mut [u8]| told(rumchivoat::tile_index(mode, entry, out));
    assert_eq!(rumchivoat::attribute(mode, entry), Err(refusal), "{}", case("attribute")());
    1 + refuses(case("pack_entry"), refusal, random, pack) + refuses(case("tile_index"), refusal, random, index)
}

/// The entry as the mode's bits hold it, without what the mode has not.
fn held(row: &Row, entry: Entry) -> Entry {
    Entry {
        tile: entry.tile % (1 << row.tile_bits),
        palette: entry.palette % (1 << row.palette_bits),
        flip_h: entry.flip_h && row.flips,
        flip_v: entry.flip_v && row.flips,
        priority: entry.priority && row.priority,
    }
}

/// What the port answers of an entry of which its mode holds this much: the first field's number that differs.
fn misfit(entry: Entry, held: Entry) -> Refusal {
    if entry.tile != held.tile {
        Refusal::EntryTile
    } else if entry.palette != held.palette {
        Refusal::EntryPalette
    } else if (entry.flip_h, entry.flip_v) != (held.flip_h, held.flip_v) {
        Refusal::EntryFlip
    } else {
        Refusal::EntryPriority
    }
}

/// An entry that its mode holds is answered alike; of any other, the port answers 15 to 18 and the Rust packs what the
/// mode holds of it, in ws a tile bit more. The Rust's tile index is not cut to the tile bits.
fn compared_entry_calls(mode: u32, row: &Row, rust: plain::Mode, entry: Entry, random: &mut Random) -> u64 {
    let held = held(row, entry);
    if held == entry {
        return same_entry_calls(mode, rust, entry, random);
    }
    let theirs = rust_entry(entry);
    let mut packed = plain::pack_mapentry(rust, rust_entry(held));
    if row.name == "ws" && entry.tile & 512 != 0 {
        packed[1] |= WS_BANK;
    }
    assert_eq!(plain::pack_mapentry(rust, theirs), packed, "{mode} {entry:?}");
    assert_eq!(plain::get_attribute(rust, theirs), plain::get_attribute(rust, rust_entry(held)), "{mode} {entry:?}");
    let uncut = entry.tile.to_le_bytes();
    assert!(uncut.starts_with(&plain::get_tile_index(rust, theirs)), "{mode} {entry:?}");
    refused_entry_calls(mode, entry, misfit(entry, held), random)
}

fn with_every_flag(tile: u32, palette: u32) -> impl Iterator<Item = Entry> {
    (0..8).map(move |flags| Entry {
        tile,
        palette,
        flip_h: flags & 1 != 0,
        flip_v: flags & 2 != 0,
        priority: flags & 4 != 0,
    })
}

fn modes() -> u64 {
    let mut count = 0;
    for (number, row, rust) in rows() {
        let mode = Mode::try_from(number).expect("a number below 16 is a mode");
        assert_eq!(mode.name(), plain::name(rust));
        assert_eq!(row.entry_bytes, plain::mapentry_size(rust));
        count += 2;
    }
    count
}

fn every_color_word() -> u64 {
    let (mut count, mut random) = (0, Random::new(11));
    for (mode, row, rust) in rows() {
        for word in 0..=u16::MAX {
            let [low, high] = word.to_le_bytes();
            let bytes: &[u8] = match row.name {
                "gb" | "sms" if high > 0 => break,
                "gb" | "sms" => &[low],
                "ngp" => &[low, high, !low, high ^ low],
                _ => &[low, high],
            };
            count += same_unpacked(mode, rust, bytes, &mut random);
            let colors = plain::unpack_colors(rust, bytes).expect("bytes of the mode's length");
            count += same_packed(mode, rust, &plain::rgba(&colors), &mut random);
        }
    }
    count
}

/// Whole colours and words, and lengths between them. Colours that are not whole cannot be given to the Rust.
fn colors_of_every_length() -> u64 {
    let (mut count, mut random) = (0, Random::new(12));
    for (mode, row, rust) in rows() {
        for length in 0..=72 {
            for _ in 0..20 {
                count += same_unpacked(mode, rust, &random.bytes(length), &mut random);
            }
            let mut colors = random.colors(row.top, 18);
            colors.truncate(length);
            count += if length % 4 == 0 {
                same_packed(mode, rust, &colors, &mut random)
            } else {
                let call = |out: &mut [u8]| told(rumchivoat::pack_colors(mode, &colors, out));
                refuses(|| format!("pack_colors mode {mode} {colors:?}"), Refusal::Length, &mut random, call)
            };
        }
    }
    count
}

fn random_palettes() -> u64 {
    let (mut count, mut random) = (0, Random::new(13));
    for (mode, row, rust) in rows() {
        for _ in 0..2000 {
            // four colours for gb and ws; any green, blue and alpha beside red
            count += same_packed(mode, rust, &random.colors(row.top, 4), &mut random);
        }
        for colors in [15, 16, 17, 255, 256, 257] {
            count += same_packed(mode, rust, &random.colors(row.top, colors), &mut random);
            count += same_unpacked(mode, rust, &random.bytes(2 * colors), &mut random);
        }
    }
    count
}

/// Every value above the top in every place of four colours: the port answers 9. The Rust packs the component's low
/// bits; in ngp and ws it keeps every bit of red, and so spills over; in the gray modes it does not read green and blue.
fn components_above() -> u64 {
    let (mut count, mut random) = (0, Random::new(14));
    for (mode, row, rust) in rows() {
        let top = row.top as u8;
        for place in (0..16).filter(|place| place % 4 != 3) {
            for value in top + 1..=255 {
                let mut colors = random.colors(row.top, 4);
                colors[place] = value;
                let theirs = plain::pack_colors(rust, &plain::colors(&colors));
                assert_eq!(theirs, Ok(packed_unchecked(row, rust, &colors)), "pack_colors {} {colors:?}", row.name);
                let call = |out: &mut [u8]| told(rumchivoat::pack_colors(mode, &colors, out));
                count += refuses(|| format!("pack_colors {mode} {colors:?}"), Refusal::Component, &mut random, call);
            }
        }
    }
    count
}

/// What the Rust packs where components may be above the top, told in terms of what it packs where none is.
fn packed_unchecked(row: &Row, rust: plain::Mode, colors: &[u8]) -> Vec<u8> {
    let reds: Vec<u16> = colors.chunks_exact(4).map(|color| u16::from(color[0]) ^ 7).collect();
    match row.name {
        "ngp" => reds.iter().map(|&red| red as u8).collect(),
        "ws" => (reds[0] | reds[1] << 4 | reds[2] << 8 | reds[3] << 12).to_le_bytes().to_vec(),
        _ => {
            let low_bits: Vec<u8> = colors.iter().map(|component| component & row.top as u8).collect();
            plain::pack_colors(rust, &plain::colors(&low_bits)).expect("four colours")
        }
    }
}

/// Every value and every component; a component above the top is 9, where the Rust scales it up all the same.
fn channels() -> u64 {
    let mut count = 0;
    for (mode, row, rust) in rows() {
        for value in 0..=255 {
            for (rounding, nearest) in [(Rounding::Truncate, false), (Rounding::Nearest, true)] {
                let theirs = plain::reduce_channel(rust, value, nearest);
                assert_eq!(
                    rumchivoat::reduce_channel(mode, value, rounding),
                    Ok(theirs),
                    "{mode} {value} {rounding:?}"
                );
                count += 1;
            }
            let theirs = plain::scale_up(rust, value);
            let expected = if u32::from(value) > row.top { Err(Refusal::Component) } else { Ok(theirs) };
            assert_eq!(rumchivoat::scale_up(mode, value.into()), expected, "{mode} {value}");
            count += 1;
        }
    }
    count + grays_and_their_luma()
}

/// The Rust's `reduce_color` reduces a gray's luma in the gray modes, which is not ported. It tells on one gray alone:
/// 237 by Nearest in ngp and ws, whose luma is 236.
fn grays_and_their_luma() -> u64 {
    let mut count = 0;
    for (mode, row, rust) in rows().filter(|(_, row, _)| ["gb", "ngp", "ws"].contains(&row.name)) {
        for value in 0..=255 {
            for nearest in [false, true] {
                let agree = plain::reduce_gray(rust, value, nearest) == plain::reduce_channel(rust, value, nearest);
                let told_apart = nearest && value == 237 && row.name != "gb";
                assert_eq!(agree, !told_apart, "mode {mode} gray {value} nearest {nearest}");
                count += 1;
            }
        }
    }
    count
}

/// Every word of an entry is read alike, but for a bit of ws, and what the Rust reads is packed alike, or refused where
/// that bit is in it.
fn every_entry_word() -> u64 {
    let (mut count, mut random) = (0, Random::new(15));
    for (mode, row, rust) in rows().filter(|(_, row, _)| row.entry_bytes > 0) {
        for word in 0..1u32 << (8 * row.entry_bytes) {
            let bytes = &word.to_le_bytes()[..row.entry_bytes];
            count += same_read(mode, rust, bytes);
            let entry = port_entry(plain::unpack_mapentry(rust, bytes));
            assert_eq!(held(row, entry) == entry, without_bank(mode, bytes) == bytes, "{mode} {bytes:?}");
            count += compared_entry_calls(mode, row, rust, entry, &mut random);
        }
    }
    count
}

fn every_entry_and_just_beyond() -> u64 {
    let (mut count, mut random) = (0, Random::new(16));
    for (mode, row, rust) in rows().filter(|(_, row, _)| row.entry_bytes > 0) {
        for tile in 0..=1 << row.tile_bits {
            for palette in 0..=1 << row.palette_bits {
                for entry in with_every_flag(tile, palette) {
                    count += compared_entry_calls(mode, row, rust, entry, &mut random);
                }
            }
        }
    }
    count
}

fn random_entries() -> u64 {
    let (mut count, mut random) = (0, Random::new(17));
    for (mode, row, rust) in rows().filter(|(_, row, _)| row.entry_bytes > 0) {
        for _ in 0..20_000 {
            let mut wide = || (random.number() >> 32 >> (random.number() % 33)) as u32;
            let (tile, palette) = (wide(), wide());
            for entry in with_every_flag(tile, palette) {
                count += compared_entry_calls(mode, row, rust, entry, &mut random);
            }
        }
    }
    count
}

/// The Rust reads a missing byte as 0 and passes over further ones; the port answers 7.
fn entries_of_every_length() -> u64 {
    let (mut count, mut random) = (0, Random::new(18));
    for (mode, row, rust) in rows().filter(|(_, row, _)| row.entry_bytes > 0) {
        for length in 0..=9 {
            for _ in 0..200 {
                let bytes = random.bytes(length);
                if length == row.entry_bytes {
                    count += same_read(mode, rust, &bytes);
                    continue;
                }
                let mut whole = bytes.clone();
                whole.resize(row.entry_bytes, 0);
                let theirs = plain::fields(plain::unpack_mapentry(rust, &bytes));
                assert_eq!(theirs, plain::fields(plain::unpack_mapentry(rust, &whole)), "{mode} {bytes:?}");
                assert_eq!(rumchivoat::unpack_entry(mode, &bytes), Err(Refusal::Length), "{mode} {bytes:?}");
                count += 1;
            }
        }
    }
    count
}

/// The port answers 2; the Rust packs nothing, reads an empty entry, and gives two bytes of tile index, attribute 0.
fn entries_in_pce_sprite() -> u64 {
    let (mut count, mut random) = (0, Random::new(19));
    let (mode, rust) = (Mode::PceSprite.number(), plain::mode(Mode::PceSprite.number()));
    for _ in 0..1000 {
        let (tile, palette) = (random.number() as u32, random.number() as u32);
        for entry in with_every_flag(tile, palette) {
            let theirs = rust_entry(entry);
            assert_eq!(plain::pack_mapentry(rust, theirs), []);
            assert_eq!(plain::get_tile_index(rust, theirs), tile.to_le_bytes()[..2]);
            assert_eq!(plain::get_attribute(rust, theirs), 0);
            count += refused_entry_calls(mode, entry, Refusal::PceSprite, &mut random);
        }
        let bytes = random.bytes((tile % 5) as usize);
        assert_eq!(port_entry(plain::unpack_mapentry(rust, &bytes)), Entry::default());
        assert_eq!(rumchivoat::unpack_entry(mode, &bytes), Err(Refusal::PceSprite));
        count += 1;
    }
    count
}

/// A call and its input. A tile's comes after its depth, width and height, or its depth and the flip.
enum Call {
    PackTile(u32, u32, u32, &'static [u8]),
    UnpackTile(u32, u32, u32, &'static [u8]),
    FlipTile(u32, Flip, &'static [u8]),
    PackColors(&'static [u8]),
    ScaleUp(u8),
    PackEntry(Entry),
    UnpackEntry(&'static [u8]),
    TileIndex(Entry),
    Attribute(Entry),
}

use Call::{Attribute, FlipTile, PackColors, PackEntry, PackTile, ScaleUp, TileIndex, UnpackEntry, UnpackTile};

const PLAIN: Entry = Entry { tile: 0, palette: 0, flip_h: false, flip_v: false, priority: false };
const FLIPPED: Entry = Entry { flip_h: true, ..PLAIN };
const IN_FRONT: Entry = Entry { priority: true, ..PLAIN };

const fn tile(tile: u32) -> Entry {
    Entry { tile, ..PLAIN }
}

const fn palette(palette: u32) -> Entry {
    Entry { palette, ..PLAIN }
}

const H: Flip = (true, false);
const V: Flip = (false, true);
const HV: Flip = (true, true);

/// An 8x8 tile of 0, but for its first pixel.
const fn first_pixel(pixel: u8) -> [u8; 64] {
    let mut tile = [0; 64];
    tile[0] = pixel;
    tile
}

const FIRST_2: [u8; 64] = first_pixel(2);
const FIRST_4: [u8; 64] = first_pixel(4);
const FIRST_5: [u8; 64] = first_pixel(5);
const FIRST_16: [u8; 64] = first_pixel(16);
const SPRITE_16: [u8; 256] = {
    let mut sprite = [0; 256];
    sprite[0] = 16;
    sprite
};

// a row of eight and a byte more, what the Rust makes of them, and of a gba tile's first byte
const NINE: [u8; 9] = [1, 2, 3, 4, 5, 6, 7, 8, 9];
const NINE_V: &str = "09 01 02 03 04 05 06 07 08";
const NINE_HV: &str = "07 06 05 04 03 02 01 09 08";
const GBA_H: &str = "00 00 00 12, 28 x 00";

// gb and ws take four colours: one above the top, three that are not
const GB_RED_4: [u8; 16] = [4, 0, 0, 0, 3, 0, 0, 0, 3, 0, 0, 0, 3, 0, 0, 0];
const GB_GREEN_4: [u8; 16] = [3, 4, 0, 0, 3, 0, 0, 0, 3, 0, 0, 0, 3, 0, 0, 0];
const WS_RED_8: [u8; 16] = [8, 0, 0, 0, 7, 0, 0, 0, 7, 0, 0, 0, 7, 0, 0, 0];
const WS_RED_16: [u8; 16] = [16, 0, 0, 0, 7, 0, 0, 0, 7, 0, 0, 0, 7, 0, 0, 0];

/// Where document 01 answers 0 and the Rust panics, or reads another entry: the port's answer.
const DIFFERENCES_INSIDE: &[(Mode, Call, &str, &str)] = &[
    (Mode::Gb, UnpackTile(1, 8, 8, &[0; 8]), "panic", "64 x 00"),
    (Mode::Gb, UnpackTile(1, 8, 8, &[0x80, 0, 0, 0, 0, 0, 0, 0]), "panic", "01, 63 x 00"),
    (Mode::Gbc, UnpackTile(1, 8, 8, &[0; 8]), "panic", "64 x 00"),
    (Mode::Gb, FlipTile(1, H, &[0; 8]), "panic", "8 x 00"),
    (Mode::Gb, FlipTile(1, H, &[0x80, 0, 0, 0, 0, 0, 0, 0]), "panic", "01, 7 x 00"),
    (Mode::Gbc, FlipTile(1, V, &[0; 8]), "panic", "8 x 00"),
    (Mode::Ws, UnpackEntry(&[0, WS_BANK]), "512 0 ---", "0 0 ---"),
];

/// Each kind of difference at its smallest input: what the Rust answers, and the port's refusal.
#[rustfmt::skip]
const DIFFERENCES: &[(Mode, Call, &str, Refusal)] = &[
    // the Rust packs whole pairs of planes at any depth
    (Mode::Snes,      PackTile(0, 8, 8, &[0; 64]),      "nothing",        Refusal::Depth),
    (Mode::Snes,      PackTile(1, 8, 8, &[0; 64]),      "8 x 00",         Refusal::Depth),
    (Mode::Snes,      PackTile(3, 8, 8, &[0; 64]),      "16 x 00",        Refusal::Depth),
    (Mode::Gb,        PackTile(4, 8, 8, &[0; 64]),      "32 x 00",        Refusal::Depth),
    // the Rust packs ws, wsc, sms and gg at 2 and 4; gba, gba_affine, md and wsc_packed at 4 and 8
    (Mode::Sms,       PackTile(2, 8, 8, &[0; 64]),      "16 x 00",        Refusal::Depth),
    (Mode::Ws,        PackTile(4, 8, 8, &[0; 64]),      "32 x 00",        Refusal::Depth),
    (Mode::Ws,        PackTile(0, 8, 8, &[0; 64]),      "panic",          Refusal::Depth),
    (Mode::GbaAffine, PackTile(4, 8, 8, &[0; 64]),      "32 x 00",        Refusal::Depth),
    (Mode::Md,        PackTile(8, 8, 8, &[0; 64]),      "64 x 00",        Refusal::Depth),
    (Mode::Gba,       PackTile(0, 8, 8, &[0; 64]),      "panic",          Refusal::Depth),
    (Mode::Ngp,       PackTile(0, 8, 8, &[0; 64]),      "panic",          Refusal::Depth),
    // the Rust does not ask for the depth in snes_mode7 and pce_sprite
    (Mode::SnesMode7, PackTile(0, 8, 8, &[0; 64]),      "64 x 00",        Refusal::Depth),
    (Mode::PceSprite, PackTile(0, 16, 16, &[0; 256]),   "128 x 00",       Refusal::Depth),
    // the Rust does not ask for the size where it has no planes, ngp and ngpc aside
    (Mode::SnesMode7, PackTile(8, 0, 0, &[]),           "nothing",        Refusal::Size),
    (Mode::GbaAffine, PackTile(8, 0, 0, &[]),           "nothing",        Refusal::Size),
    (Mode::Gba,       PackTile(4, 0, 0, &[]),           "nothing",        Refusal::Size),
    (Mode::Gba,       PackTile(4, 8, 16, &[0; 128]),    "64 x 00",        Refusal::Size),
    (Mode::WscPacked, PackTile(4, 0, 0, &[]),           "nothing",        Refusal::Size),
    // the Rust packs a blank tile of no pixels, passes over pixels after a tile, and panics on other lengths
    (Mode::Snes,      PackTile(2, 8, 8, &[]),           "16 x 00",        Refusal::Length),
    (Mode::Snes,      PackTile(2, 8, 8, &[0]),          "panic",          Refusal::Length),
    (Mode::Snes,      PackTile(2, 8, 8, &[0; 65]),      "panic",          Refusal::Length),
    (Mode::Snes,      PackTile(2, 8, 8, &[0; 72]),      "16 x 00",        Refusal::Length),
    (Mode::Sms,       PackTile(4, 8, 8, &[]),           "32 x 00",        Refusal::Length),
    (Mode::Sms,       PackTile(4, 8, 8, &[0; 68]),      "32 x 00",        Refusal::Length),
    (Mode::Ngp,       PackTile(2, 8, 8, &[]),           "16 x 00",        Refusal::Length),
    (Mode::Ngp,       PackTile(2, 8, 8, &[0; 65]),      "16 x 00",        Refusal::Length),
    (Mode::PceSprite, PackTile(4, 16, 16, &[]),         "panic",          Refusal::Length),
    (Mode::PceSprite, PackTile(4, 16, 16, &[0; 257]),   "128 x 00",       Refusal::Length),
    // the Rust packs what comes: eight pixels a byte at depth 1, a byte a pixel, or two pixels a byte and one left out
    (Mode::Gb,        PackTile(1, 8, 8, &[]),           "nothing",        Refusal::Length),
    (Mode::Gb,        PackTile(1, 8, 8, &[0]),          "panic",          Refusal::Length),
    (Mode::Gb,        PackTile(1, 8, 8, &[0; 8]),       "1 x 00",         Refusal::Length),
    (Mode::SnesMode7, PackTile(8, 8, 8, &[]),           "nothing",        Refusal::Length),
    (Mode::SnesMode7, PackTile(8, 8, 8, &[1]),          "01",             Refusal::Length),
    (Mode::Gba,       PackTile(4, 8, 8, &[]),           "nothing",        Refusal::Length),
    (Mode::Gba,       PackTile(4, 8, 8, &[1]),          "nothing",        Refusal::Length),
    (Mode::Gba,       PackTile(4, 8, 8, &[1, 2]),       "21",             Refusal::Length),
    (Mode::WscPacked, PackTile(4, 8, 8, &[1, 2]),       "12",             Refusal::Length),
    // the Rust packs a pixel's low bits
    (Mode::Gb,        PackTile(1, 8, 8, &FIRST_2),      "8 x 00",         Refusal::Pixel),
    (Mode::Snes,      PackTile(2, 8, 8, &FIRST_4),      "16 x 00",        Refusal::Pixel),
    (Mode::Snes,      PackTile(2, 8, 8, &FIRST_5),      "80, 15 x 00",    Refusal::Pixel),
    (Mode::Ngp,       PackTile(2, 8, 8, &FIRST_4),      "16 x 00",        Refusal::Pixel),
    (Mode::Sms,       PackTile(4, 8, 8, &FIRST_16),     "32 x 00",        Refusal::Pixel),
    (Mode::Gba,       PackTile(4, 8, 8, &FIRST_16),     "32 x 00",        Refusal::Pixel),
    (Mode::WscPacked, PackTile(4, 8, 8, &FIRST_16),     "32 x 00",        Refusal::Pixel),
    (Mode::PceSprite, PackTile(4, 16, 16, &SPRITE_16),  "128 x 00",       Refusal::Pixel),
    // the Rust unpacks so many planes, whatever the mode's depths, and ws, wsc, sms and gg at 2 and 4
    (Mode::Snes,      UnpackTile(0, 8, 8, &[]),         "64 x 00",        Refusal::Depth),
    (Mode::Snes,      UnpackTile(1, 8, 8, &[0; 8]),     "panic",          Refusal::Depth),
    (Mode::Snes,      UnpackTile(1, 8, 8, &[0; 15]),    "64 x 00",        Refusal::Depth),
    (Mode::Snes,      UnpackTile(3, 8, 8, &[0; 31]),    "64 x 00",        Refusal::Depth),
    (Mode::Sms,       UnpackTile(2, 8, 8, &[0; 16]),    "64 x 00",        Refusal::Depth),
    (Mode::Ws,        UnpackTile(4, 8, 8, &[0; 32]),    "64 x 00",        Refusal::Depth),
    (Mode::Ws,        UnpackTile(0, 8, 8, &[]),         "panic",          Refusal::Depth),
    // the Rust does not ask for the depth, or only whether it is 4
    (Mode::SnesMode7, UnpackTile(0, 8, 8, &[]),         "nothing",        Refusal::Depth),
    (Mode::Gba,       UnpackTile(0, 8, 8, &[]),         "nothing",        Refusal::Depth),
    (Mode::GbaAffine, UnpackTile(4, 8, 8, &[]),         "64 x 00",        Refusal::Depth),
    (Mode::WscPacked, UnpackTile(0, 8, 8, &[]),         "64 x 00",        Refusal::Depth),
    (Mode::PceSprite, UnpackTile(0, 16, 16, &[0; 128]), "256 x 00",       Refusal::Depth),
    // the Rust asks for the size in pce_sprite alone: it fills up a larger one with 0 and panics on a smaller one
    (Mode::Snes,      UnpackTile(2, 0, 0, &[0; 16]),    "panic",          Refusal::Size),
    (Mode::Snes,      UnpackTile(2, 8, 9, &[0; 16]),    "72 x 00",        Refusal::Size),
    (Mode::Sms,       UnpackTile(4, 8, 9, &[0; 32]),    "72 x 00",        Refusal::Size),
    (Mode::Ngp,       UnpackTile(2, 8, 9, &[0; 16]),    "72 x 00",        Refusal::Size),
    (Mode::Gba,       UnpackTile(4, 8, 9, &[0; 32]),    "72 x 00",        Refusal::Size),
    (Mode::Gba,       UnpackTile(4, 0, 0, &[]),         "nothing",        Refusal::Size),
    (Mode::WscPacked, UnpackTile(4, 0, 0, &[]),         "nothing",        Refusal::Size),
    (Mode::SnesMode7, UnpackTile(8, 0, 0, &[]),         "nothing",        Refusal::Size),
    // the Rust passes over bytes after a tile, and panics where some are missing
    (Mode::Snes,      UnpackTile(2, 8, 8, &[]),         "panic",          Refusal::Length),
    (Mode::Snes,      UnpackTile(2, 8, 8, &[0; 17]),    "64 x 00",        Refusal::Length),
    (Mode::Sms,       UnpackTile(4, 8, 8, &[]),         "panic",          Refusal::Length),
    (Mode::Sms,       UnpackTile(4, 8, 8, &[0; 33]),    "64 x 00",        Refusal::Length),
    (Mode::Ngp,       UnpackTile(2, 8, 8, &[]),         "panic",          Refusal::Length),
    (Mode::Ngp,       UnpackTile(2, 8, 8, &[0; 17]),    "64 x 00",        Refusal::Length),
    // the Rust reads every other byte at depth 1
    (Mode::Gb,        UnpackTile(1, 8, 8, &[]),         "panic",          Refusal::Length),
    (Mode::Gb,        UnpackTile(1, 8, 8, &[0; 15]),    "64 x 00",        Refusal::Length),
    // the Rust takes what comes as it is; of two pixels a byte, missing ones are 0 and further ones a panic
    (Mode::SnesMode7, UnpackTile(8, 8, 8, &[]),         "nothing",        Refusal::Length),
    (Mode::SnesMode7, UnpackTile(8, 8, 8, &[1]),        "01",             Refusal::Length),
    (Mode::Gba,       UnpackTile(4, 8, 8, &[]),         "64 x 00",        Refusal::Length),
    (Mode::Gba,       UnpackTile(4, 8, 8, &[0x21]),     "01 02, 62 x 00", Refusal::Length),
    (Mode::Gba,       UnpackTile(4, 8, 8, &[0; 33]),    "panic",          Refusal::Length),
    (Mode::WscPacked, UnpackTile(4, 8, 8, &[]),         "64 x 00",        Refusal::Length),
    (Mode::WscPacked, UnpackTile(4, 8, 8, &[0; 33]),    "panic",          Refusal::Length),
    // the Rust unpacks no sprite of 8x8
    (Mode::PceSprite, FlipTile(4, H, &[0; 32]),         "Err",            Refusal::PceSprite),
    (Mode::PceSprite, FlipTile(4, H, &[0; 128]),        "Err",            Refusal::PceSprite),
    // the Rust flips at every depth at which it both unpacks and packs
    (Mode::Snes,      FlipTile(0, H, &[]),              "nothing",        Refusal::Depth),
    (Mode::Snes,      FlipTile(1, H, &[0; 8]),          "panic",          Refusal::Depth),
    (Mode::Snes,      FlipTile(1, H, &[0; 15]),         "8 x 00",         Refusal::Depth),
    (Mode::Snes,      FlipTile(3, H, &[0; 31]),         "16 x 00",        Refusal::Depth),
    (Mode::Sms,       FlipTile(2, H, &[0; 16]),         "16 x 00",        Refusal::Depth),
    (Mode::Ws,        FlipTile(4, H, &[0; 32]),         "32 x 00",        Refusal::Depth),
    (Mode::Ws,        FlipTile(0, H, &[]),              "panic",          Refusal::Depth),
    (Mode::Ngp,       FlipTile(0, H, &[]),              "Err",            Refusal::Depth),
    (Mode::SnesMode7, FlipTile(0, H, &[]),              "nothing",        Refusal::Depth),
    (Mode::Gba,       FlipTile(0, H, &[]),              "panic",          Refusal::Depth),
    (Mode::GbaAffine, FlipTile(4, H, &[]),              "32 x 00",        Refusal::Depth),
    (Mode::Md,        FlipTile(8, H, &[]),              "nothing",        Refusal::Depth),
    (Mode::WscPacked, FlipTile(8, H, &[]),              "64 x 00",        Refusal::Depth),
    // the Rust passes over bytes after a tile, and panics where some are missing
    (Mode::Snes,      FlipTile(2, H, &[]),              "panic",          Refusal::Length),
    (Mode::Snes,      FlipTile(2, H, &[0; 17]),         "16 x 00",        Refusal::Length),
    (Mode::Sms,       FlipTile(4, H, &[]),              "panic",          Refusal::Length),
    (Mode::Sms,       FlipTile(4, H, &[0; 33]),         "32 x 00",        Refusal::Length),
    (Mode::Ngp,       FlipTile(2, H, &[]),              "panic",          Refusal::Length),
    (Mode::Ngp,       FlipTile(2, H, &[0; 17]),         "16 x 00",        Refusal::Length),
    // the Rust reads every other byte at depth 1
    (Mode::Gb,        FlipTile(1, H, &[]),              "panic",          Refusal::Length),
    (Mode::Gb,        FlipTile(1, H, &[0; 15]),         "8 x 00",         Refusal::Length),
    // the Rust takes what comes in rows of eight, the last of them shorter
    (Mode::SnesMode7, FlipTile(8, H, &[]),              "nothing",        Refusal::Length),
    (Mode::SnesMode7, FlipTile(8, H, &[1, 2]),          "02 01",          Refusal::Length),
    (Mode::SnesMode7, FlipTile(8, V, &NINE),            NINE_V,           Refusal::Length),
    (Mode::SnesMode7, FlipTile(8, HV, &NINE),           NINE_HV,          Refusal::Length),
    // of two pixels a byte, missing ones are 0 and further ones a panic: a whole tile is written
    (Mode::Gba,       FlipTile(4, H, &[]),              "32 x 00",        Refusal::Length),
    (Mode::Gba,       FlipTile(4, H, &[0x21]),          GBA_H,            Refusal::Length),
    (Mode::Gba,       FlipTile(4, H, &[0; 33]),         "panic",          Refusal::Length),
    (Mode::WscPacked, FlipTile(4, H, &[]),              "32 x 00",        Refusal::Length),
    (Mode::WscPacked, FlipTile(4, H, &[0; 33]),         "panic",          Refusal::Length),
    // the Rust packs a component's low bits
    (Mode::Snes,      PackColors(&[32, 0, 0, 0]), "00 00",    Refusal::Component),
    (Mode::Snes,      PackColors(&[0, 32, 0, 0]), "00 00",    Refusal::Component),
    (Mode::Snes,      PackColors(&[0, 0, 32, 0]), "00 00",    Refusal::Component),
    (Mode::Gb,        PackColors(&GB_RED_4),      "03",       Refusal::Component),
    // the Rust keeps every bit of red in ngp and ws; from 16 on it spills into ws's next colour
    (Mode::Ngp,       PackColors(&[8, 0, 0, 0]),  "0f",       Refusal::Component),
    (Mode::Ws,        PackColors(&WS_RED_8),      "0f 00",    Refusal::Component),
    (Mode::Ws,        PackColors(&WS_RED_16),     "17 00",    Refusal::Component),
    // the Rust does not read green and blue in the gray modes
    (Mode::Gb,        PackColors(&GB_GREEN_4),    "00",       Refusal::Component),
    (Mode::Ngp,       PackColors(&[0, 8, 0, 0]),  "07",       Refusal::Component),
    (Mode::Ngp,       PackColors(&[0, 0, 8, 0]),  "07",       Refusal::Component),
    // the Rust scales up what is no component
    (Mode::Snes,      ScaleUp(32),                "8",        Refusal::Component),
    (Mode::Gb,        ScaleUp(4),                 "84",       Refusal::Component),
    // the Rust packs a field's low bits
    (Mode::Snes,      PackEntry(tile(1024)),      "00 00",    Refusal::EntryTile),
    (Mode::Snes,      PackEntry(palette(8)),      "00 00",    Refusal::EntryPalette),
    (Mode::SnesMode7, PackEntry(tile(256)),       "00",       Refusal::EntryTile),
    // the Rust has ten tile bits in ws
    (Mode::Ws,        PackEntry(tile(512)),       "00 20",    Refusal::EntryTile),
    (Mode::Ws,        PackEntry(tile(1023)),      "ff 21",    Refusal::EntryTile),
    // the Rust passes over what the mode has not
    (Mode::SnesMode7, PackEntry(palette(1)),      "00",       Refusal::EntryPalette),
    (Mode::SnesMode7, PackEntry(FLIPPED),         "00",       Refusal::EntryFlip),
    (Mode::SnesMode7, PackEntry(IN_FRONT),        "00",       Refusal::EntryPriority),
    (Mode::Gba,       PackEntry(IN_FRONT),        "00 00",    Refusal::EntryPriority),
    (Mode::Pce,       PackEntry(FLIPPED),         "00 00",    Refusal::EntryFlip),
    // the Rust's tile index is not cut to the tile bits; its attribute is of what it packs
    (Mode::Snes,      TileIndex(tile(1024)),      "00 04",    Refusal::EntryTile),
    (Mode::Snes,      TileIndex(palette(8)),      "00 00",    Refusal::EntryPalette),
    (Mode::Snes,      TileIndex(tile(65_536)),    "00 00",    Refusal::EntryTile),
    (Mode::SnesMode7, TileIndex(tile(256)),       "00",       Refusal::EntryTile),
    (Mode::Ws,        TileIndex(tile(512)),       "00 02",    Refusal::EntryTile),
    (Mode::Snes,      Attribute(tile(1024)),      "0",        Refusal::EntryTile),
    (Mode::Snes,      Attribute(palette(8)),      "0",        Refusal::EntryPalette),
    (Mode::SnesMode7, Attribute(FLIPPED),         "0",        Refusal::EntryFlip),
    (Mode::Ws,        Attribute(tile(512)),       "0",        Refusal::EntryTile),
    // the Rust reads a missing byte as 0 and passes over further ones
    (Mode::Snes,      UnpackEntry(&[]),           "0 0 ---",  Refusal::Length),
    (Mode::Snes,      UnpackEntry(&[1]),          "1 0 ---",  Refusal::Length),
    (Mode::Snes,      UnpackEntry(&[1, 0, 0]),    "1 0 ---",  Refusal::Length),
    (Mode::SnesMode7, UnpackEntry(&[1, 0]),       "1 0 ---",  Refusal::Length),
    // the Rust answers for entries in pce_sprite
    (Mode::PceSprite, PackEntry(PLAIN),           "",         Refusal::PceSprite),
    (Mode::PceSprite, UnpackEntry(&[]),           "0 0 ---",  Refusal::PceSprite),
    (Mode::PceSprite, TileIndex(PLAIN),           "00 00",    Refusal::PceSprite),
    (Mode::PceSprite, Attribute(PLAIN),           "0",        Refusal::PceSprite),
];

fn hex(bytes: &[u8]) -> String {
    let bytes: Vec<String> = bytes.iter().map(|byte| format!("{byte:02x}")).collect();
    bytes.join(" ")
}

fn entry_text(entry: Entry) -> String {
    let flag = |set: bool, letter: char| if set { letter } else { '-' };
    let flags = [flag(entry.flip_h, 'h'), flag(entry.flip_v, 'v'), flag(entry.priority, 'p')];
    format!("{} {} {}", entry.tile, entry.palette, String::from_iter(flags))
}

fn tile_shape(mode: Mode, depth: u32, width: u32, height: u32) -> Shape {
    Shape { mode: mode.number(), depth, width, height }
}

fn rust_says(mode: Mode, call: &Call) -> String {
    let shape = |depth, width, height| tile_shape(mode, depth, width, height);
    let rust = plain::mode(mode.number());
    match *call {
        PackTile(depth, width, height, pixels) => tiles::rust_packs(shape(depth, width, height), pixels).to_string(),
        UnpackTile(depth, width, height, bytes) => tiles::rust_unpacks(shape(depth, width, height), bytes).to_string(),
        FlipTile(depth, flip, bytes) => flips::rust_flips(shape(depth, 8, 8), flip, bytes).to_string(),
        PackColors(colors) => hex(&plain::pack_colors(rust, &plain::colors(colors)).expect("the Rust answers")),
        ScaleUp(component) => plain::scale_up(rust, component).to_string(),
        PackEntry(entry) => hex(&plain::pack_mapentry(rust, rust_entry(entry))),
        UnpackEntry(bytes) => entry_text(port_entry(plain::unpack_mapentry(rust, bytes))),
        TileIndex(entry) => hex(&plain::get_tile_index(rust, rust_entry(entry))),
        Attribute(entry) => plain::get_attribute(rust, rust_entry(entry)).to_string(),
    }
}

fn port_says(mode: Mode, call: &Call) -> Result<String, Refusal> {
    let out = &mut [0; 256];
    match *call {
        PackTile(depth, width, height, pixels) => {
            rumchivoat::pack_tile(mode, depth, width, height, pixels, out).map(|length| tile_text(&out[..length]))
        }
        UnpackTile(depth, width, height, bytes) => {
            rumchivoat::unpack_tile(mode, depth, width, height, bytes, out).map(|length| tile_text(&out[..length]))
        }
        FlipTile(depth, (flip_h, flip_v), bytes) => {
            rumchivoat::flip_tile(mode, depth, flip_h, flip_v, bytes, out).map(|length| tile_text(&out[..length]))
        }
        PackColors(colors) => rumchivoat::pack_colors(mode, colors, out).map(|length| hex(&out[..length])),
        ScaleUp(component) => rumchivoat::scale_up(mode, component.into()).map(|value| value.to_string()),
        PackEntry(entry) => rumchivoat::pack_entry(mode, entry, out).map(|length| hex(&out[..length])),
        UnpackEntry(bytes) => rumchivoat::unpack_entry(mode, bytes).map(entry_text),
        TileIndex(entry) => rumchivoat::tile_index(mode, entry, out).map(|length| hex(&out[..length])),
        Attribute(entry) => rumchivoat::attribute(mode, entry).map(|value| value.to_string()),
    }
}

fn known_differences() -> u64 {
    for (row, (mode, call, rust, port)) in DIFFERENCES_INSIDE.iter().enumerate() {
        assert_eq!(rust_says(*mode, call), *rust, "row {row} of the differences inside, {mode}");
        assert_eq!(port_says(*mode, call).as_deref(), Ok(*port), "row {row} of the differences inside, {mode}");
    }
    for (row, (mode, call, rust, refusal)) in DIFFERENCES.iter().enumerate() {
        assert_eq!(rust_says(*mode, call), *rust, "row {row} of the differences, {mode}");
        assert_eq!(port_says(*mode, call), Err(*refusal), "row {row} of the differences, {mode}");
    }
    (DIFFERENCES_INSIDE.len() + DIFFERENCES.len()) as u64
}
