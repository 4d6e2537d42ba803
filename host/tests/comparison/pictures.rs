//! Pictures against the unchanged Rust's `Image`, `Tileset` and `Map`.

use reading::{Picture, Random, Settings, Shape};
use rumchivoat::Mode;
use superfamiconv::bank::{WS_BANK, without_bank};
use superfamiconv::{pictures, plain};

use super::common::pictures::{
    Converted, Kind, any_cutting, convert, convert_in_strips, converted, different_tiles, map_bytes, most_tiles,
    picture_modes, picture_of, places, redraw, row_of, tile_size, with_every_flag,
};
use super::common::{assert_writes, unpack_tile, writes};
use super::tiles::Said::{self, Bytes, Panic};
use super::tiles::{quietly, said};

fn rust_settings(settings: Settings) -> pictures::Settings {
    let Settings { mode, depth, flip, discard, limit, palette, columns, rows } = settings;
    pictures::Settings { mode: plain::mode(mode), depth, flip, discard, limit, palette, columns, rows }
}

/// What the Rust makes of a picture, its map taking every tile that the mode's entries can name.
fn rust_converts(settings: Settings, pixels: &[u8]) -> pictures::Converted {
    pictures::convert(rust_settings(settings), most_tiles(settings) as u32, pixels)
}

/// What a conversion comes to: the answer with the bytes of both buffers, or a refusal.
type Expected<'a> = Result<(Picture, &'a [u8], &'a [u8]), u32>;

/// Fails unless the port answers this in buffers of noise of these sizes and writes these bytes.
fn converts_to(
    settings: Settings,
    pixels: &[u8],
    (tile_room, map_room): (usize, usize),
    expected: Expected,
    random: &mut Random,
) -> u64 {
    let noise = (&random.bytes(tile_room)[..], &random.bytes(map_room)[..]);
    let at_once = converted(noise, |tiles, map| convert(settings, pixels, tiles, map));
    let case = || format!("{settings:?} in {tile_room} and {map_room} bytes");
    comes_to(case, at_once, noise, expected);
    1
}

/// The same, and in strips of any heights as well. The Rust has none: what it makes of the whole is due.
fn converts_to_in_strips(
    settings: Settings,
    pixels: &[u8],
    (tile_room, map_room): (usize, usize),
    expected: Expected,
    random: &mut Random,
) -> u64 {
    let cutting = any_cutting(settings.rows, random);
    let noise = (&random.bytes(tile_room)[..], &random.bytes(map_room)[..]);
    let in_strips = converted(noise, |tiles, map| convert_in_strips(settings, &cutting, pixels, tiles, map));
    let case = || format!("{settings:?} in {tile_room} and {map_room} bytes, in strips of {cutting:?} rows");
    match expected {
        Ok(_) => comes_to(case, in_strips, noise, expected),
        // the strips before the one that is refused have written theirs
        Err(refusal) => assert_eq!(in_strips.0, Err(refusal), "{}", case()),
    }
    1 + converts_to(settings, pixels, (tile_room, map_room), expected, random)
}

fn comes_to(case: impl Fn() -> String, converted: Converted, noise: (&[u8], &[u8]), expected: Expected) {
    let (answer, tiles, map) = converted;
    assert_eq!(answer, expected.map(|(picture, ..)| picture), "{}", case());
    let (tile_bytes, map_bytes) = expected.map_or((&[][..], &[][..]), |(_, tiles, map)| (tiles, map));
    assert!(tiles[..tile_bytes.len()] == *tile_bytes, "tile bytes written by {}", case());
    assert!(tiles[tile_bytes.len()..] == noise.0[tile_bytes.len()..], "tile bytes left by {}", case());
    assert!(map[..map_bytes.len()] == *map_bytes, "map bytes written by {}", case());
    assert!(map[map_bytes.len()..] == noise.1[map_bytes.len()..], "map bytes left by {}", case());
}

/// Converted alike, at once and in strips: the counts and both lengths and bytes, in buffers exact and one byte long. One
/// byte less is 12 of the tiles and 11 of the map. Where the Rust stores more tiles than the limit or the entries allow,
/// the port answers 12.
fn same_converted(settings: Settings, pixels: &[u8], random: &mut Random) -> u64 {
    let theirs = rust_converts(settings, pixels);
    let (stored, discarded) = plain::counts(&theirs.set);
    let tiles = plain::to_native_data(&theirs.set).expect("the Rust writes 8x8 tiles");
    assert_eq!(theirs.is_full, settings.limit != 0 && stored > settings.limit, "{settings:?}");
    let (tile_room, map_room) = (tiles.len(), theirs.map.len());
    if theirs.is_full || stored as usize > most_tiles(settings) {
        return converts_to_in_strips(settings, pixels, (tile_room, map_room), Err(12), random);
    }
    assert_eq!(theirs.blank, 0, "{settings:?}");
    let picture = Picture { tiles: stored, discarded, tile_bytes: tile_room, map_bytes: map_room };
    let expected = Ok((picture, &tiles[..], &theirs.map[..]));
    converts_to_in_strips(settings, pixels, (tile_room, map_room), expected, random)
        + converts_to_in_strips(settings, pixels, (tile_room + 1, map_room + 1), expected, random)
        + converts_to_in_strips(settings, pixels, (tile_room - 1, map_room), Err(12), random)
        + converts_to_in_strips(settings, pixels, (tile_room, map_room - 1), Err(11), random)
}

/// The Rust's set of these bytes. At depth 1, where it panics in reading them, it is given the tiles that it packs to
/// them.
fn rust_set(settings: Settings, bytes: &[u8]) -> Result<plain::Tileset, String> {
    let mode = plain::mode(settings.mode);
    let read = || plain::from_native_data(mode, settings.depth, 8, 8, true, bytes);
    if settings.depth > 1 || bytes.is_empty() || bytes.len() % 8 != 0 {
        return read();
    }
    assert!(quietly(read).is_err(), "the Rust runs off a tile's 8 bytes");
    let mut set = plain::tileset(mode, 1, 8, 8, true, false, 0);
    for tile in bytes.chunks_exact(8) {
        let mut pixels = [0; 64];
        let shape = Shape { mode: settings.mode, depth: 1, width: 8, height: 8 };
        assert_eq!(unpack_tile(shape, tile, &mut pixels), Ok(64));
        plain::add(&mut set, &plain::image(8, 8, &pixels)).expect("the image has pixels");
    }
    assert!(plain::to_native_data(&set).expect("the Rust writes 8x8 tiles") == bytes);
    Ok(set)
}

/// Redrawn alike, in ws as the Rust draws the map without the bit that it alone reads; the Rust's `Err` is document 01's
/// 7.
fn same_redrawn(
    settings: Settings,
    set: &Result<plain::Tileset, String>,
    tiles: &[u8],
    map: &[u8],
    random: &mut Random,
) -> u64 {
    let rust_map = without_bank(settings.mode, map);
    let theirs =
        set.as_ref().map_err(Clone::clone).and_then(|set| pictures::redraw(set, rust_settings(settings), &rust_map));
    let case = || format!("redraw {settings:?}, {} and {} bytes", tiles.len(), map.len());
    let call = |out: &mut [u8]| redraw(settings, tiles, map, out);
    match theirs {
        Ok(pixels) => writes(case, &pixels, random, call),
        Err(_) => assert_writes(case, Err(7), &random.bytes(64 * places(settings)), call),
    }
}

/// Every mode and depth, flips and discarding on and off, on tiles of every kind.
pub fn pictures_of_every_kind() -> u64 {
    let (mut count, mut random) = (0, Random::new(71));
    for flagged in picture_modes().flat_map(with_every_flag) {
        for kind in Kind::ALL {
            for (columns, rows) in [(1, 1), (2, 1), (1, 3), (5, 4), (13, 9)] {
                let palette = random.below(1 << row_of(flagged).palette_bits);
                let settings = Settings { columns, rows, palette, ..flagged };
                count += same_converted(settings, &kind.picture(settings, &mut random), &mut random);
            }
        }
    }
    count
}

/// Every width and every height, in every mode by turns.
pub fn pictures_of_every_side() -> u64 {
    let (mut count, mut random) = (0, Random::new(72));
    let modes: Vec<Settings> = picture_modes().flat_map(with_every_flag).collect();
    for (turn, side) in (1..=64).enumerate() {
        for (columns, rows) in [(side, 3), (2, side)] {
            let settings = Settings { columns, rows, ..modes[turn % modes.len()] };
            let kind = Kind::ALL[turn % Kind::ALL.len()];
            count += same_converted(settings, &kind.picture(settings, &mut random), &mut random);
        }
    }
    count
}

/// 32 x 32 and 64 x 64 tiles.
pub fn large_pictures() -> u64 {
    let (mut count, mut random) = (0, Random::new(73));
    let modes: Vec<Settings> = picture_modes().flat_map(with_every_flag).filter(|mode| mode.discard).collect();
    for (turn, &flagged) in modes.iter().enumerate() {
        let kind = [Kind::Dots, Kind::Near, Kind::Exchanged][turn % 3];
        let settings = Settings { columns: 32, rows: 32, ..flagged };
        count += same_converted(settings, &kind.picture(settings, &mut random), &mut random);
    }
    for mode in [Mode::Pce, Mode::Md, Mode::Snes] {
        let flagged = modes.iter().rfind(|settings| settings.mode == mode.number()).expect("every mode is listed");
        let settings = Settings { columns: 64, rows: 64, ..*flagged };
        count += same_converted(settings, &Kind::Dots.picture(settings, &mut random), &mut random);
        count += same_converted(settings, &Kind::Exchanged.picture(settings, &mut random), &mut random);
    }
    count
}

/// A limit of exactly the tiles, one less, one more, and of 1.
pub fn limits() -> u64 {
    let (mut count, mut random) = (0, Random::new(74));
    for flagged in picture_modes().flat_map(with_every_flag) {
        for kind in Kind::ALL {
            let settings = Settings { columns: 4, rows: 4, ..flagged };
            let pixels = kind.picture(settings, &mut random);
            let (stored, _) = plain::counts(&rust_converts(settings, &pixels).set);
            for limit in [1, stored - 1, stored, stored + 1, u32::MAX] {
                count += same_converted(Settings { limit, ..settings }, &pixels, &mut random);
            }
        }
    }
    count
}

/// A picture of exactly so many tiles, all different but for those that fill its last row.
fn picture_needing(settings: Settings, need: usize) -> Vec<u8> {
    let mut tiles = different_tiles(settings.depth, need);
    tiles.resize(places(settings), tiles[0].clone());
    picture_of(settings, &tiles)
}

/// So many tiles as the entries can name, and one more: there the Rust leaves the entry blank and says so.
pub fn as_many_tiles_as_entries_can_name() -> u64 {
    let (mut count, mut random) = (0, Random::new(75));
    for flagged in picture_modes().flat_map(with_every_flag).filter(|mode| mode.discard && most_tiles(*mode) < 4096) {
        let most = most_tiles(flagged);
        let settings = Settings { columns: 32, rows: most as u32 / 32 + 1, ..flagged };
        let settings = if settings.rows > 64 { Settings { columns: 64, rows: 33, ..settings } } else { settings };
        for need in [most, most + 1] {
            let pixels = picture_needing(settings, need);
            assert_eq!(rust_converts(settings, &pixels).blank as usize, need - most, "{settings:?}");
            count += same_converted(settings, &pixels, &mut random);
        }
    }
    count
}

/// Any map over as many tiles as the entries can name, and over fewer.
pub fn any_map() -> u64 {
    let (mut count, mut random) = (0, Random::new(76));
    for settings in picture_modes() {
        let most = most_tiles(settings);
        for held in [most, most - 1, most / 2, 3, 1, 0] {
            let tiles = random.bytes(held * tile_size(settings));
            let set = rust_set(settings, &tiles);
            for (columns, rows) in [(1, 1), (2, 1), (1, 2), (5, 7), (64, 3), (2, 64)] {
                let settings = Settings { columns, rows, ..settings };
                let map = random.bytes(map_bytes(settings));
                count += same_redrawn(settings, &set, &tiles, &map, &mut random);
            }
        }
    }
    count
}

/// Every word of an entry, over tiles that end before some of those that it can name.
pub fn every_entry_drawn() -> u64 {
    let (mut count, mut random) = (0, Random::new(77));
    for settings in picture_modes() {
        let tiles = random.bytes((most_tiles(settings) - 7) * tile_size(settings));
        let set = rust_set(settings, &tiles);
        let words: Vec<u8> = match row_of(settings).entry_bytes {
            1 => (0..=255).collect(),
            _ => (0..=u16::MAX).flat_map(u16::to_le_bytes).collect(),
        };
        // a row of entries at a time, and each that names a tile beyond the last by itself
        for map in words.chunks(64 * row_of(settings).entry_bytes) {
            let settings = Settings { columns: 64, ..settings };
            count += same_redrawn(settings, &set, &tiles, map, &mut random);
        }
        for map in words.chunks(row_of(settings).entry_bytes).step_by(37) {
            count += same_redrawn(settings, &set, &tiles, map, &mut random);
        }
    }
    count
}

/// Tile bytes and map bytes of every length: where they are not whole, the Rust's `Err` is 7.
pub fn maps_and_tiles_of_every_length() -> u64 {
    let (mut count, mut random) = (0, Random::new(78));
    for settings in picture_modes() {
        let settings = Settings { columns: 2, rows: 2, ..settings };
        for length in 0..=3 * tile_size(settings) + 1 {
            let tiles = random.bytes(length);
            let set = rust_set(settings, &tiles);
            count += same_redrawn(settings, &set, &tiles, &vec![0; map_bytes(settings)], &mut random);
        }
        let tiles = random.bytes(2 * tile_size(settings));
        let set = rust_set(settings, &tiles);
        for length in 0..=map_bytes(settings) + 9 {
            count += same_redrawn(settings, &set, &tiles, &vec![0; length], &mut random);
        }
    }
    count
}

/// What the Rust converts, the port redraws, and what the port converts, the Rust redraws: the picture, cut to the depth.
pub fn there_and_back() -> u64 {
    let (mut count, mut random) = (0, Random::new(79));
    for flagged in picture_modes().flat_map(with_every_flag) {
        for kind in Kind::ALL {
            let settings = Settings { columns: 9, rows: 8, ..flagged };
            let pixels = kind.picture(settings, &mut random);
            let cut: Vec<u8> = pixels.iter().map(|&pixel| (u32::from(pixel) % (1 << settings.depth)) as u8).collect();

            let theirs = rust_converts(settings, &pixels);
            let tiles = plain::to_native_data(&theirs.set).expect("the Rust writes 8x8 tiles");
            let case = || format!("redraw {settings:?}");
            count += writes(case, &cut, &mut random, |out| redraw(settings, &tiles, &theirs.map, out));

            let (mut tiles, mut map) = (vec![0; 72 * tile_size(settings)], vec![0; map_bytes(settings)]);
            let picture = convert(settings, &pixels, &mut tiles, &mut map).expect("there is room");
            let set = rust_set(settings, &tiles[..picture.tile_bytes]).expect("the tiles are whole");
            assert!(pictures::redraw(&set, rust_settings(settings), &map) == Ok(cut), "{settings:?}");
            count += 1;
        }
    }
    count
}

/// The port answers 5 and 16; the Rust drops the flips that a mode has not, and packs the palette index's low bits.
pub fn flips_and_palettes_that_are_none() -> u64 {
    let (mut count, mut random) = (0, Random::new(80));
    let room = |settings: Settings| (places(settings) * tile_size(settings), map_bytes(settings));
    for mode in picture_modes() {
        let settings = Settings { columns: 3, rows: 3, ..mode };
        let pixels = Kind::Near.picture(settings, &mut random);
        if !row_of(settings).flips {
            let flipped = Settings { flip: true, ..settings };
            assert!(!rust_converts(flipped, &pixels).map.is_empty());
            count += converts_to(flipped, &pixels, room(settings), Err(5), &mut random);
        }
        let above = 1 << row_of(settings).palette_bits;
        let plain_map = rust_converts(settings, &pixels).map;
        for palette in [above, 2 * above, 256 * above] {
            let settings = Settings { palette, ..settings };
            assert!(rust_converts(settings, &pixels).map == plain_map, "{settings:?}");
            count += converts_to(settings, &pixels, room(settings), Err(16), &mut random);
        }
    }
    count
}

fn settings(mode: Mode, depth: u32, columns: u32, rows: u32) -> Settings {
    Settings { mode: mode.number(), depth, flip: false, discard: true, limit: 0, palette: 0, columns, rows }
}

/// Inside the domain: `max_tile_count` stops pce at 2,048 tiles, where its entries hold 4,096. The smallest picture beyond
/// has 50 x 41 tiles: of each tile from there on the Rust leaves the entry blank, the port names it. In the other modes
/// it is what the entries hold.
pub fn stopped_by_max_tile_count() -> u64 {
    let (mut count, mut random) = (0, Random::new(81));
    for mode in picture_modes() {
        let max = pictures::max_tile_count(plain::mode(mode.mode)) as usize;
        if row_of(mode).name == "pce" {
            assert!(max < most_tiles(mode), "{mode:?}");
        } else {
            assert_eq!(max, most_tiles(mode), "{mode:?}");
        }
        count += 1;
    }
    let settings = settings(Mode::Pce, 4, 50, 41);
    let max = pictures::max_tile_count(plain::mode(settings.mode));
    for need in max as usize..=places(settings) {
        let pixels = picture_needing(settings, need);
        let theirs = pictures::convert(rust_settings(settings), max, &pixels);
        assert_eq!(theirs.blank, need as u32 - max, "{settings:?}");
        let all = rust_converts(settings, &pixels);
        let size = row_of(settings).entry_bytes;
        let differing = theirs.map.chunks(size).zip(all.map.chunks(size)).filter(|(theirs, ours)| theirs != ours);
        assert_eq!(differing.count(), need - max as usize, "{settings:?}");
        // with a map that takes what the entries hold, the Rust agrees with the port
        count += same_converted(settings, &pixels, &mut random);
    }
    count
}

/// The smallest input of each other kind of difference, as docs/DIFFERENCES.md has it.
pub fn known_differences() -> u64 {
    let random = &mut Random::new(82);
    differences_of_conversion(random) + more_tiles_than_entries_hold(random) + differences_of_redrawing(random)
}

/// What the Rust makes of a picture.
#[derive(Debug, PartialEq)]
struct Made {
    stored: u32,
    is_full: bool,
    tiles: Said,
    map: Vec<u8>,
    blank: u32,
}

/// What the Rust makes of a picture, its map taking as many tiles as `max_tile_count` says; nothing where it panics.
fn rust_makes(settings: Settings, pixels: &[u8]) -> Option<Made> {
    let most = pictures::max_tile_count(plain::mode(settings.mode));
    let pictures::Converted { set, is_full, map, blank } =
        quietly(|| pictures::convert(rust_settings(settings), most, pixels)).ok()?;
    let (stored, _) = plain::counts(&set);
    Some(Made { stored, is_full, tiles: said(|| plain::to_native_data(&set)), map, blank })
}

fn made(stored: u32, tiles: &[u8], map: &[u8]) -> Made {
    Made { stored, is_full: false, tiles: Bytes(tiles.to_vec()), map: map.to_vec(), blank: 0 }
}

fn differences_of_conversion(random: &mut Random) -> u64 {
    let mut count = 0;
    let mut differ = |settings: Settings, pixels: &[u8], rust: Option<Made>, refusal: u32| {
        assert_eq!(rust_makes(settings, pixels), rust, "{settings:?}");
        count += 1 + converts_to(settings, pixels, (8192, 8192), Err(refusal), random);
    };
    let (snes, gb) = (settings(Mode::Snes, 2, 1, 1), settings(Mode::Gb, 1, 1, 1));
    let blank = || made(1, &[0; 16], &[0; 2]);
    let long_line = || made(1, &[0; 16], &[0; 130]);

    // the Rust stores a sprite's 8x8 tile and then does not pack it; its entry has no bytes
    let unpacked = Made { tiles: Said::Err, ..made(1, &[], &[]) };
    differ(settings(Mode::PceSprite, 4, 1, 1), &[0; 64], Some(unpacked), 2);
    // the Rust packs whole pairs of planes
    differ(Settings { depth: 3, ..snes }, &[0; 64], Some(blank()), 3);
    // the Rust takes any number of columns and rows
    differ(Settings { columns: 0, ..snes }, &[], Some(made(0, &[], &[])), 4);
    differ(Settings { rows: 0, ..snes }, &[], Some(made(0, &[], &[])), 4);
    differ(Settings { columns: 65, ..snes }, &[0; 65 * 64], Some(long_line()), 4);
    differ(Settings { rows: 65, ..snes }, &[0; 65 * 64], Some(long_line()), 4);
    // the Rust finds a tile under a flip, and its entry loses the flip
    let mut mirrored = [0; 128];
    (mirrored[0], mirrored[15]) = (1, 1);
    let lost = made(1, &[0x80, 0, 0, 0, 0, 0, 0, 0], &[0, 0]);
    differ(Settings { flip: true, columns: 2, ..gb }, &mirrored, Some(lost), 5);
    // the Rust panics where pixels are missing, and passes over further ones
    differ(snes, &[0; 63], None, 7);
    differ(snes, &[0; 65], Some(blank()), 7);
    // the Rust packs the low bits of a palette index
    differ(Settings { palette: 8, ..snes }, &[0; 64], Some(blank()), 16);
    differ(Settings { palette: 1, ..gb }, &[0; 64], Some(made(1, &[0; 8], &[0])), 16);
    // the Rust stores more tiles than the limit, and says then that the set is full
    let limited = Settings { limit: 1, columns: 2, ..gb };
    let two = picture_of(limited, &[vec![0; 64], vec![1; 64]]);
    let full = Made { is_full: true, ..made(2, &[[0; 8], [0xff; 8]].concat(), &[0, 1]) };
    differ(limited, &two, Some(full), 12);
    count
}

/// One different tile more than the entries hold, 257 in gb and 513 in ws, in the smallest picture that holds them: the
/// Rust stores them all and leaves the last one's entry blank. And 258 times one tile with discarding off: it stores all
/// and names the first.
fn more_tiles_than_entries_hold(random: &mut Random) -> u64 {
    let mut count = 0;
    for (different, need) in [(settings(Mode::Gb, 1, 43, 6), 257), (settings(Mode::Ws, 2, 27, 19), 513)] {
        let pixels = picture_needing(different, need);
        let rust = rust_makes(different, &pixels).expect("the Rust converts it");
        assert_eq!((rust.stored as usize, rust.map.len(), rust.blank), (need, map_bytes(different), 1));
        count += 1 + converts_to(different, &pixels, (65_536, 8192), Err(12), random);
    }
    let same = Settings { discard: false, ..settings(Mode::Gb, 1, 43, 6) };
    assert_eq!(rust_makes(same, &[0; 64 * 258]), Some(made(258, &[0; 8 * 258], &[0; 258])));
    count + 1 + converts_to(same, &[0; 64 * 258], (8192, 8192), Err(12), random)
}

fn rust_redraws(settings: Settings, tiles: &[u8], map: &[u8]) -> Said {
    said(|| {
        let set = plain::from_native_data(plain::mode(settings.mode), settings.depth, 8, 8, true, tiles)?;
        pictures::redraw(&set, rust_settings(settings), map)
    })
}

/// Inside the domain: an entry of ws that has the bit at place 5 of its second byte names, to the Rust, the tile 512
/// further on, which is not there, or is another; the port draws the tile without it.
fn redrawn_without_bank(random: &mut Random) -> u64 {
    let (settings, map) = (settings(Mode::Ws, 2, 1, 1), [0, WS_BANK]);
    let tiles = [[0; 16 * 512].as_slice(), &[0xff; 16]].concat();
    assert_eq!(rust_redraws(settings, &tiles[..16], &map), Said::Err);
    assert_eq!(rust_redraws(settings, &tiles, &map), Bytes(vec![3; 64]));
    let draws = |tiles: &[u8]| {
        let call = |out: &mut [u8]| redraw(settings, tiles, &map, out);
        1 + writes(|| format!("redraw {settings:?}"), &[0; 64], random, call)
    };
    [&tiles[..16], &tiles[..]].map(draws).iter().sum()
}

fn differences_of_redrawing(random: &mut Random) -> u64 {
    let mut count = 0;
    // inside the domain: the Rust runs off a tile of one plane
    for mode in [Mode::Gb, Mode::Gbc] {
        let settings = settings(mode, 1, 1, 1);
        let map = vec![0; map_bytes(settings)];
        assert_eq!(rust_redraws(settings, &[0; 8], &map), Panic);
        let call = |out: &mut [u8]| redraw(settings, &[0; 8], &map, out);
        count += writes(|| format!("redraw {settings:?}"), &[0; 64], random, call);
    }
    count += redrawn_without_bank(random);
    let mut differ = |settings: Settings, tiles: &[u8], map: &[u8], rust: Said, refusal: u32| {
        assert_eq!(rust_redraws(settings, tiles, map), rust, "{settings:?}");
        let call = |out: &mut [u8]| redraw(settings, tiles, map, out);
        count += 1 + assert_writes(|| format!("redraw {settings:?}"), Err(refusal), &random.bytes(8192), call);
    };
    let snes = settings(Mode::Snes, 2, 1, 1);
    // the Rust's own refusal
    differ(settings(Mode::PceSprite, 4, 1, 1), &[0; 32], &[], Said::Err, 2);
    // the Rust reads so many planes, and runs off the last one
    differ(Settings { depth: 3, ..snes }, &[0; 24], &[0; 2], Panic, 3);
    // the Rust panics on no columns or rows, and draws any other number
    differ(Settings { columns: 0, ..snes }, &[0; 16], &[], Panic, 4);
    differ(Settings { rows: 0, ..snes }, &[0; 16], &[], Panic, 4);
    differ(Settings { columns: 65, ..snes }, &[0; 16], &[0; 130], Bytes(vec![0; 65 * 64]), 4);
    differ(Settings { rows: 65, ..snes }, &[0; 16], &[0; 130], Bytes(vec![0; 65 * 64]), 4);
    count
}
