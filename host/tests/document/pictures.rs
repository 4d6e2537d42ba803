//! Pictures against document 01.

use std::thread;

use reading::{Picture, Random, Settings, cut_tiles};
use rumchivoat::Mode;

use super::common::pictures::{
    Kind, convert, converted, different_tiles, map_bytes, most_tiles, picture_modes, picture_of, places, redraw,
    row_of, tile_size, with_every_flag,
};
use super::common::{assert_writes, on_noise, rooms};
use super::tiles::{DEPTHS, choices};
use super::{MODE_NUMBERS, print_count};

/// Fails unless the port and the reading answer alike on the same noise and leave the same bytes; what is not written,
/// and all of both buffers after a refusal, is the noise.
fn same_converted(
    settings: Settings,
    pixels: &[u8],
    tile_room: usize,
    map_room: usize,
    random: &mut Random,
) -> (u64, Result<Picture, u32>) {
    let noise = (&random.bytes(tile_room)[..], &random.bytes(map_room)[..]);
    let read = converted(noise, |tiles, map| reading::convert(settings, pixels, tiles, map));
    let (answer, tiles, map) = converted(noise, |tiles, map| convert(settings, pixels, tiles, map));
    let case = || format!("{settings:?}, {} pixels, {tile_room} and {map_room} bytes", pixels.len());
    assert_eq!(answer, read.0, "{}", case());
    assert!(tiles == read.1, "tile bytes of {}", case());
    assert!(map == read.2, "map bytes of {}", case());
    let written = answer.map_or((0, 0), |picture| (picture.tile_bytes, picture.map_bytes));
    assert!(tiles[written.0..] == noise.0[written.0..], "tile bytes left by {}", case());
    assert!(map[written.1..] == noise.1[written.1..], "map bytes left by {}", case());
    (1, answer)
}

/// In buffers of noise that hold every tile.
fn same_in_enough(settings: Settings, pixels: &[u8], random: &mut Random) -> (u64, Result<Picture, u32>) {
    let tile_room = places(settings) * tile_size(settings) + 1;
    same_converted(settings, pixels, tile_room, map_bytes(settings) + 1, random)
}

fn same_redrawn(settings: Settings, tiles: &[u8], map: &[u8], room: usize, random: &mut Random) -> u64 {
    let Settings { mode, depth, columns, rows, .. } = settings;
    let noise = random.bytes(room);
    let (answer, pixels) = on_noise(&noise, |out| reading::redraw(mode, depth, columns, rows, tiles, map, out));
    let case = || format!("redraw {settings:?}, {} and {} bytes in {room}", tiles.len(), map.len());
    let expected = answer.map(|length| &pixels[..length]);
    assert_writes(case, expected, &noise, |out| redraw(settings, tiles, map, out))
}

/// In buffers of noise one byte short, exact, one byte long, and in one of no bytes.
fn same_redrawn_in_every_room(settings: Settings, tiles: &[u8], map: &[u8], random: &mut Random) -> u64 {
    rooms(64 * places(settings)).chain([0]).map(|room| same_redrawn(settings, tiles, map, room, random)).sum()
}

/// Document 01's picture of two tiles: "then 80 00, fourteen 00, then 00 00 00 40."
#[test]
fn the_marked_picture() {
    let mut pixels = vec![0; 128];
    pixels[0] = 1;
    pixels[15] = 1;
    let settings = Settings {
        mode: Mode::Snes.number(),
        depth: 2,
        flip: true,
        discard: true,
        limit: 0,
        palette: 0,
        columns: 2,
        rows: 1,
    };
    let (answer, tiles, map) =
        converted((&[0xa5; 65_536], &[0xa5; 4]), |tiles, map| convert(settings, &pixels, tiles, map));
    assert_eq!(answer, Ok(Picture { tiles: 1, discarded: 1, tile_bytes: 16, map_bytes: 4 }));
    assert_eq!(tiles[..16], [0x80, 0, 0, 0, 0, 0, 0, 0, 0, 0, 0, 0, 0, 0, 0, 0]);
    assert_eq!(map, [0x00, 0x00, 0x00, 0x40]);
    assert_eq!(on_noise(&[0xa5; 128], |out| redraw(settings, &tiles[..16], &map, out)), (Ok(128), pixels));
}

#[test]
fn pictures_of_every_kind() {
    let (mut count, mut random) = (0, Random::new(51));
    for mode in picture_modes() {
        for flagged in with_every_flag(mode) {
            for kind in Kind::ALL {
                for (columns, rows) in [(1, 1), (2, 1), (1, 2), (3, 5), (7, 4), (16, 16), (23, 11)] {
                    let palette = random.below(1 << row_of(mode).palette_bits);
                    let settings = Settings { columns, rows, palette, ..flagged };
                    count += same_in_enough(settings, &kind.picture(settings, &mut random), &mut random).0;
                }
            }
        }
    }
    print_count("pictures of every kind", count);
}

/// Every width beside small and large heights, and every height beside small and large widths.
#[test]
fn pictures_of_every_side() {
    let (mut count, mut random) = (0, Random::new(52));
    let modes: Vec<Settings> = picture_modes().flat_map(with_every_flag).filter(|mode| mode.discard).collect();
    let sizes = (1..=64).flat_map(|side| [1, 2, 33, 64].map(|other| (side, other)));
    for (turn, (side, other)) in sizes.enumerate() {
        for (columns, rows) in [(side, other), (other, side)] {
            let settings = Settings { columns, rows, ..modes[turn % modes.len()] };
            count += same_in_enough(settings, &Kind::Dots.picture(settings, &mut random), &mut random).0;
        }
    }
    print_count("pictures of every side", count);
}

/// Columns and rows around 1 and 64, with the pixels that they call for where these are few.
#[test]
fn sizes_out_of_bounds_are_4() {
    const SIDES: [u32; 12] = [0, 1, 2, 63, 64, 65, 66, 256, 65_536, 1 << 31, u32::MAX - 1, u32::MAX];
    let (mut count, mut random) = (0, Random::new(53));
    let pixels = vec![0; 64 * 66 * 66];
    for mode in MODE_NUMBERS {
        for depth in [1, 2, 4, 8] {
            for (columns, rows) in SIDES.iter().flat_map(|&columns| SIDES.map(|rows| (columns, rows))) {
                let settings =
                    Settings { mode, depth, flip: false, discard: true, limit: 0, palette: 0, columns, rows };
                let asked = (64 * u64::from(columns)).saturating_mul(rows.into());
                for length in [0, 64, asked].into_iter().filter(|&length| length <= pixels.len() as u64) {
                    count += same_converted(settings, &pixels[..length as usize], 64, 8192, &mut random).0;
                }
                for map in [0, 1, 2, asked / 64, asked / 32].into_iter().filter(|&length| length <= 8192) {
                    count += same_redrawn(settings, &[0; 64], &vec![0; map as usize], 64 * 66, &mut random);
                }
            }
        }
    }
    print_count("pictures of sizes in and out of bounds", count);
}

#[test]
fn pictures_of_every_mode_and_depth() {
    let (mut count, mut random) = (0, Random::new(54));
    for mode in MODE_NUMBERS {
        for depth in DEPTHS {
            for flip in [false, true] {
                let settings = Settings { mode, depth, flip, discard: true, limit: 0, palette: 0, columns: 2, rows: 1 };
                for (tile_room, map_room) in [(128, 4), (128, 2), (128, 1), (64, 4), (0, 4), (0, 0)] {
                    for pixels in [vec![0; 128], random.bytes(128), vec![0; 127]] {
                        count += same_converted(settings, &pixels, tile_room, map_room, &mut random).0;
                    }
                }
                for tile_length in [0, 8, 16, 32, 64, 65, 128] {
                    for map_length in [0, 1, 2, 3, 4, 5] {
                        for room in [127, 128] {
                            let map = vec![0; map_length];
                            count += same_redrawn(settings, &vec![0x5a; tile_length], &map, room, &mut random);
                        }
                    }
                }
            }
        }
    }
    print_count("pictures of every mode and depth", count);
}

#[test]
fn pixels_of_every_length() {
    let (mut count, mut random) = (0, Random::new(55));
    for settings in picture_modes() {
        for (columns, rows) in [(1, 1), (2, 1), (3, 2)] {
            let settings = Settings { columns, rows, ..settings };
            for length in 0..=64 * places(settings) + 65 {
                let pixels = random.bytes(length);
                count += same_in_enough(settings, &pixels, &mut random).0;
            }
        }
    }
    print_count("pixels of every length", count);
}

/// The largest palette index of each mode, the one above it, and numbers whose low bits would do.
#[test]
fn palette_indexes() {
    let (mut count, mut random) = (0, Random::new(56));
    for settings in picture_modes() {
        let above = 1 << row_of(settings).palette_bits;
        let numbers = (0..=above + 1).chain([16, 255, 256, 65_536, 1 << 31, u32::MAX - above + 1, u32::MAX]);
        for palette in numbers {
            let settings = Settings { palette, columns: 2, ..settings };
            let pixels = Kind::Dots.picture(settings, &mut random);
            let (compared, answer) = same_in_enough(settings, &pixels, &mut random);
            assert_eq!(answer.is_ok(), palette < above, "{settings:?}");
            count += compared;
        }
    }
    print_count("palette indexes", count);
}

/// Flips in each mode: 5 where there are none.
#[test]
fn flips_where_there_are_none() {
    let (mut count, mut random) = (0, Random::new(57));
    for settings in picture_modes() {
        for (flip, discard) in [(false, false), (false, true), (true, false), (true, true)] {
            let settings = Settings { flip, discard, columns: 3, rows: 2, ..settings };
            let pixels = Kind::Near.picture(settings, &mut random);
            let (compared, answer) = same_in_enough(settings, &pixels, &mut random);
            assert_eq!(answer.err(), (flip && !row_of(settings).flips).then_some(5), "{settings:?}");
            count += compared;
        }
    }
    print_count("flips in every mode", count);
}

/// Fails unless a picture that needs so many tiles is done in exactly so many and refused with 12 in one less, whichever
/// of limit and buffer has the room.
fn needs(settings: Settings, pixels: &[u8], need: usize, random: &mut Random) -> u64 {
    let (size, map_room) = (tile_size(settings), map_bytes(settings));
    let mut count = 0;
    let mut answers = |limit: usize, tile_room: usize, expected: Option<u32>| {
        let settings = Settings { limit: limit as u32, ..settings };
        let (compared, answer) = same_converted(settings, pixels, tile_room, map_room, random);
        assert_eq!(answer.err(), expected, "{settings:?}, {tile_room} bytes for {need} tiles");
        count += compared;
    };
    for limit in [0, need, need + 1, u32::MAX as usize] {
        answers(limit, need * size, None);
        answers(limit, (need + 1) * size - 1, None);
        answers(limit, need * size - 1, Some(12));
        answers(limit, (need - 1) * size, Some(12));
        answers(limit, 0, Some(12));
    }
    // a limit of 0 is none
    if need > 1 {
        answers(need - 1, need * size, Some(12));
        answers(1, (need + 7) * size, Some(12));
    }
    count
}

#[test]
fn rooms_of_exactly_the_need() {
    let (mut count, mut random) = (0, Random::new(58));
    for flagged in picture_modes().flat_map(with_every_flag) {
        for kind in Kind::ALL {
            let settings = Settings { columns: 5, rows: 4, ..flagged };
            let pixels = kind.picture(settings, &mut random);
            let (compared, answer) = same_in_enough(settings, &pixels, &mut random);
            let need = answer.expect("there is room for every tile").tiles as usize;
            count += compared + needs(settings, &pixels, need, &mut random);
        }
    }
    print_count("rooms around the need", count);
}

/// So many tiles as the entries can name, in a picture that holds them, and one more.
#[test]
fn as_many_tiles_as_entries_can_name() {
    let (mut count, mut random) = (0, Random::new(59));
    for flagged in picture_modes().flat_map(with_every_flag) {
        let most = most_tiles(flagged);
        // a picture has at most 4,096 tiles: in pce there is no one more
        let (columns, rows) = if most == 4096 { (64, 64) } else { (64, most as u32 / 64 + 1) };
        let settings = Settings { columns, rows, ..flagged };
        for need in [most - 1, most, most + 1].into_iter().filter(|&need| need <= places(settings)) {
            let mut tiles = different_tiles(settings.depth, need);
            tiles.resize(places(settings), tiles[need / 2].clone());
            let (compared, answer) = same_in_enough(settings, &picture_of(settings, &tiles), &mut random);
            let fits = if settings.discard { need <= most } else { places(settings) <= most };
            assert_eq!(answer.err(), (!fits).then_some(12), "{settings:?} {need}");
            count += compared;
        }
    }
    print_count("as many tiles as entries can name", count);
}

/// A picture whose first half is one tile, and whose second half has no room: refused when most of it is seen, with
/// every lent byte as it was.
#[test]
fn no_room_after_half_a_picture() {
    let (mut count, mut random) = (0, Random::new(60));
    for flagged in picture_modes().flat_map(with_every_flag) {
        let settings = Settings { columns: 16, rows: 12, ..flagged };
        let (half, whole) = (places(settings) / 2, places(settings));
        let different = different_tiles(settings.depth, half + 1);
        let tiles = [vec![different[0].clone(); half], different[1..].to_vec()].concat();
        let need = if settings.discard { half + 1 } else { whole };
        count += needs(settings, &picture_of(settings, &tiles), need, &mut random);
    }
    print_count("no room after half a picture", count);
}

/// The buffers that lack a byte of the map, and both: 11 before 12.
#[test]
fn maps_too_short_are_11() {
    let (mut count, mut random) = (0, Random::new(61));
    for flagged in picture_modes().flat_map(with_every_flag) {
        let settings = Settings { columns: 3, rows: 3, ..flagged };
        let pixels = Kind::Random.picture(settings, &mut random);
        for tile_room in [0, tile_size(settings), 9 * tile_size(settings)] {
            for map_room in rooms(map_bytes(settings)).chain([0]) {
                let (compared, answer) = same_converted(settings, &pixels, tile_room, map_room, &mut random);
                assert_eq!(answer == Err(11), map_room < map_bytes(settings), "{settings:?}");
                count += compared;
            }
        }
    }
    print_count("maps too short", count);
}

/// The settings with a mode, depth and size that call for these refusals.
pub fn damaged(settings: Settings, refusals: &[u32]) -> Settings {
    let has = |refusal| refusals.contains(&refusal);
    let mode = if has(2) { Mode::PceSprite.number() } else { settings.mode };
    Settings {
        mode: if has(1) { 16 } else { mode },
        depth: if has(3) { 3 } else { settings.depth },
        rows: if has(4) { 65 } else { settings.rows },
        flip: has(5),
        palette: if has(16) { 16 } else { 0 },
        ..settings
    }
}

/// The first of a conversion's is given, whichever apply: the lowest number, and 16 "where 10 stood".
#[test]
fn the_first_refusal_of_conversion() {
    for settings in picture_modes() {
        let settings = Settings { columns: 2, ..settings };
        for refusals in choices(&[1, 2, 3, 4, 5, 7, 16, 11, 12]) {
            // with flips 5 cannot be
            if row_of(settings).flips && refusals.contains(&5) {
                continue;
            }
            let asked = damaged(settings, &refusals);
            let mut pixels = picture_of(settings, &different_tiles(settings.depth, 2));
            if asked.rows == 65 {
                pixels.resize(64 * 130, 0);
            }
            if refusals.contains(&7) {
                pixels.push(0);
            }
            let tile_room = 2 * tile_size(settings) - usize::from(refusals.contains(&12));
            let map_room = pixels.len() / 64 * row_of(settings).entry_bytes - usize::from(refusals.contains(&11));
            let answer = convert(asked, &pixels, &mut vec![0; tile_room], &mut vec![0; map_room]);
            assert_eq!(answer.err(), refusals.first().copied(), "{settings:?} {refusals:?}");
        }
    }
}

/// And whichever of redrawing's, 7 by each of its three causes.
#[test]
fn the_lowest_refusal_of_redrawing() {
    for settings in picture_modes() {
        let settings = Settings { columns: 2, ..settings };
        for refusals in choices(&[1, 2, 3, 4, 7, 11]) {
            for cause in 0..3 {
                let asked = damaged(settings, &refusals);
                let mut map = vec![0; (asked.columns * asked.rows) as usize * row_of(settings).entry_bytes];
                let mut tiles = vec![0; tile_size(settings)];
                let room = 128 - usize::from(refusals.contains(&11));
                match cause {
                    _ if !refusals.contains(&7) => {}
                    0 => tiles.push(0),
                    1 => map.push(0),
                    _ => tiles.clear(),
                }
                let answer = redraw(asked, &tiles, &map, &mut vec![0; room]);
                assert_eq!(answer.err(), refusals.first().copied(), "{settings:?} {refusals:?}");
            }
        }
    }
}

/// Maps of any bytes over as many tiles as the entries can name.
#[test]
fn any_map_redrawn() {
    let (mut count, mut random) = (0, Random::new(62));
    for settings in picture_modes() {
        let tiles = random.bytes(most_tiles(settings) * tile_size(settings));
        for (columns, rows) in [(1, 1), (2, 1), (1, 2), (5, 7), (64, 1), (1, 64), (31, 32)] {
            let settings = Settings { columns, rows, ..settings };
            let map = random.bytes(map_bytes(settings));
            count += same_redrawn_in_every_room(settings, &tiles, &map, &mut random);
        }
    }
    print_count("any map redrawn", count);
}

/// Every word of an entry, over tiles that end before some of those that it can name.
#[test]
fn every_entry_redrawn() {
    let (mut count, mut random) = (0, Random::new(63));
    for settings in picture_modes() {
        let tiles = random.bytes(most_tiles(settings) * tile_size(settings));
        for word in 0..1u32 << (8 * row_of(settings).entry_bytes) {
            let map = &word.to_le_bytes()[..map_bytes(settings)];
            let held =
                if word % 2 == 0 { most_tiles(settings) } else { random.below(most_tiles(settings) as u32) as usize };
            count += same_redrawn(settings, &tiles[..held * tile_size(settings)], map, 65, &mut random);
        }
    }
    print_count("every entry redrawn", count);
}

/// A map with the bit at place 5 of the second byte in each entry, or in each so many.
fn with_bank(map: &[u8], each: usize) -> Vec<u8> {
    let mut map = map.to_vec();
    map.iter_mut().skip(1).step_by(2 * each).for_each(|byte| *byte |= 1 << 5);
    map
}

/// In ws that bit "is not a tile bit": a map that has it, in all entries or some, draws the picture that it was made from.
/// In wsc it is: the same bytes name tiles that are not there, 512 further on, and draw them where they are.
#[test]
fn the_unused_bit_of_ws_is_not_drawn() {
    let ws = Settings {
        mode: Mode::Ws.number(),
        depth: 2,
        flip: false,
        discard: true,
        limit: 0,
        palette: 11,
        columns: 32,
        rows: 17,
    };
    let wsc = Settings { mode: Mode::Wsc.number(), ..ws };
    let different = different_tiles(2, 512);
    let pixels = picture_of(ws, &[&different[..], &different[..32]].concat());
    let (mut tiles, mut map) = (vec![0; 512 * tile_size(ws)], vec![0; map_bytes(ws)]);
    let due = Picture { tiles: 512, discarded: 32, tile_bytes: tiles.len(), map_bytes: map.len() };
    assert_eq!(convert(ws, &pixels, &mut tiles, &mut map), Ok(due));
    assert!(map.iter().skip(1).step_by(2).all(|byte| byte & 1 << 5 == 0), "0 when packing");

    let noise = vec![0xa5; pixels.len()];
    let drawn = |settings, tiles: &[u8], map: &[u8]| on_noise(&noise, |out| redraw(settings, tiles, map, out));
    let whole = (Ok(pixels.len()), pixels);
    for each in [1, 2, 3, places(ws)] {
        let map = with_bank(&map, each);
        assert!(drawn(ws, &tiles, &map) == whole, "ignored when unpacking, in each {each}");
        assert_eq!(drawn(wsc, &tiles, &map).0, Err(7));
    }
    let further = [vec![0; tiles.len()], tiles].concat();
    assert!(drawn(wsc, &further, &with_bank(&map, 1)) == whole, "wsc draws the tiles 512 further on");
}

/// "Tile bytes that end before a tile the map names", named at any place of the map, under any flip and palette.
#[test]
fn tiles_that_end_before_one_that_is_named() {
    let (mut count, mut random) = (0, Random::new(64));
    for settings in picture_modes() {
        let row = row_of(settings);
        let settings = Settings { columns: 4, rows: 3, ..settings };
        for named in [0, 1, 2, 100, most_tiles(settings) - 1] {
            for place in 0..places(settings) {
                let mut map = vec![0; map_bytes(settings)];
                let entry = reading::Entry {
                    tile: named as u32,
                    palette: random.below(1 << row.palette_bits),
                    flip_h: row.flips && random.flag(),
                    flip_v: row.flips && random.flag(),
                    priority: row.priority && random.flag(),
                };
                let at = place * row.entry_bytes;
                reading::pack_entry(settings.mode, entry, &mut map[at..]).expect("the entry is the mode's");
                for tiles in [named, named + 1, named + 2] {
                    let bytes = random.bytes(tiles * tile_size(settings));
                    count += same_redrawn(settings, &bytes, &map, 64 * 12, &mut random);
                }
            }
        }
    }
    print_count("tiles that end before one that is named", count);
}

#[test]
fn maps_and_tiles_of_every_length() {
    let (mut count, mut random) = (0, Random::new(65));
    for settings in picture_modes() {
        let settings = Settings { columns: 2, rows: 2, ..settings };
        for length in 0..=3 * tile_size(settings) + 1 {
            count += same_redrawn(settings, &random.bytes(length), &vec![0; map_bytes(settings)], 256, &mut random);
        }
        for length in 0..=map_bytes(settings) + 9 {
            let tiles = random.bytes(2 * tile_size(settings));
            count += same_redrawn(settings, &tiles, &vec![0; length], 256, &mut random);
        }
    }
    print_count("maps and tiles of every length", count);
}

/// The picture, each pixel cut to the depth.
fn cut(depth: u32, pixels: &[u8]) -> Vec<u8> {
    pixels.iter().map(|&pixel| (u32::from(pixel) % (1 << depth)) as u8).collect()
}

/// Converted and redrawn, a picture comes back, cut to the depth. Answers how many tiles it had.
fn comes_back(settings: Settings, pixels: &[u8], tiles: &mut [u8], map: &mut [u8], out: &mut [u8]) -> u64 {
    let Picture { tiles: stored, discarded, tile_bytes, map_bytes } =
        convert(settings, pixels, tiles, map).unwrap_or_else(|refusal| panic!("{settings:?} refused {refusal}"));
    assert_eq!(if settings.discard { stored + discarded } else { stored }, settings.columns * settings.rows);
    assert_eq!(tile_bytes, stored as usize * tile_size(settings));
    assert_eq!(redraw(settings, &tiles[..tile_bytes], &map[..map_bytes], out), Ok(pixels.len()), "{settings:?}");
    assert!(out[..pixels.len()] == cut(settings.depth, pixels), "{settings:?}");
    places(settings) as u64
}

/// So many tiles, each one of a few hundred: of any kind, and seen in any mirror.
pub fn repeated_tiles(settings: Settings, count: usize, random: &mut Random) -> Vec<Vec<u8>> {
    let kinds = Kind::ALL.map(|kind| kind.tiles(settings.depth, most_tiles(settings).min(1024) / 8, random));
    let several = kinds.concat();
    (0..count)
        .map(|_| {
            let tile = &several[random.below(several.len() as u32) as usize];
            let (h, v) = if settings.flip { (random.flag(), random.flag()) } else { (false, false) };
            reading::flipped(tile, 8, h, v)
        })
        .collect()
}

/// The law of pictures, at every size there is: the modes and depths take turns, flips on and off.
#[test]
fn pictures_come_back_at_every_size() {
    let (mut tiles, mut map, mut out) = (vec![0; 64 * 4096], vec![0; 2 * 4096], vec![0; 64 * 4096]);
    let (mut sum, mut random) = (0, Random::new(66));
    let modes: Vec<Settings> = picture_modes().flat_map(with_every_flag).filter(|mode| mode.discard).collect();
    let several: Vec<Vec<Vec<u8>>> = modes.iter().map(|&mode| repeated_tiles(mode, 5000, &mut random)).collect();
    for columns in 1..=64 {
        for rows in 1..=64 {
            let turn = (64 * columns + rows) as usize % modes.len();
            let settings = Settings { columns, rows, ..modes[turn] };
            let start = random.below(5000 - settings.columns * settings.rows) as usize;
            let pixels = picture_of(settings, &several[turn][start..start + places(settings)]);
            sum += comes_back(settings, &pixels, &mut tiles, &mut map, &mut out);
        }
    }
    print_count("tiles of pictures that come back, at every size", sum);
}

/// And with every tile stored, in every mode, where entries can name them all.
#[test]
fn pictures_come_back_without_discarding() {
    let (mut tiles, mut map, mut out) = (vec![0; 64 * 4096], vec![0; 2 * 4096], vec![0; 64 * 4096]);
    let (mut sum, mut random) = (0, Random::new(67));
    for flagged in picture_modes().flat_map(with_every_flag).filter(|mode| !mode.discard) {
        for columns in 1..=64 {
            let rows = (most_tiles(flagged) as u32 / columns).clamp(1, 64);
            let settings = Settings { columns, rows, ..flagged };
            let pixels = Kind::ALL[columns as usize % 5].picture(settings, &mut random);
            sum += comes_back(settings, &pixels, &mut tiles, &mut map, &mut out);
        }
    }
    print_count("tiles of pictures that come back, every tile stored", sum);
}

/// Each entry names the first tile that matches, also where every tile is stored.
#[test]
fn entries_name_the_first_tile_that_matches() {
    let mut random = Random::new(68);
    for flagged in picture_modes().flat_map(with_every_flag) {
        let settings = Settings { columns: 6, rows: 6, ..flagged };
        let pixels = Kind::Same.picture(settings, &mut random);
        let (mut tiles, mut map) = (vec![0; 36 * tile_size(settings)], vec![0xa5; map_bytes(settings)]);
        let picture = convert(settings, &pixels, &mut tiles, &mut map).expect("there is room");
        assert_eq!(picture.tiles, if settings.discard { 1 } else { 36 }, "{settings:?}");
        assert!(map.iter().all(|&byte| byte == 0), "{settings:?}");
    }
}

/// The largest picture on a stack of 512 KiB, as the documentation of `convert` has it.
#[test]
fn the_stack_of_a_conversion() {
    let settings = Settings {
        mode: Mode::Pce.number(),
        depth: 4,
        flip: false,
        discard: true,
        limit: 0,
        palette: 0,
        columns: 64,
        rows: 64,
    };
    let pixels = picture_of(settings, &different_tiles(4, 4096));
    let (mut tiles, mut map) = (vec![0; 32 * 4096], vec![0; 2 * 4096]);
    let call = move || convert(settings, &pixels, &mut tiles, &mut map);
    let thread = thread::Builder::new().stack_size(512 * 1024).spawn(call).expect("a thread can be started");
    let expected = Picture { tiles: 4096, discarded: 0, tile_bytes: 32 * 4096, map_bytes: 2 * 4096 };
    assert_eq!(thread.join().expect("the call ends"), Ok(expected));
}

/// The reading's own cutting against the layout of the tests.
#[test]
fn cut_tiles_are_the_tiles_laid_out() {
    let mut random = Random::new(69);
    for settings in picture_modes() {
        let settings = Settings { columns: 7, rows: 3, ..settings };
        let tiles = Kind::Random.tiles(settings.depth, 21, &mut random);
        let read = cut_tiles(settings.depth, 7, 3, &picture_of(settings, &tiles));
        assert!(read.iter().zip(&tiles).all(|(read, tile)| *read == cut(settings.depth, tile)));
    }
}
