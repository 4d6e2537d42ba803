//! Calls in many threads at once answer as they do alone: nothing is kept between them.

use std::thread;

use rumchivoat::{
    Converted, MapSize, Mode, Mode7Halves, Run, Set, SetSettings, Settings, Strips, TileSize, Title, flip_tile_to_vec,
    mode7_make_to_vec, mode7_split_to_vec, run_to_vec,
};

const THREADS: usize = 8;
const TURNS: usize = 20;

/// A picture whose tiles depend on the number, some of them more than once.
fn pixels(number: usize, settings: Settings) -> Vec<u8> {
    let length = settings.pixel_len().expect("the settings are good");
    (0..length).map(|place| (place / 64 * (number + 1) % 7 + place % (number + 3) / 2) as u8).collect()
}

fn settings(number: usize) -> Settings {
    let mode = [Mode::Snes, Mode::Md, Mode::Gba, Mode::Sms][number % 4];
    Settings::new(mode, 4, MapSize { columns: 13, rows: 11 }).flips().discarding()
}

fn sheet(number: usize, settings: Settings) -> Vec<u8> {
    let name = Mode::try_from(settings.mode).expect("the mode is one").name();
    let lines = format!("mode={name}\ndepth=4\nflip=1\ndiscard=1\nlimit=0\npalette=0\ncolumns=13\nrows=11\n");
    [lines.as_bytes(), &pixels(number, settings)].concat()
}

/// The picture converted and redrawn, and the program's text.
fn work(number: usize) -> (Converted, Vec<u8>, Vec<u8>) {
    let settings = settings(number);
    let converted = settings.convert_to_vec(&pixels(number, settings)).expect("the picture has room");
    let redrawn = settings.redraw_to_vec(&converted.tiles, &converted.map).expect("the map is the picture's");
    let text = run_to_vec(&sheet(number, settings)).expect("every text fits");
    assert_eq!(text.told, None);
    (converted, redrawn, text.bytes)
}

/// So many tiles of 8x8 that depend on the number; some of them are those of another number.
fn tiles(number: usize, count: usize) -> Vec<u8> {
    (0..64 * count).map(|place| (place / 64 * (number + 1) % 11 * (place % 3) % 4) as u8).collect()
}

/// What is left of a title: its set and its store, and where each tile was found, in the common store or not.
type Left = (Set, Vec<u8>, Vec<Option<(u32, bool)>>);

/// A title over the common store that is all the threads', each of its tiles added and looked up.
fn title_work(number: usize, common: &[u8]) -> Left {
    let settings = SetSettings::new(Mode::Snes, 2, TileSize::CELL).flips().discarding();
    let mut title = Title::new(settings, 16, common, vec![0; 64 * 64]).expect("the common store holds 16 tiles");
    let mut places = Vec::new();
    for tile in tiles(number, 40).chunks_exact(64) {
        title.add(tile).expect("there is room");
        places.push(title.look_up(tile).expect("the tile has 64 pixels").map(|held| (held.place.0, held.common)));
    }
    let (set, store) = title.into_own().into_parts();
    (set, store, places)
}

/// The picture in strips of one row and of two, turn about: the record and both buffers, after each strip.
fn strip_work(number: usize) -> Vec<(Run, Vec<u8>, Vec<u8>)> {
    let settings = settings(number);
    let pixels = pixels(number, settings);
    let (tile_len, map_len) = (settings.tile_len().expect("as above"), settings.map_len().expect("as above"));
    let mut strips = Strips::start(settings, vec![0; tile_len], vec![0; map_len]).expect("the map is long enough");
    let mut left = Vec::new();
    while strips.rows_left() > 0 {
        let rows = (1 + left.len() % 2).min(strips.rows_left() as usize);
        let start = strips.rows_taken() as usize * strips.row_len();
        strips.take(&pixels[start..start + rows * strips.row_len()]).expect("the picture has room");
        left.push(strips.clone().into_parts());
    }
    left
}

#[test]
fn strips_do_not_meet() {
    let alone: Vec<_> = (0..THREADS).map(strip_work).collect();
    assert!(alone.iter().flatten().any(|(run, ..)| run.discarded > 0));
    thread::scope(|scope| {
        for (number, expected) in alone.iter().enumerate() {
            scope.spawn(move || (0..TURNS).for_each(|_| assert!(strip_work(number) == *expected, "run {number}")));
        }
    });
}

/// A block of tiles and a map that depend on the number, and the block taken apart.
fn block_work(number: usize) -> (Vec<u8>, Mode7Halves) {
    let map: Vec<u8> = (0..128 * (100 + number)).map(|place| (place * (number + 1) % 253) as u8).collect();
    let block = mode7_make_to_vec(&tiles(number, 200 + number), &map).expect("neither is too long");
    let halves = mode7_split_to_vec(&block).expect("it is a block");
    (block, halves)
}

#[test]
fn blocks_do_not_meet() {
    let alone: Vec<_> = (0..THREADS).map(block_work).collect();
    assert!(alone.iter().zip(&alone[1..]).all(|(one, other)| one != other));
    thread::scope(|scope| {
        for (number, expected) in alone.iter().enumerate() {
            scope.spawn(move || (0..TURNS).for_each(|_| assert!(block_work(number) == *expected, "block {number}")));
        }
    });
}

/// A tile that depends on the number, under each flip, in every mode and depth that has 8x8 tiles.
fn flip_work(number: usize) -> Vec<Vec<u8>> {
    let tile: Vec<u8> = (0..64).map(|place| (place * place + 29 * number) as u8).collect();
    let flips = [(false, false), (true, false), (false, true), (true, true)];
    let modes = Mode::ALL.into_iter().filter(|&mode| mode != Mode::PceSprite);
    let shapes = modes.flat_map(|mode| mode.depths().iter().map(move |&depth| (mode, depth)));
    let flipped = shapes.flat_map(|(mode, depth)| {
        let bytes = &tile[..8 * depth as usize];
        flips.map(|(flip_h, flip_v)| flip_tile_to_vec(mode, depth, flip_h, flip_v, bytes).expect("it is one tile"))
    });
    flipped.collect()
}

#[test]
fn flips_do_not_meet() {
    let alone: Vec<_> = (0..THREADS).map(flip_work).collect();
    assert!(alone.iter().zip(&alone[1..]).all(|(one, other)| one != other));
    thread::scope(|scope| {
        for (number, expected) in alone.iter().enumerate() {
            let turns = 50 * TURNS;
            scope.spawn(move || (0..turns).for_each(|_| assert!(flip_work(number) == *expected, "tile {number}")));
        }
    });
}

#[test]
fn titles_do_not_meet() {
    let common = tiles(THREADS, 16);
    let alone: Vec<_> = (0..THREADS).map(|number| title_work(number, &common)).collect();
    assert!(alone.iter().any(|(_, _, places)| places.iter().flatten().any(|&(_, common)| common)));
    thread::scope(|scope| {
        for (number, expected) in alone.iter().enumerate() {
            let common = &common;
            scope.spawn(move || {
                (0..TURNS).for_each(|_| assert!(title_work(number, common) == *expected, "title {number}"));
            });
        }
    });
}

#[test]
fn threads_do_not_meet() {
    let alone: Vec<_> = (0..THREADS).map(work).collect();
    assert!(alone.iter().all(|(converted, ..)| converted.picture.discarded > 0));
    thread::scope(|scope| {
        for (number, expected) in alone.iter().enumerate() {
            scope.spawn(move || (0..TURNS).for_each(|_| assert!(work(number) == *expected, "picture {number}")));
        }
    });
}
