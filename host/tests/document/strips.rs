//! Pictures in strips against document 02: every strip against the reading, and every cutting against the whole picture.

use reading::{Picture, Random, Settings, Shape};
use rumchivoat::{Mode, Run};

use super::common::pictures::{
    Kind, any_cutting, as_read, asked, convert, convert_in_strips, converted, different_tiles, map_bytes, most_tiles,
    picture_modes, picture_of, places, row_of, tile_size, with_every_flag,
};
use super::common::{rooms, told};
use super::pictures::{damaged, repeated_tiles};
use super::tiles::{DEPTHS, choices};
use super::titles::Framed;
use super::{MODE_NUMBERS, print_count};

/// The port's record of a run.
fn record(run: reading::Run) -> Run {
    let reading::Run { settings, taken, tiles, discarded } = run;
    let Settings { mode, depth, flip, discard, limit, palette, columns, rows } = settings;
    Run { mode, depth, flip, discard, limit, palette, columns, rows, taken, tiles, discarded }
}

fn settings_of(run: Run) -> Settings {
    let Run { mode, depth, flip, discard, limit, palette, columns, rows, .. } = run;
    Settings { mode, depth, flip, discard, limit, palette, columns, rows }
}

fn read_run(run: Run) -> reading::Run {
    let Run { taken, tiles, discarded, .. } = run;
    reading::Run { settings: settings_of(run), taken, tiles, discarded }
}

/// Starts on both sides: the answer, and the record.
fn same_start(settings: Settings) -> Result<Run, u32> {
    let started = told(Run::start(asked(settings)));
    assert_eq!(started, reading::strip_start(settings).map(record), "start {settings:?}");
    started
}

/// A run of these settings that has begun.
fn record_of(settings: Settings) -> Run {
    record(reading::Run { settings, taken: 0, tiles: 0, discarded: 0 })
}

fn same_end(run: Run) -> Result<Picture, u32> {
    let ended = told(run.end()).map(as_read);
    assert_eq!(ended, reading::strip_end(read_run(run)), "end {run:?}");
    ended
}

/// A number near a boundary, or any.
fn any_number(random: &mut Random) -> u32 {
    const NEAR: [u32; 12] = [0, 1, 2, 4, 8, 16, 64, 256, 512, 1024, 4096, 65_536];
    match random.below(8) {
        0 => u32::MAX - random.below(3),
        1 => (1 << 31) - 1 + random.below(3),
        2 => random.number() as u32,
        _ => NEAR[random.below(12) as usize].wrapping_add(random.below(3)).wrapping_sub(1),
    }
}

/// A record of any numbers.
fn any_run(random: &mut Random) -> Run {
    let mut run = Run { flip: random.flag(), discard: random.flag(), ..Run::default() };
    (0..11).for_each(|field| alter(&mut run, field, random));
    run
}

/// Another value in one of the eleven fields; in four of them often one that the mode has.
fn alter(run: &mut Run, field: u32, random: &mut Random) {
    let small = random.below(6);
    let number = any_number(random);
    let often = |small: u32, random: &mut Random| if random.flag() { small } else { number };
    match field {
        0 => run.mode = often(random.below(16), random),
        1 => run.depth = often([1, 2, 4, 8][small as usize % 4], random),
        2 => run.flip = !run.flip,
        3 => run.discard = !run.discard,
        4 => run.limit = often(small, random),
        5 => run.palette = often(small, random),
        6 => run.columns = often(small, random),
        7 => run.rows = often(small, random),
        8 => run.taken = often(small, random),
        9 => run.tiles = often(small, random),
        _ => run.discarded = number,
    }
}

/// What a station keeps of a run: the record, and both buffers.
#[derive(Debug, Clone, PartialEq)]
struct Station {
    run: Run,
    tiles: Vec<u8>,
    map: Vec<u8>,
}

impl Station {
    /// A run that has begun, over buffers of noise.
    fn start(settings: Settings, tile_room: usize, map_room: usize, random: &mut Random) -> Station {
        let run = same_start(settings).unwrap_or_else(|refusal| panic!("{settings:?} refused {refusal}"));
        Station { run, tiles: random.bytes(tile_room), map: random.bytes(map_room) }
    }

    /// The same over buffers that hold every tile, and a byte more.
    fn with_room(settings: Settings, random: &mut Random) -> Station {
        Station::start(settings, places(settings) * tile_size(settings) + 1, map_bytes(settings) + 1, random)
    }

    /// How many bytes of both buffers the record counts as written.
    fn written(&self) -> (usize, usize) {
        let Run { depth, columns, taken, tiles, .. } = self.run;
        let entry = reading::row(self.run.mode).map_or(0, |row| row.entry_bytes);
        let product = |numbers: [usize; 3]| numbers.into_iter().fold(1usize, usize::saturating_mul);
        (product([8, depth as usize, tiles as usize]), product([entry, columns as usize, taken as usize]))
    }

    /// Fresh noise in all bytes that are not written yet: those that the caller need not leave alone.
    fn make_noise(&mut self, random: &mut Random) {
        let (tiles, map) = self.written();
        for (buffer, written) in [(&mut self.tiles, tiles), (&mut self.map, map)] {
            buffer.iter_mut().skip(written).for_each(|byte| *byte = random.byte());
        }
    }

    /// The pixels of a picture that are still to come.
    fn still_to_come<'a>(&self, pixels: &'a [u8]) -> &'a [u8] {
        &pixels[64 * (self.run.columns * self.run.taken) as usize..]
    }

    /// The next so many rows of a picture.
    fn next_rows<'a>(&self, pixels: &'a [u8], rows: u32) -> &'a [u8] {
        &self.still_to_come(pixels)[..64 * (self.run.columns * rows) as usize]
    }

    /// Takes a strip on both sides, over buffers of which so many bytes are lent: the answer, the record and all bytes of
    /// both buffers are the reading's, and what is not to be written is as it was, around the slices and the record too.
    fn same_take_in(
        &mut self,
        pixels: &[u8],
        (tile_room, map_room): (usize, usize),
        random: &mut Random,
    ) -> Result<Picture, u32> {
        let before = self.clone();
        let case = || format!("take {:?}, {} pixels, {tile_room} and {map_room} bytes", before.run, pixels.len());
        let beside = any_run(random);
        let mut records = [beside, self.run, beside];
        let (lent_tiles, lent_map) = (&mut self.tiles[..tile_room], &mut self.map[..map_room]);
        let given = Framed::new(pixels, &[], random);
        let (mut tiles, mut map) = (Framed::new(lent_tiles, &[], random), Framed::new(lent_map, &[], random));
        let answer = told(records[1].take(given.slice(), tiles.slice_mut(), map.slice_mut())).map(as_read);
        let mut read = read_run(self.run);
        let due = reading::strip_take(&mut read, pixels, lent_tiles, lent_map);
        assert_eq!(answer, due, "{}", case());
        assert_eq!(records, [beside, record(read), beside], "the record after {}", case());
        assert!(given.is_as_it_was(), "the pixels after {}", case());
        assert!(tiles.holds(lent_tiles), "the tile bytes after {}", case());
        assert!(map.holds(lent_map), "the map bytes after {}", case());
        self.run = record(read);
        match answer {
            Err(_) => assert!(*self == before, "refused, and not as it was: {}", case()),
            Ok(picture) => self.has_grown_by(&before, picture),
        }
        answer
    }

    /// What was written before stays, and what comes after the written lengths; the counts are the answer's.
    fn has_grown_by(&self, before: &Station, picture: Picture) {
        let Picture { tiles, discarded, tile_bytes, map_bytes } = picture;
        assert_eq!((self.run.tiles, self.run.discarded), (tiles, discarded), "{:?}", before.run);
        assert_eq!(self.written(), (tile_bytes, map_bytes), "{:?}", before.run);
        let (old_tiles, old_map) = before.written();
        let is_kept = |now: &[u8], then: &[u8], old: usize, new: usize| {
            old <= new && now[..old] == then[..old] && now[new..] == then[new..]
        };
        assert!(is_kept(&self.tiles, &before.tiles, old_tiles, tile_bytes), "tile bytes around {:?}", before.run);
        assert!(is_kept(&self.map, &before.map, old_map, map_bytes), "map bytes around {:?}", before.run);
    }

    fn same_take(&mut self, pixels: &[u8], random: &mut Random) -> Result<Picture, u32> {
        self.same_take_in(pixels, (self.tiles.len(), self.map.len()), random)
    }
}

/// Every way to cut so many rows into strips: after each row but the last there is a cut or not.
fn cuttings(rows: u32) -> impl Iterator<Item = Vec<u32>> {
    (0..1u32 << (rows - 1)).map(move |cuts| {
        let ends = (1..=rows).filter(|&row| row == rows || cuts >> (row - 1) & 1 == 1);
        let mut start = 0;
        ends.map(|end| end - std::mem::replace(&mut start, end)).collect()
    })
}

/// Converted whole, over buffers of noise that are so long.
fn whole(
    settings: Settings,
    pixels: &[u8],
    (tile_room, map_room): (usize, usize),
    random: &mut Random,
) -> (Result<Picture, u32>, Vec<u8>, Vec<u8>) {
    let noise = (&random.bytes(tile_room)[..], &random.bytes(map_room)[..]);
    converted(noise, |tiles, map| convert(settings, pixels, tiles, map))
}

/// The picture in these strips: "tiles, map and counts equal the whole conversion for every cutting into strips". Where
/// the whole is done every strip is; where it is refused with 12 some strip is. Answers the comparisons made.
fn same_as_whole(
    settings: Settings,
    pixels: &[u8],
    cutting: &[u32],
    spaces: (usize, usize),
    random: &mut Random,
) -> u64 {
    let (due, due_tiles, due_map) = whole(settings, pixels, spaces, random);
    let mut station = Station::start(settings, spaces.0, spaces.1, random);
    let mut count = 1;
    for &rows in cutting {
        assert_eq!(same_end(station.run), Err(19), "{settings:?} {cutting:?}");
        station.make_noise(random);
        let answer = station.same_take(station.next_rows(pixels, rows), random);
        count += 2;
        if answer.is_err() {
            assert_eq!((answer, due), (Err(12), Err(12)), "{settings:?} {cutting:?}");
            return count;
        }
    }
    let ended = same_end(station.run);
    assert_eq!(ended, due, "{settings:?} {cutting:?}");
    let Picture { tile_bytes, map_bytes, .. } = ended.expect("all rows have come");
    assert!(station.tiles[..tile_bytes] == due_tiles[..tile_bytes], "tile bytes of {settings:?} {cutting:?}");
    assert!(station.map[..map_bytes] == due_map[..map_bytes], "map bytes of {settings:?} {cutting:?}");
    count + 2
}

/// Buffers that hold every tile, and a byte more.
fn enough(settings: Settings) -> (usize, usize) {
    (places(settings) * tile_size(settings) + 1, map_bytes(settings) + 1)
}

/// Small pictures, cut in every way there is.
#[test]
fn every_cutting() {
    let (mut count, mut random) = (0, Random::new(121));
    for flagged in picture_modes().flat_map(with_every_flag) {
        for kind in Kind::ALL {
            for (columns, rows) in [(1, 1), (3, 2), (5, 3), (2, 5)] {
                let palette = random.below(1 << row_of(flagged).palette_bits);
                let settings = Settings { columns, rows, palette, ..flagged };
                let pixels = kind.picture(settings, &mut random);
                for cutting in cuttings(rows) {
                    count += same_as_whole(settings, &pixels, &cutting, enough(settings), &mut random);
                }
            }
        }
    }
    print_count("pictures cut in every way", count);
}

/// Larger ones, cut anyhow, row by row, and not at all.
#[test]
fn any_cuttings() {
    let (mut count, mut random) = (0, Random::new(122));
    for flagged in picture_modes().flat_map(with_every_flag) {
        for kind in Kind::ALL {
            for (columns, rows) in [(4, 9), (13, 7), (16, 16)] {
                let settings = Settings { columns, rows, ..flagged };
                let pixels = kind.picture(settings, &mut random);
                let anyhow = any_cutting(rows, &mut random);
                count += same_as_whole(settings, &pixels, &anyhow, enough(settings), &mut random);
            }
            let settings = Settings { columns: 9, rows: 8, ..flagged };
            let pixels = kind.picture(settings, &mut random);
            for cutting in [vec![1; 8], vec![8]] {
                count += same_as_whole(settings, &pixels, &cutting, enough(settings), &mut random);
            }
        }
    }
    print_count("pictures cut anyhow", count);
}

/// Limits and buffers around the need, so that the whole is refused with 12 as often as not.
#[test]
fn rooms_around_the_need() {
    let (mut count, mut random) = (0, Random::new(123));
    for flagged in picture_modes().flat_map(with_every_flag) {
        for kind in [Kind::Random, Kind::Dots, Kind::Near] {
            let settings = Settings { columns: 5, rows: 6, ..flagged };
            let pixels = kind.picture(settings, &mut random);
            let (size, map_room) = (tile_size(settings), map_bytes(settings));
            let (answer, ..) = whole(settings, &pixels, enough(settings), &mut random);
            let need = answer.expect("there is room for every tile").tiles as usize;
            for limit in [0, need - 1, need, need + 1] {
                let settings = Settings { limit: limit as u32, ..settings };
                for tile_room in [need * size, need * size - 1, (need - 1) * size, need / 2 * size, 0] {
                    let cutting = any_cutting(settings.rows, &mut random);
                    count += same_as_whole(settings, &pixels, &cutting, (tile_room, map_room), &mut random);
                }
            }
        }
    }
    print_count("strips in rooms around the need", count);
}

/// The largest pictures, against the whole conversion alone: so many tiles that most modes can just name them, and every
/// tile stored, which only pce can.
#[test]
fn the_largest_pictures() {
    let (mut tiles, mut map) = (vec![0; 64 * 4096], vec![0; 2 * 4096]);
    let (mut sum, mut random) = (0, Random::new(124));
    for flagged in picture_modes().flat_map(with_every_flag) {
        let settings = Settings { columns: 64, rows: 64, ..flagged };
        let pixels = picture_of(settings, &repeated_tiles(settings, 4096, &mut random));
        let spaces = (4096 * tile_size(settings), map_bytes(settings));
        let (due, due_tiles, due_map) = whole(settings, &pixels, spaces, &mut random);
        for cutting in [vec![1; 64], any_cutting(64, &mut random), vec![63, 1]] {
            let (tiles, map) = (&mut tiles[..spaces.0], &mut map[..spaces.1]);
            let ended = convert_in_strips(settings, &cutting, &pixels, tiles, map);
            assert_eq!(ended, due, "{settings:?} {cutting:?}");
            if let Ok(Picture { tile_bytes, .. }) = ended {
                assert!(tiles[..tile_bytes] == due_tiles[..tile_bytes], "tile bytes of {settings:?} {cutting:?}");
                assert!(*map == due_map[..], "map bytes of {settings:?} {cutting:?}");
                sum += places(settings) as u64;
            }
        }
    }
    assert!(sum > 0);
    print_count("tiles of the largest pictures, in strips", sum);
}

/// As many tiles as the entries can name, and one more in the last row: the last strip is refused with 12 then, and the
/// run goes on with another in its place.
#[test]
fn as_many_tiles_as_entries_can_name() {
    let (mut count, mut random) = (0, Random::new(125));
    for flagged in picture_modes().flat_map(with_every_flag).filter(|settings| most_tiles(*settings) < 4096) {
        let most = most_tiles(flagged);
        let settings = Settings { columns: 64, rows: most as u32 / 64 + 1, ..flagged };
        let different = different_tiles(settings.depth, most + 1);
        let pixels = picture_of(settings, &[&different[..], &vec![different[0].clone(); 63]].concat());
        let mut station = Station::with_room(settings, &mut random);
        let first = station.next_rows(&pixels, settings.rows - 1);
        assert_eq!(station.same_take(first, &mut random).map(|picture| picture.tiles), Ok(most as u32));
        assert_eq!(station.same_take(station.next_rows(&pixels, 1), &mut random), Err(12), "{settings:?}");
        // a row of tiles that are all there already
        let again = station.same_take(&pixels[..64 * 64], &mut random);
        assert_eq!(again.err(), (!settings.discard).then_some(12), "{settings:?}");
        count += 3;
    }
    print_count("strips of as many tiles as entries can name", count);
}

/// Every number of pixels, after each number of rows: 19 where they are more than are still to come, 7 where they are no
/// whole rows, or none.
#[test]
fn strips_of_every_length() {
    let (mut count, mut random) = (0, Random::new(126));
    for settings in picture_modes() {
        for (columns, rows) in [(1, 1), (2, 2), (3, 3)] {
            let settings = Settings { columns, rows, ..settings };
            let row = 64 * columns as usize;
            let pixels = random.bytes(row * (rows as usize + 1) + 1);
            let mut station = Station::with_room(settings, &mut random);
            for taken in 0..=rows {
                let left = row * (rows - taken) as usize;
                for length in 0..=left + row + 1 {
                    let answer = station.clone().same_take(&pixels[..length], &mut random);
                    let due = match length {
                        _ if length > left => Some(19),
                        0 => Some(7),
                        _ => (length % row != 0).then_some(7),
                    };
                    assert_eq!(answer.err(), due, "{settings:?} {taken} {length}");
                    count += 1;
                }
                if taken < rows {
                    station.same_take(&pixels[..row], &mut random).expect("a row is to come");
                }
            }
        }
    }
    print_count("strips of every length", count);
}

/// Buffers that lack a byte of what the record counts, of what the strip needs, and of the map: 6, 12 and 11.
#[test]
fn buffers_of_every_length() {
    let (mut count, mut random) = (0, Random::new(127));
    for flagged in picture_modes().flat_map(with_every_flag) {
        let settings = Settings { columns: 3, rows: 3, ..flagged };
        let (size, whole_map) = (tile_size(settings), map_bytes(settings));
        let pixels = Kind::Dots.picture(settings, &mut random);
        let mut station = Station::with_room(settings, &mut random);
        for _ in 0..3 {
            let strip = station.next_rows(&pixels, 1).to_vec();
            let counted = station.run.tiles as usize * size;
            let tile_rooms = (0..4).flat_map(|more| rooms(counted + more * size));
            for tile_room in tile_rooms.chain([0]).filter(|&room| room <= station.tiles.len()) {
                for map_room in rooms(whole_map).chain([0, whole_map / 3]) {
                    let mut station = station.clone();
                    let answer = station.same_take_in(&strip, (tile_room, map_room), &mut random);
                    let due = match answer {
                        _ if tile_room < counted => Some(6),
                        _ if map_room < whole_map => Some(11),
                        Err(refusal) => Some(refusal),
                        Ok(_) => None,
                    };
                    assert_eq!(answer.err(), due, "{:?} {tile_room} {map_room}", station.run);
                    count += 1;
                }
            }
            station.same_take(&strip, &mut random).expect("there is room");
        }
    }
    print_count("strips in buffers of every length", count);
}

/// Records of which any fields were altered, over bytes of any content: the answer is the reading's, and so is all that
/// is left.
#[test]
fn altered_records() {
    let (mut count, mut accepted, mut random) = (0, 0, Random::new(128));
    for flagged in picture_modes().flat_map(with_every_flag) {
        let settings = Settings { columns: 3, rows: 4, ..flagged };
        let pixels = Kind::Near.picture(settings, &mut random);
        let mut begun = Station::with_room(settings, &mut random);
        begun.same_take(begun.next_rows(&pixels, 2), &mut random).expect("there is room");
        for _ in 0..600 {
            let mut station = begun.clone();
            // one field, or two, or several
            let fields = 1 + random.below(3).min(random.below(8));
            for _ in 0..fields {
                alter(&mut station.run, random.below(11), &mut random);
            }
            let row = 64 * station.run.columns.min(8) as usize;
            let lengths = [0, row, row, 2 * row, row + 1, 64 * 3, pixels.len()];
            let length = lengths[random.below(7) as usize].min(pixels.len());
            accepted += u64::from(station.clone().same_take(&pixels[..length], &mut random).is_ok());
            // the record is handed in, and stays
            let _ = same_end(station.run);
            count += 2;
        }
    }
    assert!(accepted > 1000, "{accepted} of the altered records were accepted");
    print_count("altered records", count);
}

/// Records of any numbers whatsoever.
#[test]
fn records_of_any_numbers() {
    let (mut count, mut random) = (0, Random::new(129));
    let pixels = random.bytes(64 * 64);
    for _ in 0..100_000 {
        let run = any_run(&mut random);
        let (tile_room, map_room) = (random.below(600) as usize, random.below(80) as usize);
        let mut station = Station { run, tiles: random.bytes(tile_room), map: random.bytes(map_room) };
        let row = 64 * run.columns.min(16) as usize;
        let length = [0, 64, row, 2 * row, row + 1][random.below(5) as usize];
        let _ = station.same_take(&pixels[..length], &mut random);
        let _ = same_end(run);
        let _ = same_start(settings_of(run));
        count += 3;
    }
    print_count("records of any numbers", count);
}

/// Tile bytes that were altered between strips, so that tiles are there twice, or are others than were stored: the first
/// that matches is named.
#[test]
fn altered_tile_bytes() {
    let (mut count, mut random) = (0, Random::new(130));
    for flagged in picture_modes().flat_map(with_every_flag) {
        for (columns, rows) in [(4, 8), (3, 12), (20, 7)] {
            for kind in Kind::ALL {
                let settings = Settings { columns, rows, ..flagged };
                let pixels = kind.picture(settings, &mut random);
                let mut station = Station::with_room(settings, &mut random);
                while station.run.taken < rows {
                    station.make_noise(&mut random);
                    let height = 1 + random.below(rows - station.run.taken).min(random.below(3));
                    station.same_take(station.next_rows(&pixels, height), &mut random).expect("there is room");
                    alter_tiles(&mut station, settings, &mut random);
                    count += 1;
                }
            }
        }
    }
    print_count("altered tile bytes", count);
}

/// A stored tile over another, a byte of any value, or noise in all of them.
fn alter_tiles(station: &mut Station, settings: Settings, random: &mut Random) {
    let (stored, size) = (station.run.tiles, tile_size(settings));
    let [one, other] = [(); 2].map(|()| random.below(stored) as usize * size);
    match random.below(4) {
        0 => station.tiles.copy_within(one..one + size, other),
        1 => station.tiles[one + random.below(size as u32) as usize] = random.byte(),
        2 => station.tiles[..stored as usize * size].iter_mut().for_each(|byte| *byte = random.byte()),
        _ => station.tiles[..stored as usize * size].fill(random.byte()),
    }
}

/// The bytes of so many tiles, each one of these.
fn any_of(settings: Settings, several: &[Vec<u8>], count: usize, random: &mut Random) -> Vec<u8> {
    let shape = Shape { mode: settings.mode, depth: settings.depth, width: 8, height: 8 };
    let packed = |tile: &Vec<u8>| {
        let (cut, mut bytes) = (reading::cut_tiles(settings.depth, 1, 1, tile).concat(), vec![0; shape.bytes()]);
        reading::pack_tile(shape, &cut, &mut bytes).expect("the tile is native");
        bytes
    };
    let packed: Vec<Vec<u8>> = several.iter().map(packed).collect();
    (0..count).flat_map(|_| packed[random.below(packed.len() as u32) as usize].clone()).collect()
}

/// As many tiles as there can be but for a strip's, few of them different, each there many times and in many mirrors: the
/// first that matches is named, and what matches none is stored. And as many as there can be, where nothing is stored.
#[test]
fn many_tiles_that_match() {
    let (mut count, mut random) = (0, Random::new(138));
    for flagged in picture_modes().flat_map(with_every_flag) {
        for kind in Kind::ALL {
            let settings = Settings { columns: 24, rows: 4, ..flagged };
            let (most, size) = (most_tiles(settings), tile_size(settings));
            let several = kind.tiles(settings.depth, 60, &mut random);
            let tiles = any_of(settings, &several[..30], most, &mut random);
            let map = random.bytes(map_bytes(settings));
            let strip = |several: &[Vec<u8>], random: &mut Random| {
                let mut any = |_| {
                    let tile = &several[random.below(several.len() as u32) as usize];
                    reading::flipped(tile, 8, settings.flip && random.flag(), settings.flip && random.flag())
                };
                picture_of(settings, &(0..24).map(&mut any).collect::<Vec<_>>())
            };
            let run = |stored: usize| Run { tiles: stored as u32, taken: 2, ..record_of(settings) };
            let mut station = Station { run: run(most - 24), tiles: tiles.clone(), map: map.clone() };
            station.tiles[(most - 24) * size..].fill(0xa5);
            station.same_take(&strip(&several, &mut random), &mut random).expect("there is room for every tile");
            let mut full = Station { run: run(most), tiles, map };
            let answer = full.same_take(&strip(&several[..30], &mut random), &mut random);
            assert!(settings.discard || answer == Err(12), "{settings:?}");
            count += 2;
        }
    }
    print_count("many tiles that match", count);
}

/// Strips that are refused for every cause that a caller can give, among good ones, an early end among them: at the end
/// all is as without them.
#[test]
fn refused_strips_among_good_ones() {
    let (mut count, mut random) = (0, Random::new(131));
    for flagged in picture_modes().flat_map(with_every_flag) {
        for kind in Kind::ALL {
            let settings = Settings { columns: 4, rows: 7, ..flagged };
            let pixels = kind.picture(settings, &mut random);
            let (due, due_tiles, due_map) = whole(settings, &pixels, enough(settings), &mut random);
            let mut station = Station::with_room(settings, &mut random);
            while station.run.taken < settings.rows {
                count += refused_strips(&mut station, &pixels, &mut random);
                assert_eq!(same_end(station.run), Err(19), "{settings:?}");
                let rows = 1 + random.below(settings.rows - station.run.taken);
                station.make_noise(&mut random);
                station.same_take(station.next_rows(&pixels, rows), &mut random).expect("there is room");
                count += 2;
            }
            // after the last row none is empty, and one pixel is past it
            assert_eq!(station.same_take(&[], &mut random), Err(7), "{settings:?}");
            assert_eq!(station.same_take(&pixels[..1], &mut random), Err(19), "{settings:?}");
            assert_eq!(station.same_take(&pixels[..64 * 4], &mut random), Err(19), "{settings:?}");
            assert_eq!(same_end(station.run), due, "{settings:?}");
            let (tile_bytes, map_bytes) = station.written();
            assert!(station.tiles[..tile_bytes] == due_tiles[..tile_bytes], "tile bytes of {settings:?}");
            assert!(station.map[..map_bytes] == due_map[..map_bytes], "map bytes of {settings:?}");
            count += 6;
        }
    }
    print_count("refused strips among good ones", count);
}

fn refused_strips(station: &mut Station, pixels: &[u8], random: &mut Random) -> u64 {
    let settings = settings_of(station.run);
    let counted = station.written().0;
    let (tile_room, map_room) = (station.tiles.len(), map_bytes(settings));
    let strip = station.next_rows(pixels, 1);
    let left = station.still_to_come(pixels);
    let past = [left, &pixels[..64 * settings.columns as usize]].concat();
    let mut refuse = |pixels: &[u8], rooms: (usize, usize), due: u32| {
        assert_eq!(station.same_take_in(pixels, rooms, random), Err(due), "{:?}", station.run);
    };
    refuse(&strip[1..], (tile_room, map_room), 7);
    refuse(&[], (tile_room, map_room), 7);
    refuse(&past, (tile_room, map_room), 19);
    refuse(&past[..left.len() + 1], (tile_room, map_room), 19);
    refuse(strip, (tile_room, map_room - 1), 11);
    if counted > 0 {
        refuse(strip, (counted - 1, map_room), 6);
    }
    5 + u64::from(counted > 0)
}

/// 13 where the discard counter would pass its end within the strip, 12 before it where both hold. A strip of a tile
/// three times and another once: two are stored and two discarded.
#[test]
fn the_end_of_the_discard_counter() {
    let (mut count, mut random) = (0, Random::new(132));
    for flagged in picture_modes().flat_map(with_every_flag) {
        let settings = Settings { columns: 4, rows: 2, ..flagged };
        let different = different_tiles(settings.depth, 2);
        let strip = picture_of(settings, &[0, 0, 1, 0].map(|number| different[number].clone()));
        let (stored, discards) = if settings.discard { (2, 2) } else { (4, 0) };
        for left in [0, 1, 2, 3, u32::MAX] {
            for room in [0, 1, stored - 1, stored, stored + 1] {
                let mut station = Station::with_room(settings, &mut random);
                station.run.discarded = u32::MAX - left;
                let spaces = (room * tile_size(settings), map_bytes(settings));
                let answer = station.same_take_in(&strip, spaces, &mut random);
                let due = match () {
                    () if room < stored => Some(12),
                    () if left < discards => Some(13),
                    () => None,
                };
                assert_eq!(answer.err(), due, "{:?} {room}", station.run);
                count += 1;
            }
        }
    }
    print_count("the end of the discard counter", count);
}

/// What 6 is about: the tiles, or the rows.
#[derive(Debug, Clone, Copy, PartialEq)]
enum Counted {
    Tiles,
    Rows,
}

/// Whichever of the refusals apply, the first in the order of the checks is given: "19 .. checked after 6". A run of 2 x 3
/// tiles of which a row has come and a tile is stored; the strip has that tile, and one that matches none.
#[test]
fn the_first_refusal() {
    let (mut count, mut random) = (0, Random::new(133));
    for settings in picture_modes() {
        for refusals in choices(&[1, 2, 3, 4, 5, 6, 19, 7, 16, 11, 12, 13]) {
            // with flips 5 cannot be
            if row_of(settings).flips && refusals.contains(&5) {
                continue;
            }
            for counted in [Counted::Tiles, Counted::Rows] {
                count += same_first(settings, counted, &refusals, &mut random);
            }
        }
    }
    print_count("a strip's refusals together", count);
}

fn same_first(settings: Settings, counted: Counted, refusals: &[u32], random: &mut Random) -> u64 {
    let has = |refusal| refusals.contains(&refusal);
    let good = Settings { columns: 2, rows: 3, ..settings };
    let different = different_tiles(settings.depth, 2);
    let mut tiles = vec![0; 2 * tile_size(good)];
    let first = picture_of(good, &vec![different[0].clone(); 2]);
    let mut run = told(Run::start(asked(good))).expect("the settings are good");
    told(run.take(&first, &mut tiles, &mut vec![0; map_bytes(good)])).expect("there is room");

    let Settings { mode, depth, flip, palette, rows, .. } = damaged(good, refusals);
    let run = Run {
        mode,
        depth,
        flip,
        palette,
        rows,
        taken: if has(6) && counted == Counted::Rows { rows + 1 } else { 1 },
        tiles: if has(6) && counted == Counted::Tiles { 3 } else { 1 },
        discarded: if has(13) { u32::MAX } else { 0 },
        ..run
    };
    let mut pixels = picture_of(good, &different);
    if has(19) {
        // one row more than are still to come
        pixels = pixels.repeat(rows as usize);
    }
    pixels.extend(vec![0; usize::from(has(7))]);
    let tile_room = tiles.len() - usize::from(has(12));
    // the map that the mode which was begun has, at the size asked for
    let map_room = 2 * rows as usize * row_of(good).entry_bytes - usize::from(has(11));
    let mut station = Station { run, tiles, map: random.bytes(map_room) };
    let answer = station.same_take_in(&pixels, (tile_room, map_room), random);
    assert_eq!(answer.err(), refusals.first().copied(), "{run:?} {refusals:?}");

    let at_the_end = |refusal: &&u32| [1, 2, 3, 4, 5, 6, 19, 16].contains(*refusal);
    let taken = if has(6) && counted == Counted::Rows { rows + 1 } else { rows - u32::from(has(19)) };
    // no buffer bounds the tiles here
    let tiles = if has(6) && counted == Counted::Tiles { most_tiles(good) as u32 + 1 } else { 1 };
    let run = Run { taken, tiles, ..run };
    let due = refusals.iter().find(at_the_end);
    assert_eq!(same_end(run).err(), due.copied(), "{run:?} {refusals:?}");
    2
}

/// Ends of every count around the limit, what entries can name, and the rows.
#[test]
fn ends_of_every_count() {
    let mut count = 0;
    for flagged in picture_modes().flat_map(with_every_flag) {
        let most = most_tiles(flagged) as u32;
        for limit in [0, 1, 7, most - 1, most, most + 1, u32::MAX] {
            let settings = Settings { columns: 5, rows: 3, limit, ..flagged };
            let run = same_start(settings).expect("the settings are good");
            for taken in [0, 1, 2, 3, 4, 64, u32::MAX] {
                for tiles in [0, 1, 2, 6, 7, 8, most - 1, most, most + 1, 65_536, u32::MAX] {
                    for discarded in [0, u32::MAX] {
                        let answer = same_end(Run { taken, tiles, discarded, ..run });
                        let room = if limit == 0 { most } else { limit.min(most) };
                        let due = match () {
                            () if tiles > room || taken > 3 => Err(6),
                            () if taken < 3 => Err(19),
                            () => Ok((tiles, discarded)),
                        };
                        assert_eq!(answer.map(|picture| (picture.tiles, picture.discarded)), due, "{run:?}");
                        count += 1;
                    }
                }
            }
        }
    }
    print_count("ends of every count", count);
}

/// Starts, first strips and ends in every mode number and depth, of sizes in and out of bounds, with flips on and off.
#[test]
fn runs_of_every_mode_depth_and_size() {
    const SIDES: [u32; 9] = [0, 1, 2, 63, 64, 65, 65_536, 1 << 31, u32::MAX];
    let (mut count, mut random) = (0, Random::new(134));
    let pixels = random.bytes(64 * 64);
    for mode in MODE_NUMBERS {
        for depth in DEPTHS {
            for (columns, rows) in SIDES.iter().flat_map(|&columns| SIDES.map(|rows| (columns, rows))) {
                let flip = random.flag();
                let settings = Settings { mode, depth, flip, discard: true, limit: 0, palette: 0, columns, rows };
                let _ = same_start(settings);
                let run = record_of(settings);
                let (tiles, map) = (random.bytes(64 * 64), random.bytes(if rows <= 2 { 256 } else { 8192 }));
                let length = 64 * columns.min(64) as usize;
                let mut station = Station { run, tiles, map };
                let _ = station.same_take(&pixels[..length], &mut random);
                let _ = same_end(run);
                count += 3;
            }
        }
    }
    print_count("runs of every mode, depth and size", count);
}

/// The largest palette index of each mode, and numbers whose low bits would do; in every call of a run.
#[test]
fn palette_indexes() {
    let (mut count, mut random) = (0, Random::new(135));
    for settings in picture_modes() {
        let above = 1 << row_of(settings).palette_bits;
        for palette in (0..=above + 1).chain([16, 255, 256, 65_536, 1 << 31, u32::MAX - above + 1, u32::MAX]) {
            let settings = Settings { palette, columns: 2, ..settings };
            assert_eq!(same_start(settings).is_ok(), palette < above, "{settings:?}");
            let mut station = Station::with_room(Settings { palette: 0, ..settings }, &mut random);
            station.run.palette = palette;
            let pixels = Kind::Dots.picture(settings, &mut random);
            let answer = station.same_take(&pixels, &mut random);
            assert_eq!(answer.err(), (palette >= above).then_some(16), "{settings:?}");
            let ended = same_end(Run { taken: 1, ..station.run });
            assert_eq!(ended.err(), (palette >= above).then_some(16), "{settings:?}");
            count += 3;
        }
    }
    print_count("palette indexes of runs", count);
}

/// Flips in each mode: 5 where there are none, in every call of a run.
#[test]
fn flips_where_there_are_none() {
    let (mut count, mut random) = (0, Random::new(136));
    for settings in picture_modes() {
        for (flip, discard) in [(false, false), (false, true), (true, false), (true, true)] {
            let settings = Settings { flip, discard, columns: 3, rows: 2, ..settings };
            let due = (flip && !row_of(settings).flips).then_some(5);
            assert_eq!(same_start(settings).err(), due, "{settings:?}");
            let mut station = Station::with_room(Settings { flip: false, ..settings }, &mut random);
            station.run.flip = flip;
            let pixels = Kind::Near.picture(settings, &mut random);
            assert_eq!(station.same_take(&pixels, &mut random).err(), due, "{settings:?}");
            assert_eq!(same_end(Run { taken: 2, ..station.run }).err(), due, "{settings:?}");
            count += 3;
        }
    }
    print_count("flips of runs in every mode", count);
}

/// Document 01's picture of two tiles, and below it the same upside down, in two strips.
#[test]
fn the_marked_picture_in_strips() {
    let settings = Settings {
        mode: Mode::Snes.number(),
        depth: 2,
        flip: true,
        discard: true,
        limit: 0,
        palette: 0,
        columns: 2,
        rows: 2,
    };
    let mut strip = vec![0; 128];
    (strip[0], strip[15]) = (1, 1);
    let mut random = Random::new(137);
    let mut station = Station::start(settings, 65_536, 8, &mut random);
    let first = Picture { tiles: 1, discarded: 1, tile_bytes: 16, map_bytes: 4 };
    assert_eq!(station.same_take(&strip, &mut random), Ok(first));
    assert_eq!(station.tiles[..16], [0x80, 0, 0, 0, 0, 0, 0, 0, 0, 0, 0, 0, 0, 0, 0, 0]);
    assert_eq!(station.map[..4], [0x00, 0x00, 0x00, 0x40]);
    strip.reverse();
    let last = Picture { tiles: 1, discarded: 3, tile_bytes: 16, map_bytes: 8 };
    assert_eq!(station.same_take(&strip, &mut random), Ok(last));
    assert_eq!(station.map, [0x00, 0x00, 0x00, 0x40, 0x00, 0x80, 0x00, 0xc0]);
    assert_eq!(same_end(station.run), Ok(last));
}
