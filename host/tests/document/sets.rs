//! Sets against document 01.

use reading::{Random, Shape, set_shapes, set_sizes};
use rumchivoat::{Logical, Mode, Native, Place, Refusal, Set};

use super::common::sets::{
    SETTINGS, is_sprite, near_tiles, new_set, part_bytes, place_fields, read_set, tiles_a_row, whole_lengths,
};
use super::common::{assert_writes, on_noise, rooms, told, unpack_tile, writes};
use super::tiles::{DEPTHS, SIDES, choices};
use super::{MODE_NUMBERS, print_count};

fn shape_of(set: Set) -> Shape {
    let Set { mode, depth, width, height, .. } = set;
    Shape { mode, depth, width, height }
}

pub fn as_read(set: Set) -> reading::Set {
    let Set { flips, discarding, limit, stored, discarded, .. } = set;
    reading::Set { shape: shape_of(set), flips, discarding, limit, stored, discarded }
}

fn read_fields(place: reading::Place) -> (u32, bool, bool) {
    (place.place, place.flip_h, place.flip_v)
}

fn same_new(shape: Shape, flips: bool, discarding: bool, limit: u32) -> u64 {
    let ours = new_set(shape, flips, discarding, limit).map(as_read);
    assert_eq!(ours, reading::set_new(shape, flips, discarding, limit), "new {shape:?}");
    1
}

/// The set after a call that was answered so; a refused one is as it was.
pub fn same_set(case: &str, before: Set, after: Set, ours: Result<(), Refusal>, read: Result<reading::Set, u32>) {
    assert_eq!(told(ours), read.map(|_| ()), "{case} {before:?}");
    assert_eq!(as_read(after), read.unwrap_or(as_read(before)), "{case} {before:?}");
}

fn same_reset(set: Set) -> u64 {
    let mut after = set;
    let ours = after.reset();
    same_set("reset", set, after, ours, reading::set_reset(as_read(set)));
    1
}

fn same_look_up(set: Set, store: &[u8], pixels: &[u8]) -> u64 {
    let ours = told(set.look_up(store, pixels)).map(|found| found.map(place_fields));
    let read = reading::set_look_up(as_read(set), store, pixels).map(|found| found.map(read_fields));
    assert_eq!(ours, read, "look_up {pixels:?} in {set:?} and {} bytes", store.len());
    1
}

/// Adds on both sides, and goes on with what the port gives.
fn same_add(set: &mut Set, store: &mut [u8], pixels: &[u8]) -> u64 {
    let (before, mut read_store) = (*set, store.to_vec());
    let ours = set.add(store, pixels);
    let read = reading::set_add(as_read(before), &mut read_store, pixels);
    same_set("add", before, *set, ours, read);
    assert!(store == read_store, "the store after add {pixels:?} to {before:?}");
    1
}

/// One add, after which set and store are let go.
fn same_single_add(mut set: Set, store: &[u8], pixels: &[u8]) -> u64 {
    same_add(&mut set, &mut store.to_vec(), pixels)
}

fn same_write(set: Set, store: &[u8], noise: &[u8]) -> u64 {
    let (answer, bytes) = on_noise(noise, |out| reading::set_write(as_read(set), store, out));
    let case = || format!("write {set:?} of {} bytes in {} bytes", store.len(), noise.len());
    let expected = answer.map(|length| &bytes[..length]);
    assert_writes(case, expected, noise, |out| told(set.write(store, out)))
}

/// In buffers of noise one byte short, exact, one byte long, and in one of no bytes.
fn same_write_in_every_room(set: Set, store: &[u8], random: &mut Random) -> u64 {
    let needed = reading::set_write(as_read(set), store, &mut vec![0; 4 * store.len() + 65_536]).unwrap_or(64);
    rooms(needed).chain([0]).map(|room| same_write(set, store, &random.bytes(room))).sum()
}

fn same_read(shape: Shape, flips: bool, bytes: &[u8], noise: &[u8]) -> u64 {
    let (mut ours, mut read) = (noise.to_vec(), noise.to_vec());
    let answer = read_set(shape, flips, bytes, &mut ours).map(as_read);
    let case = || format!("read {shape:?} {} bytes in {} bytes", bytes.len(), noise.len());
    assert_eq!(answer, reading::set_read(shape, flips, bytes, &mut read), "{}", case());
    assert!(ours == read, "the store after {}", case());
    1
}

fn same_numbers(mode: u32, width: u32, height: u32, number: u32) -> u64 {
    let native = told(rumchivoat::native_number(mode, width, height, Logical(number))).map(|cell| cell.0);
    assert_eq!(native, reading::native_number(mode, width, height, number), "{mode} {width}x{height} tile {number}");
    let logical = told(rumchivoat::logical_number(mode, width, height, Native(number))).map(|tile| tile.0);
    assert_eq!(logical, reading::logical_number(mode, width, height, number), "{mode} {width}x{height} cell {number}");
    2
}

/// Example (l): "snes 16x16: tile 8 at 32, cell 33 in tile 8; nine tiles write 64 cells and read as 16."
#[test]
fn marked_example() {
    assert_eq!(rumchivoat::native_number(Mode::Snes, 16, 16, Logical(8)), Ok(Native(32)));
    assert_eq!(rumchivoat::logical_number(Mode::Snes, 16, 16, Native(33)), Ok(Logical(8)));
    for depth in [2, 4, 8] {
        let cell = 8 * depth as usize;
        let (mut random, mut store) = (Random::new(51), vec![0; 9 * 256]);
        let mut set = Set::new(Mode::Snes, depth, 16, 16, true, false, 0).unwrap();
        for _ in 0..9 {
            set.add(&mut store, &random.pixels(depth, 256)).unwrap();
        }
        let mut bytes = vec![0xa5; 64 * cell];
        assert_eq!(set.write(&store, &mut bytes), Ok(64 * cell));
        let mut back = vec![0xa5; 16 * 256];
        let read = Set::read(Mode::Snes, depth, 16, 16, true, &bytes, &mut back).unwrap();
        assert_eq!(read, Set { stored: 16, discarding: true, ..set });
        assert_eq!(back, [store, vec![0; 7 * 256]].concat());
    }
}

#[test]
fn sets_of_every_mode_depth_and_size() {
    let mut count = 0;
    for mode in MODE_NUMBERS {
        for depth in DEPTHS {
            for (width, height) in SIDES.iter().flat_map(|&width| SIDES.map(|height| (width, height))) {
                let shape = Shape { mode, depth, width, height };
                for (flips, discarding) in SETTINGS {
                    count += same_new(shape, flips, discarding, depth);
                    let (limit, stored, discarded) = (width, height, u32::MAX);
                    count +=
                        same_reset(Set { mode, depth, width, height, flips, discarding, limit, stored, discarded });
                }
                count += same_calls_of_no_tiles(shape);
            }
        }
    }
    print_count("sets of every mode, depth and size", count);
}

/// The other calls, of a set of no tiles in a store of none.
fn same_calls_of_no_tiles(shape: Shape) -> u64 {
    let Shape { mode, depth, width, height } = shape;
    let set = Set { mode, depth, width, height, ..Set::default() };
    same_look_up(set, &[], &[])
        + same_single_add(set, &[], &[])
        + same_write(set, &[], &[])
        + same_read(shape, true, &[], &[])
        + same_numbers(mode, width, height, 1)
}

/// Runs of adds, with look-ups before each, in stores and with limits that fill up on the way.
#[test]
fn runs_of_adds() {
    let (mut count, mut random) = (0, Random::new(52));
    for shape in set_shapes() {
        let length = if shape.pixels() > 512 { 16 } else { 40 };
        for (flips, discarding) in SETTINGS {
            let half = length / 2 * shape.pixels();
            for (bytes, limit) in [(half - 1, 0), (half, 0), (half + 1, 0), (2 * half, 5)] {
                let tiles = near_tiles(shape, length, &mut random);
                let mut store = random.bytes(bytes);
                let mut set = new_set(shape, flips, discarding, limit).unwrap();
                count += same_run(&mut set, &mut store, &tiles);
                count += same_write_in_every_room(set, &store, &mut random);
            }
        }
    }
    print_count("runs of adds", count);
}

/// "Stored + discarded = adds answered 0", and what was there before them.
fn same_run(set: &mut Set, store: &mut [u8], tiles: &[Vec<u8>]) -> u64 {
    let mut count = 0;
    let mut answered = set.stored + set.discarded;
    for tile in tiles {
        count += same_look_up(*set, store, tile);
        let before = *set;
        count += same_add(set, store, tile);
        answered += u32::from(*set != before);
    }
    assert_eq!(set.stored + set.discarded, answered, "{set:?}");
    count
}

/// "A read set has limit 0, discarding on, flips as given, discarded 0; its sum starts from the count read."
#[test]
fn adds_after_reading() {
    let (mut count, mut random) = (0, Random::new(58));
    for shape in set_shapes() {
        for flips in [false, true] {
            // whole rows of tiles, however many a row has
            let bytes = random.bytes(16 * shape.bytes());
            let mut store = random.bytes(24 * shape.pixels());
            let mut set = read_set(shape, flips, &bytes, &mut store).unwrap();
            assert_eq!(set.stored, 16);
            let first = store[..shape.pixels()].to_vec();
            let mut tiles = near_tiles(shape, 12, &mut random);
            tiles.extend([reading::flipped(&first, shape.width, true, true), first]);
            count += same_run(&mut set, &mut store, &tiles);
        }
    }
    print_count("adds after reading", count);
}

/// Counts and limits around the room of a store that is three tiles, a byte less or a byte more.
#[test]
fn counts_and_limits_around_the_room() {
    let (mut count, mut random) = (0, Random::new(53));
    let numbers = [0, 1, 2, 3, 4, 5, 65_535, 65_536, u32::MAX];
    for shape in set_shapes() {
        let tiles = near_tiles(shape, 3, &mut random).concat();
        let cut: Vec<u8> = tiles.iter().map(|&pixel| (u32::from(pixel) % (1 << shape.depth)) as u8).collect();
        for length in rooms(cut.len()) {
            let store: Vec<u8> = cut.iter().copied().chain([7]).take(length).collect();
            for (stored, limit) in numbers.iter().flat_map(|&stored| numbers.map(|limit| (stored, limit))) {
                let new = new_set(shape, true, random.flag(), limit).unwrap();
                let set = Set { stored, discarded: u32::MAX - random.below(2), ..new };
                let tile = &cut[..shape.pixels()];
                count += same_reset(set) + same_look_up(set, &store, tile);
                count += same_single_add(set, &store, tile);
                count += same_single_add(set, &store, &random.bytes(shape.pixels()));
                count += same_write(set, &store, &random.bytes(3 * 64 * shape.bytes().max(64)));
            }
        }
    }
    print_count("counts and limits around the room", count);
}

/// Tiles of other lengths are 7, before what the set or its store would say to them.
#[test]
fn tiles_of_other_lengths() {
    let (mut count, mut random) = (0, Random::new(54));
    for shape in set_shapes() {
        let store = random.pixels(shape.depth, 2 * shape.pixels());
        for (flips, discarding) in SETTINGS {
            for stored in 0..=3 {
                let set = Set { stored, discarded: u32::MAX, ..new_set(shape, flips, discarding, 0).unwrap() };
                for length in rooms(shape.pixels()).chain([0, 1, 64, 2 * shape.pixels()]) {
                    // the first tile of the store, and what follows it
                    let pixels = &store[..length];
                    count += same_look_up(set, &store, pixels) + same_single_add(set, &store, pixels);
                }
            }
        }
    }
    print_count("tiles of other lengths", count);
}

/// A store whose bytes were altered: a byte above the depth matches nothing, and is 8 in writing where it is counted.
#[test]
fn altered_stores() {
    let (mut count, mut random) = (0, Random::new(55));
    for shape in set_shapes() {
        let area = shape.pixels();
        let tiles = random.pixels(shape.depth, 3 * area);
        for place in [0, area - 1, area, 2 * area - 1, 2 * area, 3 * area - 1] {
            for value in [1 << (shape.depth % 8), 255, random.byte()] {
                let mut store = tiles.clone();
                store[place] = value;
                for stored in 0..=3 {
                    let set = Set { stored, ..new_set(shape, true, true, 0).unwrap() };
                    let tile = &store[place / area * area..][..area];
                    count += same_look_up(set, &store, tile) + same_single_add(set, &store, tile);
                    count += same_write_in_every_room(set, &store, &mut random);
                }
            }
        }
    }
    print_count("altered stores", count);
}

/// "12" at the room and "13" at the last number of the counter, each at its boundary, and never both.
#[test]
fn no_room_and_no_more_discards() {
    for shape in set_shapes() {
        let area = shape.pixels();
        let (blank, other) = (vec![0; area], vec![1; area]);
        for discarded in [0, u32::MAX - 1, u32::MAX] {
            for discarding in [false, true] {
                let mut store = vec![0; area];
                let full = Set { stored: 1, discarded, ..new_set(shape, true, discarding, 0).unwrap() };
                // what matches needs no room, and what does not no counter
                let expected = match (discarding, discarded) {
                    (false, _) => Err(Refusal::Room),
                    (true, u32::MAX) => Err(Refusal::Discarded),
                    (true, _) => Ok(()),
                };
                assert_eq!(add_to(full, &mut store, &blank), expected, "{full:?}");
                assert_eq!(add_to(full, &mut store, &other), Err(Refusal::Room), "{full:?}");
                assert_eq!(store, blank);
                let mut longer = vec![0; 2 * area];
                assert_eq!(add_to(full, &mut longer, &other), Ok(()), "{full:?}");
                assert_eq!(longer, [blank.clone(), other.clone()].concat());
            }
        }
    }
}

fn add_to(mut set: Set, store: &mut [u8], pixels: &[u8]) -> Result<(), Refusal> {
    set.add(store, pixels)
}

/// The set with a mode, depth, width and count that call for these refusals.
pub fn damaged(set: Set, refusals: &[u32]) -> Set {
    Set {
        mode: if refusals.contains(&1) { 16 } else { set.mode },
        depth: if refusals.contains(&3) { 3 } else { set.depth },
        width: if refusals.contains(&4) { 9 } else { set.width },
        stored: if refusals.contains(&6) { 2 } else { set.stored },
        ..set
    }
}

/// "Where several apply, the lowest number is given": whichever of a look-up's and adding's do.
#[test]
fn the_lowest_refusal_of_looking_up_and_adding() {
    for shape in set_shapes() {
        let area = shape.pixels();
        let set = Set { stored: 1, ..new_set(shape, true, true, 0).unwrap() };
        for refusals in choices(&[1, 3, 4, 6, 7, 12, 13]) {
            let set = Set { discarded: if refusals.contains(&13) { u32::MAX } else { 0 }, ..damaged(set, &refusals) };
            // a tile that matches and one that does not, in a full store; 12 and 13 never meet
            let pixels = vec![u8::from(refusals.contains(&12)); area + usize::from(refusals.contains(&7))];
            let lowest = |refusals: &[u32]| refusals.first().map_or(Ok(()), |&lowest| Err(lowest));
            let mut store = vec![0; area];
            assert_eq!(told(add_to(set, &mut store, &pixels)), lowest(&refusals), "{set:?} {refusals:?}");
            assert!(store.iter().all(|&pixel| pixel == 0));
            let looking: Vec<u32> = refusals.iter().copied().filter(|&refusal| refusal < 12).collect();
            assert_eq!(told(set.look_up(&store, &pixels)).map(|_| ()), lowest(&looking), "{set:?} {refusals:?}");
        }
    }
}

/// And whichever of writing's.
#[test]
fn the_lowest_refusal_of_writing() {
    for shape in set_shapes() {
        let set = Set { stored: 1, ..new_set(shape, true, true, 0).unwrap() };
        let length = reading::set_write(as_read(set), &vec![0; shape.pixels()], &mut vec![0; 65_536]).unwrap();
        for refusals in choices(&[1, 3, 4, 6, 8, 11]) {
            // at depth 8 no byte is too large
            if shape.depth == 8 && refusals.contains(&8) {
                continue;
            }
            let mut store = vec![0; shape.pixels()];
            store[shape.pixels() - 1] = if refusals.contains(&8) { 1 << shape.depth } else { 0 };
            let room = length - usize::from(refusals.contains(&11));
            let answer = told(damaged(set, &refusals).write(&store, &mut vec![0; room]));
            let expected = refusals.first().map_or(Ok(length), |&lowest| Err(lowest));
            assert_eq!(answer, expected, "{shape:?} {refusals:?}");
        }
    }
}

/// And whichever of reading's, but 12, which wants many tiles.
#[test]
fn the_lowest_refusal_of_reading() {
    for shape in set_shapes() {
        let tiles = tiles_a_row(shape);
        for refusals in choices(&[1, 3, 4, 7, 11]) {
            let set = damaged(new_set(shape, true, true, 0).unwrap(), &refusals);
            let length = tiles * shape.bytes() + usize::from(refusals.contains(&7));
            let room = tiles * shape.pixels() - usize::from(refusals.contains(&11));
            let answer = read_set(shape_of(set), false, &vec![0; length], &mut vec![0; room]);
            let expected = refusals.first().map_or(Ok(tiles as u32), |&lowest| Err(lowest));
            assert_eq!(answer.map(|set| set.stored), expected, "{shape:?} {refusals:?}");
        }
    }
}

/// Every number of cells up to three rows of tiles, of sprites too, which are read whole; and lengths a byte beside whole
/// cells, tiles and rows of them.
#[test]
fn sets_of_every_number_of_cells() {
    let (mut count, mut random) = (0, Random::new(56));
    for shape in set_shapes() {
        let (cell, tile) = (8 * shape.depth as usize, shape.bytes());
        let row = tiles_a_row(shape) * tile;
        let whole = (0..=(3 * row / cell).max(48) + 1).map(|cells| cells * cell);
        let beside = [cell, 2 * cell, tile, 2 * tile, row, 2 * row].map(|length| [length - 1, length + 1]);
        for length in whole.chain([1]).chain(beside.into_iter().flatten()) {
            let bytes = random.bytes(length);
            let needed = reading::set_read(shape, true, &bytes, &mut vec![0; 64 * length]);
            let needed = needed.map_or(0, |set| set.stored as usize * shape.pixels());
            for room in rooms(needed) {
                count += same_read(shape, random.flag(), &bytes, &random.bytes(room));
            }
        }
    }
    print_count("sets of every number of cells", count);
}

/// What is written is read again, with blank tiles after it up to the end of a row: at 8x8 and in pce_sprite, where a row
/// is one tile, with none.
#[test]
fn written_sets_are_read_again() {
    let mut random = Random::new(57);
    for shape in set_shapes() {
        for tiles in [0, 1, 7, 8, 9, 15, 16, 17] {
            let store = random.pixels(shape.depth, tiles * shape.pixels());
            let set = Set { stored: tiles as u32, ..new_set(shape, true, true, 0).unwrap() };
            let mut bytes = vec![0; 64 * 64 * shape.bytes()];
            let length = set.write(&store, &mut bytes).unwrap();
            let mut back = vec![0xa5; store.len() + 16 * shape.pixels()];
            let read = read_set(shape, true, &bytes[..length], &mut back).unwrap();
            assert_eq!(read, Set { stored: tiles.next_multiple_of(tiles_a_row(shape)) as u32, ..set });
            let (written, rest) = back.split_at(store.len());
            let (blank, noise) = rest.split_at((read.stored - set.stored) as usize * shape.pixels());
            assert!(written == store && blank.iter().all(|&pixel| pixel == 0));
            assert!(noise.iter().all(|&byte| byte == 0xa5));
        }
    }
}

/// The tile to which a cell of a set's bytes belongs, by its number; a sprite is a tile by itself.
fn tile_of(shape: Shape, part: u32) -> u32 {
    let Shape { mode, width, height, .. } = shape;
    if is_sprite(shape) { part } else { reading::logical_number(mode, width, height, part).unwrap() }
}

/// What is written of a set of which so many tiles were read: whole rows of tiles, each cell of a tile that was read
/// where it stood in the bytes, and all others blank.
fn written_again(shape: Shape, bytes: &[u8], stored: u32) -> Vec<u8> {
    let mut again = vec![0; (stored as usize).next_multiple_of(tiles_a_row(shape)) * shape.bytes()];
    let part = part_bytes(shape);
    for ((number, cell), place) in (0..).zip(bytes.chunks_exact(part)).zip(again.chunks_exact_mut(part)) {
        if tile_of(shape, number) < stored {
            place.copy_from_slice(cell);
        }
    }
    again
}

/// What is read is written again: the same bytes exactly where they are whole rows of tiles, which at 8x8 and in
/// pce_sprite they always are.
#[test]
fn read_sets_are_written_again() {
    let (mut count, mut random) = (0, Random::new(59));
    for shape in set_shapes() {
        let row = tiles_a_row(shape) * shape.bytes();
        for length in whole_lengths(shape) {
            let bytes = random.bytes(length);
            let mut store = random.bytes(8 * length);
            let set = read_set(shape, random.flag(), &bytes, &mut store).unwrap();
            let again = written_again(shape, &bytes, set.stored);
            assert_eq!(again == bytes, length % row == 0, "{set:?} of {length} bytes");
            let case = || format!("write again {set:?} of {length} bytes");
            count += writes(case, &again, &mut random, |out| told(set.write(&store, out)));
        }
    }
    print_count("read sets are written again", count);
}

/// "The least of 65,535, the store's whole tiles ..": the last tile there is, in stores that have room for more.
#[test]
fn the_most_tiles() {
    let shape = Shape { mode: Mode::Gb.number(), depth: 1, width: 8, height: 8 };
    let mut store = vec![0; 65_537 * 64];
    let mut set = Set { stored: 65_534, ..new_set(shape, false, false, 0).unwrap() };
    assert_eq!(set.add(&mut store, &[1; 64]), Ok(()));
    assert_eq!(set.stored, 65_535);
    assert_eq!(set.add(&mut store, &[1; 64]), Err(Refusal::Room));
    assert_eq!(store[65_534 * 64..], [vec![1; 64], vec![0; 128]].concat());
    let last = Place { place: Logical(65_534), ..Place::default() };
    assert_eq!(set.look_up(&store, &[1; 64]), Ok(Some(last)));
    assert_eq!(Set { limit: 65_536, ..set }.add(&mut store, &[1; 64]), Err(Refusal::Room));
    for limit in [65_534, 1] {
        assert_eq!(Set { limit, ..set }.look_up(&store, &[1; 64]), Err(Refusal::Count));
    }
    assert_eq!(Set { stored: 65_536, ..set }.look_up(&store, &[1; 64]), Err(Refusal::Count));

    let mut bytes = vec![0xa5; 65_536 * 8];
    assert_eq!(set.write(&store, &mut bytes), Ok(65_535 * 8));
    assert_eq!(bytes[65_534 * 8..], [[0xff; 8], [0xa5; 8]].concat());
    assert_eq!(set.write(&store, &mut bytes[..65_535 * 8 - 1]), Err(Refusal::Output));
    bytes.fill(0xff);
    assert_eq!(read_set(shape, false, &bytes, &mut store), Err(12));
    assert_eq!(read_set(shape, false, &bytes, &mut store[..65_536 * 64 - 1]), Err(11));
    let read = read_set(shape, false, &bytes[8..], &mut store).unwrap();
    assert_eq!(read, Set { discarding: true, ..set });
    assert!(store[..65_535 * 64].iter().all(|&pixel| pixel == 1));
    assert_eq!(store[65_535 * 64..], [0; 128]);
}

/// More sprites than a set has, a length and stores a byte short: each is refused, and the store stays as it was.
fn refuses_sprites(shape: Shape, bytes: &[u8], store: &mut [u8]) {
    store.fill(0xa5);
    assert_eq!(read_set(shape, true, bytes, store), Err(12));
    assert_eq!(read_set(shape, true, bytes, &mut store[1..]), Err(11));
    assert_eq!(read_set(shape, true, &bytes[1..], store), Err(7));
    let most = &bytes[shape.bytes()..];
    assert_eq!(read_set(shape, true, most, &mut store[shape.pixels() + 1..]), Err(11));
    assert!(store.iter().all(|&pixel| pixel == 0xa5), "{shape:?}");
}

/// So many sprites are read, the last of them where it should be, and written again; what comes after them stays.
fn reads_sprites(shape: Shape, tiles: usize, bytes: &[u8], store: &mut [u8], out: &mut [u8]) {
    let bytes = &bytes[..tiles * shape.bytes()];
    store.fill(0xa5);
    let set = read_set(shape, true, bytes, store).unwrap();
    assert_eq!(set, Set { stored: tiles as u32, ..new_set(shape, true, true, 0).unwrap() });
    let (read, noise) = store.split_at(tiles * shape.pixels());
    if let (Some(last), Some(packed)) = (read.rchunks(shape.pixels()).next(), bytes.rchunks(shape.bytes()).next()) {
        let mut pixels = vec![0; shape.pixels()];
        assert_eq!(unpack_tile(shape, packed, &mut pixels), Ok(pixels.len()));
        assert!(last == pixels, "the last tile of {set:?}");
    }
    assert!(noise.iter().all(|&pixel| pixel == 0xa5), "the store after {set:?}");
    out.fill(0xa5);
    assert_eq!(set.write(store, out), Ok(bytes.len()));
    let (written, noise) = out.split_at(bytes.len());
    assert!(written == bytes && noise.iter().all(|&byte| byte == 0xa5), "{set:?}");
}

/// Sprites "for every whole number of tiles up to 65,535", at each of the six sizes: none, one and the most.
#[test]
fn the_most_sprites() {
    // as many bytes as 65,536 of the largest have
    let any = Random::new(60).bytes(65_536 * 1024);
    for shape in set_shapes().filter(|&shape| is_sprite(shape)) {
        let bytes = &any[..65_536 * shape.bytes()];
        let (mut store, mut out) = (vec![0; 65_536 * shape.pixels()], vec![0; bytes.len()]);
        refuses_sprites(shape, bytes, &mut store);
        for tiles in [0, 1, 65_535] {
            reads_sprites(shape, tiles, bytes, &mut store, &mut out);
        }
    }
}

/// The most tiles of the largest size: 268 million pixels, no number of bits too few for them.
#[test]
fn the_most_pixels() {
    let store = vec![0; 65_535 * 4096];
    let shape = Shape { mode: Mode::Snes.number(), depth: 8, width: 64, height: 64 };
    let set = Set { stored: 65_535, ..new_set(shape, true, true, 0).unwrap() };
    assert_eq!(set.look_up(&store, &[1; 4096]), Ok(None));
    assert_eq!(set.look_up(&store[1..], &[1; 4096]), Err(Refusal::Count));
    // two tiles a row: 32,768 rows of eight times sixteen cells
    let mut out = vec![0xa5; 32_768 * 8 * 16 * 64 - 1];
    assert_eq!(set.write(&store, &mut out), Err(Refusal::Output));
    assert!(out[..4096].iter().chain(out.last()).all(|&byte| byte == 0xa5));
}

#[test]
fn numbers_of_every_mode_and_size() {
    let mut count = 0;
    let edges = [0, 1, 2, 7, 8, 9, 15, 16, 17, 32, 33, 255, 65_534, 65_535, 65_536, 65_537];
    let large = (16..32).flat_map(|power| [(1u32 << power) - 1, 1 << power, (1 << power) + 1]).chain([u32::MAX]);
    let numbers: Vec<u32> = edges.into_iter().chain(large).collect();
    for mode in MODE_NUMBERS {
        for (width, height) in SIDES.iter().flat_map(|&width| SIDES.map(|height| (width, height))) {
            count += numbers.iter().map(|&number| same_numbers(mode, width, height, number)).sum::<u64>();
        }
    }
    print_count("numbers of every mode and size", count);
}

/// The two formulas undo each other, and every cell of a tile belongs to it.
#[test]
fn numbers_return() {
    for (mode, row) in super::numbered_rows().filter(|(_, row)| row.name != "pce_sprite") {
        let row_cells = if row.name == "snes" { 16 } else { 1 };
        for (width, height) in set_sizes(row.name) {
            for tile in (0..70).chain(65_500..=65_535).map(Logical) {
                let Native(first) = rumchivoat::native_number(mode, width, height, tile).unwrap();
                for (x, y) in (0..height / 8).flat_map(|y| (0..width / 8).map(move |x| (x, y))) {
                    let cell = Native(first + y * row_cells + x);
                    assert_eq!(rumchivoat::logical_number(mode, width, height, cell), Ok(tile), "{mode} {cell:?}");
                }
            }
        }
    }
}
