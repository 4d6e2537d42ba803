//! Titles against document 02: a set of one's own, and a common store beside it.

use std::cmp::Ordering;
use std::ops::Range;

use reading::{Random, Shape, set_shapes};
use rumchivoat::{Held, Logical, Mode, Place, Refusal, Set};

use super::common::sets::{SETTINGS, near_tiles, new_set, place_fields};
use super::common::{rooms, told};
use super::sets::{as_read, damaged, same_set};
use super::tiles::{DEPTHS, SIDES, choices};
use super::{MODE_NUMBERS, print_count};

/// A tile's pixels, each cut to its low depth bits; as they are where there is no such depth.
fn cut(depth: u32, pixels: &[u8]) -> Vec<u8> {
    pixels.iter().map(|&pixel| (u32::from(pixel) % (1 << depth.min(8))) as u8).collect()
}

/// A lent slice with other bytes on both sides, and what they all held before the call.
pub struct Framed {
    bytes: Vec<u8>,
    before: Vec<u8>,
    place: Range<usize>,
}

impl Framed {
    /// On each side fresh noise, or the tile that is asked for: a call that looked beyond an end would find it there.
    pub fn new(slice: &[u8], asked: &[u8], random: &mut Random) -> Framed {
        let mut side = || {
            let noise = random.below(40) as usize;
            if random.flag() { asked.to_vec() } else { random.bytes(noise) }
        };
        let (left, right) = (side(), side());
        let bytes = [&left[..], slice, &right].concat();
        Framed { before: bytes.clone(), bytes, place: left.len()..left.len() + slice.len() }
    }

    pub fn slice(&self) -> &[u8] {
        &self.bytes[self.place.clone()]
    }

    pub fn slice_mut(&mut self) -> &mut [u8] {
        &mut self.bytes[self.place.clone()]
    }

    /// Whether the slice holds these bytes, and all around it is as it was.
    pub fn holds(mut self, bytes: &[u8]) -> bool {
        self.before[self.place].copy_from_slice(bytes);
        self.bytes == self.before
    }

    pub fn is_as_it_was(&self) -> bool {
        self.bytes == self.before
    }
}

/// What a look-up finds, with the part told by where it begins in the store that is said to hold it.
fn held_fields(held: Held, common: &[u8], store: &[u8]) -> reading::Held {
    let Held { place: Logical(place), flip_h, flip_v, common: is_common, part } = held;
    let start = if is_common { common } else { store }.as_ptr() as usize;
    let at = (part.as_ptr() as usize).wrapping_sub(start);
    reading::Held { place: reading::Place { place, flip_h, flip_v }, common: is_common, at, len: part.len() }
}

/// A title as its caller keeps it: the set and its store, and the common store with its count.
#[derive(Debug, Clone, PartialEq)]
struct Title {
    set: Set,
    common_count: u32,
    common: Vec<u8>,
    store: Vec<u8>,
}

impl Title {
    fn case(&self, call: &str) -> String {
        let Title { set, common_count, common, store } = self;
        format!("{call} {set:?}, {common_count} in {} bytes, own in {} bytes", common.len(), store.len())
    }

    /// What a call is lent: the common store, the title's own, and the pixels.
    fn lent(&self, pixels: &[u8], random: &mut Random) -> [Framed; 3] {
        let asked = cut(self.set.depth, pixels);
        [&self.common[..], &self.store, pixels].map(|slice| Framed::new(slice, &asked, random))
    }

    fn same_look_up(&self, pixels: &[u8], random: &mut Random) -> u64 {
        let [common, store, given] = self.lent(pixels, random);
        let answer = self.set.title_look_up(self.common_count, common.slice(), store.slice(), given.slice());
        let ours = told(answer).map(|held| held.map(|held| held_fields(held, common.slice(), store.slice())));
        let read = reading::title_look_up(as_read(self.set), self.common_count, &self.common, &self.store, pixels);
        assert_eq!(ours, read, "{} {pixels:?}", self.case("look_up"));
        let untouched = [common, store, given].iter().all(Framed::is_as_it_was);
        assert!(untouched, "the lent bytes after {}", self.case("look_up"));
        1
    }

    /// Adds on both sides, and goes on from there.
    fn same_add(&mut self, pixels: &[u8], random: &mut Random) -> u64 {
        let (before, case) = (self.set, self.case("add"));
        let [common, mut store, given] = self.lent(pixels, random);
        let ours = self.set.title_add(self.common_count, common.slice(), store.slice_mut(), given.slice());
        let read = reading::title_add(as_read(before), self.common_count, &self.common, &mut self.store, pixels);
        same_set(&case, before, self.set, ours, read);
        assert!(common.is_as_it_was() && given.is_as_it_was(), "what is only read, after {case}");
        assert!(store.holds(&self.store), "the store after {case} {pixels:?}");
        1
    }

    /// A look-up, and an add after which all is let go.
    fn same_calls(&self, pixels: &[u8], random: &mut Random) -> u64 {
        self.same_look_up(pixels, random) + self.clone().same_add(pixels, random)
    }

    /// Adds each tile, looked up before. "The stored and discarded sum of document 01 then speaks of one title's own set
    /// and calls, common matches included."
    fn same_run(&mut self, tiles: &[Vec<u8>], random: &mut Random) -> u64 {
        let mut count = 0;
        let mut answered = self.set.stored + self.set.discarded;
        for tile in tiles {
            count += self.same_look_up(tile, random);
            let before = self.set;
            count += self.same_add(tile, random);
            answered += u32::from(self.set != before);
        }
        assert_eq!(self.set.stored + self.set.discarded, answered, "{:?}", self.set);
        count
    }
}

/// Tiles as a store holds them.
fn stored<'a>(shape: Shape, tiles: impl IntoIterator<Item = &'a Vec<u8>>) -> Vec<u8> {
    tiles.into_iter().flat_map(|tile| cut(shape.depth, tile)).collect()
}

/// Runs of adds, with look-ups before each, of tiles that nearly match. Every tile of a run stands in both stores from
/// the first, and only those that are counted may be found.
#[test]
fn runs_of_adds() {
    let (mut count, mut random) = (0, Random::new(101));
    for shape in set_shapes() {
        let length = if shape.pixels() > 512 { 8 } else { 20 };
        for (flips, discarding) in SETTINGS {
            for (common_count, room, limit) in
                [(0, length, 0), (1, 3, 0), (length / 4, length, 0), (length / 2, length, 4)]
            {
                let tiles = near_tiles(shape, length, &mut random);
                let set = new_set(shape, flips, discarding, limit).unwrap();
                let mut store = stored(shape, tiles.iter().rev().take(room));
                store.extend(random.bytes(3));
                let mut title = Title { set, common_count: common_count as u32, common: stored(shape, &tiles), store };
                count += title.same_run(&tiles, &mut random);
            }
        }
    }
    print_count("runs of adds to titles", count);
}

/// Calls of no pixels on stores of none, with no common tile counted and with one.
#[test]
fn titles_of_every_mode_depth_and_size() {
    let (mut count, mut random) = (0, Random::new(102));
    for mode in MODE_NUMBERS {
        for depth in DEPTHS {
            for (width, height) in SIDES.iter().flat_map(|&width| SIDES.map(|height| (width, height))) {
                for common_count in [0, 1] {
                    let set = Set { mode, depth, width, height, ..Set::default() };
                    let title = Title { set, common_count, common: Vec::new(), store: Vec::new() };
                    count += title.same_calls(&[], &mut random);
                }
            }
        }
    }
    print_count("titles of every mode, depth and size", count);
}

/// Counts around a common store of three tiles and an own one of two, each with a byte less or a byte more.
#[test]
fn counts_around_the_stores() {
    let (mut count, mut random) = (0, Random::new(103));
    let numbers = [0, 1, 2, 3, 4, 65_533, 65_535, 65_536, u32::MAX - 1, u32::MAX];
    for shape in set_shapes() {
        let area = shape.pixels();
        let tiles = near_tiles(shape, 6, &mut random);
        let all = stored(shape, &tiles);
        for (wide, room) in rooms(3 * area).zip([2 * area + 1, 2 * area, 2 * area - 1]) {
            for (common_count, own) in numbers.iter().flat_map(|&common| numbers.map(|own| (common, own))) {
                let new = new_set(shape, random.flag(), random.flag(), random.below(4)).unwrap();
                let set = Set { stored: own, discarded: u32::MAX - random.below(2), ..new };
                let (common, store) = (all[..wide].to_vec(), all[3 * area..][..room].to_vec());
                let title = Title { set, common_count, common, store };
                let tile = &tiles[random.below(6) as usize];
                count += title.same_calls(tile, &mut random) + title.same_calls(&tile[1..], &mut random);
            }
        }
    }
    print_count("counts around a title's stores", count);
}

/// A tile in a title that has no store, no common store, or neither.
#[test]
fn stores_of_no_tiles() {
    let (mut count, mut random) = (0, Random::new(111));
    for shape in set_shapes() {
        let tile = random.pixels(shape.depth, shape.pixels());
        for (flips, discarding) in SETTINGS {
            for (common, store) in [(0, 0), (1, 0), (0, 1)].map(|(common, own)| (tile.repeat(common), tile.repeat(own)))
            {
                for (common_count, own) in [(0, 0), (1, 0), (0, 1), (1, 1)] {
                    let set = Set { stored: own, ..new_set(shape, flips, discarding, 0).unwrap() };
                    let title = Title { set, common_count, common: common.clone(), store: store.clone() };
                    count += title.same_calls(&tile, &mut random);
                }
            }
        }
    }
    print_count("a title's stores of no tiles", count);
}

/// Tiles of other lengths are 7, before what either store would say to them.
#[test]
fn tiles_of_other_lengths() {
    let (mut count, mut random) = (0, Random::new(104));
    for shape in set_shapes() {
        let area = shape.pixels();
        for (flips, discarding) in SETTINGS {
            let store = random.pixels(shape.depth, 2 * area);
            for (common_count, own) in [(0, 0), (1, 1), (2, 2), (3, 2), (2, 3)] {
                let set = Set { stored: own, discarded: u32::MAX, ..new_set(shape, flips, discarding, 0).unwrap() };
                let title = Title { set, common_count, common: store.clone(), store: store.clone() };
                for length in rooms(area).chain([0, 1, 2 * area]) {
                    count += title.same_calls(&store[..length], &mut random);
                }
            }
        }
    }
    print_count("a title's tiles of other lengths", count);
}

/// Stores whose bytes were altered: a byte above the depth, in the common store or the own, matches nothing.
#[test]
fn altered_stores() {
    let (mut count, mut random) = (0, Random::new(105));
    for shape in set_shapes() {
        let area = shape.pixels();
        let tiles = random.pixels(shape.depth, 2 * area);
        for place in [0, area - 1, area, 2 * area - 1] {
            for value in [1 << (shape.depth % 8), 255, random.byte()] {
                let mut altered = tiles.clone();
                altered[place] = value;
                let tile = altered[place / area * area..][..area].to_vec();
                for (common, store) in [(&altered, &tiles), (&tiles, &altered), (&altered, &altered)] {
                    let set = Set { stored: 1, ..new_set(shape, true, random.flag(), 0).unwrap() };
                    let title = Title { set, common_count: 2, common: common.clone(), store: store.clone() };
                    count += title.same_calls(&tile, &mut random);
                }
            }
        }
    }
    print_count("a title's altered stores", count);
}

fn add_to(mut title: Title, pixels: &[u8]) -> (Result<(), Refusal>, Title) {
    let answer = title.set.title_add(title.common_count, &title.common, &mut title.store, pixels);
    (answer, title)
}

/// "With discarding on a common match counts as discarded; with it off every added tile is stored": 12 in a full store
/// and 13 at the last number of the counter, whichever store has the match.
#[test]
fn no_room_and_no_more_discards() {
    let mut count = 0;
    for shape in set_shapes() {
        let area = shape.pixels();
        let [common, own, other] =
            [(0, 0), (1, 0), (1, 1)].map(|(first, rest)| [vec![first], vec![rest; area - 1]].concat());
        for (discarded, discarding) in [0, u32::MAX - 1, u32::MAX].iter().flat_map(|&n| [(n, false), (n, true)]) {
            let set = Set { stored: 1, discarded, ..new_set(shape, true, discarding, 0).unwrap() };
            let full = Title { set, common_count: 1, common: common.clone(), store: own.clone() };
            let longer = Title { store: [own.clone(), vec![0xa5; area]].concat(), ..full.clone() };
            for (pixels, matches) in [(&common, true), (&own, true), (&other, false)] {
                count += same_end(&full, pixels, discarding && matches);
                count += same_end(&longer, pixels, discarding && matches);
            }
        }
    }
    print_count("titles without room and discards", count);
}

/// An add to a title of one tile that has room for one or two; what is discarded needs no room, and what is not no
/// counter.
fn same_end(title: &Title, pixels: &[u8], is_discarded: bool) -> u64 {
    let mut due = title.clone();
    let expected = match (is_discarded, title.set.discarded, title.store.len() > pixels.len()) {
        (true, u32::MAX, _) => Err(Refusal::Discarded),
        (false, _, false) => Err(Refusal::Room),
        _ => Ok(()),
    };
    if expected.is_ok() && is_discarded {
        due.set.discarded += 1;
    } else if expected.is_ok() {
        due.set.stored += 1;
        due.store[pixels.len()..].copy_from_slice(pixels);
    }
    let (answer, after) = add_to(title.clone(), pixels);
    assert_eq!((answer, after), (expected, due), "{:?}", title.set);
    1
}

/// What 6 is about: the own tiles, the common ones, or both counted together.
#[derive(Debug, Clone, Copy, PartialEq)]
enum Counted {
    Own,
    Common,
    Both,
}

/// A set that calls for these refusals over blank common tiles, of which so many bytes and so many tiles are lent, and
/// an own store of so many tiles, the first of them not blank. 12 is for the own room, or for both counts.
fn called_for(shape: Shape, counted: Counted, refusals: &[u32]) -> (Set, usize, u32, usize) {
    let (area, is_counted) = (shape.pixels(), refusals.contains(&6));
    let others: Vec<u32> = refusals.iter().copied().filter(|&refusal| refusal != 6).collect();
    let whole = Set { stored: 1, ..new_set(shape, true, true, 0).unwrap() };
    let set = Set { discarded: if refusals.contains(&13) { u32::MAX } else { 0 }, ..damaged(whole, &others) };
    match counted {
        Counted::Own => (Set { stored: 1 + u32::from(is_counted), ..set }, area, 1, 1),
        Counted::Common => (set, area - usize::from(is_counted), 1, 1),
        Counted::Both => (set, 65_535 * area, 65_534 + u32::from(is_counted), 2),
    }
}

/// Whichever of the refusals apply, the first in the order of the checks is given.
#[test]
fn the_first_refusal() {
    let (mut count, blank) = (0, vec![0; 65_535 * 64]);
    for shape in set_shapes() {
        for refusals in choices(&[1, 3, 4, 6, 7, 12, 13]) {
            count += same_first(shape, Counted::Own, &refusals, &blank);
            count += same_first(shape, Counted::Common, &refusals, &blank);
            if shape.pixels() == 64 {
                count += same_first(shape, Counted::Both, &refusals, &blank);
            }
        }
    }
    assert!(blank.iter().all(|&pixel| pixel == 0));
    print_count("a title's refusals together", count);
}

fn first(refusals: &[u32]) -> Result<(), u32> {
    refusals.first().map_or(Ok(()), |&first| Err(first))
}

fn same_first(shape: Shape, counted: Counted, refusals: &[u32], blank: &[u8]) -> u64 {
    let (set, wide, common_count, tiles) = called_for(shape, counted, refusals);
    let (common, area) = (&blank[..wide], shape.pixels());
    let mut store = vec![0; tiles * area];
    store[0] = 1;
    // a common tile, or one that matches none; 12 and 13 never meet
    let pixels = vec![u8::from(refusals.contains(&12)); area + usize::from(refusals.contains(&7))];
    let looking: Vec<u32> = refusals.iter().copied().filter(|&refusal| refusal < 12).collect();
    let looked = told(set.title_look_up(common_count, common, &store, &pixels)).map(|_| ());
    assert_eq!(looked, first(&looking), "{set:?} {counted:?} {refusals:?}");
    let (before, mut after) = (store.clone(), set);
    let added = told(after.title_add(common_count, common, &mut store, &pixels));
    assert_eq!(added, first(refusals), "{set:?} {counted:?} {refusals:?}");
    let discarded = set.discarded.wrapping_add(u32::from(added.is_ok()));
    assert_eq!((after, store), (Set { discarded, ..set }, before), "{counted:?} {refusals:?}");
    2
}

/// "Common count plus own count may not pass 65,535": below it, at it and above it, however the tiles are divided.
#[test]
fn the_most_tiles() {
    let (mut count, mut random) = (0, Random::new(106));
    let below = [(65_534, 0), (1, 65_533), (0, 65_534), (32_767, 32_767)];
    let at = [(65_535, 0), (65_534, 1), (1, 65_534), (0, 65_535), (32_768, 32_767)];
    let above = [(65_535, 1), (65_534, 2), (1, 65_535), (32_768, 32_768), (65_535, 65_535)];
    let none =
        [(65_536, 0), (0, 65_536), (65_537, 0), (u32::MAX, 0), (0, u32::MAX), (1, u32::MAX), (u32::MAX, u32::MAX)];
    for (common_count, own) in below.into_iter().chain(at).chain(above).chain(none) {
        for discarding in [false, true] {
            count += same_most(common_count, own, discarding, &mut random);
        }
    }
    print_count("the most tiles of a title", count);
}

/// Blank tiles of 8x8, so many common and so many own, in stores that hold one more: a tile that matches none of them,
/// and one that does.
fn same_most(common_count: u32, own: u32, discarding: bool, random: &mut Random) -> u64 {
    let shape = Shape { mode: Mode::Gb.number(), depth: 1, width: 8, height: 8 };
    let set = Set { stored: own, ..new_set(shape, true, discarding, 0).unwrap() };
    let blank = |tiles: u32| vec![0; 64 * (tiles.min(65_537) as usize + 1)];
    let title = Title { set, common_count, common: blank(common_count), store: blank(own) };
    let mut count = 0;
    for (pixels, matches) in [([1; 64], false), ([0; 64], true)] {
        let is_discarded = discarding && matches;
        let expected = match (u64::from(common_count) + u64::from(own)).cmp(&65_535) {
            Ordering::Greater => Err(Refusal::Count),
            Ordering::Equal if !is_discarded => Err(Refusal::Room),
            _ => Ok(()),
        };
        let (answer, after) = add_to(title.clone(), &pixels);
        assert_eq!(answer, expected, "{common_count} common, {set:?}");
        let is_stored = answer.is_ok() && !is_discarded;
        assert_eq!(after.set.stored, own.wrapping_add(u32::from(is_stored)), "{common_count} common, {set:?}");
        count += title.same_calls(&pixels, random);
        // the last that there is room for: one that matches none of them has none
        if is_stored {
            let other = [vec![1], vec![0; 63]].concat();
            assert_eq!(add_to(after, &other).0, Err(Refusal::Room), "{common_count} common, {set:?}");
        }
    }
    count
}

/// The most tiles of the largest size, half of them common: the last of each is found, and its part told.
#[test]
fn the_most_pixels() {
    let (tile, common_count) = (4096, 32_767);
    let mut all = vec![0; 65_535 * tile];
    let first_own = common_count as usize * tile;
    let last = all.len() - tile;
    all[last..].fill(1);
    all[first_own - tile..first_own].fill(2);
    let (common, store) = all.split_at(first_own);
    let shape = Shape { mode: Mode::Snes.number(), depth: 8, width: 64, height: 64 };
    let set = Set { stored: 32_768, ..new_set(shape, true, true, 0).unwrap() };
    let found = |pixel, common_count| {
        let held = told(set.title_look_up(common_count, common, store, &vec![pixel; tile]));
        held.map(|held| held.map(|held| held_fields(held, common, store)))
    };
    let held = |place, common, at| {
        let place = reading::Place { place, flip_h: false, flip_v: false };
        Ok(Some(reading::Held { place, common, at, len: tile }))
    };
    let cases = [
        (1, common_count, held(65_534, false, 32_767 * tile)),
        (2, common_count, held(32_766, true, 32_766 * tile)),
        (3, common_count, Ok(None)),
        (1, common_count + 1, Err(6)),
        (2, common_count - 1, Ok(None)),
    ];
    for (pixel, common_count, due) in cases {
        assert_eq!(found(pixel, common_count), due, "{common_count} common, {pixel}");
    }
    print_count("the most pixels of a title", cases.len() as u64);
}

/// With no common tile counted every answer is the plain set's, whatever the common store holds.
#[test]
fn without_common_tiles_a_title_is_its_set() {
    let (mut count, mut random) = (0, Random::new(107));
    for shape in set_shapes() {
        let length = if shape.pixels() > 512 { 8 } else { 20 };
        for (flips, discarding) in SETTINGS {
            for (room, limit) in [(length / 2, 0), (length, 5), (0, 0)] {
                let tiles = near_tiles(shape, length, &mut random);
                let common = stored(shape, &tiles);
                let mut set = new_set(shape, flips, discarding, limit).unwrap();
                let mut store = random.bytes(room * shape.pixels() + 1);
                for tile in &tiles {
                    for set in
                        [set, damaged(set, &[1]), damaged(set, &[3]), damaged(set, &[4]), Set { stored: 99, ..set }]
                    {
                        count += same_without_common(set, &common, &store, tile);
                        count += same_without_common(set, &common, &store, &tile[1..]);
                    }
                    // the answer is compared above, and the run goes on
                    let _ = set.add(&mut store, tile);
                }
            }
        }
    }
    print_count("titles without common tiles", count);
}

/// A look-up and an add by the plain calls and by a title's.
fn same_without_common(set: Set, common: &[u8], store: &[u8], pixels: &[u8]) -> u64 {
    let held = set.title_look_up(0, common, store, pixels);
    let found = held.map(|held| held.map(|Held { place, flip_h, flip_v, .. }| Place { place, flip_h, flip_v }));
    assert_eq!(found, set.look_up(store, pixels), "{set:?} {pixels:?}");
    if let Ok(Some(Held { place: Logical(place), common: is_common, part, .. })) = held {
        let due = &store[place as usize * part.len()..][..part.len()];
        assert!(!is_common && part.as_ptr_range() == due.as_ptr_range(), "{set:?} {pixels:?}");
    }
    let (mut title, mut plain) = ((set, store.to_vec()), (set, store.to_vec()));
    let added = title.0.title_add(0, common, &mut title.1, pixels);
    assert_eq!(added, plain.0.add(&mut plain.1, pixels), "{set:?} {pixels:?}");
    assert!(title == plain, "{title:?} and {plain:?}");
    2
}

/// However a store is divided into common tiles and own ones, a look-up finds what it finds in the whole, and an add
/// discards what it discards there, or stores it at the same place.
#[test]
fn stores_divided_in_every_way() {
    let (mut count, mut random) = (0, Random::new(108));
    for shape in set_shapes() {
        let (area, length) = (shape.pixels(), if shape.pixels() > 512 { 4 } else { 8 });
        for (flips, discarding) in SETTINGS {
            let tiles = near_tiles(shape, 2 * length, &mut random);
            let store = stored(shape, &tiles[..length]);
            let whole = Set { stored: length as u32, ..new_set(shape, flips, discarding, 0).unwrap() };
            for common_count in 0..=length {
                let (common, own) = store.split_at(common_count * area);
                let set = Set { stored: (length - common_count) as u32, ..whole };
                for tile in &tiles {
                    let found = set.title_look_up(common_count as u32, common, own, tile).unwrap();
                    let place = found.map(|held| (held.place.0, held.flip_h, held.flip_v));
                    assert_eq!(Ok(place), whole.look_up(&store, tile).map(|found| found.map(place_fields)), "{set:?}");
                    let (mut divided, mut rest) = (set, [own, &vec![0xa5; area]].concat());
                    let (mut undivided, mut all) = (whole, [&store[..], &vec![0xa5; area]].concat());
                    divided.title_add(common_count as u32, common, &mut rest, tile).unwrap();
                    undivided.add(&mut all, tile).unwrap();
                    assert_eq!(Set { stored: divided.stored + common_count as u32, ..divided }, undivided);
                    assert!([common, &rest].concat() == all, "{set:?} {tile:?}");
                    count += 2;
                }
            }
        }
    }
    print_count("stores divided in every way", count);
}

/// The part is the tile: at its place in the store that is said to hold it, and under the flip the pixels asked for. A
/// tile that both stores hold is the common one.
#[test]
fn parts_are_the_tiles() {
    let (mut count, mut nothing, mut random) = (0, 0, Random::new(109));
    for shape in set_shapes() {
        let area = shape.pixels();
        for flips in [false, true] {
            let tiles = near_tiles(shape, 12, &mut random);
            let (common, store) = (stored(shape, &tiles[..6]), stored(shape, &tiles[4..10]));
            let set = Set { stored: 6, ..new_set(shape, flips, true, 0).unwrap() };
            for tile in &tiles {
                let Some(held) = set.title_look_up(6, &common, &store, tile).unwrap() else {
                    nothing += 1;
                    continue;
                };
                let place = held.place.0 as usize;
                let due = if place < 6 { &common[place * area..] } else { &store[(place - 6) * area..] };
                assert_eq!(held.part.as_ptr_range(), due[..area].as_ptr_range(), "{shape:?}");
                assert_eq!(held.common, place < 6, "{shape:?}");
                let image = reading::flipped(held.part, shape.width, held.flip_h, held.flip_v);
                assert_eq!(image, cut(shape.depth, tile), "{shape:?}");
                count += 1;
            }
            for tile in &tiles[..6] {
                // the same slice may be lent as both
                let held = set.title_look_up(6, &common, &common, tile).unwrap();
                assert!(held.is_some_and(|held| held.common), "{shape:?}");
            }
        }
    }
    assert!(nothing > 0);
    print_count("parts", count);
}

/// A call of a title, by itself.
#[derive(Debug, Clone)]
enum Call {
    LookUp(Vec<u8>),
    Add(Vec<u8>),
    Reset,
}

/// What a call is answered, and the set and the store that it leaves.
type Left = (Result<Option<reading::Held>, u32>, Set, Vec<u8>);

fn call(call: &Call, set: &mut Set, common_count: u32, common: &[u8], store: &mut [u8]) -> Left {
    let answer = match call {
        Call::LookUp(pixels) => told(set.title_look_up(common_count, common, store, pixels))
            .map(|held| held.map(|held| held_fields(held, common, store))),
        Call::Add(pixels) => told(set.title_add(common_count, common, store, pixels)).map(|()| None),
        Call::Reset => told(set.reset()).map(|()| None),
    };
    (answer, *set, store.to_vec())
}

/// So many calls on tiles of a family; one in eight resets, and one in eight is refused for its length.
fn calls(tiles: &[Vec<u8>], length: usize, random: &mut Random) -> Vec<Call> {
    let one = |random: &mut Random| {
        let tile = tiles[random.below(tiles.len() as u32) as usize].clone();
        match random.below(8) {
            0 => Call::Reset,
            1 => Call::Add(tile[1..].to_vec()),
            2 | 3 => Call::LookUp(tile),
            _ => Call::Add(tile),
        }
    };
    (0..length).map(|_| one(random)).collect()
}

/// "What one title is answered depends on the common store, its own set and its own input, and on nothing of the other
/// title's": two titles over one common store, their own stores side by side and their calls in any order, are answered
/// and left as by each title's calls alone.
#[test]
fn twins_do_not_meet() {
    let (mut count, mut random) = (0, Random::new(110));
    for shape in set_shapes() {
        for _ in 0..4 {
            count += same_twins(shape, if shape.pixels() > 512 { 12 } else { 40 }, &mut random);
        }
    }
    print_count("calls of twin titles", count);
}

/// So many calls of each of two titles, on the same few tiles, some of which are common.
fn same_twins(shape: Shape, length: usize, random: &mut Random) -> u64 {
    let tiles = near_tiles(shape, 12, random);
    let (common, common_count) = (stored(shape, &tiles), random.below(5));
    let mut sets = [(); 2].map(|()| {
        let (flips, discarding) = SETTINGS[random.below(4) as usize];
        new_set(shape, flips, discarding, random.below(4)).unwrap()
    });
    let lists = [(); 2].map(|()| calls(&tiles, length, random));
    let room = 5 * shape.pixels();
    let mut stores = random.bytes(2 * room);
    let alone = [0, 1].map(|twin| {
        let (mut set, mut store) = (sets[twin], stores[twin * room..][..room].to_vec());
        let left = |one| call(one, &mut set, common_count, &common, &mut store);
        lists[twin].iter().map(left).collect::<Vec<Left>>()
    });
    let mut done = [0, 0];
    while done != [length; 2] {
        let turn = usize::from(random.flag());
        let twin = if done[turn] < length { turn } else { 1 - turn };
        let store = &mut stores[twin * room..][..room];
        let left = call(&lists[twin][done[twin]], &mut sets[twin], common_count, &common, store);
        assert!(left == alone[twin][done[twin]], "title {twin}, call {} of {:?}", done[twin], sets[twin]);
        done[twin] += 1;
    }
    assert!(common == stored(shape, &tiles), "the common store of {sets:?}");
    2 * length as u64
}
