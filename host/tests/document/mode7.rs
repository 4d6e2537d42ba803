//! The mode 7 block against document 02: made and split as the reading has it, and a picture in it.

use reading::{Random, Settings};
use rumchivoat::{MODE7_BLOCK, MODE7_HALF, Mode, Mode7Halves, mode7_make_to_vec, mode7_split_to_vec};

use super::common::pictures::{asked, different_tiles, picture_of, places};
use super::common::told;
use super::pictures::repeated_tiles;
use super::print_count;
use super::tiles::choices;
use super::titles::Framed;

/// "One block of 32,768 bytes", and each half of it: "16,384 pairs".
const BLOCK: usize = 32_768;
const HALF: usize = 16_384;

/// What a former job has left all over a buffer.
const LEFT: u8 = 0xa5;

/// Lengths of an input around a tile, a row of the map, the map of the largest picture, half of what may come, the last
/// tile, all that may come, and beyond.
const LENGTHS: [usize; 24] = [
    0, 1, 2, 63, 64, 65, 127, 128, 129, 4095, 4096, 4097, 8191, 8192, 8193, 16_320, 16_383, 16_384, 16_385, 16_448,
    32_767, 32_768, 32_769, 65_536,
];

/// Lengths of the buffer that a block is made in.
const ROOMS: [usize; 8] = [0, 1, 16_384, 32_766, 32_767, 32_768, 32_769, 40_000];

/// Lengths of what is to be split, and of the buffers for its halves.
const SPLIT: [usize; 13] = [0, 1, 2, 16_383, 16_384, 16_385, 32_766, 32_767, 32_768, 32_769, 32_770, 65_535, 65_536];
const HALF_ROOMS: [usize; 7] = [0, 1, 16_383, 16_384, 16_385, 20_000, 32_768];

fn make(tiles: &[u8], map: &[u8], out: &mut [u8]) -> Result<usize, u32> {
    told(rumchivoat::mode7_make(tiles, map, out))
}

fn split(block: &[u8], tiles: &mut [u8], map: &mut [u8]) -> Result<usize, u32> {
    told(rumchivoat::mode7_split(block, tiles, map))
}

/// What is answered where inputs and buffer have these lengths: "7 for more than 16,384 bytes on either side", and then
/// "11 for short outputs".
fn making(tiles: usize, map: usize, room: usize) -> Result<usize, u32> {
    match () {
        () if tiles > HALF || map > HALF => Err(7),
        () if room < BLOCK => Err(11),
        () => Ok(BLOCK),
    }
}

/// The same of splitting: 7 for "a block of another length".
fn splitting(block: usize, tiles: usize, map: usize) -> Result<usize, u32> {
    match () {
        () if block != BLOCK => Err(7),
        () if tiles < HALF || map < HALF => Err(11),
        () => Ok(HALF),
    }
}

/// Made on both sides, over a buffer that holds this: the answer and all bytes of the buffer are the reading's, what is
/// not to be written is as it was, around the slices too. Gives what the buffer holds then.
fn same_made(tiles: &[u8], map: &[u8], before: &[u8], random: &mut Random) -> Vec<u8> {
    let case = || format!("mode7_make of {} and {} bytes in {}", tiles.len(), map.len(), before.len());
    let [given_tiles, given_map] = [tiles, map].map(|given| Framed::new(given, &[], random));
    let mut out = Framed::new(before, &[], random);
    let answer = make(given_tiles.slice(), given_map.slice(), out.slice_mut());
    let mut due = before.to_vec();
    assert_eq!(answer, reading::mode7_make(tiles, map, &mut due), "{}", case());
    assert_eq!(answer, making(tiles.len(), map.len(), before.len()), "{}", case());
    assert!(given_tiles.is_as_it_was() && given_map.is_as_it_was(), "what was given to {}", case());
    assert!(out.holds(&due), "the bytes after {}", case());
    let written = answer.unwrap_or(0);
    assert!(due[written..] == before[written..], "the bytes left by {}", case());
    due
}

/// Split on both sides, in the same way. Gives what both buffers hold then: the tiles', and the map's.
fn same_split(block: &[u8], before: [&[u8]; 2], random: &mut Random) -> [Vec<u8>; 2] {
    let case = || format!("mode7_split of {} bytes in {} and {}", block.len(), before[0].len(), before[1].len());
    let given = Framed::new(block, &[], random);
    let [mut tiles, mut map] = before.map(|before| Framed::new(before, &[], random));
    let answer = split(given.slice(), tiles.slice_mut(), map.slice_mut());
    let mut due = before.map(<[u8]>::to_vec);
    let [due_tiles, due_map] = &mut due;
    assert_eq!(answer, reading::mode7_split(block, due_tiles, due_map), "{}", case());
    assert_eq!(answer, splitting(block.len(), before[0].len(), before[1].len()), "{}", case());
    assert!(given.is_as_it_was(), "what was given to {}", case());
    assert!(tiles.holds(due_tiles) && map.holds(due_map), "the bytes after {}", case());
    let written = answer.unwrap_or(0);
    for (due, before) in due.iter().zip(before) {
        assert!(due[written..] == before[written..], "the bytes left by {}", case());
    }
    due
}

/// What a buffer of this length may hold before a call: a former job's byte everywhere, or anything.
fn former(room: usize, random: &mut Random) -> [Vec<u8>; 2] {
    [vec![LEFT; room], random.bytes(room)]
}

/// So many bytes, "with the 0 fill".
fn filled(bytes: &[u8], length: usize) -> Vec<u8> {
    [bytes, &vec![0; length - bytes.len()]].concat()
}

/// Each of these lengths with each, and some of any.
fn pairs_of_lengths(random: &mut Random) -> Vec<(usize, usize)> {
    let any = [HALF + 1, HALF + 1, HALF + 1, HALF + 1, 40_000].map(|most| random.below(most as u32) as usize);
    let lengths: Vec<usize> = LENGTHS.into_iter().chain(any).collect();
    lengths.iter().flat_map(|&one| lengths.iter().map(move |&other| (one, other))).collect()
}

/// "The even byte from a 128 by 128 map, the odd byte from the 256 tiles of 64 pixels", written out.
#[test]
fn a_block_by_hand() {
    assert_eq!((MODE7_BLOCK, MODE7_HALF), (BLOCK, HALF));
    let mut block = vec![LEFT; BLOCK];
    assert_eq!(make(&[1, 2, 3], &[0x0a, 0x0b], &mut block), Ok(BLOCK));
    assert_eq!(block[..8], [0x0a, 1, 0x0b, 2, 0, 3, 0, 0]);
    assert!(block[8..].iter().all(|&byte| byte == 0));
    let (mut tiles, mut map) = (vec![LEFT; HALF], vec![LEFT; HALF]);
    assert_eq!(split(&block, &mut tiles, &mut map), Ok(HALF));
    assert_eq!((tiles, map), (filled(&[1, 2, 3], HALF), filled(&[0x0a, 0x0b], HALF)));
}

#[test]
fn blocks_of_inputs_of_every_length() {
    let (mut count, mut random) = (0, Random::new(141));
    for (tiles, map) in pairs_of_lengths(&mut random) {
        let (tiles, map) = (random.bytes(tiles), random.bytes(map));
        for before in ROOMS.into_iter().flat_map(|room| former(room, &mut random)).collect::<Vec<_>>() {
            same_made(&tiles, &map, &before, &mut random);
            count += 1;
        }
    }
    print_count("mode 7 blocks of inputs of every length", count);
}

#[test]
fn blocks_of_every_length_split() {
    let (mut count, mut random) = (0, Random::new(142));
    let lengths = SPLIT.into_iter().chain((0..4).map(|_| BLOCK)).chain([random.below(70_000) as usize]);
    for block in lengths.collect::<Vec<_>>() {
        let block = random.bytes(block);
        for (tiles, map) in HALF_ROOMS.iter().flat_map(|&tiles| HALF_ROOMS.map(|map| (tiles, map))) {
            for (tiles, map) in former(tiles, &mut random).into_iter().zip(former(map, &mut random)) {
                same_split(&block, [&tiles, &map], &mut random);
                count += 1;
            }
        }
    }
    print_count("mode 7 blocks of every length, split", count);
}

/// One byte of either input, all else 0: it stands in its own place of the block, and nowhere else, and comes back from
/// there.
#[test]
fn each_byte_has_its_place() {
    let (mut count, mut random) = (0, Random::new(143));
    // the even bytes, and the odd ones
    let mut halves = [vec![0; HALF], vec![0; HALF]];
    let mut due = vec![0; BLOCK];
    let (mut block, mut tiles, mut map) = (vec![0; BLOCK], vec![0; HALF], vec![0; HALF]);
    for (pair, side) in (0..HALF).flat_map(|pair| [(pair, 0), (pair, 1)]) {
        let value = 1 + random.below(255) as u8;
        (halves[side][pair], due[2 * pair + side]) = (value, value);
        for buffer in [&mut block, &mut tiles, &mut map] {
            buffer.fill(LEFT);
        }
        let [given_map, given_tiles] = &halves;
        assert_eq!(make(given_tiles, given_map, &mut block), Ok(BLOCK));
        assert!(block == due, "byte {side} of pair {pair} is {value}");
        assert_eq!(split(&block, &mut tiles, &mut map), Ok(HALF));
        assert!(tiles == *given_tiles && map == *given_map, "byte {side} of pair {pair} is {value}");
        (halves[side][pair], due[2 * pair + side]) = (0, 0);
        count += 2;
    }
    print_count("each byte of a mode 7 block", count);
}

/// Blocks of one byte all over, of bytes that count, of halves that differ, and of anything.
fn blocks(random: &mut Random) -> Vec<Vec<u8>> {
    let plain = [0, 1, 0x80, LEFT, 0xff].map(|byte| vec![byte; BLOCK]);
    let counting = [1, 2, 255, 256, 257].map(|step| (0..BLOCK).map(|place| (place / step) as u8).collect());
    let apart = [(0, 0xff), (0xff, 0)].map(|(even, odd)| [even, odd].repeat(HALF));
    let any = (0..200).map(|_| random.bytes(BLOCK));
    plain.into_iter().chain(counting).chain(apart).chain(any).collect()
}

/// "Split then make returns the block", whatever the buffers held, and however much longer they are.
#[test]
fn split_then_make_returns_the_block() {
    let (mut count, mut random) = (0, Random::new(144));
    for block in blocks(&mut random) {
        let [tiles, map, again] = [HALF, HALF, BLOCK].map(|least| vec![LEFT; least + random.below(100) as usize]);
        let [tiles, map] = same_split(&block, [&tiles, &map], &mut random);
        let made = same_made(&tiles[..HALF], &map[..HALF], &again, &mut random);
        assert!(made[..BLOCK] == block);
        count += 2;
    }
    print_count("mode 7 blocks split and made again", count);
}

/// "Make then split returns the inputs with the 0 fill", of every two lengths that may come.
#[test]
fn make_then_split_returns_the_inputs() {
    let (mut count, mut random) = (0, Random::new(145));
    for (tiles, map) in pairs_of_lengths(&mut random).into_iter().filter(|&(tiles, map)| tiles.max(map) <= HALF) {
        let (tiles, map) = (random.bytes(tiles), random.bytes(map));
        let block = same_made(&tiles, &map, &[LEFT; BLOCK], &mut random);
        let [split_tiles, split_map] = same_split(&block, [&[LEFT; HALF + 1], &[LEFT; HALF + 2]], &mut random);
        assert!(split_tiles == [&filled(&tiles, HALF)[..], &[LEFT]].concat(), "{} tile bytes", tiles.len());
        assert!(split_map == [&filled(&map, HALF)[..], &[LEFT; 2]].concat(), "{} map bytes", map.len());
        count += 2;
    }
    print_count("mode 7 blocks made and split again", count);
}

/// Whether a block has these bytes, and 0 in all other places.
fn holds_alone(block: &[u8], tiles: &[u8], map: &[u8]) -> bool {
    let side = |first: usize| block.iter().skip(first).step_by(2).copied();
    side(0).eq(filled(map, HALF)) && side(1).eq(filled(tiles, HALF))
}

/// A station makes and splits one job after the other in the same buffers, and some are refused: nothing of a former job
/// is left in the next.
#[test]
fn one_job_after_the_other() {
    let (mut count, mut random) = (0, Random::new(146));
    let mut block = vec![LEFT; BLOCK + 9];
    let mut halves = [vec![LEFT; HALF + 9], vec![LEFT; HALF + 9]];
    for turn in 0..500 {
        // every fifth job may have too much, and every seventh has a buffer that is too short
        let most = if turn % 5 == 4 { HALF + 3 } else { HALF };
        let [tiles, map] = [(); 2].map(|()| {
            let length = if random.flag() { most } else { random.below(most as u32 + 1) as usize };
            random.bytes(length)
        });
        let room = if turn % 7 == 6 { BLOCK - 1 } else { BLOCK + random.below(10) as usize };
        let made = same_made(&tiles, &map, &block[..room], &mut random);
        block[..room].copy_from_slice(&made);
        let is_made = making(tiles.len(), map.len(), room).is_ok();
        assert!(!is_made || holds_alone(&block[..BLOCK], &tiles, &map), "{} and {} bytes", tiles.len(), map.len());
        let length = if is_made { BLOCK } else { BLOCK + 1 };
        halves = same_split(&block[..length], [&halves[0], &halves[1]], &mut random);
        count += 2;
    }
    print_count("mode 7 blocks in the same buffers", count);
}

/// Whichever refusals apply, 7 is given before 11: by either input or both, and in a buffer of any length that is short.
#[test]
fn the_lowest_refusal_of_making() {
    for refusals in choices(&[7, 11]) {
        for (longer_tiles, longer_map) in [(1, 0), (0, 1), (1, 1), (HALF, 0), (0, HALF)] {
            for room in [BLOCK - 1, BLOCK - 2, HALF, 1, 0] {
                let more = usize::from(refusals.contains(&7));
                let (tiles, map) = (vec![1; HALF + more * longer_tiles], vec![2; HALF + more * longer_map]);
                let mut out = vec![LEFT; if refusals.contains(&11) { room } else { BLOCK }];
                let expected = refusals.first().map_or(Ok(BLOCK), |&lowest| Err(lowest));
                assert_eq!(make(&tiles, &map, &mut out), expected, "{refusals:?} {room}");
                assert!(expected.is_ok() || out.iter().all(|&byte| byte == LEFT), "{refusals:?} {room}");
            }
        }
    }
}

/// And of splitting: a block of any other length, over outputs of which either is short, or both.
#[test]
fn the_lowest_refusal_of_splitting() {
    const SHORT: [(usize, usize); 6] =
        [(HALF - 1, HALF), (HALF, HALF - 1), (HALF - 1, HALF - 1), (0, HALF), (HALF, 0), (0, 0)];
    for refusals in choices(&[7, 11]) {
        for other in [0, 1, HALF, BLOCK - 1, BLOCK + 1, 2 * BLOCK] {
            for (tiles, map) in SHORT {
                let block = vec![1; if refusals.contains(&7) { other } else { BLOCK }];
                let (tiles, map) = if refusals.contains(&11) { (tiles, map) } else { (HALF, HALF) };
                let mut halves = [vec![LEFT; tiles], vec![LEFT; map]];
                let [tiles, map] = &mut halves;
                let expected = refusals.first().map_or(Ok(HALF), |&lowest| Err(lowest));
                assert_eq!(split(&block, tiles, map), expected, "{refusals:?} {other}");
                let is_left = halves.concat().iter().all(|&byte| byte == LEFT);
                assert!(expected.is_ok() || is_left, "{refusals:?} {other}");
            }
        }
    }
}

/// The places of a row of the block's map, and its rows: "a 128 by 128 map".
const SIDE: usize = 128;

/// The pixels of a line of all that the console shows, and the lines.
const SCREEN: usize = 8 * SIDE;

/// A picture, and where it starts in the block's map: the column, and the row.
#[derive(Debug, Clone, Copy)]
struct Placed {
    settings: Settings,
    left: usize,
    top: usize,
}

impl Placed {
    fn columns(self) -> usize {
        self.settings.columns as usize
    }

    fn rows(self) -> usize {
        self.settings.rows as usize
    }

    /// Where the block's map has a row of the picture's: 128 places a row, whatever the picture's columns.
    fn place_of(self, row: usize) -> usize {
        SIDE * (self.top + row) + self.left
    }

    /// The picture's map in the block's; nobody writes the other places.
    fn laid_out(self, map: &[u8]) -> Vec<u8> {
        let mut places = vec![0; HALF];
        for (row, entries) in map.chunks_exact(self.columns()).enumerate() {
            places[self.place_of(row)..][..self.columns()].copy_from_slice(entries);
        }
        places
    }

    /// And back.
    fn cut_out(self, places: &[u8]) -> Vec<u8> {
        (0..self.rows()).flat_map(|row| &places[self.place_of(row)..][..self.columns()]).copied().collect()
    }

    /// What the console shows of it: the picture, and around it the first tile in every place.
    fn shown(self, pixels: &[u8]) -> Vec<u8> {
        let width = 8 * self.columns();
        let first = |x: usize, y: usize| pixels[y % 8 * width + x % 8];
        let everywhere = (0..SCREEN).flat_map(|y| (0..SCREEN).map(move |x| (x, y)));
        let mut screen = everywhere.map(|(x, y)| first(x, y)).collect::<Vec<u8>>();
        self.draw(pixels, &mut screen);
        screen
    }

    /// The picture where it stands on the screen.
    fn draw(self, pixels: &[u8], screen: &mut [u8]) {
        let width = 8 * self.columns();
        for (y, line) in pixels.chunks_exact(width).enumerate() {
            screen[(8 * self.top + y) * SCREEN + 8 * self.left..][..width].copy_from_slice(line);
        }
    }
}

/// A picture of mode 7.
fn mode7(columns: u32, rows: u32) -> Settings {
    Settings {
        mode: Mode::SnesMode7.number(),
        depth: 8,
        flip: false,
        discard: true,
        limit: 0,
        palette: 0,
        columns,
        rows,
    }
}

/// All that the console shows of a block: drawn in four quarters, for a picture has 64 columns and rows at most.
fn screen(halves: &Mode7Halves) -> Vec<u8> {
    let mut screen = vec![0; SCREEN * SCREEN];
    for (left, top) in [(0, 0), (64, 0), (0, 64), (64, 64)] {
        let quarter = Placed { settings: mode7(64, 64), left, top };
        let map = quarter.cut_out(&halves.map);
        let drawn = asked(quarter.settings).redraw_to_vec(&halves.tiles, &map).expect("every tile is there");
        quarter.draw(&drawn, &mut screen);
    }
    screen
}

/// A picture converted, laid out in the block's map, made into a block, split and cut out again: redrawn, every pixel is
/// as it was, and so is all that the console shows.
fn comes_back(placed: Placed, pixels: &[u8]) -> u64 {
    let settings = asked(placed.settings);
    let converted = settings.convert_to_vec(pixels).expect("it has 256 tiles at most");
    let map = placed.laid_out(&converted.map);
    let block = mode7_make_to_vec(&converted.tiles, &map).expect("neither is too long");
    let halves = mode7_split_to_vec(&block).expect("it is a block");
    assert!(halves.tiles == filled(&converted.tiles, HALF) && halves.map == map, "{placed:?}");

    let again = placed.cut_out(&halves.map);
    assert!(again == converted.map, "{placed:?}");
    let redrawn = settings.redraw_to_vec(&halves.tiles, &again).expect("every tile is there");
    assert!(redrawn == pixels, "{placed:?}");
    assert!(screen(&halves) == placed.shown(pixels), "what is shown of {placed:?}");
    places(placed.settings) as u64
}

/// Pictures at the corners, in the middle and anywhere, their first tile blank or not, as large as may be and with as
/// many tiles as may be.
#[test]
fn pictures_in_blocks() {
    let (mut sum, mut random) = (0, Random::new(147));
    for (columns, rows) in [(1, 1), (2, 1), (1, 2), (5, 7), (64, 1), (1, 64), (16, 17), (63, 64), (64, 64)] {
        let settings = mode7(columns, rows);
        let (right, bottom) = (SIDE - columns as usize, SIDE - rows as usize);
        let any = (random.below(right as u32) as usize, random.below(bottom as u32) as usize);
        for (left, top) in [(0, 0), (right, bottom), (right / 2, bottom / 2), any] {
            let mut tiles = repeated_tiles(settings, places(settings), &mut random);
            if random.flag() {
                tiles[0] = vec![0; 64];
            }
            sum += comes_back(Placed { settings, left, top }, &picture_of(settings, &tiles));
        }
    }
    let (settings, blank) = (mode7(16, 16), vec![0; 64]);
    let all = [vec![blank], different_tiles(8, 255)].concat();
    sum += comes_back(Placed { settings, left: 56, top: 56 }, &picture_of(settings, &all));
    print_count("tiles of pictures in mode 7 blocks", sum);
}
