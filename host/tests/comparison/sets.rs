//! Sets against the unchanged Rust's `Tileset`.

use reading::{MODES, Random, Shape, set_shapes, set_sizes};
use rumchivoat::{Logical, Mode, Native, Refusal, Set};
use superfamiconv::plain;

use super::common::sets::{
    SETTINGS, is_sprite, near_tiles, new_set, part_bytes, place_fields, read_set, whole_lengths,
};
use super::common::{told, writes};
use super::tiles::quietly;

/// A set on both sides, and what the port's store should hold.
struct Sides {
    shape: Shape,
    rust: plain::Tileset,
    port: Set,
    store: Vec<u8>,
    expected: Vec<u8>,
}

impl Sides {
    /// Sets of no tiles. The port's store has noise, and a byte more than so many tiles need.
    fn new(shape: Shape, (flips, discarding): (bool, bool), tiles: usize, random: &mut Random) -> Sides {
        let Shape { mode, depth, width, height } = shape;
        let rust = plain::tileset(plain::mode(mode), depth, width, height, flips, discarding, 0);
        let port = new_set(shape, flips, discarding, 0).expect("the settings are a set's");
        let store = random.bytes(tiles * shape.pixels() + 1);
        Sides { shape, rust, port, expected: store.clone(), store }
    }

    fn image(&self, pixels: &[u8]) -> plain::Image {
        plain::image(self.shape.width, self.shape.height, pixels)
    }

    fn looks_up_alike(&self, pixels: &[u8]) -> u64 {
        let theirs = plain::look_up(&self.rust, plain::mode(self.shape.mode), self.shape.depth, &self.image(pixels));
        let ours = self.port.look_up(&self.store, pixels).map(|found| found.map(place_fields));
        assert_eq!(ours, Ok(theirs), "look_up {pixels:?} in {:?}", self.port);
        1
    }

    fn adds_alike(&mut self, pixels: &[u8]) -> u64 {
        let (before, image) = (plain::counts(&self.rust).0, self.image(pixels));
        plain::add(&mut self.rust, &image).expect("the image has pixels");
        if plain::counts(&self.rust).0 > before {
            let at = before as usize * pixels.len();
            self.expected[at..at + pixels.len()].copy_from_slice(&plain::last_tile(&self.rust));
        }
        assert_eq!(self.port.add(&mut self.store, pixels), Ok(()), "add {pixels:?} to {:?}", self.port);
        self.holds_alike()
    }

    /// The counts, and the store: the Rust's tiles, then what was there.
    fn holds_alike(&self) -> u64 {
        assert_eq!((self.port.stored, self.port.discarded), plain::counts(&self.rust), "{:?}", self.port);
        assert!(self.store == self.expected, "the store of {:?}", self.port);
        2
    }

    fn writes_alike(&self, random: &mut Random) -> u64 {
        let bytes = plain::to_native_data(&self.rust).expect("the Rust writes a set");
        writes(|| format!("write {:?}", self.port), &bytes, random, |out| told(self.port.write(&self.store, out)))
    }

    /// What the Rust writes of the set is read as the tiles that it has.
    fn is_read_back(&self, bytes: &[u8]) -> u64 {
        let mut store = vec![0; 8 * bytes.len()];
        let read = read_set(self.shape, true, bytes, &mut store).expect("the bytes are a set's");
        assert!(store.starts_with(&plain::tile_pixels(&self.rust)), "{read:?} of {:?}", self.port);
        1
    }

    /// Adds each tile, looked up before and after it, and writes the set.
    fn runs_alike(&mut self, tiles: &[Vec<u8>], random: &mut Random) -> u64 {
        let mut count = 0;
        for tile in tiles {
            count += self.looks_up_alike(tile) + self.adds_alike(tile) + self.looks_up_alike(tile);
        }
        count + self.writes_alike(random)
    }
}

/// So many tiles of a shape that a run is neither short nor slow.
fn run_length(shape: Shape) -> usize {
    if shape.pixels() > 512 { 24 } else { 60 }
}

/// Every mode, depth, size, with flips and discarding on and off, on tiles that nearly match.
pub fn runs_of_adds() -> u64 {
    let (mut count, mut random) = (0, Random::new(41));
    for shape in set_shapes() {
        for settings in SETTINGS {
            for _ in 0..3 {
                let tiles = near_tiles(shape, run_length(shape), &mut random);
                count += Sides::new(shape, settings, tiles.len(), &mut random).runs_alike(&tiles, &mut random);
            }
        }
    }
    count
}

/// Long runs over tiles of few kinds, so that most match one of many.
pub fn thousands_of_adds() -> u64 {
    let (mut count, mut random) = (0, Random::new(42));
    for shape in set_shapes().filter(|shape| shape.pixels() == 64) {
        for settings in [(false, true), (true, true)] {
            let mut sides = Sides::new(shape, settings, 4000, &mut random);
            for _ in 0..2000 {
                let pixels = dotted(shape, &mut random);
                count += sides.looks_up_alike(&pixels) + sides.adds_alike(&pixels);
            }
            count += sides.writes_alike(&mut random);
        }
    }
    count
}

/// A blank tile with two dots in its first or last rows.
fn dotted(shape: Shape, random: &mut Random) -> Vec<u8> {
    let mut pixels = vec![0; shape.pixels()];
    for _ in 0..2 {
        let place = random.below(16) as usize;
        let last_rows = usize::from(random.flag()) * (pixels.len() - 16);
        pixels[last_rows + place] = 1;
    }
    pixels
}

/// Each choice of eight places, four corners and four beside them, looked up in a set of each: every way in which a
/// tile is or is not another's mirror image, or its own.
pub fn every_pattern() -> u64 {
    let (mut count, mut random) = (0, Random::new(43));
    for (mode, depth, width, height) in [(0, 2, 8, 8), (0, 4, 16, 8), (0, 2, 8, 16), (10, 4, 16, 32)] {
        let shape = Shape { mode, depth, width, height };
        let patterns: Vec<Vec<u8>> = (0..=255).map(|choice| pattern(shape, choice)).collect();
        for settings in [(false, true), (true, true)] {
            for stored in &patterns {
                let mut sides = Sides::new(shape, settings, 1, &mut random);
                count += sides.adds_alike(stored);
                count += patterns.iter().map(|pixels| sides.looks_up_alike(pixels)).sum::<u64>();
            }
        }
    }
    count
}

fn pattern(shape: Shape, choice: u8) -> Vec<u8> {
    let (right, below) = (shape.width - 1, (shape.height - 1) * shape.width);
    let places = [0, right, below, below + right, 1, right - 1, below + 1, below + right - 1];
    let mut pixels = vec![0; shape.pixels()];
    for (bit, place) in places.into_iter().enumerate() {
        pixels[place as usize] = choice >> bit & 1;
    }
    pixels
}

/// Numbers of tiles around whole rows of them.
const TILE_COUNTS: [usize; 16] = [0, 1, 2, 3, 4, 5, 7, 8, 9, 15, 16, 17, 24, 31, 32, 33];

/// So many tiles, all stored, written, and what was written read.
pub fn sets_of_every_count() -> u64 {
    let (mut count, mut random) = (0, Random::new(44));
    for shape in set_shapes() {
        for tiles in TILE_COUNTS {
            let mut sides = Sides::new(shape, (true, false), tiles, &mut random);
            for _ in 0..tiles {
                count += sides.adds_alike(&random.pixels(8, shape.pixels()));
            }
            count += sides.writes_alike(&mut random);
            let bytes = plain::to_native_data(&sides.rust).expect("the Rust writes a set");
            count += sides.is_read_back(&bytes) + reads_alike(shape, random.flag(), &bytes, &mut random);
        }
    }
    count
}

/// The Rust's set of these tiles, all of them stored.
fn rust_set(shape: Shape, flips: bool, pixels: &[u8]) -> plain::Tileset {
    let Shape { mode, depth, width, height } = shape;
    let mut set = plain::tileset(plain::mode(mode), depth, width, height, flips, false, 0);
    for tile in pixels.chunks_exact(shape.pixels()) {
        plain::add(&mut set, &plain::image(width, height, tile)).expect("the image has pixels");
    }
    set
}

/// The set that the Rust reads. Where it does not, the set of the same tiles: sprites it unpacks one by one, and cells of
/// depth 1, on which it panics, it reads at depth 2.
fn rust_reads(shape: Shape, flips: bool, bytes: &[u8]) -> plain::Tileset {
    let Shape { mode, depth, width, height } = shape;
    let rust = plain::mode(mode);
    let read = |depth, bytes: &[u8]| plain::from_native_data(rust, depth, width, height, flips, bytes);
    if is_sprite(shape) {
        assert!(read(depth, bytes).is_err(), "{shape:?} {} bytes", bytes.len());
        let unpack = |tile| plain::unpack_tile(rust, depth, width, height, tile).expect("the bytes are a sprite's");
        let pixels: Vec<u8> = bytes.chunks_exact(shape.bytes()).flat_map(unpack).collect();
        return rust_set(shape, flips, &pixels);
    }
    if depth > 1 {
        return read(depth, bytes).expect("the bytes are whole cells");
    }
    // a second plane of 0: two bytes a row, and the same pixels
    let two_planes: Vec<u8> = bytes.iter().flat_map(|&row| [row, 0]).collect();
    let set = read(2, &two_planes).expect("the bytes are whole cells");
    rust_set(shape, flips, &plain::tile_pixels(&set))
}

/// Read alike into stores of noise that are one byte short, exact, and one byte long; looked up alike then, and written
/// again alike.
fn reads_alike(shape: Shape, flips: bool, bytes: &[u8], random: &mut Random) -> u64 {
    let rust = rust_reads(shape, flips, bytes);
    let pixels = plain::tile_pixels(&rust);
    let case = || format!("read {shape:?} {} bytes", bytes.len());
    let count = writes(case, &pixels, random, |store| {
        let set = read_set(shape, flips, bytes, store)?;
        assert_eq!((set.stored, set.discarded), plain::counts(&rust), "{}", case());
        assert_eq!((set.flips, set.discarding, set.limit), (flips, true, 0), "{}", case());
        Ok(set.stored as usize * shape.pixels())
    });
    let (stored, _) = plain::counts(&rust);
    let port = Set { stored, ..new_set(shape, flips, true, 0).expect("the settings are a set's") };
    let again = plain::to_native_data(&rust).expect("the Rust writes a set");
    count
        + finds_alike(shape, &rust, port, &pixels, random)
        + writes(|| format!("{} and write", case()), &again, random, |out| told(port.write(&pixels, out)))
}

/// Looks up, in a set that was read, tiles that it has, mirrored.
fn finds_alike(shape: Shape, rust: &plain::Tileset, port: Set, store: &[u8], random: &mut Random) -> u64 {
    let tiles = store.chunks_exact(shape.pixels()).take(4);
    tiles
        .map(|tile| {
            let image = reading::flipped(tile, shape.width, random.flag(), random.flag());
            let theirs = plain::image(shape.width, shape.height, &image);
            let theirs = plain::look_up(rust, plain::mode(shape.mode), shape.depth, &theirs);
            assert_eq!(port.look_up(store, &image).map(|found| found.map(place_fields)), Ok(theirs), "{port:?}");
            1
        })
        .sum()
}

/// Reading of every number of cells, or of sprites, up to three rows of tiles and one more.
pub fn sets_of_every_number_of_cells() -> u64 {
    let (mut count, mut random) = (0, Random::new(45));
    for shape in set_shapes() {
        for length in whole_lengths(shape) {
            let bytes = random.bytes(length);
            count += reads_alike(shape, random.flag(), &bytes, &mut random);
        }
    }
    count
}

/// Bytes that are not whole cells, or not whole sprites, are the Rust's `Err` and the port's 7.
pub fn sets_of_every_length() -> u64 {
    let (mut count, mut random) = (0, Random::new(46));
    for shape in set_shapes() {
        let Shape { mode, depth, width, height } = shape;
        let (part, tile) = (part_bytes(shape), shape.bytes());
        let lengths = (1..=80).chain([127, 129, 255, 257, tile - 1, tile + 1, 2 * tile - 1, 2 * tile + 1]);
        for length in lengths.filter(|length| length % part != 0) {
            let bytes = random.bytes(length);
            let theirs = plain::from_native_data(plain::mode(mode), depth, width, height, true, &bytes);
            assert!(theirs.is_err(), "{shape:?} {length}");
            count += super::refuses(
                || format!("read {shape:?} {length}"),
                Refusal::Length,
                &mut random,
                |store| read_set(shape, true, &bytes, store).map(|_| 0),
            );
        }
    }
    count
}

/// A full set, by its store or by its limit: what matches is discarded alike, and what does not is 12, where the Rust,
/// which asks for its limit elsewhere, stores it.
pub fn full_sets() -> u64 {
    let (mut count, mut random) = (0, Random::new(47));
    for shape in set_shapes() {
        for (tiles, by_limit) in [1, 16, 17].into_iter().flat_map(|tiles| [(tiles, false), (tiles, true)]) {
            let room = if by_limit { tiles + 2 } else { tiles };
            let mut sides = Sides::new(shape, (true, true), room, &mut random);
            sides.port.limit = if by_limit { tiles as u32 } else { 0 };
            let different = different_tiles(shape, tiles + 1);
            for tile in &different[..tiles] {
                count += sides.adds_alike(tile);
            }
            count += sides.adds_alike(&reading::flipped(&different[0], shape.width, true, false));
            count += no_room(&mut sides, &different[tiles]);
            count += sides.writes_alike(&mut random);
        }
    }
    count
}

fn no_room(sides: &mut Sides, tile: &[u8]) -> u64 {
    let before = sides.port;
    assert_eq!(sides.port.add(&mut sides.store, tile), Err(Refusal::Room), "{before:?}");
    assert_eq!(sides.port, before);
    sides.holds_alike()
}

/// Tiles of which no two match, their one dot apart even in a mirror.
fn different_tiles(shape: Shape, count: usize) -> Vec<Vec<u8>> {
    let (across, down) = (shape.width / 2, shape.height / 2);
    let places = (0..down).flat_map(|y| (0..across).map(move |x| (y * shape.width + x) as usize));
    let dots = places.flat_map(|place| (1..1u32 << shape.depth).map(move |color| (place, color as u8)));
    let tiles = dots.map(|(place, color)| {
        let mut pixels = vec![0; shape.pixels()];
        pixels[place] = color;
        pixels
    });
    // at depth 1 the dots make sixteen tiles, and those without a dot two more
    [0, 1].map(|color| vec![color; shape.pixels()]).into_iter().chain(tiles).take(count).collect()
}

/// Every tile number, and cells up to beyond those of the last tile: the two formulas, and 4 where the Rust goes on.
pub fn every_tile_number() -> u64 {
    let mut count = 0;
    for (mode, row) in (0..).zip(&MODES).filter(|(_, row)| row.name != "pce_sprite") {
        for (width, height) in set_sizes(row.name) {
            count += numbers_alike(mode, width, height);
        }
    }
    count
}

fn numbers_alike(mode: u32, width: u32, height: u32) -> u64 {
    let rust = plain::mode(mode);
    for tile in 0..=65_536 {
        let theirs = Native(plain::native_tile_index(rust, width, height, tile));
        let expected = if tile == 65_536 { Err(Refusal::Size) } else { Ok(theirs) };
        let ours = rumchivoat::native_number(mode, width, height, Logical(tile));
        assert_eq!(ours, expected, "{mode} {width}x{height} tile {tile}");
    }
    let beyond = plain::native_tile_index(rust, width, height, 65_536);
    let cells = (0..70_000).chain(beyond - 2000..beyond + 2000);
    for cell in cells.clone() {
        let theirs = plain::logical_tile_index(rust, width, height, cell);
        let expected = if theirs > 65_535 { Err(Refusal::Size) } else { Ok(Logical(theirs)) };
        let ours = rumchivoat::logical_number(mode, width, height, Native(cell));
        assert_eq!(ours, expected, "{mode} {width}x{height} cell {cell}");
    }
    65_537 + cells.count() as u64
}

/// A call and its input: depth, width and height where it takes them, then the rest.
enum Call {
    New(u32, u32, u32),
    /// Added to a set of 8x8 with flips and discarding on and a limit of one, which has a tile of 0.
    Add(u32, &'static [u8]),
    /// And which has discarded so many.
    AddAfter(u32, &'static [u8]),
    Read(u32, u32, u32, &'static [u8]),
    /// So many tiles.
    ReadMany(u32, u32, u32, usize),
    Native(u32, u32, u32),
    Logical(u32, u32, u32),
}

use Call::{Add, AddAfter, New, Read, ReadMany};

/// Where both answer, and differently: the Rust panics in unpacking at depth 1, and reads no sprites.
#[rustfmt::skip]
const DIFFERENCES_INSIDE: [(Mode, Call, &str, &str); 5] = [
    (Mode::Gb,        Read(1, 8, 8, &[0; 8]),       "panic", "1 and 0: 64 x 00"),
    (Mode::Gbc,       Read(1, 8, 8, &[0; 8]),       "panic", "1 and 0: 64 x 00"),
    (Mode::Gb,        Read(1, 8, 16, &[0; 8]),      "panic", "0 and 0: nothing"),
    (Mode::PceSprite, Read(4, 16, 16, &[]),         "Err",   "0 and 0: nothing"),
    (Mode::PceSprite, Read(4, 16, 16, &[0; 128]),   "Err",   "1 and 0: 256 x 00"),
];

/// Where document 01 refuses and the Rust answers or panics: the smallest input of each kind. A set's text is how many
/// tiles it has stored and discarded, and their pixels.
#[rustfmt::skip]
const DIFFERENCES: [(Mode, Call, &str, Refusal); 23] = [
    // the Rust makes sets of any depth and size
    (Mode::Snes,      New(3, 8, 8),                      "0 and 0: nothing",         Refusal::Depth),
    (Mode::Snes,      New(2, 0, 0),                      "0 and 0: nothing",         Refusal::Size),
    (Mode::Md,        New(4, 16, 8),                     "0 and 0: nothing",         Refusal::Size),
    (Mode::PceSprite, New(4, 8, 8),                      "0 and 0: nothing",         Refusal::Size),
    // the Rust takes any pixels for a tile, but none
    (Mode::Snes,      Add(2, &[1]),                      "2 and 0: 64 x 00, 01",     Refusal::Length),
    (Mode::Snes,      Add(2, &[0; 65]),                  "2 and 0: 129 x 00",        Refusal::Length),
    (Mode::Snes,      Add(2, &[]),                       "Err",                      Refusal::Length),
    // the Rust stores beyond the limit
    (Mode::Snes,      Add(2, &[1; 64]),                  "2 and 0: 64 x 00, 64 x 01", Refusal::Room),
    // the Rust's counter goes round, or panics where overflow is checked
    (Mode::Snes,      AddAfter(u32::MAX, &[0; 64]),      WRAPPED,                    Refusal::Discarded),
    // the Rust reads at depths that are not the mode's
    (Mode::Snes,      Read(3, 8, 8, &[]),                "0 and 0: nothing",         Refusal::Depth),
    (Mode::Snes,      Read(0, 8, 8, &[]),                "Err",                      Refusal::Depth),
    // the Rust divides by the tiles of a row of cells
    (Mode::Md,        Read(4, 16, 8, &[]),               "panic",                    Refusal::Size),
    (Mode::Snes,      Read(2, 0, 0, &[]),                "panic",                    Refusal::Size),
    (Mode::Snes,      Read(2, 8, 24, &[]),               "0 and 0: nothing",         Refusal::Size),
    // the Rust counts on
    (Mode::SnesMode7, ReadMany(8, 8, 8, 65_536),         "65536 and 0: 4194304 x 00", Refusal::Room),
    (Mode::Snes,      Call::Native(8, 8, 65_536),        "65536",                    Refusal::Size),
    (Mode::Snes,      Call::Logical(8, 8, 65_536),       "65536",                    Refusal::Size),
    (Mode::Snes,      Call::Logical(16, 16, 262_144),    "65536",                    Refusal::Size),
    (Mode::Md,        Call::Native(16, 8, 0),            "panic",                    Refusal::Size),
    (Mode::Md,        Call::Logical(8, 24, 3),           "1",                        Refusal::Size),
    // the Rust numbers cells of sprites, but where it divides by 0
    (Mode::PceSprite, Call::Native(8, 8, 1),             "1",                        Refusal::PceSprite),
    (Mode::PceSprite, Call::Native(16, 16, 0),           "panic",                    Refusal::PceSprite),
    (Mode::PceSprite, Call::Logical(16, 16, 0),          "0",                        Refusal::PceSprite),
];

const WRAPPED: &str = if cfg!(debug_assertions) { "panic" } else { "1 and 0: 64 x 00" };

fn set_text((stored, discarded): (u32, u32), pixels: &[u8]) -> String {
    format!("{stored} and {discarded}: {}", runs_text(pixels))
}

/// The bytes, equal ones counted: `64 x 00, 01`.
fn runs_text(bytes: &[u8]) -> String {
    let runs = bytes.chunk_by(|one, next| one == next).map(|run| match run.len() {
        1 => format!("{:02x}", run[0]),
        length => format!("{length} x {:02x}", run[0]),
    });
    let runs: Vec<String> = runs.collect();
    if runs.is_empty() { "nothing".to_owned() } else { runs.join(", ") }
}

fn rust_set_text(set: Result<plain::Tileset, String>) -> String {
    set.map_or("Err".to_owned(), |set| set_text(plain::counts(&set), &plain::tile_pixels(&set)))
}

/// The Rust's set of one blank tile with a limit of one, after an add.
fn rust_added(mode: plain::Mode, depth: u32, discarded: u32, pixels: &[u8]) -> Result<plain::Tileset, String> {
    let mut set = plain::tileset(mode, depth, 8, 8, true, true, 1);
    plain::add(&mut set, &plain::image(8, 8, &[0; 64]))?;
    let mut set = plain::with_discarded(set, discarded);
    plain::add(&mut set, &plain::image(8, 8, pixels))?;
    Ok(set)
}

fn rust_answer(mode: Mode, call: &Call) -> String {
    let rust = plain::mode(mode.number());
    let read = |depth, width, height, bytes: &[u8]| plain::from_native_data(rust, depth, width, height, true, bytes);
    match *call {
        New(depth, width, height) => rust_set_text(Ok(plain::tileset(rust, depth, width, height, true, true, 0))),
        Add(depth, pixels) => rust_set_text(rust_added(rust, depth, 0, pixels)),
        AddAfter(discarded, pixels) => rust_set_text(rust_added(rust, 2, discarded, pixels)),
        Read(depth, width, height, bytes) => rust_set_text(read(depth, width, height, bytes)),
        ReadMany(depth, width, height, tiles) => {
            rust_set_text(read(depth, width, height, &vec![0; tiles * (width * height * depth / 8) as usize]))
        }
        Call::Native(width, height, tile) => plain::native_tile_index(rust, width, height, tile).to_string(),
        Call::Logical(width, height, cell) => plain::logical_tile_index(rust, width, height, cell).to_string(),
    }
}

fn rust_says(mode: Mode, call: &Call) -> String {
    quietly(|| rust_answer(mode, call)).unwrap_or_else(|_| "panic".to_owned())
}

fn port_added(mode: Mode, depth: u32, discarded: u32, pixels: &[u8]) -> Result<String, Refusal> {
    let store = &mut [0; 128];
    let mut set = Set::new(mode, depth, 8, 8, true, true, 1)?;
    set.add(store, &[0; 64])?;
    set.discarded = discarded;
    set.add(store, pixels)?;
    Ok(set_text((set.stored, set.discarded), &store[..64 * set.stored as usize]))
}

fn port_read(mode: Mode, depth: u32, width: u32, height: u32, bytes: &[u8]) -> Result<String, Refusal> {
    let mut store = vec![0xa5; 64 * bytes.len()];
    let set = Set::read(mode, depth, width, height, true, bytes, &mut store)?;
    Ok(set_text((set.stored, set.discarded), &store[..(set.stored * width * height) as usize]))
}

fn port_says(mode: Mode, call: &Call) -> Result<String, Refusal> {
    match *call {
        New(depth, width, height) => Set::new(mode, depth, width, height, true, true, 0).map(|_| set_text((0, 0), &[])),
        Add(depth, pixels) => port_added(mode, depth, 0, pixels),
        AddAfter(discarded, pixels) => port_added(mode, 2, discarded, pixels),
        Read(depth, width, height, bytes) => port_read(mode, depth, width, height, bytes),
        ReadMany(depth, width, height, tiles) => {
            port_read(mode, depth, width, height, &vec![0; tiles * (width * height * depth / 8) as usize])
        }
        Call::Native(width, height, tile) => {
            rumchivoat::native_number(mode, width, height, Logical(tile)).map(|cell| cell.0.to_string())
        }
        Call::Logical(width, height, cell) => {
            rumchivoat::logical_number(mode, width, height, Native(cell)).map(|tile| tile.0.to_string())
        }
    }
}

pub fn known_differences() -> u64 {
    for (row, (mode, call, rust, port)) in DIFFERENCES_INSIDE.iter().enumerate() {
        assert_eq!(rust_says(*mode, call), *rust, "row {row} of the differences inside, {mode}");
        assert_eq!(port_says(*mode, call).as_deref(), Ok(*port), "row {row} of the differences inside, {mode}");
    }
    for (row, (mode, call, rust, refusal)) in DIFFERENCES.iter().enumerate() {
        assert_eq!(rust_says(*mode, call), *rust, "row {row} of the differences, {mode}");
        assert_eq!(port_says(*mode, call), Err(*refusal), "row {row} of the differences, {mode}");
    }
    (DIFFERENCES_INSIDE.len() + DIFFERENCES.len()) as u64
}
