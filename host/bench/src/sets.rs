//! Adding and looking up, in sets and in titles, on tiles that are like art and on tiles that are not; and writing and
//! reading a set's bytes.

use std::hint::black_box;

use reading::{MODES, Random, Shape};
use rumchivoat::Set;
use superfamiconv::plain;

use crate::{Measured, measured, turn_about, turn_about_on};

/// As many tiles as an entry of snes can name.
const TILES: usize = 1024;
/// So many of them are a title's common ones.
const HALF: usize = TILES / 2;
/// As many as a title begins with.
const FEW: usize = 8;
/// Tiles of the same kind that no set has.
const OTHERS: usize = 64;

/// Which tiles: where two of them first differ decides how much of each is looked at.
#[derive(Clone, Copy)]
enum Kind {
    /// Few colours: a ground, a slope or a stripe over it, and a dot.
    Art,
    /// Blank but for the last row: without a mirror, two differ at the end.
    Late,
    /// Blank but for the first row.
    Early,
    /// Two differ in nearly every pixel.
    Random,
}

use Kind::{Art, Early, Late};

impl Kind {
    fn name(self) -> &'static str {
        match self {
            Art => "art",
            Late => "late",
            Early => "early",
            Kind::Random => "random",
        }
    }

    fn tile(self, shape: Shape, random: &mut Random) -> Vec<u8> {
        let mut pixels = vec![0; shape.pixels()];
        let row = shape.width as usize;
        match self {
            Art => return art(shape, random),
            Late => {
                let last = pixels.len() - row;
                pixels[last..].copy_from_slice(&random.pixels(shape.depth, row));
            }
            Early => pixels[..row].copy_from_slice(&random.pixels(shape.depth, row)),
            Kind::Random => pixels = random.pixels(shape.depth, shape.pixels()),
        }
        pixels
    }
}

/// A ground of one colour; below or right of a slope, or in every second stripe, another; and a dot.
fn art(shape: Shape, random: &mut Random) -> Vec<u8> {
    let [ground, ink, dot] = [0, 1, 2].map(|_| random.below(4) as u8);
    let (rise, run) = (random.below(3), 1 + random.below(2));
    let start = random.below(shape.width + shape.height);
    let (stripes, thick) = (random.below(3) == 0, 1 + random.below(4));
    let place = (random.below(shape.width), random.below(shape.height));
    let color = |x: u32, y: u32| {
        let across = rise * x + run * y;
        let inked = if stripes { (across + start) / thick % 2 == 1 } else { across >= start };
        if (x, y) == place { dot } else { [ground, ink][usize::from(inked)] }
    };
    (0..shape.height).flat_map(|y| (0..shape.width).map(move |x| (x, y))).map(|(x, y)| color(x, y)).collect()
}

/// So many tiles of a kind, of which no two match.
fn different_tiles(shape: Shape, kind: Kind, count: usize, random: &mut Random) -> Vec<Vec<u8>> {
    let mut store = vec![0; count * shape.pixels()];
    let mut set = reading::set_new(shape, true, true, 0).expect("the shape is a set's");
    while (set.stored as usize) < count {
        set = reading::set_add(set, &mut store, &kind.tile(shape, random)).expect("there is room");
    }
    store.chunks_exact(shape.pixels()).map(<[u8]>::to_vec).collect()
}

/// Each kind, of 8x8 and of 16x16.
fn cases() -> impl Iterator<Item = (Shape, Kind)> {
    let shapes = [8, 16].map(|side| Shape { mode: 0, depth: 4, width: side, height: side });
    shapes.into_iter().flat_map(|shape| [Art, Late, Early, Kind::Random].map(|kind| (shape, kind)))
}

/// A run of each call on each kind and size.
pub fn lines(random: &mut Random) -> impl Iterator<Item = Measured> {
    cases().flat_map(|(shape, kind)| {
        let tiles = different_tiles(shape, kind, TILES + OTHERS, random);
        let set = [add_all(shape, kind, &tiles), look_up_nothing(shape, kind, &tiles)];
        set.into_iter().chain([title_add(shape, kind, &tiles), title_look_up(shape, kind, &tiles)])
    })
}

/// Writing a set's bytes and reading them back, for shapes whose tiles are packed in different ways: native tiles, those
/// that are laid out by cells, and sprites of the smallest and the largest size.
pub fn byte_lines(random: &mut Random) -> impl Iterator<Item = Measured> {
    let shapes = [(0, 4, 8, 8), (4, 8, 8, 8), (2, 2, 8, 8), (0, 4, 16, 16), (10, 4, 16, 16), (10, 4, 32, 64)];
    let shapes = shapes.map(|(mode, depth, width, height)| Shape { mode, depth, width, height });
    shapes.into_iter().flat_map(|shape| {
        let tiles: Vec<_> = (0..TILES).map(|_| random.pixels(shape.depth, shape.pixels())).collect();
        [write_bytes(shape, &tiles), read_bytes(shape, random)]
    })
}

/// Mode, depth and size.
fn shape_text(shape: Shape) -> String {
    let Shape { mode, depth, width, height } = shape;
    format!("{} {depth} {width}x{height}", MODES[mode as usize].name)
}

/// Writes 1,024 tiles, that are all kept.
fn write_bytes(shape: Shape, tiles: &[Vec<u8>]) -> Measured {
    let Shape { mode, depth, width, height } = shape;
    let mut port = Set::new(mode, depth, width, height, false, false, 0).expect("the shape is a set's");
    let mut rust = plain::tileset(plain::mode(mode), depth, width, height, false, false, 0);
    let mut store = vec![0; TILES * shape.pixels()];
    for (tile, image) in tiles.iter().zip(images(shape, tiles)) {
        port.add(&mut store, tile).expect("there is room");
        plain::add(&mut rust, &image).expect("the image has pixels");
    }
    let mut out = vec![0; port.write_len().expect("the set is sound")];
    measured(
        "set write",
        shape_text(shape),
        TILES,
        || {
            port.write(black_box(&store), black_box(&mut out)).expect("there is space");
        },
        || {
            black_box(plain::to_native_data(black_box(&rust)).expect("the set is sound"));
        },
    )
}

/// Reads the bytes of 1,024 tiles.
fn read_bytes(shape: Shape, random: &mut Random) -> Measured {
    let Shape { mode, depth, width, height } = shape;
    let bytes = random.bytes(TILES * shape.bytes());
    let mut store = vec![0; TILES * shape.pixels()];
    measured(
        "set read",
        shape_text(shape),
        TILES,
        || {
            let read = Set::read(mode, depth, width, height, false, black_box(&bytes), black_box(&mut store));
            assert_eq!(read.expect("the bytes are a set's").stored as usize, TILES);
        },
        || rust_reads(shape, black_box(&bytes)),
    )
}

/// The Rust's reading of a set. It reads none of sprites: there it makes the tiles, each as it does of 8x8, and no set.
fn rust_reads(shape: Shape, bytes: &[u8]) {
    let Shape { mode, depth, width, height } = shape;
    let rust = plain::mode(mode);
    if MODES[mode as usize].name == "pce_sprite" {
        let tiles = plain::tiles_from_native(rust, depth, width, height, false, bytes);
        assert_eq!(black_box(tiles.expect("the bytes are tiles")).len(), TILES);
    } else {
        let read = plain::from_native_data(rust, depth, width, height, false, bytes);
        black_box(read.expect("the bytes are a set's"));
    }
}

/// Mode, depth, size and kind.
fn case_text(shape: Shape, kind: Kind) -> String {
    let Shape { mode, depth, width, height } = shape;
    format!("{} {depth} {width}x{height} {}", MODES[mode as usize].name, kind.name())
}

fn new_sets(shape: Shape) -> (Set, plain::Tileset) {
    let Shape { mode, depth, width, height } = shape;
    let port = Set::new(mode, depth, width, height, true, true, 0).expect("the shape is a set's");
    (port, plain::tileset(plain::mode(mode), depth, width, height, true, true, 0))
}

fn images(shape: Shape, tiles: &[Vec<u8>]) -> Vec<plain::Image> {
    tiles.iter().map(|tile| plain::image(shape.width, shape.height, tile)).collect()
}

/// Adds 1,024 tiles to an empty set, flips and discarding on; none matches.
fn add_all(shape: Shape, kind: Kind, tiles: &[Vec<u8>]) -> Measured {
    let tiles = &tiles[..TILES];
    let images = images(shape, tiles);
    let mut store = vec![0; TILES * shape.pixels()];
    measured(
        "set add",
        case_text(shape, kind),
        TILES,
        || {
            let (mut set, _) = new_sets(shape);
            for tile in black_box(tiles) {
                set.add(&mut store, tile).expect("there is room");
            }
            assert_eq!(black_box(set).stored as usize, TILES);
        },
        || {
            let (_, mut set) = new_sets(shape);
            for tile in black_box(&images) {
                plain::add(&mut set, tile).expect("the image has pixels");
            }
            assert_eq!(plain::counts(black_box(&set)).0 as usize, TILES);
        },
    )
}

/// A set of the Rust's with these tiles.
fn rust_set(shape: Shape, images: &[plain::Image]) -> plain::Tileset {
    let (_, mut set) = new_sets(shape);
    for image in images {
        plain::add(&mut set, image).expect("the image has pixels");
    }
    set
}

/// The port's set of so many tiles.
fn set_of(shape: Shape, stored: usize) -> Set {
    Set { stored: stored as u32, ..new_sets(shape).0 }
}

/// Looks 64 tiles up in a set of 1,024, none of which matches one.
fn look_up_nothing(shape: Shape, kind: Kind, tiles: &[Vec<u8>]) -> Measured {
    let (port, rust) = (set_finds_nothing(shape, tiles), rust_finds_nothing(shape, tiles));
    measured("set look_up", case_text(shape, kind), OTHERS, port, rust)
}

/// The same in a title of 512 common tiles and 512 of its own. The Rust has no titles: it looks them up in a set of all
/// 1,024, which is the same search.
fn title_look_up(shape: Shape, kind: Kind, tiles: &[Vec<u8>]) -> Measured {
    let (port, rust) = (title_finds_nothing(shape, tiles), rust_finds_nothing(shape, tiles));
    measured("title look_up", case_text(shape, kind), OTHERS, port, rust)
}

/// The look-ups of the last 64 tiles, in a set of the others.
fn set_finds_nothing(shape: Shape, tiles: &[Vec<u8>]) -> impl FnMut() {
    let (stored, others) = tiles.split_at(tiles.len() - OTHERS);
    let (store, set) = (stored.concat(), set_of(shape, stored.len()));
    move || {
        for tile in black_box(others) {
            assert_eq!(set.look_up(black_box(&store), tile), Ok(None));
        }
    }
}

/// The same look-ups in a title: half of the tiles are common, half its own.
fn title_finds_nothing(shape: Shape, tiles: &[Vec<u8>]) -> impl FnMut() {
    let (stored, others) = tiles.split_at(tiles.len() - OTHERS);
    let (shared, own) = stored.split_at(stored.len() / 2);
    let (common, store, count) = (shared.concat(), own.concat(), shared.len() as u32);
    let set = set_of(shape, own.len());
    move || {
        for tile in black_box(others) {
            let held = set.title_look_up(count, black_box(&common), black_box(&store), tile);
            assert_eq!(held, Ok(None));
        }
    }
}

/// The same look-ups in a set of the Rust's.
fn rust_finds_nothing(shape: Shape, tiles: &[Vec<u8>]) -> impl FnMut() {
    let images = images(shape, tiles);
    let count = images.len() - OTHERS;
    let (set, mode) = (rust_set(shape, &images[..count]), plain::mode(shape.mode));
    move || {
        for image in black_box(&images[count..]) {
            assert_eq!(plain::look_up(black_box(&set), mode, shape.depth, image), None);
        }
    }
}

/// Adds 512 tiles to a title that has as many in common and none of its own, flips and discarding on; none matches. The
/// Rust has no titles: it adds them to a set of the common ones, which is the same search. That set is made for each
/// run, and the making is not timed.
fn title_add(shape: Shape, kind: Kind, tiles: &[Vec<u8>]) -> Measured {
    let (common, own) = (tiles[..HALF].concat(), &tiles[HALF..TILES]);
    let images = images(shape, &tiles[..TILES]);
    let mut store = vec![0; HALF * shape.pixels()];
    let (port, beside) = turn_about_on(
        HALF,
        || {
            let mut set = set_of(shape, 0);
            for tile in black_box(own) {
                set.title_add(HALF as u32, black_box(&common), &mut store, tile).expect("there is room");
            }
            assert_eq!(black_box(set).stored as usize, HALF);
        },
        || rust_set(shape, &images[..HALF]),
        |set| {
            for tile in black_box(&images[HALF..]) {
                plain::add(set, tile).expect("the image has pixels");
            }
            assert_eq!(plain::counts(black_box(set)).0 as usize, TILES);
        },
    );
    Measured { call: "title add", mode: case_text(shape, kind), items: HALF, port, beside }
}

/// A look-up in a title beside one in a set of as many tiles, many and few. Both are the port's: the Rust has no titles.
pub fn print_table(random: &mut Random) {
    println!(
        "\nthe port alone, no Rust: look_up in a title, half of its tiles common, and in a set of as many; ns for one\n"
    );
    println!("{:<37} {:>5} {:>9} {:>9} {:>11}", "tiles", "items", "title", "set", "title/set");
    for count in [TILES, FEW] {
        for (shape, kind) in cases() {
            let tiles = different_tiles(shape, kind, count + OTHERS, random);
            let (title, set) = turn_about(OTHERS, title_finds_nothing(shape, &tiles), set_finds_nothing(shape, &tiles));
            let case = format!("{count} {}", case_text(shape, kind));
            println!("{case:<37} {OTHERS:>5} {title:>9.3} {set:>9.3} {:>11.2}", title / set);
        }
    }
}
