//! The reading against the unchanged Rust, where document 01 answers 0: the reading is known good without the port.

use reading::{Entry, MODES, Random, Row, Set, Shape, native_shapes, set_shapes};
use superfamiconv::bank::without_bank;
use superfamiconv::plain;

fn rows() -> impl Iterator<Item = (u32, &'static Row, plain::Mode)> {
    (0..).zip(&MODES).map(|(number, row)| (number, row, plain::mode(number)))
}

/// Whether there is no Rust to compare with, which is then said.
fn absent() -> bool {
    superfamiconv::absent("the reading against the Rust")
}

/// The bytes that a call of the reading writes.
fn written(call: impl FnOnce(&mut [u8]) -> reading::Answer<usize>) -> reading::Answer<Vec<u8>> {
    let mut out = vec![0; 2048];
    let length = call(&mut out)?;
    out.truncate(length);
    Ok(out)
}

fn same_colors(mode: u32, rust: plain::Mode, bytes: &[u8]) {
    let colors = written(|out| reading::unpack_colors(mode, bytes, out));
    let theirs = plain::unpack_colors(rust, bytes).map(|colors| plain::rgba(&colors)).map_err(|_| 7);
    assert_eq!(colors, theirs, "mode {mode} {bytes:?}");
    let Ok(colors) = colors else { return };
    let packed = written(|out| reading::pack_colors(mode, &colors, out));
    assert_eq!(packed, plain::pack_colors(rust, &plain::colors(&colors)).map_err(|_| 7), "mode {mode} {colors:?}");
}

/// Packed alike; at depth 1, where the Rust runs off in unpacking, the reading unpacks what the Rust packs.
fn same_tile(shape: Shape, pixels: &[u8]) {
    let Shape { mode, depth, width, height } = shape;
    let theirs = plain::pack_tile(plain::mode(mode), depth, width, height, pixels).unwrap();
    assert_eq!(written(|out| reading::pack_tile(shape, pixels, out)), Ok(theirs.clone()), "{shape:?} {pixels:?}");
    assert_eq!(written(|out| reading::unpack_tile(shape, &theirs, out)), Ok(pixels.to_vec()), "{shape:?} {pixels:?}");
    if depth > 1 {
        let back = plain::unpack_tile(plain::mode(mode), depth, width, height, &theirs).unwrap();
        assert_eq!(back, pixels, "{shape:?}");
    }
}

/// Flipped alike; at depth 1, where the Rust runs off in unpacking, as it packs the flipped pixels.
fn same_flips(shape: Shape, pixels: &[u8]) {
    let Shape { mode, depth, width, height } = shape;
    let rust = plain::mode(mode);
    let pack = |pixels: &[u8]| plain::pack_tile(rust, depth, width, height, pixels).unwrap();
    let bytes = pack(pixels);
    for (flip_h, flip_v) in [(false, false), (true, false), (false, true), (true, true)] {
        let turned = plain::flipped(pixels, width, flip_h, flip_v);
        assert_eq!(reading::flipped(pixels, width, flip_h, flip_v), turned, "{flip_h} {flip_v} {pixels:?}");
        let read = written(|out| reading::flip_tile(mode, depth, flip_h, flip_v, &bytes, out));
        assert_eq!(read, Ok(pack(&turned)), "{shape:?} {flip_h} {flip_v} {bytes:?}");
        if depth > 1 {
            let theirs = plain::flip_tile(rust, depth, flip_h, flip_v, &bytes).unwrap();
            assert_eq!(read, Ok(theirs), "{shape:?} {flip_h} {flip_v} {bytes:?}");
        }
    }
}

/// Read and packed alike, in ws as the Rust reads the bytes without the bit that it alone reads.
fn same_entry(mode: u32, rust: plain::Mode, bytes: &[u8]) {
    let entry = reading::unpack_entry(mode, bytes).unwrap();
    let Entry { tile, palette, flip_h, flip_v, priority } = entry;
    let theirs = plain::unpack_mapentry(rust, &without_bank(mode, bytes));
    assert_eq!(plain::fields(theirs), (tile, palette, flip_h, flip_v, priority), "mode {mode} {bytes:?}");
    assert_eq!(written(|out| reading::pack_entry(mode, entry, out)), Ok(plain::pack_mapentry(rust, theirs)));
    assert_eq!(written(|out| reading::tile_index(mode, entry, out)), Ok(plain::get_tile_index(rust, theirs)));
    assert_eq!(reading::attribute(mode, entry), Ok(plain::get_attribute(rust, theirs).into()));
}

#[test]
fn modes() {
    if absent() {
        return;
    }
    for (_, row, rust) in rows() {
        assert_eq!(plain::name(rust), row.name);
        assert_eq!(plain::mapentry_size(rust), row.entry_bytes);
    }
}

/// So many random tiles of a shape, and each bit of each pixel by itself.
fn some_tiles(shape: Shape, count: usize, random: &mut Random) -> Vec<Vec<u8>> {
    let any = (0..count).map(|_| random.pixels(shape.depth, shape.pixels())).collect::<Vec<_>>();
    let bits = (0..shape.pixels()).flat_map(|place| (0..shape.depth).map(move |plane| (place, plane)));
    let single = bits.map(|(place, plane)| {
        let mut pixels = vec![0; shape.pixels()];
        pixels[place] = 1 << plane;
        pixels
    });
    any.into_iter().chain(single).collect()
}

#[test]
fn tiles() {
    if absent() {
        return;
    }
    let mut random = Random::new(2);
    for shape in native_shapes() {
        for pixels in some_tiles(shape, 300, &mut random) {
            same_tile(shape, &pixels);
        }
    }
}

#[test]
fn flips() {
    if absent() {
        return;
    }
    let mut random = Random::new(6);
    for shape in native_shapes().filter(|&shape| !is_sprite(shape)) {
        for pixels in some_tiles(shape, 300, &mut random) {
            same_flips(shape, &pixels);
        }
    }
}

#[test]
fn colors() {
    if absent() {
        return;
    }
    let mut random = Random::new(1);
    for (mode, _, rust) in rows() {
        for word in 0..=u16::MAX {
            same_colors(mode, rust, &word.to_le_bytes());
        }
        for length in 0..=40 {
            for _ in 0..50 {
                same_colors(mode, rust, &random.bytes(length));
            }
        }
    }
}

#[test]
fn channels() {
    if absent() {
        return;
    }
    for (mode, row, rust) in rows() {
        for value in 0..=255 {
            for nearest in [false, true] {
                let component = plain::reduce_channel(rust, value, nearest);
                assert_eq!(reading::reduce_channel(mode, value, nearest), Ok(component.into()), "{mode} {value}");
            }
        }
        for component in 0..=row.top as u8 {
            assert_eq!(reading::scale_up(mode, component.into()), Ok(plain::scale_up(rust, component).into()));
        }
    }
}

#[test]
fn entries() {
    if absent() {
        return;
    }
    for (mode, row, rust) in rows() {
        for word in 0..=u16::MAX {
            match row.entry_bytes {
                0 => {}
                length => same_entry(mode, rust, &word.to_le_bytes()[..length]),
            }
        }
    }
}

/// A tile made of the one before: mirrored, made its own mirror image, or, every fourth, any other.
fn next_tile(shape: Shape, tile: &[u8], turn: usize, random: &mut Random) -> Vec<u8> {
    let image = reading::flipped(tile, shape.width, random.flag(), random.flag());
    match turn % 4 {
        0 => random.bytes(shape.pixels()),
        1 => tile.iter().zip(&image).map(|(&one, &other)| one.max(other)).collect(),
        _ => image,
    }
}

/// A run of adds and look-ups in sets of the same settings.
fn same_run(shape: Shape, flips: bool, discarding: bool, random: &mut Random) {
    let Shape { mode, depth, width, height } = shape;
    let rust = plain::mode(mode);
    let mut theirs = plain::tileset(rust, depth, width, height, flips, discarding, 0);
    let mut store = vec![0; 20 * shape.pixels()];
    let mut set = reading::set_new(shape, flips, discarding, 0).unwrap();
    let mut tile = random.pixels(depth, shape.pixels());
    for turn in 0..20 {
        tile = next_tile(shape, &tile, turn, random);
        let given = plain::image(width, height, &tile);
        let found = reading::set_look_up(set, &store, &tile).unwrap();
        let found = found.map(|place| (place.place, place.flip_h, place.flip_v));
        assert_eq!(found, plain::look_up(&theirs, rust, depth, &given), "{set:?} {tile:?}");
        set = reading::set_add(set, &mut store, &tile).unwrap();
        plain::add(&mut theirs, &given).unwrap();
        assert_eq!((set.stored, set.discarded), plain::counts(&theirs), "{set:?} {tile:?}");
    }
    assert!(store.starts_with(&plain::tile_pixels(&theirs)), "{set:?}");
    same_written(set, &store, &theirs);
}

/// Written alike, and read alike but at depth 1, where the Rust panics.
fn same_written(set: Set, store: &[u8], theirs: &plain::Tileset) {
    let bytes = plain::to_native_data(theirs).unwrap();
    let mut out = vec![0; bytes.len()];
    assert_eq!(reading::set_write(set, store, &mut out), Ok(bytes.len()), "{set:?}");
    assert!(out == bytes, "{set:?}");
    if set.shape.depth > 1 {
        same_read(set.shape, set.flips, &bytes);
    }
}

fn is_sprite(shape: Shape) -> bool {
    MODES[shape.mode as usize].name == "pce_sprite"
}

/// What the Rust reads: the pixels, and the bytes that it writes of them again. Sets of sprites it does not read: there
/// it unpacks and packs each tile.
fn rust_reads(shape: Shape, flips: bool, bytes: &[u8]) -> (Vec<u8>, Vec<u8>) {
    let Shape { mode, depth, width, height } = shape;
    let rust = plain::mode(mode);
    let read = plain::from_native_data(rust, depth, width, height, flips, bytes);
    if !is_sprite(shape) {
        let set = read.unwrap();
        assert_eq!(plain::counts(&set).1, 0);
        return (plain::tile_pixels(&set), plain::to_native_data(&set).unwrap());
    }
    assert!(read.is_err());
    let unpack = |tile| plain::unpack_tile(rust, depth, width, height, tile).unwrap();
    let tiles: Vec<Vec<u8>> = bytes.chunks_exact(shape.bytes()).map(unpack).collect();
    let pack = |tile: &Vec<u8>| plain::pack_tile(rust, depth, width, height, tile).unwrap();
    (tiles.concat(), tiles.iter().flat_map(pack).collect())
}

/// Read alike, and written alike again.
fn same_read(shape: Shape, flips: bool, bytes: &[u8]) {
    let (pixels, again) = rust_reads(shape, flips, bytes);
    let mut store = vec![0; pixels.len()];
    let read = reading::set_read(shape, flips, bytes, &mut store).unwrap();
    assert_eq!((read.stored as usize * shape.pixels(), read.discarded), (pixels.len(), 0), "{read:?}");
    assert!(store == pixels, "{read:?}");
    let mut out = vec![0; again.len()];
    assert_eq!(reading::set_write(read, &store, &mut out), Ok(again.len()), "{read:?}");
    assert!(out == again, "{read:?}");
}

/// Every number of cells, up to two rows of tiles and a cell; of sprites every number of tiles up to three.
#[test]
fn read_sets() {
    if absent() {
        return;
    }
    let mut random = Random::new(5);
    for shape in set_shapes().filter(|shape| shape.depth > 1) {
        let cells_a_row = if shape.mode == 0 { 16 } else { 1 };
        let (part, most) = match is_sprite(shape) {
            true => (shape.bytes(), 3),
            false => (8 * shape.depth as usize, 2 * shape.height / 8 * cells_a_row + 1),
        };
        for parts in 0..=most as usize {
            same_read(shape, random.flag(), &random.bytes(parts * part));
        }
    }
}

#[test]
fn sets() {
    if absent() {
        return;
    }
    let mut random = Random::new(3);
    for shape in set_shapes() {
        for (flips, discarding) in [(false, false), (false, true), (true, false), (true, true)] {
            same_run(shape, flips, discarding, &mut random);
        }
    }
}

/// The tiles of a set of the Rust's that stores all of them, as a title: the first so many are common, and the others its
/// own. It finds what the Rust finds among them all.
fn same_title(shape: Shape, flips: bool, random: &mut Random) {
    let Shape { mode, depth, width, height } = shape;
    let rust = plain::mode(mode);
    let mut theirs = plain::tileset(rust, depth, width, height, flips, false, 0);
    let mut tiles = vec![random.pixels(depth, shape.pixels())];
    for turn in 1..12 {
        tiles.push(next_tile(shape, &tiles[turn - 1], turn, random));
    }
    for tile in &tiles[..8] {
        plain::add(&mut theirs, &plain::image(width, height, tile)).unwrap();
    }
    let store = plain::tile_pixels(&theirs);
    for common_count in 0..=8 {
        let (common, own) = store.split_at(common_count as usize * shape.pixels());
        let set = Set { stored: 8 - common_count, ..reading::set_new(shape, flips, true, 0).unwrap() };
        for tile in &tiles {
            let held = reading::title_look_up(set, common_count, common, own, tile).unwrap();
            let found = held.map(|held| (held.place.place, held.place.flip_h, held.place.flip_v));
            let due = plain::look_up(&theirs, rust, depth, &plain::image(width, height, tile));
            assert_eq!(found, due, "{common_count} common, {set:?} {tile:?}");
            let Some(held) = held else { continue };
            let part = &if held.common { common } else { own }[held.at..][..held.len];
            assert_eq!(part, &store[held.place.place as usize * shape.pixels()..][..shape.pixels()]);
            assert_eq!(held.common, held.place.place < common_count);
        }
    }
}

#[test]
fn titles() {
    if absent() {
        return;
    }
    let mut random = Random::new(4);
    for shape in set_shapes() {
        for flips in [false, true] {
            same_title(shape, flips, &mut random);
        }
    }
}

#[test]
fn tile_numbers() {
    if absent() {
        return;
    }
    for shape in set_shapes().filter(|&shape| !is_sprite(shape)) {
        let Shape { mode, width, height, .. } = shape;
        for number in (0..1000).chain(64_000..=65_535) {
            let native = plain::native_tile_index(plain::mode(mode), width, height, number);
            assert_eq!(reading::native_number(mode, width, height, number), Ok(native), "{shape:?} {number}");
            let logical = plain::logical_tile_index(plain::mode(mode), width, height, number);
            assert_eq!(reading::logical_number(mode, width, height, number), Ok(logical), "{shape:?} {number}");
        }
    }
}
