//! Pictures: the reading against the unchanged Rust, where document 01 answers 0.

use reading::{MODES, Random, Settings, native_shapes};
use superfamiconv::{pictures, plain};

/// Settings of every mode and depth that has maps, flips and discarding on and off.
fn every_settings() -> impl Iterator<Item = Settings> {
    let shapes = native_shapes().filter(|shape| MODES[shape.mode as usize].entry_bytes > 0);
    let flagged = shapes.flat_map(|shape| {
        let flips: &[bool] = if MODES[shape.mode as usize].flips { &[false, true] } else { &[false] };
        flips.iter().flat_map(move |&flip| [false, true].map(|discard| (shape, flip, discard)))
    });
    flagged.map(|(shape, flip, discard)| Settings {
        mode: shape.mode,
        depth: shape.depth,
        flip,
        discard,
        limit: 0,
        palette: (1 << MODES[shape.mode as usize].palette_bits) - 1,
        columns: 6,
        rows: 5,
    })
}

/// A picture of few pixel values that is its own mirror image in places: left and right, above and below.
fn pixels(settings: Settings, random: &mut Random) -> Vec<u8> {
    let (width, height) = (8 * settings.columns as usize, 8 * settings.rows as usize);
    let quarter = random.pixels(settings.depth, width * height);
    let sparse = |place: usize| if place.is_multiple_of(29) { quarter[place] } else { 0 };
    let place = |x: usize, y: usize| y.min(height - 1 - y) * width + x.min(width - 1 - x);
    (0..height).flat_map(|y| (0..width).map(move |x| place(x, y))).map(sparse).collect()
}

/// Converted alike; and redrawn alike but at depth 1, where the Rust panics.
fn same_picture(settings: Settings, pixels: &[u8]) {
    let Settings { mode, depth, flip, discard, limit, palette, columns, rows } = settings;
    let theirs = pictures::Settings { mode: plain::mode(mode), depth, flip, discard, limit, palette, columns, rows };
    let rust = pictures::convert(theirs, pictures::max_tile_count(theirs.mode), pixels);
    let bytes = plain::to_native_data(&rust.set).unwrap();
    let (mut tiles, mut map) = (vec![0; bytes.len()], vec![0; rust.map.len()]);
    let picture = reading::convert(settings, pixels, &mut tiles, &mut map).unwrap();
    assert_eq!((picture.tiles, picture.discarded), plain::counts(&rust.set), "{settings:?}");
    assert_eq!((picture.tile_bytes, picture.map_bytes), (bytes.len(), rust.map.len()), "{settings:?}");
    assert!(tiles == bytes && map == rust.map, "{settings:?}");

    let mut drawn = vec![0; pixels.len()];
    assert_eq!(reading::redraw(mode, depth, columns, rows, &tiles, &map, &mut drawn), Ok(pixels.len()));
    assert!(drawn == pixels, "{settings:?}");
    if depth > 1 {
        let set = plain::from_native_data(theirs.mode, depth, 8, 8, flip, &bytes).unwrap();
        assert!(pictures::redraw(&set, theirs, &map).unwrap() == pixels, "{settings:?}");
    }
}

/// Cut into strips at random, the picture comes to what the Rust makes of the whole.
fn same_strips(settings: Settings, pixels: &[u8], random: &mut Random) {
    let Settings { mode, depth, flip, discard, limit, palette, columns, rows } = settings;
    let theirs = pictures::Settings { mode: plain::mode(mode), depth, flip, discard, limit, palette, columns, rows };
    let rust = pictures::convert(theirs, pictures::max_tile_count(theirs.mode), pixels);
    let bytes = plain::to_native_data(&rust.set).unwrap();
    let (mut tiles, mut map) = (vec![0; bytes.len()], vec![0; rust.map.len()]);
    let mut run = reading::strip_start(settings).unwrap();
    while run.taken < rows {
        assert_eq!(reading::strip_end(run), Err(19), "{settings:?}");
        let (from, to) = (run.taken, run.taken + 1 + random.below(rows - run.taken));
        let strip = &pixels[(64 * columns * from) as usize..(64 * columns * to) as usize];
        reading::strip_take(&mut run, strip, &mut tiles, &mut map).unwrap();
        assert_eq!(run.taken, to, "{settings:?}");
    }
    let picture = reading::strip_end(run).unwrap();
    assert_eq!((picture.tiles, picture.discarded), plain::counts(&rust.set), "{settings:?}");
    assert_eq!((picture.tile_bytes, picture.map_bytes), (bytes.len(), rust.map.len()), "{settings:?}");
    assert!(tiles == bytes && map == rust.map, "{settings:?}");
}

#[test]
fn converted_in_strips() {
    if superfamiconv::absent("the reading of strips against the Rust") {
        return;
    }
    let mut random = Random::new(5);
    for settings in every_settings() {
        for _ in 0..10 {
            let pixels = pixels(settings, &mut random);
            same_strips(settings, &pixels, &mut random);
        }
    }
}

#[test]
fn converted_and_redrawn() {
    if superfamiconv::absent("the reading of pictures against the Rust") {
        return;
    }
    let mut random = Random::new(4);
    for settings in every_settings() {
        for _ in 0..10 {
            same_picture(settings, &pixels(settings, &mut random));
        }
    }
}

/// A block begins with the bytes that the Rust puts by turns, and has 0 from there on; split, it gives what went in.
fn same_block(columns: u32, rows: u32, tiles: &[u8], map: &[u8]) {
    let mut due = pictures::mode7_interleaved(columns, rows, tiles, map).unwrap();
    due.resize(32_768, 0);
    let mut block = vec![0xa5; 32_768];
    assert_eq!(reading::mode7_make(tiles, map, &mut block), Ok(32_768));
    assert!(block == due, "{columns}x{rows}, {} tile bytes", tiles.len());

    let (mut odd, mut even) = (vec![0xa5; 16_384], vec![0xa5; 16_384]);
    assert_eq!(reading::mode7_split(&block, &mut odd, &mut even), Ok(16_384));
    for (half, given) in [(odd, tiles), (even, map)] {
        let (start, fill) = half.split_at(given.len());
        assert!(start == given && fill.iter().all(|&byte| byte == 0), "{columns}x{rows}, {} tile bytes", tiles.len());
    }
}

#[test]
fn made_into_a_block() {
    if superfamiconv::absent("the reading of mode 7 blocks against the Rust") {
        return;
    }
    let mut random = Random::new(6);
    for (columns, rows) in [(1, 1), (2, 1), (1, 2), (7, 5), (64, 64), (128, 1), (1, 128), (127, 128), (128, 128)] {
        for tiles in [0, 1, 2, 100, 255, 256] {
            let (tiles, map) = (random.bytes(64 * tiles), random.bytes((columns * rows) as usize));
            same_block(columns, rows, &tiles, &map);
        }
    }
}
