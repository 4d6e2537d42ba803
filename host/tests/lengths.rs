//! The lengths that the crate tells, against the calls: a buffer of that length is accepted, and one byte less is
//! refused.

use rumchivoat::{
    MODE7_BLOCK, MODE7_HALF, MapSize, Mode, Mode7Halves, Refusal, Run, Set, SetSettings, Settings, Strips, TileSet,
    TileSize, Title, convert, flip_tile, flip_tile_to_vec, mode7_make, mode7_make_to_vec, mode7_split,
    mode7_split_to_vec, pack_colors, pack_colors_to_vec, pack_tile, pack_tile_to_vec, redraw, unpack_colors,
    unpack_colors_to_vec, unpack_tile, unpack_tile_to_vec,
};

const SIDES: [u32; 6] = [0, 8, 16, 32, 64, 128];

fn sizes() -> impl Iterator<Item = TileSize> {
    SIDES.into_iter().flat_map(|width| SIDES.map(|height| TileSize { width, height }))
}

/// Settings of every mode number, depth, size, limit and palette around the edges.
fn settings() -> impl Iterator<Item = Settings> {
    let modes = (0..16).chain([16, u32::MAX]);
    let deep = modes.flat_map(|mode| [0, 1, 2, 3, 4, 8, 9, u32::MAX].map(|depth| (mode, depth)));
    let sides = [(1, 1), (2, 1), (5, 7), (64, 64), (0, 1), (1, 0), (65, 1), (1, 65), (u32::MAX, u32::MAX)];
    let sized = deep.flat_map(move |(mode, depth)| {
        sides.map(|(columns, rows)| Settings::new(mode, depth, MapSize { columns, rows }).discarding())
    });
    let flagged = sized.flat_map(|settings| [settings, settings.flips()]);
    flagged.flat_map(|settings| {
        [(0, 0), (1, 0), (3, 7), (1000, 15), (u32::MAX, 16)]
            .map(|(limit, palette)| settings.limit(limit).palette(palette))
    })
}

/// A tile that matches no other number's, under no flip: the first row and one pixel of the last show which way up it
/// is, and the number's 12 bits stand between.
fn numbered_tile(number: usize) -> [u8; 64] {
    let mut tile = [0; 64];
    tile[..8].fill(1);
    tile[56] = 1;
    for (bit, pixel) in tile[8..20].iter_mut().enumerate() {
        *pixel = (number >> bit & 1) as u8;
    }
    tile
}

/// The pixels of a picture with so many different tiles; the last is repeated.
fn picture(settings: Settings, different: usize) -> Vec<u8> {
    let (columns, rows) = (settings.columns as usize, settings.rows as usize);
    let mut pixels = vec![0; 64 * columns * rows];
    for place in 0..columns * rows {
        let tile = numbered_tile(place.min(different - 1));
        for (row, line) in tile.chunks_exact(8).enumerate() {
            let start = (place / columns * 8 + row) * columns * 8 + place % columns * 8;
            pixels[start..start + 8].copy_from_slice(line);
        }
    }
    pixels
}

/// Where the settings are refused, so is every conversion by them; where not, the three lengths are enough for a picture
/// with as many different tiles as may be stored, and none can be less.
#[test]
fn pictures() {
    let mut done = 0;
    for settings in settings() {
        let (pixel_len, map_len, tile_len) = match settings.pixel_len() {
            Err(refused) => {
                assert_eq!((settings.map_len(), settings.tile_len()), (Err(refused), Err(refused)));
                let counted = settings.columns <= 65 && settings.rows <= 65;
                let pixels = vec![0; if counted { 64 * (settings.columns * settings.rows) as usize } else { 0 }];
                let answer = convert(settings, &pixels, &mut [0; 64], &mut [0; 2]);
                assert_eq!(answer, Err(refused.refusal), "{settings:?}");
                assert_eq!(settings.convert_to_vec(&pixels), Err(refused), "{settings:?}");
                continue;
            }
            Ok(pixel_len) => (pixel_len, settings.map_len().unwrap(), settings.tile_len().unwrap()),
        };
        let pixels = picture(settings, tile_len / (8 * settings.depth as usize));
        assert_eq!(pixels.len(), pixel_len);
        let (mut tiles, mut map) = (vec![0; tile_len], vec![0; map_len]);
        let picture = convert(settings, &pixels, &mut tiles, &mut map).unwrap();
        assert_eq!((picture.tile_bytes, picture.map_bytes), (tile_len, map_len), "{settings:?}");

        let refused = |answer: Result<_, Refusal>| answer.map(|_| ()).unwrap_err();
        assert_eq!(refused(convert(settings, &pixels[1..], &mut tiles, &mut map)), Refusal::Length);
        assert_eq!(refused(convert(settings, &pixels, &mut tiles, &mut map[1..])), Refusal::Output);
        assert_eq!(refused(convert(settings, &pixels, &mut tiles[1..], &mut map)), Refusal::Room);

        let converted = settings.convert_to_vec(&pixels).unwrap();
        assert_eq!((&converted.tiles, &converted.map, converted.picture), (&tiles, &map, picture), "{settings:?}");
        assert_eq!(settings.redraw_to_vec(&tiles, &map).unwrap(), pixels, "{settings:?}");
        let Settings { mode, depth, columns, rows, .. } = settings;
        let short = redraw(mode, depth, columns, rows, &tiles, &map, &mut vec![0; pixel_len - 1]);
        assert_eq!(short, Err(Refusal::Output));
        done += 1;
    }
    assert!(done > 400, "{done} settings were accepted");
}

/// Where the settings are refused, so is the start of a run; where not, the lengths of the whole are enough for its
/// strips, the rows that are left are exactly what may come, and nothing can be less.
#[test]
fn strips() {
    let mut done = 0;
    for settings in settings() {
        let refused = match Run::start(settings) {
            Err(refusal) => {
                assert_eq!(settings.pixel_len().map_err(Refusal::from), Err(refusal), "{settings:?}");
                assert_eq!(Strips::start(settings, vec![], vec![]).map(drop).map_err(Refusal::from), Err(refusal));
                continue;
            }
            Ok(run) => {
                assert_eq!(settings.pixel_len().unwrap(), run.row_len() * run.rows_left() as usize, "{settings:?}");
                move |pixels: &[u8], tiles: &mut [u8], map: &mut [u8]| {
                    let mut run = run;
                    run.take(pixels, tiles, map).unwrap_err()
                }
            }
        };
        let (tile_len, map_len) = (settings.tile_len().unwrap(), settings.map_len().unwrap());
        let pixels = picture(settings, tile_len / (8 * settings.depth as usize));
        let longer = [&pixels[..], &[0]].concat();
        let (mut tiles, mut map) = (vec![0; tile_len], vec![0; map_len]);
        assert_eq!(refused(&longer, &mut tiles, &mut map), Refusal::Rows, "{settings:?}");
        assert_eq!(refused(&pixels[1..], &mut tiles, &mut map), Refusal::Length, "{settings:?}");
        assert_eq!(refused(&pixels, &mut tiles, &mut map[1..]), Refusal::Output, "{settings:?}");
        assert_eq!(refused(&pixels, &mut tiles[1..], &mut map), Refusal::Room, "{settings:?}");
        let short = Strips::start(settings, vec![0; tile_len], vec![0; map_len - 1]);
        assert_eq!(short.map(drop).map_err(Refusal::from), Err(Refusal::Output), "{settings:?}");

        let mut strips = Strips::start(settings, tiles, map).unwrap();
        for row in pixels.chunks_exact(strips.row_len()) {
            strips.take(row).unwrap();
        }
        let picture = strips.end().unwrap();
        assert_eq!((picture.tile_bytes, picture.map_bytes), (tile_len, map_len), "{settings:?}");
        assert_eq!((strips.rows_left(), strips.tiles().len(), strips.map().len()), (0, tile_len, map_len));
        done += 1;
    }
    assert!(done > 400, "{done} settings were accepted");
}

/// Sets of every shape and of counts around whole rows.
#[test]
fn written_sets() {
    let mut done = 0;
    for mode in 0..=16u32 {
        for depth in [1, 2, 3, 4, 8] {
            for size in sizes() {
                done += written_shape(SetSettings::new(mode, depth, size));
            }
        }
    }
    assert!(done > 1000, "{done} sets were written");
}

fn written_shape(settings: SetSettings) -> usize {
    let mut set = match Set::with_settings(settings) {
        Ok(set) => set,
        Err(refusal) => {
            assert_eq!(settings.store_len(1).map_err(Refusal::from), Err(refusal), "{settings:?}");
            assert_eq!(TileSet::new(settings, vec![0; 64]).map(drop).map_err(Refusal::from), Err(refusal));
            let TileSize { width, height } = settings.size;
            let none = Set { mode: settings.mode, depth: settings.depth, width, height, ..Set::default() };
            assert_eq!(none.write_len().map_err(Refusal::from), Err(refusal), "{settings:?}");
            return 0;
        }
    };
    let store = vec![0; settings.store_len(17).unwrap()];
    for stored in [0, 1, 2, 3, 7, 8, 9, 16, 17] {
        set.stored = stored;
        let length = set.write_len().unwrap();
        assert_eq!(set.write(&store, &mut vec![0; length]), Ok(length), "{set:?}");
        assert_eq!(set.write(&store, &mut vec![0; length + 1]), Ok(length), "{set:?}");
        if length > 0 {
            assert_eq!(set.write(&store, &mut vec![0; length - 1]), Err(Refusal::Output), "{set:?}");
        }
    }
    // one tile more than the store has
    set.stored = 18;
    assert_eq!(set.write(&store, &mut [0; 1]), Err(Refusal::Count));
    set.limit = 17;
    assert_eq!(set.write_len().map_err(Refusal::from), Err(Refusal::Count));
    (set.limit, set.stored) = (0, 65_535);
    assert!(set.write_len().is_ok());
    set.stored = 65_536;
    assert_eq!(set.write_len().map_err(Refusal::from), Err(Refusal::Count));
    assert_eq!(settings.store_len(65_536).map_err(Refusal::from), Err(Refusal::Count));
    9
}

/// A store of exactly the length that the refusal of a shorter one names is enough.
#[test]
fn read_sets() {
    let shapes = Mode::ALL.into_iter().flat_map(|mode| mode.depths().iter().map(move |&depth| (mode, depth)));
    for ((mode, depth), size) in shapes.flat_map(|shape| sizes().map(move |size| (shape, size))) {
        if Set::with_settings(SetSettings::new(mode, depth, size)).is_err() {
            continue;
        }
        // sprites are read whole, all others by cells
        let TileSize { width, height } = if mode == Mode::PceSprite { size } else { TileSize::CELL };
        for parts in (0..70).chain([127, 128, 129, 255, 256, 257]) {
            let pixels = parts * (width * height) as usize;
            let bytes = vec![0x5a; pixels * depth as usize / 8];
            let read = TileSet::read(mode, depth, size, true, &bytes, vec![0; pixels]).unwrap();
            let needed = read.len() * (size.width * size.height) as usize;
            assert!(TileSet::read(mode, depth, size, true, &bytes, vec![0; needed]).is_ok());
            if needed > 0 {
                let refused = TileSet::read(mode, depth, size, true, &bytes, vec![0; needed - 1]).unwrap_err();
                let words = format!("refused 11: the store needs {needed} bytes and has {}", needed - 1);
                assert_eq!(refused.to_string(), words, "{mode} {depth} {size} {parts} parts");
            }
        }
    }
}

/// A title takes as many tiles as its room says, and not one more, whatever bounds it: the own store, the limit, or the
/// common tiles.
#[test]
fn titles() {
    let settings = SetSettings::new(Mode::Gb, 1, TileSize::CELL);
    let common = vec![0; settings.store_len(65_535).unwrap()];
    for (count, tiles, limit, room) in [
        (0, 0, 0, 0),
        (1, 5, 0, 5),
        (2, 5, 3, 3),
        (65_535, 5, 0, 0),
        (65_532, 5, 0, 3),
        (65_532, 5, 2, 2),
        (65_530, 5, 0, 5),
    ] {
        for more in [0, 63] {
            let store = vec![0; settings.store_len(tiles).unwrap() + more];
            let mut title = Title::new(settings.limit(limit), count, &common, store).unwrap();
            assert_eq!(title.room(), room, "{count} common, {tiles} tiles of its own");
            for _ in 0..room {
                assert_eq!(title.add(&[1; 64]), Ok(()));
            }
            assert_eq!(title.add(&[1; 64]).map_err(Refusal::from), Err(Refusal::Room));
            assert_eq!((title.own().len(), title.room()), (room, room));
        }
    }
}

/// A mode 7 block and its halves: the lengths that the constants tell are taken and written, one byte less of what is
/// written is refused, and one byte more of what is given.
#[test]
fn mode7_blocks() {
    let (mut block, mut tiles, mut map) = (vec![1; MODE7_BLOCK], vec![2; MODE7_HALF], vec![3; MODE7_HALF]);
    assert_eq!(mode7_make(&tiles, &map, &mut block), Ok(MODE7_BLOCK));
    assert_eq!(mode7_make(&tiles, &map, &mut block[1..]), Err(Refusal::Output));
    let longer = vec![4; MODE7_HALF + 1];
    assert_eq!(mode7_make(&longer, &map, &mut block), Err(Refusal::Length));
    assert_eq!(mode7_make(&tiles, &longer, &mut block), Err(Refusal::Length));
    assert_eq!(block, [3, 2].repeat(MODE7_HALF));

    assert_eq!(mode7_split(&block, &mut tiles[1..], &mut map), Err(Refusal::Output));
    assert_eq!(mode7_split(&block, &mut tiles, &mut map[1..]), Err(Refusal::Output));
    assert_eq!(mode7_split(&block[1..], &mut tiles, &mut map), Err(Refusal::Length));
    assert_eq!(mode7_split(&[&block[..], &[0]].concat(), &mut tiles, &mut map), Err(Refusal::Length));
    assert_eq!(mode7_split(&block, &mut tiles, &mut map), Ok(MODE7_HALF));

    // a picture's tile bytes and its map, at their longest, are not too long
    let largest = Settings::new(Mode::SnesMode7, 8, MapSize { columns: 64, rows: 64 });
    assert_eq!((largest.tile_len().unwrap(), largest.map_len().unwrap()), (MODE7_HALF, 64 * 64));
}

/// The calls that give a `Vec` give what the calls on slices write, and are refused as they are.
#[test]
fn vectors_hold_what_slices_do() {
    for mode in (0..16).chain([16, u32::MAX]) {
        for length in 0..=40 {
            let bytes: Vec<u8> = (0..length).map(|number| number % 4).collect();
            let mut out = [0xee; 4 * 40];
            let packed = pack_colors(mode, &bytes, &mut out).map(|written| out[..written].to_vec());
            assert_eq!(pack_colors_to_vec(mode, &bytes).map_err(Refusal::from), packed, "{mode} {bytes:?}");
            let unpacked = unpack_colors(mode, &bytes, &mut out).map(|written| out[..written].to_vec());
            assert_eq!(unpack_colors_to_vec(mode, &bytes).map_err(Refusal::from), unpacked, "{mode} {bytes:?}");
        }
        for depth in 0..=9 {
            for length in [0, 8, 16, 32, 64, 128, 256, 512, 1024, 2048] {
                for size in sizes() {
                    same_tiles(mode, depth, size, &vec![1; length]);
                }
                same_flips(mode, depth, &(0..length).map(|place| (7 * place) as u8).collect::<Vec<u8>>());
            }
        }
    }
}

#[test]
fn mode7_vectors_hold_what_slices_do() {
    let input: Vec<u8> = (0..65_536u32).map(|place| (place * place / 7 % 251) as u8).collect();
    let lengths = [0, 1, 63, 64, 4096, 16_383, 16_384, 16_385, 32_767, 32_768, 32_769, 65_536];
    for (one, other) in lengths.iter().flat_map(|&one| lengths.map(|other| (one, other))) {
        let (tiles, map) = (&input[..one], &input[input.len() - other..]);
        let mut out = vec![0xee; MODE7_BLOCK + 1];
        let made = mode7_make(tiles, map, &mut out).map(|written| out[..written].to_vec());
        assert_eq!(mode7_make_to_vec(tiles, map).map_err(Refusal::from), made, "{one} {other}");
    }
    for length in lengths {
        let (mut tiles, mut map) = (vec![0xee; MODE7_HALF + 1], vec![0xee; MODE7_HALF + 1]);
        let split = mode7_split(&input[..length], &mut tiles, &mut map)
            .map(|written| (tiles[..written].to_vec(), map[..written].to_vec()));
        let halves = mode7_split_to_vec(&input[..length]).map(|Mode7Halves { tiles, map, .. }| (tiles, map));
        assert_eq!(halves.map_err(Refusal::from), split, "{length}");
    }
}

fn same_tiles(mode: u32, depth: u32, size: TileSize, input: &[u8]) {
    let mut out = [0xee; 2048];
    let TileSize { width, height } = size;
    let packed = pack_tile(mode, depth, width, height, input, &mut out).map(|written| out[..written].to_vec());
    assert_eq!(pack_tile_to_vec(mode, depth, size, input).map_err(Refusal::from), packed, "{mode} {depth} {size}");
    let unpacked = unpack_tile(mode, depth, width, height, input, &mut out).map(|written| out[..written].to_vec());
    assert_eq!(unpack_tile_to_vec(mode, depth, size, input).map_err(Refusal::from), unpacked, "{mode} {depth} {size}");
}

fn same_flips(mode: u32, depth: u32, bytes: &[u8]) {
    for (flip_h, flip_v) in [(false, false), (true, false), (false, true), (true, true)] {
        let mut out = [0xee; 65];
        let flipped = flip_tile(mode, depth, flip_h, flip_v, bytes, &mut out).map(|written| out[..written].to_vec());
        let to_vec = flip_tile_to_vec(mode, depth, flip_h, flip_v, bytes).map_err(Refusal::from);
        assert_eq!(to_vec, flipped, "{mode} {depth} {flip_h} {flip_v} {} bytes", bytes.len());
    }
}
