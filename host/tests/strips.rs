//! `Strips` against the plain calls of `Run` on buffers beside it, and against the whole conversion: the same answers, and
//! the same bytes.

use rumchivoat::{MapSize, Mode, Refusal, Run, Settings, Strips, convert};

const SIZE: MapSize = MapSize { columns: 5, rows: 6 };

fn settings() -> impl Iterator<Item = Settings> {
    let modes = [(Mode::Snes, 2), (Mode::Snes, 8), (Mode::Md, 4), (Mode::Gb, 1), (Mode::Pce, 4), (Mode::Gba, 8)];
    let plain = modes.into_iter().map(|(mode, depth)| (mode, Settings::new(mode, depth, SIZE)));
    let flagged = plain.flat_map(|(mode, settings)| {
        let flips = if mode.has_flips() { settings.flips() } else { settings };
        [settings, settings.discarding(), flips, flips.discarding()]
    });
    flagged.flat_map(|settings| [settings, settings.limit(9), settings.limit(40)])
}

/// A picture of which some tiles are mirror images of others: its right half is the left one's.
fn pixels(settings: Settings) -> Vec<u8> {
    let width = 8 * settings.columns as usize;
    let pixel = |place: usize| {
        let (x, y) = (place % width, place / width);
        let x = x.min(width - 1 - x);
        u8::from((x * 5 + y / 8 * 3 + y % 8) % 11 == 0)
    };
    (0..settings.pixel_len().unwrap()).map(pixel).collect()
}

/// The strips of a picture, in the heights given.
fn strips<'a>(settings: Settings, pixels: &'a [u8], heights: &[u32]) -> Vec<&'a [u8]> {
    let mut rest = pixels;
    let next = |&rows: &u32| {
        let (strip, later) = rest.split_at(64 * (settings.columns * rows) as usize);
        rest = later;
        strip
    };
    heights.iter().map(next).collect()
}

const HEIGHTS: [&[u32]; 5] = [&[1, 1, 1, 1, 1, 1], &[6], &[1, 5], &[3, 1, 2], &[2, 2, 2]];

/// The same calls on both, refused ones among them; at the end, both buffers hold the same, noise and all.
fn same_calls<B: AsRef<[u8]> + AsMut<[u8]>>(mut typed: Strips<B>, heights: &[u32], tiles: &[u8], map: &[u8]) {
    let (settings, mut run) = (typed.settings(), Run::start(typed.settings()).unwrap());
    let (mut tiles, mut map) = (tiles.to_vec(), map.to_vec());
    let pixels = pixels(settings);
    let row = typed.row_len();
    for strip in strips(settings, &pixels, heights) {
        assert_eq!(typed.end().map_err(Refusal::from), Err(Refusal::Rows));
        assert_eq!(typed.take(&strip[1..]).map_err(Refusal::from), Err(Refusal::Length));
        assert_eq!(typed.take(&[]).map_err(Refusal::from), Err(Refusal::Length));
        let past = vec![0; row * typed.rows_left() as usize + 1];
        assert_eq!(typed.take(&past).map_err(Refusal::from), Err(Refusal::Rows));
        assert_eq!(typed.take(strip).map_err(Refusal::from), run.take(strip, &mut tiles, &mut map));
        assert_eq!((typed.rows_taken(), typed.rows_left()), (run.taken, run.rows_left()));
        assert_eq!((row, typed.settings()), (run.row_len(), run.settings()));
        assert_eq!(typed.tiles(), &tiles[..(run.tiles * settings.depth * 8) as usize]);
        assert_eq!(typed.map(), &map[..settings.map_len().unwrap() / settings.rows as usize * run.taken as usize]);
    }
    assert_eq!(typed.end().map_err(Refusal::from), run.end());
    let (kept, kept_tiles, kept_map) = typed.into_parts();
    assert_eq!((kept, kept_tiles.as_ref(), kept_map.as_ref()), (run, &tiles[..], &map[..]));
}

#[test]
fn a_run_that_owns_its_buffers() {
    for settings in settings() {
        for heights in HEIGHTS {
            for tile_space in [settings.tile_len().unwrap() + 3, settings.tile_len().unwrap() / 2] {
                let (tiles, map) = (vec![0xa5; tile_space], vec![0x5a; settings.map_len().unwrap() + 2]);
                let typed = Strips::start(settings, tiles.clone(), map.clone()).unwrap();
                same_calls(typed, heights, &tiles, &map);
            }
        }
    }
}

#[test]
fn a_run_that_borrows_its_buffers() {
    for settings in settings() {
        for heights in HEIGHTS {
            let (mut tiles, mut map) =
                (vec![0xa5; settings.tile_len().unwrap()], vec![0x5a; settings.map_len().unwrap()]);
            let noise = (tiles.clone(), map.clone());
            let typed = Strips::start(settings, &mut tiles[..], &mut map[..]).unwrap();
            same_calls(typed, heights, &noise.0, &noise.1);
        }
    }
}

/// However it is cut, a picture comes to what the whole comes to; or both are refused for room.
#[test]
fn strips_come_to_the_whole() {
    let mut refused = 0;
    for settings in settings() {
        let pixels = pixels(settings);
        let lengths = (settings.tile_len().unwrap(), settings.map_len().unwrap());
        let (mut tiles, mut map) = (vec![0; lengths.0], vec![0; lengths.1]);
        let whole = convert(settings, &pixels, &mut tiles, &mut map);
        for heights in HEIGHTS {
            let mut typed = Strips::start(settings, vec![1; lengths.0], vec![1; lengths.1]).unwrap();
            let taken =
                strips(settings, &pixels, heights).into_iter().try_for_each(|strip| typed.take(strip).map(drop));
            let ended = taken.and_then(|()| typed.end()).map_err(Refusal::from);
            assert_eq!(ended, whole, "{settings:?} {heights:?}");
            match whole {
                Ok(picture) => assert_eq!((typed.tiles(), typed.map()), (&tiles[..picture.tile_bytes], &map[..])),
                Err(refusal) => assert_eq!(refusal, Refusal::Room),
            }
            refused += usize::from(ended.is_err());
        }
    }
    assert!(refused > 0, "no limit was too low");
}

/// Two runs at once, each with its own record and buffers: each is as it would be alone.
#[test]
fn runs_do_not_meet() {
    let [one, other] = [Mode::Snes, Mode::Md].map(|mode| Settings::new(mode, 4, SIZE).flips().discarding());
    let alone = [one, other].map(|settings| settings.convert_to_vec(&pixels(settings)).unwrap());
    let mut typed = [one, other].map(|settings| {
        Strips::start(settings, vec![0; settings.tile_len().unwrap()], vec![0; settings.map_len().unwrap()]).unwrap()
    });
    for row in 0..SIZE.rows as usize {
        for strips in &mut typed {
            let pixels = pixels(strips.settings());
            strips.take(&pixels[row * strips.row_len()..][..strips.row_len()]).unwrap();
        }
    }
    for (strips, alone) in typed.iter().zip(alone) {
        assert_eq!((strips.end(), strips.tiles(), strips.map()), (Ok(alone.picture), &alone.tiles[..], &alone.map[..]));
    }
}

/// A run is refused at once where its settings are, or where its map is too short. The settings come first.
#[test]
fn runs_that_are_none() {
    let refused = |settings: Settings, map: usize| {
        Strips::start(settings, vec![0; 64], vec![0; map]).map(drop).map_err(Refusal::from)
    };
    let good = Settings::new(Mode::Snes, 2, MapSize { columns: 2, rows: 2 });
    let wide = Settings::new(Mode::Snes, 2, MapSize { columns: 65, rows: 2 });
    for map in [0, 7, 8] {
        assert_eq!(refused(Settings::new(16u32, 2, good.size()), map), Err(Refusal::Mode));
        assert_eq!(refused(Settings::new(Mode::PceSprite, 4, good.size()), map), Err(Refusal::PceSprite));
        assert_eq!(refused(Settings::new(Mode::Snes, 3, good.size()), map), Err(Refusal::Depth));
        assert_eq!(refused(wide, map), Err(Refusal::Size));
        assert_eq!(refused(Settings::new(Mode::Pce, 4, good.size()).flips(), map), Err(Refusal::Flips));
        assert_eq!(refused(good.palette(8), map), Err(Refusal::EntryPalette));
        assert_eq!(refused(good, map), if map < 8 { Err(Refusal::Output) } else { Ok(()) });
    }
}

/// What is left to come of a record of any numbers: nothing where more rows are counted than there are.
#[test]
fn rows_of_any_record() {
    let run = Run { columns: u32::MAX, rows: 3, taken: 7, ..Run::default() };
    assert_eq!((run.rows_left(), run.row_len()), (0, 64 * u32::MAX as usize));
    assert_eq!(Run { rows: u32::MAX, taken: 0, ..run }.rows_left(), u32::MAX);
}
