//! The crate's table of the modes against the archive's answers: what a column says is what the calls accept.

use rumchivoat::{
    Entry, MapSize, Mode, Refusal, Settings, TileSize, UnknownMode, attribute, flip_tile_to_vec, pack_colors,
    pack_entry, pack_tile_to_vec, scale_up, unpack_entry,
};

/// Depths up to the first that no mode can have, and large ones.
fn depths() -> impl Iterator<Item = u32> {
    (0..=33).chain([64, 255, 256, u32::MAX])
}

/// The size of native tile that the mode has.
fn native(mode: Mode) -> TileSize {
    if mode == Mode::PceSprite { TileSize { width: 16, height: 16 } } else { TileSize::CELL }
}

fn modes_with_entries() -> impl Iterator<Item = Mode> {
    Mode::ALL.into_iter().filter(|mode| mode.entry_bytes().is_some())
}

fn packs(mode: Mode, entry: Entry) -> bool {
    match pack_entry(mode, entry, &mut [0; 2]) {
        Ok(_) => true,
        Err(refusal) => {
            assert!((Refusal::EntryTile..=Refusal::EntryPriority).contains(&refusal), "{mode} {entry:?} {refusal}");
            false
        }
    }
}

#[test]
fn names_are_read_and_written() {
    for mode in Mode::ALL {
        assert_eq!(mode.name().parse(), Ok(mode));
        assert_eq!(format!("{mode:>10}|"), format!("{:>10}|", mode.name()));
        assert_eq!(Mode::try_from(mode.number()), Ok(mode));
    }
    for name in ["", "Snes", "snes ", "snes_mode", "pce-sprite", "sn\u{e9}s"] {
        let told: UnknownMode = name.parse::<Mode>().expect_err("no mode has this name");
        let words = told.to_string();
        assert_eq!(told.name, name);
        assert!(words.starts_with(&format!("there is no mode {name:?}; the modes are snes, ")), "{words}");
        assert!(Mode::ALL.iter().all(|mode| words.contains(mode.name())), "{words}");
    }
}

#[test]
fn depths_are_those_that_tiles_have() {
    for mode in Mode::ALL {
        let size = native(mode);
        for depth in depths() {
            let pixels = vec![0; (size.width * size.height) as usize];
            let packed = pack_tile_to_vec(mode, depth, size, &pixels).map(|bytes| bytes.len());
            let expected = if mode.depths().contains(&depth) {
                Ok(pixels.len() * depth as usize / 8)
            } else {
                Err(Refusal::Depth)
            };
            assert_eq!(packed.map_err(Refusal::from), expected, "{mode} {depth}");
        }
    }
}

/// Native tiles are flipped in every mode but pce_sprite, whether its entries have flips or not, at the depths that
/// tiles have.
#[test]
fn depths_are_those_that_flips_have() {
    for mode in Mode::ALL {
        for depth in depths() {
            let bytes = vec![0; 8 * depth.min(8) as usize];
            let flipped = flip_tile_to_vec(mode, depth, true, true, &bytes).map(|bytes| bytes.len());
            let expected = match mode {
                Mode::PceSprite => Err(Refusal::PceSprite),
                _ if mode.depths().contains(&depth) => Ok(bytes.len()),
                _ => Err(Refusal::Depth),
            };
            assert_eq!(flipped.map_err(Refusal::from), expected, "{mode} {depth}");
        }
    }
}

#[test]
fn the_top_is_the_largest_component() {
    for mode in Mode::ALL {
        for component in 0..=256 {
            let above = component > u32::from(mode.top());
            assert_eq!(scale_up(mode, component).is_err(), above, "{mode} {component}");
        }
        assert_eq!(scale_up(mode, u32::from(mode.top())), Ok(255));
        for place in [0, 1, 2, 12, 13, 14] {
            let mut colors = [mode.top(); 16];
            assert!(pack_colors(mode, &colors, &mut [0; 8]).is_ok(), "{mode}");
            colors[place] += 1;
            assert_eq!(pack_colors(mode, &colors, &mut [0; 8]), Err(Refusal::Component), "{mode}");
        }
    }
}

#[test]
fn entries_have_the_tables_lengths() {
    for mode in Mode::ALL {
        match mode.entry_bytes() {
            Some(bytes) => {
                assert_eq!(pack_entry(mode, Entry::default(), &mut vec![0; bytes]), Ok(bytes), "{mode}");
                assert_eq!(pack_entry(mode, Entry::default(), &mut vec![0; bytes - 1]), Err(Refusal::Output), "{mode}");
                for length in 0..4 {
                    assert_eq!(unpack_entry(mode, &vec![0; length]).is_ok(), length == bytes, "{mode} {length}");
                }
            }
            None => {
                assert_eq!(pack_entry(mode, Entry::default(), &mut [0; 2]), Err(Refusal::PceSprite), "{mode}");
                assert_eq!((mode.tile_bits(), mode.palette_bits()), (None, None));
                assert_eq!((mode.has_flips(), mode.has_priority()), (false, false));
            }
        }
    }
    assert_eq!(modes_with_entries().count(), 15);
}

#[test]
fn entries_have_the_tables_bits() {
    for mode in modes_with_entries() {
        let plain = Entry::default();
        let (tiles, palettes) = (1 << mode.tile_bits().unwrap(), 1 << mode.palette_bits().unwrap());
        assert!(packs(mode, Entry { tile: tiles - 1, palette: palettes - 1, ..plain }), "{mode}");
        for above in [tiles, tiles + 1, u32::MAX] {
            assert!(!packs(mode, Entry { tile: above, ..plain }), "{mode} tile {above}");
        }
        for above in [palettes, palettes + 1, u32::MAX] {
            assert!(!packs(mode, Entry { palette: above, ..plain }), "{mode} palette {above}");
        }
        for (flip_h, flip_v) in [(true, false), (false, true), (true, true)] {
            assert_eq!(packs(mode, Entry { flip_h, flip_v, ..plain }), mode.has_flips(), "{mode}");
        }
        assert_eq!(packs(mode, Entry { priority: true, ..plain }), mode.has_priority(), "{mode}");
        let first = attribute(mode, Entry { priority: true, ..plain });
        assert_eq!(first.is_ok(), mode.has_priority(), "{mode}");
    }
}

/// A picture's flips are the entry's, a set's are not.
#[test]
fn pictures_have_flips_where_entries_have() {
    for mode in modes_with_entries() {
        let settings = Settings::new(mode, mode.depths()[0], MapSize { columns: 1, rows: 1 }).flips();
        let converted = settings.convert_to_vec(&[0; 64]).map(|converted| converted.picture.tiles);
        let expected = if mode.has_flips() { Ok(1) } else { Err(Refusal::Flips) };
        assert_eq!(converted.map_err(Refusal::from), expected, "{mode}");
    }
}
