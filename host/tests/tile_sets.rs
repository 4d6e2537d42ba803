//! `TileSet` against the plain calls of `Set` on a store beside it: the same answers, and the same bytes.

use rumchivoat::{Logical, Mode, Place, Refusal, Set, SetSettings, TileSet, TileSize};

/// Tiles of which some match: the number's low bits in its first and its last pixel.
fn tile(size: TileSize, number: usize) -> Vec<u8> {
    let mut pixels = vec![0; (size.width * size.height) as usize];
    if let [first, .., last] = &mut pixels[..] {
        (*first, *last) = (number as u8 & 3, (number >> 2) as u8 & 3);
    }
    pixels
}

fn shapes() -> [(Mode, u32, TileSize); 5] {
    let size = |width, height| TileSize { width, height };
    [
        (Mode::Snes, 2, size(8, 8)),
        (Mode::Snes, 4, size(16, 16)),
        (Mode::Md, 4, size(8, 32)),
        (Mode::PceSprite, 4, size(32, 64)),
        (Mode::Gb, 2, size(8, 8)),
    ]
}

fn settings() -> impl Iterator<Item = SetSettings> {
    let plain = shapes().into_iter().map(|(mode, depth, size)| SetSettings::new(mode, depth, size));
    let flagged =
        plain.flat_map(|settings| [settings, settings.flips(), settings.discarding(), settings.flips().discarding()]);
    flagged.flat_map(|settings| [settings, settings.limit(3), settings.limit(40)])
}

/// The same calls on both; at the end, both stores hold the same, noise and all.
fn same_calls<S: AsRef<[u8]> + AsMut<[u8]>>(settings: SetSettings, mut tiles: TileSet<S>, mut store: Vec<u8>) {
    let mut set = Set::with_settings(settings).unwrap();
    for number in (0..40).chain(0..40) {
        let pixels = tile(settings.size, number * 7);
        assert_eq!(tiles.look_up(&pixels).map_err(Refusal::from), set.look_up(&store, &pixels));
        assert_eq!(tiles.add(&pixels).map_err(Refusal::from), set.add(&mut store, &pixels));
        assert_eq!(tiles.add(&pixels[1..]).map_err(Refusal::from), Err(Refusal::Length));
        assert_eq!((tiles.settings(), tiles.len(), tiles.discarded()), (settings, set.stored as usize, set.discarded));
        if number == 39 {
            same_bytes(&tiles, set, &store);
            assert_eq!((tiles.reset(), set.reset()), (Ok(()), Ok(())));
            assert!(tiles.is_empty() && tiles.tile(Logical(0)).is_none());
        }
    }
    same_bytes(&tiles, set, &store);
    let (plain, kept) = tiles.into_parts();
    assert_eq!((plain, kept.as_ref()), (set, &store[..]));
}

fn same_bytes<S: AsRef<[u8]> + AsMut<[u8]>>(tiles: &TileSet<S>, set: Set, store: &[u8]) {
    let pixels = (set.width * set.height) as usize;
    assert_eq!((tiles.len(), tiles.discarded()), (set.stored as usize, set.discarded));
    for number in 0..set.stored {
        let start = number as usize * pixels;
        assert_eq!(tiles.tile(Logical(number)), Some(&store[start..start + pixels]));
    }
    for number in [set.stored, set.stored + 1, u32::MAX] {
        assert_eq!(tiles.tile(Logical(number)), None);
    }
    let length = tiles.write_len().unwrap();
    let (mut bytes, mut plain) = (vec![0xee; length + 1], vec![0xee; length + 1]);
    assert_eq!((tiles.write(&mut bytes), set.write(store, &mut plain)), (Ok(length), Ok(length)));
    assert_eq!(bytes, plain);
    assert_eq!(tiles.write_to_vec().unwrap(), bytes[..length]);
}

#[test]
fn a_set_that_owns_its_store() {
    for settings in settings() {
        let noise = vec![0xa5; settings.store_len(0).unwrap() + 21 * settings.store_len(1).unwrap() + 5];
        let tiles = TileSet::new(settings, noise.clone()).unwrap();
        assert_eq!(tiles.room(), if settings.limit == 3 { 3 } else { 21 });
        same_calls(settings, tiles, noise);
    }
}

#[test]
fn a_set_that_borrows_its_store() {
    for settings in settings() {
        let mut lent = vec![0xa5; 21 * settings.store_len(1).unwrap() + 5];
        let noise = lent.clone();
        same_calls(settings, TileSet::new(settings, &mut lent[..]).unwrap(), noise);
    }
}

#[test]
fn a_set_is_read_as_it_was_written() {
    for settings in settings() {
        let SetSettings { mode, depth, size, flips, .. } = settings;
        let mut tiles = TileSet::new(settings, vec![0; settings.store_len(3).unwrap()]).unwrap();
        for number in 1..4 {
            tiles.add(&tile(size, number)).unwrap();
        }
        let bytes = tiles.write_to_vec().unwrap();
        let read = TileSet::read(mode, depth, size, flips, &bytes, vec![0; 64 * bytes.len()]).unwrap();
        let expected = SetSettings::new(mode, depth, size).discarding();
        assert_eq!(read.settings(), if flips { expected.flips() } else { expected });
        assert!(read.len() >= tiles.len() && read.discarded() == 0);
        for number in 0..3 {
            assert_eq!(read.tile(Logical(number)), tiles.tile(Logical(number)));
        }
        assert_eq!(read.write_to_vec().unwrap(), bytes);
        let found = read.look_up(&tile(size, 2)).unwrap();
        assert_eq!(found.map(|Place { place, .. }| place), Some(Logical(1)));
    }
}

/// A store that was filled for another job changes nothing: only stored tiles are looked at.
#[test]
fn what_a_store_held_is_never_seen() {
    let settings = SetSettings::new(Mode::Snes, 2, TileSize::CELL).flips().discarding();
    let mut store = vec![0; 4 * 64];
    let mut first = TileSet::new(settings, &mut store[..]).unwrap();
    for number in 1..5 {
        first.add(&tile(TileSize::CELL, number)).unwrap();
    }
    let mut second = TileSet::new(settings, &mut store[..]).unwrap();
    assert_eq!((second.look_up(&tile(TileSize::CELL, 1)), second.write_to_vec()), (Ok(None), Ok(vec![])));
    second.add(&tile(TileSize::CELL, 4)).unwrap();
    assert_eq!((second.len(), second.discarded(), second.write_to_vec().unwrap().len()), (1, 0, 16));
}
