//! `Title` against the plain calls of `Set` on stores beside it: the same answers, and the same bytes.

use rumchivoat::{Logical, Mode, Refusal, Set, SetSettings, TileSet, TileSize, Title};

/// Tiles of which some match: the number's low bits in its first and its last pixel.
fn tile(size: TileSize, number: usize) -> Vec<u8> {
    let mut pixels = vec![0; (size.width * size.height) as usize];
    if let [first, .., last] = &mut pixels[..] {
        (*first, *last) = (number as u8 & 3, (number >> 2) as u8 & 3);
    }
    pixels
}

fn settings() -> impl Iterator<Item = SetSettings> {
    let size = |width, height| TileSize { width, height };
    let shapes = [
        (Mode::Snes, 2, size(8, 8)),
        (Mode::Snes, 4, size(16, 16)),
        (Mode::Md, 4, size(8, 32)),
        (Mode::PceSprite, 4, size(32, 64)),
        (Mode::Gb, 2, size(8, 8)),
    ];
    let plain = shapes.into_iter().map(|(mode, depth, size)| SetSettings::new(mode, depth, size));
    let flagged =
        plain.flat_map(|settings| [settings, settings.flips(), settings.discarding(), settings.flips().discarding()]);
    flagged.flat_map(|settings| [settings, settings.limit(3), settings.limit(40)])
}

/// A common store of so many tiles, and a little more.
fn common_store(settings: SetSettings, tiles: usize) -> Vec<u8> {
    (0..tiles).flat_map(|number| tile(settings.size, 5 * number + 2)).chain([0xa5; 7]).collect()
}

/// The same calls on both; at the end, both own stores hold the same, noise and all.
fn same_calls<S: AsRef<[u8]> + AsMut<[u8]>>(mut title: Title<'_, S>, common: &[u8], mut store: Vec<u8>) {
    let settings = title.own().settings();
    let (count, mut set) = (title.common_count(), Set::with_settings(settings).unwrap());
    for number in (0..40).chain(0..40) {
        let pixels = tile(settings.size, number * 7);
        let plain = set.title_look_up(count, common, &store, &pixels);
        let held = title.look_up(&pixels).map_err(Refusal::from);
        assert_eq!(held, plain);
        assert!(held.ok().flatten().is_none_or(|held| title.tile(held.place) == Some(held.part)));
        assert_eq!(title.add(&pixels).map_err(Refusal::from), set.title_add(count, common, &mut store, &pixels));
        assert_eq!(title.add(&pixels[1..]).map_err(Refusal::from), Err(Refusal::Length));
        assert_eq!(title.look_up(&pixels[1..]).map_err(Refusal::from), Err(Refusal::Length));
        assert_eq!((title.own().len(), title.own().discarded()), (set.stored as usize, set.discarded));
        if number == 39 {
            same_tiles(&title, common, set, &store);
            assert_eq!((title.reset(), set.reset()), (Ok(()), Ok(())));
            assert!(title.own().is_empty() && title.tile(Logical(count)).is_none());
        }
    }
    same_tiles(&title, common, set, &store);
    let (plain, kept) = title.into_own().into_parts();
    assert_eq!((plain, kept.as_ref()), (set, &store[..]));
}

/// The common tiles, then the title's own, and no others; and the own ones alone are written.
fn same_tiles<S: AsRef<[u8]> + AsMut<[u8]>>(title: &Title<'_, S>, common: &[u8], set: Set, store: &[u8]) {
    let (count, pixels) = (title.common_count(), (set.width * set.height) as usize);
    let due =
        common.chunks_exact(pixels).take(count as usize).chain(store.chunks_exact(pixels).take(set.stored as usize));
    let tiles = (0..count + set.stored).map(|number| title.tile(Logical(number)));
    assert!(tiles.eq(due.map(Some)));
    for number in [count + set.stored, count + set.stored + 1, u32::MAX] {
        assert_eq!(title.tile(Logical(number)), None);
    }
    let mut bytes = vec![0xee; title.own().write_len().unwrap()];
    assert_eq!(set.write(store, &mut bytes), Ok(bytes.len()));
    assert_eq!(title.own().write_to_vec().unwrap(), bytes);
}

#[test]
fn a_title_that_owns_its_store() {
    for settings in settings() {
        for count in [0, 1, 3, 8] {
            let common = common_store(settings, 8);
            let noise = vec![0xa5; 21 * settings.store_len(1).unwrap() + 5];
            let title = Title::new(settings, count, &common, noise.clone()).unwrap();
            assert_eq!((title.common_count(), title.room()), (count, if settings.limit == 3 { 3 } else { 21 }));
            same_calls(title, &common, noise);
        }
    }
}

#[test]
fn a_title_that_borrows_its_store() {
    for settings in settings() {
        let common = common_store(settings, 4);
        let mut lent = vec![0xa5; 21 * settings.store_len(1).unwrap() + 5];
        let noise = lent.clone();
        same_calls(Title::new(settings, 4, &common, &mut lent[..]).unwrap(), &common, noise);
    }
}

/// A part is not a copy: it lies in the common store, or in the own store that comes back.
#[test]
fn a_part_lies_in_its_store() {
    let settings = SetSettings::new(Mode::Snes, 2, TileSize::CELL).flips().discarding();
    let common = common_store(settings, 2);
    let mut store = [0; 128];
    let start = store.as_ptr() as usize;
    let mut title = Title::new(settings, 2, &common, &mut store[..]).unwrap();
    title.add(&tile(TileSize::CELL, 0)).unwrap();
    title.add(&tile(TileSize::CELL, 5)).unwrap();
    let found = |number| {
        let held = title.look_up(&tile(TileSize::CELL, number)).unwrap();
        held.map(|held| (held.place, held.part.as_ptr() as usize))
    };
    assert_eq!(found(7), Some((Logical(1), common.as_ptr() as usize + 64)));
    assert_eq!(found(5), Some((Logical(3), start + 64)));
}

/// Two titles over one common store, turn about: each is as it would be alone.
#[test]
fn twins_share_the_common_store() {
    for settings in settings() {
        let common = common_store(settings, 3);
        let store = vec![0xa5; settings.store_len(1).unwrap() * 21];
        let new = || Title::new(settings, 3, &common, store.clone()).unwrap();
        let pixels = |turn: usize, twin: usize| tile(settings.size, (turn * 7 + twin * 3) * (twin + 1));
        let alone = [0, 1].map(|twin| {
            let mut title = new();
            let answers: Vec<_> = (0..30).map(|turn| title.add(&pixels(turn, twin))).collect();
            (answers, title.into_own().into_parts())
        });
        let (mut twins, mut answers) = ([new(), new()], [Vec::new(), Vec::new()]);
        for (turn, twin) in (0..30).flat_map(|turn| [(turn, 0), (turn, 1)]) {
            answers[twin].push(twins[twin].add(&pixels(turn, twin)));
        }
        let [one, other] = twins.map(|title| title.into_own().into_parts());
        let [first, second] = answers;
        assert_eq!([(first, one), (second, other)], alone);
        assert_eq!(common, common_store(settings, 3));
    }
}

/// A set that was read, or that was a title's, is a title's again; its tiles are numbered after the common ones.
#[test]
fn a_set_becomes_a_title() {
    let settings = SetSettings::new(Mode::Snes, 2, TileSize::CELL);
    let common = common_store(settings, 2);
    let mut set = TileSet::new(settings, vec![0; 256]).unwrap();
    set.add(&tile(TileSize::CELL, 1)).unwrap();
    set.add(&tile(TileSize::CELL, 3)).unwrap();
    let read = TileSet::read(Mode::Snes, 2, TileSize::CELL, true, &set.write_to_vec().unwrap(), vec![0; 256]).unwrap();
    let title = Title::with_own(read, 2, &common).unwrap();
    assert_eq!((title.own().len(), title.tile(Logical(3))), (2, set.tile(Logical(1))));
    let again = Title::with_own(title.into_own(), 1, &common).unwrap();
    let found = again.look_up(&tile(TileSize::CELL, 3)).unwrap();
    assert_eq!(found.map(|held| (held.place, held.common)), Some((Logical(2), false)));
}

/// A title is refused at once where its settings or its common store are.
#[test]
fn titles_that_are_none() {
    let cell = SetSettings::new(Mode::Snes, 2, TileSize::CELL);
    let refused =
        |settings, count, common: &[u8]| Title::new(settings, count, common, [0; 64]).map(drop).map_err(Refusal::from);
    assert_eq!(refused(SetSettings::new(16u32, 2, TileSize::CELL), 9, &[]), Err(Refusal::Mode));
    assert_eq!(refused(SetSettings::new(Mode::Snes, 3, TileSize::CELL), 9, &[]), Err(Refusal::Depth));
    let wide = TileSize { width: 9, height: 8 };
    assert_eq!(refused(SetSettings::new(Mode::Snes, 2, wide), 9, &[]), Err(Refusal::Size));
    for (count, length) in [(1, 0), (1, 63), (2, 127), (u32::MAX, 128)] {
        assert_eq!(refused(cell, count, &vec![0; length]), Err(Refusal::Count), "{count} in {length} bytes");
    }
    let most = vec![0; 65_536 * 64];
    assert_eq!(refused(cell, 65_536, &most), Err(Refusal::Count));
    for (count, common) in [(0, &[][..]), (1, &most[..64]), (65_535, &most[..])] {
        assert_eq!(refused(cell, count, common), Ok(()), "{count}");
    }
}
