//! What `Result` does not show: a refused answer holds nothing else.

use super::*;

/// The sixteen modes and three numbers that are none.
fn mode_numbers() -> impl Iterator<Item = u32> {
    (0..16).chain([16, 255, u32::MAX])
}

#[test]
fn refused_tiles_tell_no_length() {
    let input = [[0; 64], [255; 64], [0; 64], [0; 64]].concat();
    for mode in mode_numbers() {
        for depth in (0..=9).chain([u32::MAX]) {
            for (width, height) in [(8, 8), (16, 16), (8, 16), (16, 8), (0, 0), (u32::MAX, u32::MAX)] {
                for length in [0, 8, 16, 32, 63, 64, 65, 128, 255, 256] {
                    for room in [0, 7, 8, 63, 64, 128, 255, 256] {
                        for input in [&input[..length], &vec![0; length]] {
                            let mut out = vec![0xa5; room];
                            let packed = pack_tile(mode, depth, width, height, input, &mut out);
                            assert!(packed.is_bare_if_refused());
                            let unpacked = unpack_tile(mode, depth, width, height, input, &mut out);
                            assert!(unpacked.is_bare_if_refused());
                        }
                    }
                }
            }
        }
    }
}

#[test]
fn refused_flips_tell_no_length() {
    let input = [0xff; 129];
    for mode in mode_numbers() {
        for depth in (0..=9).chain([u32::MAX]) {
            for (flip_h, flip_v) in [(false, false), (true, false), (false, true), (true, true)] {
                for length in [0, 7, 8, 9, 15, 16, 17, 31, 32, 33, 63, 64, 65, 128, 129] {
                    for room in [0, 7, 8, 15, 16, 31, 32, 63, 64, 128] {
                        let mut out = vec![0xa5; room];
                        let flipped = flip_tile(mode, depth, flip_h, flip_v, &input[..length], &mut out);
                        assert!(flipped.is_bare_if_refused(), "{mode} {depth} {length} {room} {flipped:?}");
                    }
                }
            }
        }
    }
}

#[test]
fn refused_colors_tell_no_length() {
    let colors = [[0, 0, 0, 255], [31, 31, 31, 0], [255, 3, 3, 9]].concat();
    for mode in mode_numbers() {
        for length in 0..=colors.len() {
            for room in 0..=colors.len() {
                let mut out = vec![0xa5; room];
                assert!(pack_colors(mode, &colors[..length], &mut out).is_bare_if_refused());
                let mut out = vec![0xa5; 3 * room];
                assert!(unpack_colors(mode, &colors[..length], &mut out).is_bare_if_refused());
            }
        }
    }
}

#[test]
fn refused_numbers_are_0() {
    for mode in mode_numbers() {
        for value in 0..=255 {
            for nearest in [false, true] {
                assert!(reduce_channel(mode, value, nearest).is_bare_if_refused());
            }
            assert!(scale_up(mode, u32::from(value)).is_bare_if_refused());
            assert!(scale_up(mode, u32::MAX - u32::from(value)).is_bare_if_refused());
        }
    }
}

#[test]
fn refused_entries_are_empty() {
    let bytes = [0xff; 4];
    for mode in mode_numbers() {
        for length in 0..=bytes.len() {
            assert!(unpack_entry(mode, &bytes[..length]).is_bare_if_refused());
        }
        for ones in 0..=32u32 {
            // the largest number of so many bits
            let number = ((1u64 << ones) - 1) as u32;
            for flags in 0..8 {
                let (flip_h, flip_v, priority) = (flags & 1 != 0, flags & 2 != 0, flags & 4 != 0);
                for (tile, palette) in [(number, 0), (0, number), (number, number)] {
                    let entry = crate::Entry { tile, palette, flip_h, flip_v, priority };
                    for room in 0..3 {
                        let mut out = vec![0xa5; room];
                        assert!(pack_entry(mode, entry, &mut out).is_bare_if_refused());
                        assert!(tile_index(mode, entry, &mut out).is_bare_if_refused());
                    }
                    assert!(attribute(mode, entry).is_bare_if_refused());
                }
            }
        }
    }
}

/// Sets around every boundary of their settings and state.
fn sets() -> impl Iterator<Item = Set> {
    let shapes = [(2, 8, 8), (4, 16, 16), (3, 8, 8), (2, 9, 8), (2, u32::MAX, u32::MAX)];
    let shaped = shapes.into_iter().flat_map(|(depth, width, height)| {
        mode_numbers().map(move |mode| Set { mode, depth, width, height, ..Set::default() })
    });
    let flagged = shaped.flat_map(|set| {
        [(false, false), (true, false), (true, true)].map(|(flips, discarding)| Set { flips, discarding, ..set })
    });
    flagged.flat_map(|set| {
        [(0, 0, 0), (0, 1, u32::MAX), (1, 1, u32::MAX), (1, 2, 7), (2, u32::MAX, 1)]
            .map(|(limit, stored, discarded)| Set { limit, stored, discarded, ..set })
    })
}

/// Counts of common tiles, and the lengths of their stores.
const COMMON: [(u32, usize); 6] = [(0, 0), (1, 63), (1, 64), (2, 512), (65_535, 64), (u32::MAX, 512)];

#[test]
fn refused_sets_are_as_they_came() {
    for set in sets() {
        let Set { mode, depth, width, height, flips, discarding, limit, .. } = set;
        assert!(set_new(mode, depth, width, height, flips, discarding, limit).is_as_it_came_if_refused(Set::default()));
        assert!(set_reset(set).is_as_it_came_if_refused(set));
        for length in [0, 63, 64, 65, 127, 256, 300] {
            let (mut store, pixels) = (vec![0; 256], vec![0; length]);
            assert!(set_add(set, &mut store[..length.min(256)], &pixels).is_as_it_came_if_refused(set));
            assert!(set_add(set, &mut store, &pixels).is_as_it_came_if_refused(set));
            for (count, wide) in COMMON {
                let added = title_add(set, count, &vec![0; wide], &mut store, &pixels);
                assert!(added.is_as_it_came_if_refused(set));
            }
            let read = set_read(mode, depth, width, height, flips, &pixels, &mut store);
            assert!(read.is_as_it_came_if_refused(Set::default()));
        }
    }
}

#[test]
fn refused_places_and_numbers_of_sets_are_empty() {
    for set in sets() {
        let store = [[0; 64], [255; 64], [1; 64], [2; 64]].concat();
        for length in [0, 63, 64, 65, 127, 256] {
            for pixel in 0..3 {
                let pixels = vec![pixel; length];
                assert!(set_look_up(set, &store, &pixels).is_bare_unless_found());
                for (count, wide) in COMMON {
                    assert!(title_look_up(set, count, &vec![3; wide], &store, &pixels).is_bare_unless_found());
                }
            }
            assert!(set_write(set, &store[..length], &mut [0; 64]).is_bare_if_refused());
            assert!(set_write(set, &store[..length], &mut []).is_bare_if_refused());
        }
        for number in [0, 1, 65_535, 65_536, u32::MAX] {
            assert!(native_number(set.mode, set.width, set.height, number).is_bare_if_refused());
            assert!(logical_number(set.mode, set.width, set.height, number).is_bare_if_refused());
        }
    }
}

#[test]
fn refused_mode7_blocks_tell_no_length() {
    let halves = [0, 1, 16_383, 16_384, 16_385, 32_768];
    let input = vec![0x5a; 65_536];
    for block in [0, 1, 16_384, 32_767, 32_768, 32_769, 65_536] {
        for (tiles, map) in halves.iter().flat_map(|&tiles| halves.map(|map| (tiles, map))) {
            let made = mode7_make(&input[..tiles], &input[..map], &mut vec![0xa5; block]);
            assert!(made.is_bare_if_refused(), "{tiles} {map} {block} {made:?}");
            let split = mode7_split(&input[..block], &mut vec![0xa5; tiles], &mut vec![0xa5; map]);
            assert!(split.is_bare_if_refused(), "{block} {tiles} {map} {split:?}");
        }
    }
}

/// Numbers that are no refusal of document 01.
const OTHER_NUMBERS: [u32; 4] = [15, 16, 255, u32::MAX];

#[test]
fn a_number_that_is_not_known_is_answered_in_every_call() {
    for refusal in OTHER_NUMBERS {
        let unknown = Refusal::of(refusal);
        assert_eq!(unknown.number(), refusal);
        assert_eq!(Written { refusal, written: 0 }.length(), Err(unknown));
        assert_eq!(Written { refusal, written: 11 }.ran().map(|ran| ran.told), Ok(Some(unknown)));
        assert_eq!(Number { refusal, value: 0 }.number(), Err(unknown));
        assert_eq!(Number { refusal, value: 0 }.byte(), Err(unknown));
        let entry = Entry { refusal, tile: 0, palette: 0, flip_h: false, flip_v: false, priority: false };
        assert_eq!(entry.entry(), Err(unknown));
        assert_eq!(SetAnswer { refusal, set: Set::default() }.set(), Err(unknown));
        let place = Place { refusal, found: false, place: 0, flip_h: false, flip_v: false };
        assert_eq!(place.place(), Err(unknown));
    }
}

#[test]
fn a_value_that_is_no_byte_is_not_cut() {
    for value in [256, 511, u32::MAX] {
        assert_eq!(Number { refusal: 0, value }.byte(), Err(Refusal::of(0)));
    }
    assert_eq!(Number { refusal: 0, value: 255 }.byte(), Ok(255));
}
