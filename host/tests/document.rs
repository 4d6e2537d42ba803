//! The port against document 01, by the plain reading of it in `reading`. Every test prints how many answers it
//! compared.

mod common;
#[path = "document/flips.rs"]
mod flips;
#[path = "document/mode7.rs"]
mod mode7;
#[path = "document/pictures.rs"]
mod pictures;
#[path = "document/program.rs"]
mod program;
#[path = "document/sets.rs"]
mod sets;
#[path = "document/sheets.rs"]
mod sheets;
#[path = "document/strips.rs"]
mod strips;
#[path = "document/tiles.rs"]
mod tiles;
#[path = "document/titles.rs"]
mod titles;

use common::{assert_writes, on_noise, rooms, told};
use reading::{MODES, Random, Row};
use rumchivoat::{Entry, Mode, Refusal, Rounding};
use tiles::choices;

/// The sixteen modes and numbers above 15.
const MODE_NUMBERS: [u32; 21] = [0, 1, 2, 3, 4, 5, 6, 7, 8, 9, 10, 11, 12, 13, 14, 15, 16, 17, 255, 65_536, u32::MAX];

fn numbered_rows() -> impl Iterator<Item = (u32, &'static Row)> {
    (0..).zip(&MODES)
}

fn same_packed(mode: u32, colors: &[u8], noise: &[u8]) -> u64 {
    let (answer, bytes) = on_noise(noise, |out| reading::pack_colors(mode, colors, out));
    let case = || format!("pack_colors mode {mode} {colors:?} in {} bytes", noise.len());
    let expected = answer.map(|length| &bytes[..length]);
    assert_writes(case, expected, noise, |out| told(rumchivoat::pack_colors(mode, colors, out)))
}

fn same_unpacked(mode: u32, bytes: &[u8], noise: &[u8]) -> u64 {
    let (answer, colors) = on_noise(noise, |out| reading::unpack_colors(mode, bytes, out));
    let case = || format!("unpack_colors mode {mode} {bytes:?} in {} bytes", noise.len());
    let expected = answer.map(|length| &colors[..length]);
    assert_writes(case, expected, noise, |out| told(rumchivoat::unpack_colors(mode, bytes, out)))
}

fn read_entry(entry: Entry) -> reading::Entry {
    let Entry { tile, palette, flip_h, flip_v, priority } = entry;
    reading::Entry { tile, palette, flip_h, flip_v, priority }
}

fn same_entry_calls(mode: u32, entry: Entry, noise: &[u8]) -> u64 {
    let read = read_entry(entry);
    let case = |call: &'static str| move || format!("{call} mode {mode} {entry:?} in {} bytes", noise.len());

    let (answer, bytes) = on_noise(noise, |out| reading::pack_entry(mode, read, out));
    let expected = answer.map(|length| &bytes[..length]);
    assert_writes(case("pack_entry"), expected, noise, |out| told(rumchivoat::pack_entry(mode, entry, out)));

    let (answer, bytes) = on_noise(noise, |out| reading::tile_index(mode, read, out));
    let expected = answer.map(|length| &bytes[..length]);
    assert_writes(case("tile_index"), expected, noise, |out| told(rumchivoat::tile_index(mode, entry, out)));

    let attribute = told(rumchivoat::attribute(mode, entry)).map(u32::from);
    assert_eq!(attribute, reading::attribute(mode, read), "{}", case("attribute")());
    3
}

fn same_entry_read(mode: u32, bytes: &[u8]) -> u64 {
    let entry = told(rumchivoat::unpack_entry(mode, bytes)).map(read_entry);
    assert_eq!(entry, reading::unpack_entry(mode, bytes), "unpack_entry mode {mode} {bytes:?}");
    1
}

/// Every choice of flip h, flip v and priority.
fn with_every_flag(tile: u32, palette: u32) -> impl Iterator<Item = Entry> {
    (0..8).map(move |flags| Entry {
        tile,
        palette,
        flip_h: flags & 1 != 0,
        flip_v: flags & 2 != 0,
        priority: flags & 4 != 0,
    })
}

fn print_count(what: &str, count: u64) {
    println!("document 01, {what}: {count} comparisons");
}

#[test]
fn modes_and_refusals_have_the_documents_numbers() {
    for (number, row) in numbered_rows() {
        let mode = Mode::try_from(number).unwrap();
        assert_eq!((mode.number(), mode.name()), (number, row.name));
        assert_eq!(mode, Mode::ALL[number as usize]);
    }
    assert_eq!(Mode::try_from(16), Err(Refusal::Mode));
    for number in 0..=100 {
        // 10 is no longer given
        let is_given = (1..=19).contains(&number) && number != 10;
        assert_eq!(Refusal::try_from(number).map(Refusal::number), if is_given { Ok(number) } else { Err(number) });
    }
    assert_eq!(Refusal::Depth.to_string(), "refused 3: the mode does not have this depth");
}

/// Examples (e) to (k), as document 01 spells them.
#[test]
fn marked_examples() {
    let gray = |r: u8| [r, r, r, 255];
    let colors: [(Mode, Vec<u8>, &[u8]); 4] = [
        (Mode::Snes, vec![31, 0, 16, 255], &[0x1f, 0x40]),
        (Mode::Md, vec![7, 1, 4, 255], &[0x08, 0x2e]),
        (Mode::Gb, [3, 2, 1, 0].map(gray).concat(), &[0xe4]),
        (Mode::Ws, [7, 5, 2, 0].map(gray).concat(), &[0x20, 0x75]),
    ];
    for (mode, rgba, bytes) in colors {
        let mut out = [0; 2];
        assert_eq!(rumchivoat::pack_colors(mode, &rgba, &mut out), Ok(bytes.len()));
        assert_eq!(&out[..bytes.len()], bytes);
        let mut back = [0; 16];
        assert_eq!(rumchivoat::unpack_colors(mode, bytes, &mut back), Ok(rgba.len()));
        assert_eq!(back[..rgba.len()], rgba);
    }

    let plain = Entry::default();
    let entries = [
        (Mode::Snes, Entry { tile: 513, palette: 5, flip_h: true, priority: true, ..plain }, [0x01, 0x76]),
        (Mode::Md, Entry { tile: 801, palette: 2, flip_v: true, ..plain }, [0x53, 0x21]),
        (Mode::Pce, Entry { tile: 4095, palette: 15, ..plain }, [0xff, 0xff]),
    ];
    for (mode, entry, bytes) in entries {
        let mut out = [0; 2];
        assert_eq!(rumchivoat::pack_entry(mode, entry, &mut out), Ok(2));
        assert_eq!(out, bytes);
        assert_eq!(rumchivoat::unpack_entry(mode, &bytes), Ok(entry));
    }
    for (entry, refusal) in [(Entry { tile: 4096, ..plain }, 15), (Entry { flip_h: true, ..plain }, 17)] {
        assert_eq!(told(rumchivoat::pack_entry(Mode::Pce, entry, &mut [0; 2])), Err(refusal));
    }
}

#[test]
fn every_colour_packs_as_read() {
    let (mut count, mut random) = (0, Random::new(1));
    for (mode, row) in numbered_rows() {
        let top = row.top as u8;
        // gb and ws take four: the colour, then three that vary with it
        let colors_of = |r: u8, g: u8, b: u8| match row.name {
            "gb" | "ws" => [[r, g, b, 0], [g, b, r, 255], [b, r, g, 7], [top - r, g, r, 9]].concat(),
            _ => vec![r, g, b, r ^ g ^ b],
        };
        for r in 0..=top {
            for g in 0..=top {
                for b in 0..=top {
                    count += same_packed(mode, &colors_of(r, g, b), &random.bytes(3));
                }
            }
        }
    }
    print_count("every colour packed", count);
}

#[test]
fn a_component_above_the_top_is_9() {
    let (mut count, mut random) = (0, Random::new(2));
    for (mode, row) in numbered_rows() {
        let needed = reading::packed_length(mode, 16).unwrap();
        for place in 0..16 {
            for value in 0..=255 {
                let mut colors = random.colors(row.top, 4);
                colors[place] = value;
                for room in rooms(needed) {
                    count += same_packed(mode, &colors, &random.bytes(room));
                }
            }
        }
    }
    print_count("every value in every place of four colours", count);
}

#[test]
fn every_word_unpacks_as_read() {
    let (mut count, mut random) = (0, Random::new(3));
    for (mode, row) in numbered_rows() {
        for word in 0..=u16::MAX {
            let [low, high] = word.to_le_bytes();
            let bytes: &[u8] = match row.name {
                "gb" | "sms" => &[low],
                "ngp" => &[low, high, !low, high ^ low],
                _ => &[low, high],
            };
            count += same_unpacked(mode, bytes, &random.bytes(17));
        }
    }
    print_count("every word unpacked", count);
}

#[test]
fn colours_of_every_length() {
    let (mut count, mut random) = (0, Random::new(4));
    for mode in MODE_NUMBERS {
        let top = reading::row(mode).map_or(255, |row| row.top);
        for length in 0..=72 {
            for damage in 0..4 {
                let mut colors = random.colors(top, 18);
                colors.truncate(length);
                if damage == 0 && length > 0 {
                    colors[random.below(length as u32) as usize] = random.byte();
                }
                let needed = reading::packed_length(mode, length).unwrap_or(length);
                for room in rooms(needed).chain([0, needed / 2]) {
                    count += same_packed(mode, &colors, &random.bytes(room));
                }
                let bytes = random.bytes(length);
                let needed = 4 * reading::unpacked_count(mode, length).unwrap_or(length);
                for room in rooms(needed).chain([0, needed / 2]) {
                    count += same_unpacked(mode, &bytes, &random.bytes(room));
                }
            }
        }
    }
    print_count("colours of every length", count);
}

#[test]
fn large_palettes() {
    let (mut count, mut random) = (0, Random::new(5));
    for (mode, row) in numbered_rows() {
        for colors in [255, 256, 257, 4096] {
            let rgba = random.colors(row.top, colors);
            let needed = reading::packed_length(mode, rgba.len()).unwrap_or(0);
            for room in rooms(needed) {
                count += same_packed(mode, &rgba, &random.bytes(room));
            }
            let bytes = random.bytes(2 * colors);
            let needed = 4 * reading::unpacked_count(mode, bytes.len()).unwrap_or(0);
            for room in rooms(needed) {
                count += same_unpacked(mode, &bytes, &random.bytes(room));
            }
        }
    }
    print_count("large palettes", count);
}

#[test]
fn channels() {
    let mut count = 0;
    for mode in MODE_NUMBERS {
        for value in 0..=255 {
            for (rounding, nearest) in [(Rounding::Truncate, false), (Rounding::Nearest, true)] {
                let component = told(rumchivoat::reduce_channel(mode, value, rounding)).map(u32::from);
                assert_eq!(component, reading::reduce_channel(mode, value, nearest), "{mode} {value} {rounding:?}");
                count += 1;
            }
        }
        for component in (0..=1024).chain((0..32).map(|place| 1 << place)).chain([u32::MAX - 1, u32::MAX]) {
            let value = told(rumchivoat::scale_up(mode, component)).map(u32::from);
            assert_eq!(value, reading::scale_up(mode, component), "{mode} {component}");
            count += 1;
        }
    }
    print_count("channels", count);
}

/// "So 255 x result differs from value x m by at most 127"; "reducing its result either way gives the start".
#[test]
fn laws_of_channels() {
    for (mode, row) in numbered_rows() {
        for value in 0..=255 {
            let nearest = rumchivoat::reduce_channel(mode, value, Rounding::Nearest).unwrap();
            assert!((255 * u32::from(nearest)).abs_diff(u32::from(value) * row.top) <= 127);
        }
        for component in 0..=row.top {
            let value = rumchivoat::scale_up(mode, component).unwrap();
            for rounding in [Rounding::Truncate, Rounding::Nearest] {
                assert_eq!(rumchivoat::reduce_channel(mode, value, rounding).map(u32::from), Ok(component));
            }
        }
    }
}

#[test]
fn every_entry_and_just_beyond() {
    let (mut count, mut random) = (0, Random::new(6));
    for (mode, row) in numbered_rows() {
        for tile in 0..=1 << row.tile_bits {
            for palette in 0..=1 << row.palette_bits {
                let noise = random.bytes(2);
                for entry in with_every_flag(tile, palette) {
                    count += same_entry_calls(mode, entry, &noise);
                }
            }
        }
    }
    print_count("every entry", count);
}

#[test]
fn entries_in_every_mode_number_and_buffer() {
    let (mut count, mut random) = (0, Random::new(7));
    for mode in MODE_NUMBERS {
        for tile_bits in 0..=32 {
            for palette_bits in 0..=32 {
                // any number of so many bits, so that every field is too wide as often as not
                let mut wide = |bits: u32| ((random.number() >> 16) % (1 << bits)) as u32;
                let (tile, palette) = (wide(tile_bits), wide(palette_bits));
                for entry in with_every_flag(tile, palette) {
                    for room in 0..=3 {
                        count += same_entry_calls(mode, entry, &random.bytes(room));
                    }
                }
            }
        }
    }
    print_count("entries of every width", count);
}

#[test]
fn every_entry_word_reads_as_read() {
    let (mut count, mut random) = (0, Random::new(8));
    for mode in MODE_NUMBERS {
        for word in 0..=u16::MAX {
            count += same_entry_read(mode, &word.to_le_bytes());
        }
        for byte in 0..=255 {
            count += same_entry_read(mode, &[byte]);
        }
        for length in 0..=9 {
            for _ in 0..50 {
                count += same_entry_read(mode, &random.bytes(length));
            }
        }
    }
    print_count("every entry word", count);
}

/// "Colours return where alpha is 255 and, in gray modes, r = g = b, for ngp only where there are four."
#[test]
fn colours_return() {
    let mut random = Random::new(9);
    for (mode, row) in numbered_rows() {
        for _ in 0..500 {
            let mut colors = random.colors(row.top, 4);
            for color in colors.chunks_exact_mut(4) {
                color[3] = 255;
                if ["gb", "ngp", "ws"].contains(&row.name) {
                    color.copy_within(0..1, 1);
                    color.copy_within(0..1, 2);
                }
            }
            let (mut bytes, mut back) = ([0; 16], [0; 16]);
            let length = rumchivoat::pack_colors(mode, &colors, &mut bytes).unwrap();
            assert_eq!(rumchivoat::unpack_colors(mode, &bytes[..length], &mut back), Ok(16));
            assert_eq!(back[..], colors);
        }
    }
}

/// "Bytes return where unused bits are 0": a second turn starts from such bytes.
#[test]
fn colour_bytes_return() {
    let mut random = Random::new(10);
    for (mode, _) in numbered_rows() {
        let length = reading::packed_length(mode, 16).unwrap();
        let turn = |bytes: &[u8]| {
            let (mut colors, mut back) = ([0; 16], vec![0; length]);
            assert_eq!(rumchivoat::unpack_colors(mode, bytes, &mut colors), Ok(16));
            assert_eq!(rumchivoat::pack_colors(mode, &colors, &mut back), Ok(length));
            back
        };
        for _ in 0..500 {
            let cleared = turn(&random.bytes(length));
            assert_eq!(turn(&cleared), cleared);
        }
    }
}

#[test]
fn entries_return() {
    let mut random = Random::new(11);
    for (mode, row) in numbered_rows().filter(|(_, row)| row.entry_bytes > 0) {
        for tile in 0..1 << row.tile_bits {
            for entry in with_every_flag(tile, random.below(1 << row.palette_bits)) {
                let entry = Entry {
                    flip_h: entry.flip_h && row.flips,
                    flip_v: entry.flip_v && row.flips,
                    priority: entry.priority && row.priority,
                    ..entry
                };
                let mut bytes = [0; 2];
                let length = rumchivoat::pack_entry(mode, entry, &mut bytes).unwrap();
                assert_eq!(length, row.entry_bytes);
                assert_eq!(rumchivoat::unpack_entry(mode, &bytes[..length]), Ok(entry));
            }
        }
    }
}

/// "Where several apply, the lowest number is given": of colours, of a component and of a reading.
#[test]
fn the_lowest_refusal_is_given() {
    let pack = |mode: u32, colors: &[u8], room: usize| told(rumchivoat::pack_colors(mode, colors, &mut vec![0; room]));
    let above = [255; 5];
    assert_eq!(pack(16, &above, 0), Err(1));
    assert_eq!(pack(0, &above, 0), Err(7));
    assert_eq!(pack(0, &above[..4], 0), Err(9));
    assert_eq!(pack(0, &[0; 4], 0), Err(11));
    assert_eq!(pack(0, &[], 0), Ok(0));
    assert_eq!(pack(2, &[], 0), Err(7));

    let unpack = |mode: u32, bytes: &[u8]| told(rumchivoat::unpack_colors(mode, bytes, &mut []));
    assert_eq!(unpack(16, &[0]), Err(1));
    assert_eq!(unpack(0, &[0]), Err(7));
    assert_eq!(unpack(0, &[0, 0]), Err(11));

    assert_eq!(told(rumchivoat::scale_up(16u32, u32::MAX)), Err(1));
    assert_eq!(told(rumchivoat::scale_up(0u32, 32)), Err(9));

    assert_eq!(told(rumchivoat::unpack_entry(16u32, &[])), Err(1));
    assert_eq!(told(rumchivoat::unpack_entry(10u32, &[])), Err(2));
    assert_eq!(told(rumchivoat::unpack_entry(0u32, &[])), Err(7));
}

/// What can be wrong with an entry, "15 tile, 16 palette, 17 flip, 18 priority, checked in that order", with the least
/// number that its bits cannot hold or a larger one; 17 by h, v or both.
fn damaged_entries(row: &Row, refusals: &[u32]) -> Vec<Entry> {
    let has = |refusal| refusals.contains(&refusal);
    let above = |refusal, bits: u32| if has(refusal) { vec![1 << bits, u32::MAX] } else { vec![0, (1 << bits) - 1] };
    let flips = if has(17) { vec![(true, false), (false, true), (true, true)] } else { vec![(false, false)] };
    let mut entries = Vec::new();
    for tile in above(15, row.tile_bits) {
        for palette in above(16, row.palette_bits) {
            for &(flip_h, flip_v) in &flips {
                entries.push(Entry { tile, palette, flip_h, flip_v, priority: has(18) });
            }
        }
    }
    entries
}

/// Whichever of an entry's refusals apply, the first is given by every call that takes an entry: 1, 2, the field's, 11.
#[test]
fn the_first_field_is_told() {
    let mut count = 0;
    for (mode, row) in numbered_rows() {
        for refusals in choices(&[1, 2, 15, 16, 17, 18, 11]) {
            // where the mode has flips or priority 17 and 18 cannot be
            if (row.flips && refusals.contains(&17)) || (row.priority && refusals.contains(&18)) {
                continue;
            }
            let sprite = row.name == "pce_sprite" && !refusals.contains(&1);
            let number = if refusals.contains(&1) { 16 } else { mode };
            let number = if refusals.contains(&2) && number != 16 { 10 } else { number };
            let first = if sprite { Some(2) } else { refusals.first().copied() };
            for entry in damaged_entries(row, &refusals) {
                let space = if refusals.contains(&11) { 0 } else { 2 };
                let packed = told(rumchivoat::pack_entry(number, entry, &mut [0; 2][..space]));
                let index = told(rumchivoat::tile_index(number, entry, &mut [0; 2][..space]));
                assert_eq!(packed.err(), first, "{} {entry:?} {refusals:?}", row.name);
                assert_eq!(index.err(), first, "{} {entry:?} {refusals:?}", row.name);
                let attribute = told(rumchivoat::attribute(number, entry));
                assert_eq!(
                    attribute.err(),
                    first.filter(|&refusal| refusal != 11),
                    "{} {entry:?} {refusals:?}",
                    row.name
                );
                count += 3;
            }
        }
    }
    print_count("an entry's refusals together", count);
}
