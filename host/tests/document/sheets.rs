//! Sheets against document 01: `run` on good and damaged ones.

use std::collections::BTreeMap;
use std::fs;

use reading::{KEYS, MODES, Random, Row, Settings, Text};
use rumchivoat::{LONGEST_TEXT, Mode, Ran, Refusal};

use super::common::pictures::{
    Kind, different_tiles, most_tiles, picture_modes, picture_of, places, row_of, with_every_flag,
};
use super::common::{told, writes};
use super::tiles::choices;

const MODE: usize = 0;
const COLUMNS: usize = 6;
const ROWS: usize = 7;

/// What a text can tell: the numbers of a picture that a sheet can call for, and 14. Its lengths are right and its map
/// has room, so 7 and 11 are not among them.
const TOLD: [u32; 8] = [0, 2, 3, 4, 5, 12, 14, 16];

/// A sheet in its parts: its lines without their newlines, and its pixels.
#[derive(Debug, Clone)]
pub struct Sheet {
    lines: Vec<Vec<u8>>,
    pixels: Vec<u8>,
}

impl Sheet {
    /// As a station writes it.
    pub fn new(settings: Settings, pixels: Vec<u8>) -> Sheet {
        let Settings { depth, flip, discard, limit, palette, columns, rows, .. } = settings;
        let numbers = [depth, flip.into(), discard.into(), limit, palette, columns, rows].map(|n| n.to_string());
        let texts = [row_of(settings).name.to_owned()].into_iter().chain(numbers);
        let lines = KEYS.iter().zip(texts).map(|(key, text)| format!("{key}={text}").into_bytes()).collect();
        Sheet { lines, pixels }
    }

    /// The lines, each with its newline.
    pub fn settings(&self) -> Vec<u8> {
        self.lines.iter().flat_map(|line| [line, &b"\n"[..]].concat()).collect()
    }

    pub fn bytes(&self) -> Vec<u8> {
        [self.settings(), self.pixels.clone()].concat()
    }

    /// With another text after a line's key.
    pub fn with_text(&self, line: usize, text: &[u8]) -> Sheet {
        self.with_line(line, [KEYS[line].as_bytes(), b"=", text].concat())
    }

    fn with_line(&self, line: usize, bytes: Vec<u8>) -> Sheet {
        let mut sheet = self.clone();
        sheet.lines[line] = bytes;
        sheet
    }

    fn with_pixels(&self, count: usize) -> Sheet {
        let mut sheet = self.clone();
        sheet.pixels.resize(count, 0);
        sheet
    }
}

/// How many sheets told each number.
#[derive(Default)]
struct Tally(BTreeMap<u32, u64>);

impl Tally {
    /// Fails unless the port writes the reading's text and answers the number that it tells: in buffers of noise that
    /// are exact and one byte long, the byte after the text left as it was; and with 11 in one that is one byte short,
    /// all of it left. Answers the number.
    fn run(&mut self, input: &[u8], random: &mut Random) -> u32 {
        let Text { refusal, bytes } = reading::run(input);
        let case = || format!("run on {} bytes: {}", input.len(), input[..input.len().min(300)].escape_ascii());
        writes(case, &bytes, random, |out| {
            let Ran { written, told } = told(rumchivoat::run(input, out))?;
            assert_eq!(told.map_or(0, Refusal::number), refusal, "{}", case());
            Ok(written)
        });
        assert!(TOLD.contains(&refusal), "{refusal} is told by {}", case());
        *self.0.entry(refusal).or_default() += 1;
        refusal
    }

    fn print(&self, what: &str) {
        let told: Vec<String> = self.0.iter().map(|(number, count)| format!("{count} told {number}")).collect();
        println!("document 01, {what}: {} sheets, {}", self.0.values().sum::<u64>(), told.join(", "));
    }
}

/// Document 01's picture.
pub fn marked() -> Sheet {
    let mode = Mode::Snes.number();
    let settings = Settings { mode, depth: 2, flip: true, discard: true, limit: 0, palette: 0, columns: 2, rows: 1 };
    let mut pixels = vec![0; 128];
    pixels[0] = 1;
    pixels[15] = 1;
    Sheet::new(settings, pixels)
}

/// The longest name, and numbers as long as they can be.
fn long(random: &mut Random) -> Sheet {
    let mode = Mode::WscPacked.number();
    let limit = u32::MAX;
    let settings = Settings { mode, depth: 4, flip: false, discard: false, limit, palette: 15, columns: 1, rows: 3 };
    Sheet::new(settings, random.bytes(192))
}

/// The shortest name. Its pixels are newlines.
fn short() -> Sheet {
    let mode = Mode::Gb.number();
    let settings = Settings { mode, depth: 1, flip: false, discard: true, limit: 1, palette: 0, columns: 1, rows: 1 };
    Sheet::new(settings, vec![b'\n'; 64])
}

/// "All of the output is", as document 01 spells it.
#[test]
fn the_marked_sheet() {
    let report = "mode=snes\ndepth=2\nflip=1\ndiscard=1\ncolumns=2\nrows=1\n\
                  tiles=1\ndiscarded=1\ntilebytes=16\nmapbytes=4\n";
    let bytes = [&[0x80, 0x00][..], &[0; 14], &[0x00, 0x00, 0x00, 0x40]].concat();
    let text = [report.as_bytes(), &bytes].concat();
    let input = marked().bytes();
    assert_eq!(reading::run(&input), Text { refusal: 0, bytes: text.clone() });
    let mut out = vec![0xa5; LONGEST_TEXT];
    assert_eq!(rumchivoat::run(&input, &mut out), Ok(Ran { written: text.len(), told: None }));
    assert_eq!(out[..text.len()], text);
    assert!(out[text.len()..].iter().all(|&byte| byte == 0xa5));
}

/// Pictures of every mode, depth and kind, with every flag.
#[test]
fn sheets_of_every_kind() {
    let (mut tally, mut random) = (Tally::default(), Random::new(71));
    for flagged in picture_modes().flat_map(with_every_flag) {
        for kind in Kind::ALL {
            for (columns, rows) in [(1, 1), (2, 1), (3, 5), (9, 11)] {
                let palette = random.below(1 << row_of(flagged).palette_bits);
                let settings = Settings { columns, rows, palette, ..flagged };
                let sheet = Sheet::new(settings, kind.picture(settings, &mut random));
                assert_eq!(tally.run(&sheet.bytes(), &mut random), 0, "{settings:?}");
            }
        }
    }
    tally.print("sheets of every kind");
}

/// Every number of columns and rows up to 33, with the pixels that they call for, one less and one more. 0 columns is
/// 4, 33 is 14.
#[test]
fn sheets_of_every_size() {
    let (mut tally, mut random) = (Tally::default(), Random::new(72));
    let modes: Vec<Settings> = picture_modes().flat_map(with_every_flag).filter(|mode| mode.discard).collect();
    for (columns, rows) in (0..=33).flat_map(|columns| (0..=33).map(move |rows| (columns, rows))) {
        let settings = Settings { columns, rows, ..modes[(34 * columns + rows) as usize % modes.len()] };
        let pixels = if places(settings) == 0 { Vec::new() } else { Kind::Same.picture(settings, &mut random) };
        let (count, sheet) = (pixels.len(), Sheet::new(settings, pixels));
        let number = match (columns, rows) {
            (33, _) | (_, 33) => 14,
            (0, _) | (_, 0) => 4,
            _ => 0,
        };
        assert_eq!(tally.run(&sheet.bytes(), &mut random), number, "{settings:?}");
        assert_eq!(tally.run(&sheet.with_pixels(count + 1).bytes(), &mut random), 14, "{settings:?}");
        if count > 0 {
            assert_eq!(tally.run(&sheet.with_pixels(count - 1).bytes(), &mut random), 14, "{settings:?}");
        }
    }
    tally.print("sheets of every size");
}

/// Every byte before the pixels changed to every other, every byte set before each, each taken out, and the sheet cut
/// off at every length.
#[test]
fn every_byte_damaged() {
    let (mut tally, mut random) = (Tally::default(), Random::new(73));
    for sheet in [marked(), long(&mut random), short()] {
        let (settings, good) = (sheet.settings().len(), sheet.bytes());
        assert_eq!(tally.run(&good, &mut random), 0);
        for place in 0..settings {
            for byte in (0..=255).filter(|&byte| byte != good[place]) {
                let mut changed = good.clone();
                changed[place] = byte;
                tally.run(&changed, &mut random);
            }
            let mut shorter = good.clone();
            shorter.remove(place);
            tally.run(&shorter, &mut random);
        }
        for place in 0..=settings {
            for byte in 0..=255 {
                let mut longer = good.clone();
                longer.insert(place, byte);
                tally.run(&longer, &mut random);
            }
        }
        for length in 0..good.len() {
            assert_eq!(tally.run(&good[..length], &mut random), 14);
        }
    }
    tally.print("every byte damaged");
}

/// Lines exchanged, doubled, missing, empty, joined, ended as elsewhere; blank lines and spaces between.
#[test]
fn lines_out_of_order() {
    let (mut tally, mut random) = (Tally::default(), Random::new(74));
    for sheet in [marked(), long(&mut random), short()] {
        let mut damaged = Vec::new();
        let mut damage = |change: &dyn Fn(&mut Vec<Vec<u8>>)| {
            let mut sheet = sheet.clone();
            change(&mut sheet.lines);
            damaged.push(sheet.bytes());
        };
        for line in 0..8 {
            (0..line).for_each(|other| damage(&|lines| lines.swap(line, other)));
            (0..=8).for_each(|place| damage(&|lines| lines.insert(place, lines[line].clone())));
            (0..8).filter(|&other| other != line).for_each(|other| damage(&|lines| lines[other] = lines[line].clone()));
            damage(&|lines| drop(lines.remove(line)));
            damage(&|lines| lines[line].clear());
            for byte in *b"\r \t\0;,#\"'\x0b\x0c\x85" {
                damage(&|lines| lines[line].push(byte));
                damage(&|lines| lines[line].insert(0, byte));
            }
        }
        for line in 0..7 {
            for joint in [&b""[..], b"\r", b" ", b";", b"\n\n", b"\n \n"] {
                damage(&|lines| {
                    let next = lines.remove(line + 1);
                    lines[line] = [&lines[line], joint, &next].concat();
                });
            }
        }
        damage(&|lines| lines.iter_mut().for_each(|line| line.push(b'\r')));
        damage(&|lines| lines.reverse());
        damage(&|lines| lines.insert(0, b"\xef\xbb\xbf".to_vec()));
        damage(&|lines| lines.push(b"priority=0".to_vec()));
        damage(&|lines| lines.clear());
        for bytes in damaged {
            assert_eq!(tally.run(&bytes, &mut random), 14, "{}", bytes.escape_ascii());
        }
    }
    tally.print("lines out of order");
}

/// Keys in every other spelling, in every line.
#[test]
fn keys_misspelt() {
    let (mut tally, mut random) = (Tally::default(), Random::new(75));
    let extra = ["tiles", "discarded", "tilebytes", "mapbytes", "refused", "colums", "colour", "row", "height", ""];
    for sheet in [marked(), long(&mut random), short()] {
        for line in 0..8 {
            let good = String::from_utf8(sheet.lines[line].clone()).expect("a sheet's lines are ASCII");
            let (key, text) = good.split_once('=').expect("every line has a key");
            let others = KEYS.iter().copied().filter(|&other| other != key).chain(extra);
            let mut spelt: Vec<String> = others.map(|other| format!("{other}={text}")).collect();
            spelt.extend([key.to_uppercase(), format!("{key} "), format!(" {key}")].map(|key| format!("{key}={text}")));
            spelt.extend(["", "==", ":", " = ", "= ", "\t", "-"].map(|sign| format!("{key}{sign}{text}")));
            spelt.extend((1..=key.len()).map(|end| format!("{}={text}", &key[..end - 1])));
            spelt.extend((1..key.len()).map(|start| format!("{}={text}", &key[start..])));
            spelt.extend([key.to_owned(), text.to_owned(), format!("{key}="), format!("={text}")]);
            for line_text in spelt {
                let input = sheet.with_line(line, line_text.into_bytes()).bytes();
                assert_eq!(tally.run(&input, &mut random), 14, "{}", input.escape_ascii());
            }
        }
    }
    tally.print("keys misspelt");
}

/// Names that are nearly a mode's: cut, lengthened, in capitals, run together, or another's end.
fn near_names() -> Vec<String> {
    let mut names: Vec<String> = MODES.iter().map(|row| row.name.to_owned()).collect();
    for Row { name, .. } in MODES {
        names.extend((0..name.len()).flat_map(|cut| [name[..cut].to_owned(), name[cut + 1..].to_owned()]));
        names.extend((0..name.len()).map(|place| format!("{}{}", &name[..place], &name[place + 1..])));
        let letters = (b'a'..=b'z').chain(*b"_078 \r\0=-").map(char::from);
        names.extend(letters.flat_map(|letter| [format!("{name}{letter}"), format!("{letter}{name}")]));
        names.extend([name.to_uppercase(), name.replace('_', "-"), name.replace('_', ""), name.replace('_', " ")]);
        let pairs =
            MODES.iter().flat_map(|Row { name: other, .. }| [format!("{name}{other}"), format!("{name}_{other}")]);
        names.extend(pairs);
    }
    names.extend((0..=16).map(|number| number.to_string()));
    names.extend(["sfc", "nes", "genesis", "sprite", "mode7", "affine", "packed", "gbx", "sms, gg"].map(str::to_owned));
    names
}

#[test]
fn names_of_modes() {
    let (mut tally, mut random) = (Tally::default(), Random::new(76));
    for sheet in [marked(), long(&mut random), short()] {
        for name in near_names() {
            for depth in ["1", "2", "4", "8"] {
                let named = sheet.with_text(MODE, name.as_bytes()).with_text(1, depth.as_bytes());
                let number = tally.run(&named.bytes(), &mut random);
                let known = MODES.iter().any(|row| row.name == name);
                assert_eq!(number == 14, !known, "{name:?}");
            }
        }
    }
    tally.print("names of modes");
}

/// What another reader might skip before a number, and after it.
const BEFORE_NUMBERS: [&str; 14] = ["+", "-", " ", "\t", "\r", "\0", "=", "0x", "0b", "0o", "_", ".", "$", "#"];
const AFTER_NUMBERS: [&str; 14] = ["\r", " ", "\t", "\0", ".", ".0", "e0", "u", "h", "_", ",", "-", "/", ":"];

/// Numbers, and texts that another reader might take for one.
fn number_texts() -> Vec<String> {
    let mut texts: Vec<String> = (0..=66).map(|number: u64| number.to_string()).collect();
    let largest = u64::from(u32::MAX);
    texts.extend([255, 256, 257, 1 << 15, 65_535, 65_536, 65_537, 1 << 31].map(|number: u64| number.to_string()));
    texts.extend((largest - 11..=largest + 11).map(|number| number.to_string()));
    // numbers whose low 32 bits are small
    texts.extend((0..=33).flat_map(|low| [1, 2, 3, 9, 10, 1 << 16].map(|high: u64| ((high << 32) + low).to_string())));
    texts.extend((0..=33).map(|low: u128| ((1 << 64) + low).to_string()));
    texts.extend((1..=12).flat_map(|digits| (0..=9).map(move |digit: u8| digit.to_string().repeat(digits))));
    texts.extend((1..=40).map(|digits| format!("1{}", "0".repeat(digits))));
    for good in ["0", "1", "2", "3", "4", "8", "15", "32", "4294967295"] {
        texts.extend((1..=12).map(|zeros| format!("{}{good}", "0".repeat(zeros))));
        texts.extend(BEFORE_NUMBERS.map(|sign| format!("{sign}{good}")));
        texts.extend(AFTER_NUMBERS.map(|sign| format!("{good}{sign}")));
    }
    let others = ["", "-0", "+0", "--1", "on", "off", "true", "yes", "a", "A", "0a", "1f", "x", "/", ":", "NaN", "inf"];
    texts.extend(others.map(str::to_owned));
    texts.extend(["4,294,967,295", "1 0", "1_0", "0.5", "1/1", "²", "٢", "２", "0\u{feff}"].map(str::to_owned));
    texts
}

/// The number that a lenient reader takes a text for, where it is small.
fn taken_for(text: &str) -> Option<usize> {
    let digits: String = text.chars().filter(char::is_ascii_digit).collect();
    let low = digits.parse::<u128>().ok()? % (1 << 32);
    (low <= 66).then_some(low as usize)
}

/// Every such text in every line that has a number; in columns and rows also with the pixels that the number would call
/// for, so that the text alone is wrong.
#[test]
fn numbers_of_every_spelling() {
    let (mut tally, mut random) = (Tally::default(), Random::new(77));
    for sheet in [marked(), long(&mut random), short()] {
        for text in number_texts() {
            for line in 1..8 {
                let spelt = sheet.with_text(line, text.as_bytes());
                tally.run(&spelt.bytes(), &mut random);
                if let (COLUMNS | ROWS, Some(number)) = (line, taken_for(&text)) {
                    let other = spelt.with_text(COLUMNS + ROWS - line, b"1");
                    tally.run(&other.with_pixels(64 * number).bytes(), &mut random);
                }
            }
        }
    }
    tally.print("numbers of every spelling");
}

/// One damage to a sheet's bytes before its pixels, or to its pixels' number.
fn damage(input: &mut Vec<u8>, settings: usize, random: &mut Random) {
    const BYTES: &[u8] = b"0123456789=\n\r _abcdefgilmnoprstuw+-\0\xff";
    let below = |random: &mut Random, limit: usize| random.below(limit as u32) as usize;
    let place = below(random, settings.min(input.len()).max(1)).min(input.len().saturating_sub(1));
    let byte = if random.flag() { BYTES[below(random, BYTES.len())] } else { random.byte() };
    let end = (place + 1 + below(random, 12)).min(input.len());
    match random.below(7) {
        _ if input.is_empty() => input.push(byte),
        0 => input[place] = byte,
        1 => input.insert(place, byte),
        2 => drop(input.remove(place)),
        3 => drop(input.drain(place..end)),
        4 => drop(input.splice(place..place, input[place..end].to_vec())),
        5 => input[place] ^= 1 << random.below(8),
        _ => input.resize((input.len() + random.below(3) as usize).saturating_sub(1), byte),
    }
}

/// Sheets of any mode and any numbers that the lines allow, whether or not the table does.
fn any_sheet(random: &mut Random) -> Sheet {
    let pick = |random: &mut Random, numbers: &[u32]| numbers[random.below(numbers.len() as u32) as usize];
    let mode = random.below(16);
    let depths = MODES[mode as usize].depths;
    let settings = Settings {
        mode,
        depth: if random.below(8) == 0 { random.below(10) } else { pick(random, depths) },
        flip: random.below(3) == 0,
        discard: random.flag(),
        limit: pick(random, &[0, 0, 0, 1, 2, 3, 4, 5, 1024, u32::MAX]),
        palette: pick(random, &[0, 0, 0, 0, 1, 2, 3, 7, 8, 15, 16, u32::MAX]),
        columns: pick(random, &[0, 1, 1, 2, 2, 3]),
        rows: pick(random, &[0, 1, 1, 1, 2, 3]),
    };
    let kind = Kind::ALL[random.below(5) as usize];
    let cut = Settings { depth: settings.depth.clamp(1, 8), ..settings };
    let pixels = if places(settings) == 0 { Vec::new() } else { kind.picture(cut, random) };
    Sheet::new(settings, pixels)
}

#[test]
fn sheets_of_any_settings() {
    let (mut tally, mut random) = (Tally::default(), Random::new(78));
    for _ in 0..20_000 {
        let sheet = any_sheet(&mut random);
        tally.run(&sheet.bytes(), &mut random);
    }
    assert!(TOLD.iter().all(|&number| number == 14 || tally.0[&number] > 100));
    tally.print("sheets of any settings");
}

/// Up to three damages at any places.
#[test]
fn any_damage() {
    let (mut tally, mut random) = (Tally::default(), Random::new(79));
    for _ in 0..100_000 {
        let sheet = any_sheet(&mut random);
        let mut input = sheet.bytes();
        for _ in 0..=random.below(3) {
            damage(&mut input, sheet.settings().len(), &mut random);
        }
        tally.run(&input, &mut random);
    }
    tally.print("any damage");
}

/// Bytes that are no sheet.
#[test]
fn any_bytes() {
    let (mut tally, mut random) = (Tally::default(), Random::new(80));
    for length in 0..2_000 {
        let input = random.bytes(length);
        assert_eq!(tally.run(&input, &mut random), 14);
        assert_eq!(tally.run(&vec![b"\n=0m\0\xff"[length % 6]; length], &mut random), 14);
    }
    tally.print("any bytes");
}

/// Inputs longer than any sheet: bytes after the pixels, and lines that do not end.
#[test]
fn more_than_any_sheet() {
    let (mut tally, mut random) = (Tally::default(), Random::new(83));
    for power in 10..=24 {
        let more = 1 << power;
        let sheet = marked();
        let mut inputs =
            vec![sheet.with_pixels(128 + more).bytes(), sheet.with_text(COLUMNS, &vec![b'2'; more]).bytes()];
        inputs.extend((0..8).map(|line| sheet.with_text(line, &vec![b'0'; more]).bytes()));
        for input in inputs {
            assert_eq!(tally.run(&input, &mut random), 14);
        }
    }
    tally.print("more than any sheet");
}

/// A sheet that calls for these refusals; two tiles in gb, or none for 4.
fn refused(refusals: &[u32]) -> Sheet {
    let has = |refusal| refusals.contains(&refusal);
    let settings = Settings {
        mode: if has(2) { Mode::PceSprite } else { Mode::Gb }.number(),
        depth: if has(3) { 7 } else { 2 },
        flip: has(5),
        discard: true,
        limit: u32::from(has(12)),
        palette: if has(16) { 16 } else { 0 },
        columns: if has(4) { 0 } else { 2 },
        rows: 1,
    };
    let mut pixels = picture_of(Settings { columns: 2, ..settings }, &different_tiles(2, 2));
    pixels.truncate(64 * places(settings));
    if has(14) {
        pixels.push(0);
    }
    Sheet::new(settings, pixels)
}

/// 14 "before all others", then the first, 16 before 12. In pce_sprite depth 2 is wrong as well, and hidden by 2.
#[test]
fn the_refusal_that_is_told() {
    let (mut tally, mut random) = (Tally::default(), Random::new(81));
    for refusals in choices(&[2, 3, 4, 5, 16, 12, 14]) {
        let number = tally.run(&refused(&refusals).bytes(), &mut random);
        let expected = if refusals.contains(&14) { 14 } else { refusals.first().copied().unwrap_or(0) };
        assert_eq!(number, expected, "{refusals:?}");
    }
    tally.print("refusals together");
}

/// 32x32 tiles, of which so many are different.
fn screen(settings: Settings, different: usize) -> Sheet {
    let settings = Settings { columns: 32, rows: 32, ..settings };
    let mut tiles = different_tiles(settings.depth, different);
    tiles.resize(1024, tiles[different / 2].clone());
    Sheet::new(settings, picture_of(settings, &tiles))
}

/// The largest picture in every mode, with as many tiles as its entries can name and one more, and counts of every
/// length.
#[test]
fn the_largest_pictures() {
    let (mut tally, mut random) = (Tally::default(), Random::new(82));
    for flagged in picture_modes().flat_map(with_every_flag) {
        let most = most_tiles(flagged);
        for different in [1, 9, 10, 99, 100, most - 1, most, most + 1, 1023, 1024] {
            if (1..=1024).contains(&different) {
                let number = tally.run(&screen(flagged, different).bytes(), &mut random);
                let need = if flagged.discard { different } else { 1024 };
                assert_eq!(number, if need <= most { 0 } else { 12 }, "{flagged:?} {different}");
            }
        }
        for (limit, number) in [(11, 12), (12, 0), (13, 0)] {
            let limited = screen(Settings { limit, discard: true, ..flagged }, 12);
            assert_eq!(tally.run(&limited.bytes(), &mut random), number, "{flagged:?} {limit}");
        }
    }
    tally.print("the largest pictures");
}

/// The sheet with the longest text.
pub fn longest() -> Sheet {
    let mode = Mode::Snes.number();
    let settings = Settings { mode, depth: 8, flip: true, discard: true, limit: 0, palette: 7, columns: 32, rows: 32 };
    screen(settings, 1024)
}

/// The definition that `text-fits` (crates/sheet/proofs/Fitting.antt) proves every text to be no longer than.
const PROVED: &str = concat!(env!("CARGO_MANIFEST_DIR"), "/../crates/sheet/specs/Program.antt");

/// `LONGEST_TEXT` is the length that is proved to hold every text, and the longest text comes near it.
#[test]
fn the_longest_text() {
    let text = fs::read_to_string(PROVED).expect("the definition can be read");
    assert!(
        text.lines().any(|line| line == format!("out_space = {LONGEST_TEXT}")),
        "{LONGEST_TEXT} is not the proved one"
    );

    let mut longest_text = 0;
    for flagged in picture_modes().flat_map(with_every_flag) {
        let different = most_tiles(flagged).min(1024);
        let input = screen(flagged, different).bytes();
        let text = rumchivoat::run_to_vec(&input).expect("every text fits");
        let mut out = vec![0; text.bytes.len()];
        let ran = Ran { written: out.len(), told: text.told };
        assert_eq!(rumchivoat::run(&input, &mut out), Ok(ran));
        assert_eq!(out, text.bytes);
        assert_eq!(rumchivoat::run(&input, &mut out[1..]), Err(Refusal::Output));
        longest_text = out.len().max(longest_text);
    }
    assert_eq!(longest_text, rumchivoat::run_to_vec(&longest().bytes()).expect("every text fits").bytes.len());
    assert!((LONGEST_TEXT - 256..=LONGEST_TEXT).contains(&longest_text), "{longest_text}");
}
