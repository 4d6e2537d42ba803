//! "Map entry bytes".

use crate::modes::Row;
use crate::{Answer, row, write};

/// "An entry is tile index, palette index (32 bits each), flip h, flip v, priority."
#[derive(Debug, Clone, Copy, PartialEq, Eq, Default)]
pub struct Entry {
    /// The tile index.
    pub tile: u32,
    /// The palette index.
    pub palette: u32,
    /// Flipped left to right.
    pub flip_h: bool,
    /// Flipped top to bottom.
    pub flip_v: bool,
    /// In front.
    pub priority: bool,
}

/// What a bit of an entry's other byte is.
#[derive(Clone, Copy, PartialEq)]
enum Bit {
    Tile(u32),
    Palette(u32),
    H,
    V,
    Priority,
    Unused,
}

const T8: Bit = Bit::Tile(8);
const T9: Bit = Bit::Tile(9);
const T10: Bit = Bit::Tile(10);
const T11: Bit = Bit::Tile(11);
const P0: Bit = Bit::Palette(0);
const P1: Bit = Bit::Palette(1);
const P2: Bit = Bit::Palette(2);
const P3: Bit = Bit::Palette(3);
const H: Bit = Bit::H;
const V: Bit = Bit::V;
const PR: Bit = Bit::Priority;
const NO: Bit = Bit::Unused;

/// "The other byte, from bit 0"; in ws "the bit at place 5 of the second byte is not a tile bit". `None` where an entry
/// is one byte.
#[rustfmt::skip]
fn other_byte(name: &str) -> Option<[Bit; 8]> {
    match name {
        "snes"               => Some([T8, T9, P0, P1,  P2,  PR, H,  V]),
        "sms" | "gg"         => Some([T8,  H,  V, P0,  PR,  NO, NO, NO]),
        "gbc"                => Some([P0, P1, P2, T8,  NO,  H,  V,  PR]),
        "gba"                => Some([T8, T9,  H,  V,  P0,  P1, P2, P3]),
        "md"                 => Some([T8, T9, T10, H,  V,   P0, P1, PR]),
        "pce"                => Some([T8, T9, T10, T11, P0, P1, P2, P3]),
        "ws"                 => Some([T8, P0, P1, P2,  P3,  NO, H,  V]),
        "wsc" | "wsc_packed" => Some([T8, P0, P1, P2,  P3,  T9, H,  V]),
        "ngp"                => Some([T8, NO, NO, NO,  NO,  P0, V,  H]),
        "ngpc"               => Some([T8, P0, P1, P2,  P3,  NO, V,  H]),
        _                    => None,
    }
}

/// Refusals 1 and 2: "an entry .. in pce_sprite".
fn entry_row(mode: u32) -> Answer<&'static Row> {
    let row = row(mode)?;
    if row.name == "pce_sprite" { Err(2) } else { Ok(row) }
}

/// "An entry field its bits cannot hold, a flip or priority where there is none": "15 tile, 16 palette, 17 flip, 18
/// priority, checked in that order".
fn checked_row(mode: u32, entry: Entry) -> Answer<&'static Row> {
    let row = entry_row(mode)?;
    let too_wide = |number: u32, bits: u32| u64::from(number) >= 2u64.pow(bits);
    let flipped = entry.flip_h || entry.flip_v;
    let faults = [
        (15, too_wide(entry.tile, row.tile_bits)),
        (16, too_wide(entry.palette, row.palette_bits)),
        (17, flipped && !row.flips),
        (18, entry.priority && !row.priority),
    ];
    match faults.into_iter().find(|&(_, fault)| fault) {
        Some((refusal, _)) => Err(refusal),
        None => Ok(row),
    }
}

fn bit_of(number: u32, place: u32) -> bool {
    number / 2u32.pow(place) % 2 == 1
}

fn packed_bit(entry: Entry, bit: Bit) -> bool {
    match bit {
        Bit::Tile(place) => bit_of(entry.tile, place),
        Bit::Palette(place) => bit_of(entry.palette, place),
        Bit::H => entry.flip_h,
        Bit::V => entry.flip_v,
        Bit::Priority => entry.priority,
        Bit::Unused => false,
    }
}

/// The byte with these bits, bit 0 first.
fn byte_of(bits: impl DoubleEndedIterator<Item = bool>) -> u8 {
    bits.rev().fold(0, |byte, bit| byte * 2 + u8::from(bit))
}

/// Refusals 1, 2, 15 to 18, 11. "First byte is the tile index's low 8 bits (md: second byte)."
pub fn pack_entry(mode: u32, entry: Entry, out: &mut [u8]) -> Answer<usize> {
    let row = checked_row(mode, entry)?;
    let low = (entry.tile % 256) as u8;
    let Some(bits) = other_byte(row.name) else {
        return write(&[low], out);
    };
    let other = byte_of(bits.iter().map(|&bit| packed_bit(entry, bit)));
    write(&if row.name == "md" { [other, low] } else { [low, other] }, out)
}

/// Refusals 1, 2, 7.
pub fn unpack_entry(mode: u32, bytes: &[u8]) -> Answer<Entry> {
    let row = entry_row(mode)?;
    if bytes.len() != row.entry_bytes {
        return Err(7);
    }
    let Some(bits) = other_byte(row.name) else {
        return Ok(Entry { tile: u32::from(bytes[0]), ..Entry::default() });
    };
    let (low, other) = if row.name == "md" { (bytes[1], bytes[0]) } else { (bytes[0], bytes[1]) };
    let mut entry = Entry { tile: u32::from(low), ..Entry::default() };
    for (place, bit) in (0..).zip(bits) {
        let set = bit_of(u32::from(other), place);
        match bit {
            Bit::Tile(place) => entry.tile += u32::from(set) * 2u32.pow(place),
            Bit::Palette(place) => entry.palette += u32::from(set) * 2u32.pow(place),
            Bit::H => entry.flip_h = set,
            Bit::V => entry.flip_v = set,
            Bit::Priority => entry.priority = set,
            Bit::Unused => {}
        }
    }
    Ok(entry)
}

/// Refusals 1, 2, 15 to 18, 11. "Two bytes, low first, where tile bits exceed 8, gbc one."
pub fn tile_index(mode: u32, entry: Entry, out: &mut [u8]) -> Answer<usize> {
    let row = checked_row(mode, entry)?;
    let two = [(entry.tile % 256) as u8, (entry.tile / 256) as u8];
    let length = if row.tile_bits > 8 && row.name != "gbc" { 2 } else { 1 };
    write(&two[..length], out)
}

/// Refusals 1, 2, 15 to 18. "The non-tile bits of the second byte (md: the first; gbc: tile bit 8 too ..), 0 where an
/// entry has one byte."
pub fn attribute(mode: u32, entry: Entry) -> Answer<u32> {
    let row = checked_row(mode, entry)?;
    let Some(bits) = other_byte(row.name) else {
        return Ok(0);
    };
    let kept = |bit: Bit| row.name == "gbc" || !matches!(bit, Bit::Tile(_));
    Ok(u32::from(byte_of(bits.iter().map(|&bit| kept(bit) && packed_bit(entry, bit)))))
}
