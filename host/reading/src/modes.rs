//! "Modes are numbered 0 to 15 in this order."

use crate::Answer;

/// A row of document 01's table, with document 02's "nine tile bits" for ws. Where pce_sprite has "none", the row has 0.
#[derive(Debug, Clone, Copy)]
pub struct Row {
    /// The mode's name.
    pub name: &'static str,
    /// The bits of a pixel: each of these.
    pub depths: &'static [u32],
    /// The largest colour component.
    pub top: u32,
    /// The bytes of a map entry.
    pub entry_bytes: usize,
    /// The bits of a tile index.
    pub tile_bits: u32,
    /// The bits of a palette index.
    pub palette_bits: u32,
    /// Whether an entry can be flipped.
    pub flips: bool,
    /// Whether an entry has a priority.
    pub priority: bool,
}

const YES: bool = true;
const NO: bool = false;

/// The sixteen modes.
#[rustfmt::skip]
pub const MODES: [Row; 16] = [
    //  name           depths     top  entry  tile  palette  flips  priority
    mode("snes",       &[2, 4, 8], 31,     2,   10,       3,   YES,      YES),
    mode("snes_mode7", &[8],       31,     1,    8,       0,    NO,       NO),
    mode("gb",         &[1, 2],     3,     1,    8,       0,    NO,       NO),
    mode("gbc",        &[1, 2],    31,     2,    9,       3,   YES,      YES),
    mode("gba",        &[4, 8],    31,     2,   10,       4,   YES,       NO),
    mode("gba_affine", &[8],       31,     1,    8,       0,    NO,       NO),
    mode("md",         &[4],        7,     2,   11,       2,   YES,      YES),
    mode("sms",        &[4],        3,     2,    9,       1,   YES,      YES),
    mode("gg",         &[4],       15,     2,    9,       1,   YES,      YES),
    mode("pce",        &[4],        7,     2,   12,       4,    NO,       NO),
    mode("pce_sprite", &[4],        7,     0,    0,       0,    NO,       NO),
    mode("ngp",        &[2],        7,     2,    9,       1,   YES,       NO),
    mode("ngpc",       &[2],       15,     2,    9,       4,   YES,       NO),
    mode("ws",         &[2],        7,     2,    9,       4,   YES,       NO),
    mode("wsc",        &[2, 4],    15,     2,   10,       4,   YES,       NO),
    mode("wsc_packed", &[4],       15,     2,   10,       4,   YES,       NO),
];

#[allow(clippy::too_many_arguments)] // the table's columns
const fn mode(
    name: &'static str,
    depths: &'static [u32],
    top: u32,
    entry_bytes: usize,
    tile_bits: u32,
    palette_bits: u32,
    flips: bool,
    priority: bool,
) -> Row {
    Row { name, depths, top, entry_bytes, tile_bits, palette_bits, flips, priority }
}

/// Refusal 1: "mode number above 15".
pub fn row(mode: u32) -> Answer<&'static Row> {
    MODES.get(mode as usize).ok_or(1)
}
