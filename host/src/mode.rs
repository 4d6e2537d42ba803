//! The sixteen modes, and document 01's table of them, in which ws has document 02's nine tile bits.

use std::error::Error;
use std::fmt;
use std::str::FromStr;

use crate::Refusal;

/// A mode, in document 01's order.
///
/// ```
/// use rumchivoat::Mode;
///
/// let mode: Mode = "snes".parse()?;
/// assert_eq!((mode, mode.number(), mode.name()), (Mode::Snes, 0, "snes"));
/// assert_eq!((mode.depths(), mode.top()), ([2, 4, 8].as_slice(), 31));
/// # Ok::<(), rumchivoat::UnknownMode>(())
/// ```
#[derive(Debug, Clone, Copy, PartialEq, Eq, PartialOrd, Ord, Hash)]
pub enum Mode {
    /// Super Nintendo.
    Snes,
    /// Super Nintendo, mode 7.
    SnesMode7,
    /// Game Boy.
    Gb,
    /// Game Boy Color.
    Gbc,
    /// Game Boy Advance.
    Gba,
    /// Game Boy Advance, affine.
    GbaAffine,
    /// Mega Drive.
    Md,
    /// Master System.
    Sms,
    /// Game Gear.
    Gg,
    /// PC Engine.
    Pce,
    /// PC Engine sprites.
    PceSprite,
    /// Neo Geo Pocket.
    Ngp,
    /// Neo Geo Pocket Color.
    Ngpc,
    /// WonderSwan.
    Ws,
    /// WonderSwan Color.
    Wsc,
    /// WonderSwan Color, packed.
    WscPacked,
}

/// A row of document 01's table.
struct Row {
    name: &'static str,
    depths: &'static [u32],
    top: u8,
    entry: Option<EntryBits>,
    colors: Colors,
}

/// What a mode's map entries hold.
struct EntryBits {
    bytes: usize,
    tile: u32,
    palette: u32,
    flips: bool,
    priority: bool,
}

/// How many bytes a mode's colours take.
pub(crate) enum Colors {
    /// So many bytes each.
    Each(usize),
    /// Four colours, so many bytes in all.
    Four(usize),
    /// A byte each; only four are unpacked.
    Grays,
}

use Colors::{Each, Four, Grays};

const YES: bool = true;
const NO: bool = false;

const fn row(name: &'static str, depths: &'static [u32], top: u8, entry: Option<EntryBits>, colors: Colors) -> Row {
    Row { name, depths, top, entry, colors }
}

const fn entry(bytes: usize, tile: u32, palette: u32, flips: bool, priority: bool) -> Option<EntryBits> {
    Some(EntryBits { bytes, tile, palette, flips, priority })
}

#[rustfmt::skip]
static ROWS: [Row; 16] = [
    //  name          depths      top  entry: bytes tile palette flips priority  colours
    row("snes",       &[2, 4, 8], 31,  entry(2,     10,  3,      YES,  YES),     Each(2)),
    row("snes_mode7", &[8],       31,  entry(1,      8,  0,      NO,   NO),      Each(2)),
    row("gb",         &[1, 2],     3,  entry(1,      8,  0,      NO,   NO),      Four(1)),
    row("gbc",        &[1, 2],    31,  entry(2,      9,  3,      YES,  YES),     Each(2)),
    row("gba",        &[4, 8],    31,  entry(2,     10,  4,      YES,  NO),      Each(2)),
    row("gba_affine", &[8],       31,  entry(1,      8,  0,      NO,   NO),      Each(2)),
    row("md",         &[4],        7,  entry(2,     11,  2,      YES,  YES),     Each(2)),
    row("sms",        &[4],        3,  entry(2,      9,  1,      YES,  YES),     Each(1)),
    row("gg",         &[4],       15,  entry(2,      9,  1,      YES,  YES),     Each(2)),
    row("pce",        &[4],        7,  entry(2,     12,  4,      NO,   NO),      Each(2)),
    row("pce_sprite", &[4],        7,  None,                                     Each(2)),
    row("ngp",        &[2],        7,  entry(2,      9,  1,      YES,  NO),      Grays),
    row("ngpc",       &[2],       15,  entry(2,      9,  4,      YES,  NO),      Each(2)),
    row("ws",         &[2],        7,  entry(2,      9,  4,      YES,  NO),      Four(2)),
    row("wsc",        &[2, 4],    15,  entry(2,     10,  4,      YES,  NO),      Each(2)),
    row("wsc_packed", &[4],       15,  entry(2,     10,  4,      YES,  NO),      Each(2)),
];

impl Mode {
    /// Every mode, each at its number.
    pub const ALL: [Mode; 16] = [
        Mode::Snes,
        Mode::SnesMode7,
        Mode::Gb,
        Mode::Gbc,
        Mode::Gba,
        Mode::GbaAffine,
        Mode::Md,
        Mode::Sms,
        Mode::Gg,
        Mode::Pce,
        Mode::PceSprite,
        Mode::Ngp,
        Mode::Ngpc,
        Mode::Ws,
        Mode::Wsc,
        Mode::WscPacked,
    ];

    /// The mode's number, 0 to 15.
    pub const fn number(self) -> u32 {
        self as u32
    }

    /// The table has a row for each variant: the place is never beyond it.
    #[allow(clippy::indexing_slicing)]
    const fn row(self) -> &'static Row {
        &ROWS[self as usize]
    }

    const fn entry_bits(self) -> Option<&'static EntryBits> {
        self.row().entry.as_ref()
    }

    pub(crate) const fn colors(self) -> &'static Colors {
        &self.row().colors
    }

    /// The mode's name, as the program's settings spell it and [`FromStr`] reads it.
    ///
    /// ```
    /// assert_eq!(rumchivoat::Mode::SnesMode7.name(), "snes_mode7");
    /// ```
    pub const fn name(self) -> &'static str {
        self.row().name
    }

    /// The depths, the bits of a pixel, that the mode has.
    ///
    /// ```
    /// assert_eq!(rumchivoat::Mode::Gba.depths(), [4, 8]);
    /// ```
    pub const fn depths(self) -> &'static [u32] {
        self.row().depths
    }

    /// The top: the largest component of a colour.
    ///
    /// ```
    /// assert_eq!(rumchivoat::Mode::Md.top(), 7);
    /// ```
    pub const fn top(self) -> u8 {
        self.row().top
    }

    /// The bytes of a map entry; `None` for pce_sprite, which has no entries.
    ///
    /// ```
    /// use rumchivoat::Mode;
    ///
    /// assert_eq!((Mode::Snes.entry_bytes(), Mode::Gb.entry_bytes(), Mode::PceSprite.entry_bytes()), (Some(2), Some(1), None));
    /// ```
    pub const fn entry_bytes(self) -> Option<usize> {
        match self.entry_bits() {
            Some(entry) => Some(entry.bytes),
            None => None,
        }
    }

    /// The bits of an entry's tile index; `None` for pce_sprite.
    ///
    /// ```
    /// use rumchivoat::Mode;
    ///
    /// // a map of pce names 4,096 tiles, one of the mono machine 512, one of its colour model 1,024
    /// assert_eq!((Mode::Pce.tile_bits(), Mode::Ws.tile_bits(), Mode::Wsc.tile_bits()), (Some(12), Some(9), Some(10)));
    /// ```
    pub const fn tile_bits(self) -> Option<u32> {
        match self.entry_bits() {
            Some(entry) => Some(entry.tile),
            None => None,
        }
    }

    /// The bits of an entry's palette index, 0 where the index is always 0; `None` for pce_sprite.
    ///
    /// ```
    /// use rumchivoat::Mode;
    ///
    /// assert_eq!((Mode::Snes.palette_bits(), Mode::Gb.palette_bits()), (Some(3), Some(0)));
    /// ```
    pub const fn palette_bits(self) -> Option<u32> {
        match self.entry_bits() {
            Some(entry) => Some(entry.palette),
            None => None,
        }
    }

    /// Whether an entry can be flipped.
    ///
    /// ```
    /// use rumchivoat::Mode;
    ///
    /// assert!(Mode::Ngp.has_flips() && !Mode::Pce.has_flips());
    /// ```
    pub const fn has_flips(self) -> bool {
        match self.entry_bits() {
            Some(entry) => entry.flips,
            None => false,
        }
    }

    /// Whether an entry has a priority.
    ///
    /// ```
    /// use rumchivoat::Mode;
    ///
    /// assert!(Mode::Md.has_priority() && !Mode::Gba.has_priority());
    /// ```
    pub const fn has_priority(self) -> bool {
        match self.entry_bits() {
            Some(entry) => entry.priority,
            None => false,
        }
    }
}

impl From<Mode> for u32 {
    fn from(mode: Mode) -> u32 {
        mode.number()
    }
}

impl TryFrom<u32> for Mode {
    type Error = Refusal;

    /// The mode of a number; [`Refusal::Mode`] above 15.
    fn try_from(number: u32) -> Result<Self, Refusal> {
        Mode::ALL.into_iter().find(|mode| mode.number() == number).ok_or(Refusal::Mode)
    }
}

impl FromStr for Mode {
    type Err = UnknownMode;

    /// The mode of a name, compared byte by byte.
    fn from_str(name: &str) -> Result<Self, UnknownMode> {
        let mode = Mode::ALL.into_iter().find(|mode| mode.name() == name);
        mode.ok_or_else(|| UnknownMode { name: name.to_owned() })
    }
}

impl fmt::Display for Mode {
    fn fmt(&self, f: &mut fmt::Formatter<'_>) -> fmt::Result {
        f.pad(self.name())
    }
}

/// A text that is no mode's name.
///
/// ```
/// let told = "SNES".parse::<rumchivoat::Mode>().unwrap_err().to_string();
/// assert!(told.starts_with("there is no mode \"SNES\"; the modes are snes, snes_mode7, gb, gbc,"));
/// ```
#[derive(Debug, Clone, PartialEq, Eq, Hash)]
#[non_exhaustive]
pub struct UnknownMode {
    /// The text.
    pub name: String,
}

impl fmt::Display for UnknownMode {
    fn fmt(&self, f: &mut fmt::Formatter<'_>) -> fmt::Result {
        let names = Mode::ALL.map(Mode::name).join(", ");
        write!(f, "there is no mode {:?}; the modes are {names}", self.name)
    }
}

impl Error for UnknownMode {}
