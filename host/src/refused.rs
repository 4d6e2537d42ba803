//! A refusal with the values that led to it.

use std::error::Error;
use std::fmt;

use crate::{MODE7_BLOCK, MODE7_HALF, MapSize, Mode, Refusal, TileSize};

/// What the typed calls answer where they are refused: the refusal, and its cause, told in a sentence that
/// needs no paper at hand. The plain calls on slices answer the [`Refusal`] alone.
///
/// The cause is looked for only when a call was refused; a call that is done pays nothing for it.
///
/// ```
/// use rumchivoat::{Cause, Entry, Mode, Refusal};
///
/// let entry = Entry { tile: 4096, ..Entry::default() };
/// let refused = entry.pack(Mode::Pce, &mut [0; 2]).unwrap_err();
/// assert_eq!(refused.refusal, Refusal::EntryTile);
/// assert_eq!(refused.cause, Cause::Tile { mode: Mode::Pce, tile: 4096 });
/// assert_eq!(refused.to_string(), "refused 15: tile index 4096 is too large: pce has tiles 0 to 4095");
/// ```
#[derive(Debug, Clone, Copy, PartialEq, Eq, Hash)]
#[non_exhaustive]
pub struct Refused {
    /// The refusal.
    pub refusal: Refusal,
    /// What led to it.
    pub cause: Cause,
}

/// What led to a refusal, with the values.
#[derive(Debug, Clone, Copy, PartialEq, Eq, Hash)]
#[non_exhaustive]
pub enum Cause {
    /// The refusal says all that is known.
    Plain,
    /// There is no such mode.
    Mode {
        /// The number given.
        number: u32,
    },
    /// The mode does not have the depth.
    Depth {
        /// The mode.
        mode: Mode,
        /// The depth given.
        depth: u32,
    },
    /// The mode has no tiles of the size.
    TileSize {
        /// The mode.
        mode: Mode,
        /// The size given.
        size: TileSize,
    },
    /// Columns or rows are not 1 to 64.
    MapSize {
        /// The size given.
        size: MapSize,
    },
    /// A tile number is above 65,535, or that of the tile that a cell belongs to.
    TileNumber {
        /// The number given, of a tile or a cell.
        number: u32,
    },
    /// The mode has no flips.
    Flips {
        /// The mode.
        mode: Mode,
    },
    /// The mode has no priority.
    Priority {
        /// The mode.
        mode: Mode,
    },
    /// The mode's bits do not hold the tile index.
    Tile {
        /// The mode.
        mode: Mode,
        /// The tile index given.
        tile: u32,
    },
    /// The mode's bits do not hold the palette index.
    Palette {
        /// The mode.
        mode: Mode,
        /// The palette index given.
        palette: u32,
    },
    /// A pixel does not fit the depth.
    Pixel {
        /// The depth.
        depth: u32,
        /// The first such pixel.
        value: u8,
        /// Its place, from 0.
        at: usize,
    },
    /// A component is above the mode's top.
    Component {
        /// The mode.
        mode: Mode,
        /// The first such component.
        value: u8,
        /// The place of its colour, from 0.
        color: usize,
    },
    /// An input is not as long as it must be.
    Length {
        /// What is counted, in the singular.
        what: &'static str,
        /// How many are needed.
        needed: usize,
        /// How many were given.
        given: usize,
    },
    /// An input is not made of whole parts.
    Whole {
        /// What is counted, in the singular.
        what: &'static str,
        /// How many a part has.
        part: usize,
        /// How many were given.
        given: usize,
    },
    /// The map names a tile that the tile bytes do not hold.
    Missing {
        /// The first such tile.
        tile: u32,
        /// How many there are.
        tiles: usize,
    },
    /// A lent buffer is too short.
    Output {
        /// Which.
        what: &'static str,
        /// The bytes to be written.
        needed: usize,
        /// The bytes that it has.
        space: usize,
    },
    /// More tiles are to be stored than there is room for.
    Room {
        /// The tiles that there is room for.
        room: usize,
    },
    /// One more tile would bring a title's common and own tiles above 65,535.
    RoomBeside {
        /// The common tiles.
        common: u32,
        /// The own tiles that there is room for beside them.
        room: usize,
    },
    /// The set counts more tiles than there is room for.
    Count {
        /// The tiles counted.
        stored: u32,
        /// The tiles that there is room for.
        room: usize,
    },
    /// More common tiles are counted than their store holds.
    CommonCount {
        /// The tiles counted.
        counted: u32,
        /// The tiles that the common store holds.
        tiles: usize,
    },
    /// A title's common and own tiles are more than 65,535.
    BothCounts {
        /// The common tiles counted.
        common: u32,
        /// The own tiles counted.
        own: u32,
    },
    /// A run counts more tiles than there is room for.
    RunCount {
        /// The tiles counted.
        tiles: u32,
        /// The tiles that there is room for.
        room: usize,
    },
    /// A strip is not whole rows of tiles, or is empty.
    Strip {
        /// The pixels of a row of tiles.
        row: usize,
        /// How many were given.
        given: usize,
    },
    /// A strip goes past the picture's last row.
    PastRows {
        /// The pixels that are still to come.
        left: usize,
        /// How many were given.
        given: usize,
    },
    /// A run is to end before its last row.
    RowsLeft {
        /// The rows of tiles that are still to come.
        left: u32,
    },
    /// A mode 7 block is to be made from more bytes than a half of it holds.
    Mode7Half {
        /// What is counted, in the singular.
        what: &'static str,
        /// How many were given.
        given: usize,
    },
    /// What is to be split is not as long as a mode 7 block.
    Mode7Block {
        /// How many bytes were given.
        given: usize,
    },
}

/// So many of a thing: `1 byte`, `2 bytes`.
struct Counted(usize, &'static str);

impl fmt::Display for Counted {
    fn fmt(&self, f: &mut fmt::Formatter<'_>) -> fmt::Result {
        let Counted(count, what) = self;
        write!(f, "{count} {what}{}", if *count == 1 { "" } else { "s" })
    }
}

/// The word for one, or the word for any other number.
fn number_of<'a>(count: usize, one: &'a str, many: &'a str) -> &'a str {
    if count == 1 { one } else { many }
}

/// The mode's depths as a sentence has them: `depth 4 alone`, `depths 2, 4 and 8`.
struct Depths(Mode);

impl fmt::Display for Depths {
    fn fmt(&self, f: &mut fmt::Formatter<'_>) -> fmt::Result {
        match self.0.depths() {
            [one] => write!(f, "depth {one} alone"),
            [first @ .., last] => {
                let first = first.iter().map(u32::to_string).collect::<Vec<_>>().join(", ");
                write!(f, "depths {first} and {last}")
            }
            [] => write!(f, "no depths"),
        }
    }
}

/// What so many bits can name: `tile 0 alone`, `palettes 0 to 7`. No bits where the mode has no entries.
struct Named(&'static str, Option<u32>);

impl fmt::Display for Named {
    fn fmt(&self, f: &mut fmt::Formatter<'_>) -> fmt::Result {
        let Named(what, bits) = self;
        match (1u64 << bits.unwrap_or(0)) - 1 {
            0 => write!(f, "{what} 0 alone"),
            last => write!(f, "{what}s 0 to {last}"),
        }
    }
}

impl Cause {
    fn write(self, refusal: Refusal, f: &mut fmt::Formatter<'_>) -> fmt::Result {
        match self {
            Cause::Plain => f.write_str(refusal.words()),
            Cause::Mode { number } => write!(f, "there is no mode {number}: the modes are 0 to 15"),
            Cause::Depth { mode, depth } => write!(f, "{mode} has {}, not {depth}", Depths(mode)),
            Cause::TileSize { mode, size } => write!(f, "{mode} has no tiles of {size}"),
            Cause::MapSize { size } => write!(f, "columns and rows are 1 to 64 each, not {size}"),
            Cause::TileNumber { number } => write!(f, "number {number} leads to a tile above 65,535"),
            Cause::Flips { mode } => write!(f, "{mode} has no flips"),
            Cause::Priority { mode } => write!(f, "{mode} has no priority"),
            Cause::Tile { mode, tile } => {
                write!(f, "tile index {tile} is too large: {mode} has {}", Named("tile", mode.tile_bits()))
            }
            Cause::Palette { mode, palette } => {
                write!(f, "palette index {palette} is too large: {mode} has {}", Named("palette", mode.palette_bits()))
            }
            Cause::Pixel { depth, value, at } => {
                write!(f, "pixel {at} is {value}, and depth {depth} holds 0 to {}", top_pixel(depth))
            }
            Cause::Component { mode, value, color } => {
                write!(f, "colour {color} has a component of {value}, and {mode}'s top is {}", mode.top())
            }
            Cause::Length { what, needed, given } => {
                let (are, were) = (number_of(needed, "is", "are"), number_of(given, "was", "were"));
                write!(f, "{} {are} needed, {given} {were} given", Counted(needed, what))
            }
            Cause::Whole { what, part, given } => {
                write!(f, "{} {} no multiple of {part}", Counted(given, what), number_of(given, "is", "are"))
            }
            Cause::Missing { tile, tiles } => {
                write!(f, "the map names tile {tile}, and the tile bytes hold {}", Counted(tiles, "tile"))
            }
            Cause::Output { what, needed, space } => {
                write!(f, "the {what} needs {} and has {space}", Counted(needed, "byte"))
            }
            Cause::Room { room } => write!(f, "there is room for {} and no more", Counted(room, "tile")),
            Cause::RoomBeside { common, room } => {
                let common = Counted(common as usize, "common tile");
                write!(f, "beside {common} there is room for {room} and no more")
            }
            Cause::Count { stored, room } => {
                write!(f, "the set counts {}, and there is room for {room}", Counted(stored as usize, "tile"))
            }
            Cause::CommonCount { counted, tiles } => {
                let are = number_of(counted as usize, "is", "are");
                write!(f, "the common store holds {}, and {counted} {are} counted", Counted(tiles, "tile"))
            }
            Cause::BothCounts { common, own } => write!(f, "{common} common and {own} own tiles pass 65,535"),
            Cause::RunCount { tiles, room } => {
                write!(f, "the run counts {}, and there is room for {room}", Counted(tiles as usize, "tile"))
            }
            Cause::Strip { row, given } => {
                let were = number_of(given, "was", "were");
                write!(f, "a strip is whole rows of tiles, {} each, and {given} {were} given", Counted(row, "pixel"))
            }
            Cause::PastRows { left, given } => {
                let (are, were) = (number_of(left, "is", "are"), number_of(given, "was", "were"));
                write!(f, "{} {are} still to come, {given} {were} given", Counted(left, "pixel"))
            }
            Cause::RowsLeft { left } => {
                let are = number_of(left as usize, "is", "are");
                write!(f, "{} of tiles {are} still to come", Counted(left as usize, "row"))
            }
            Cause::Mode7Half { what, given } => {
                write!(f, "a mode 7 block holds at most {}, {given} were given", Counted(MODE7_HALF, what))
            }
            Cause::Mode7Block { given } => {
                let were = number_of(given, "was", "were");
                write!(f, "a mode 7 block has {}, {given} {were} given", Counted(MODE7_BLOCK, "byte"))
            }
        }
    }

    /// A cause that names the mode, which has this number.
    pub(crate) fn in_mode(number: u32, cause: impl FnOnce(Mode) -> Cause) -> Cause {
        Mode::try_from(number).map_or(Cause::Plain, cause)
    }

    /// What the refusals of a mode and a depth are about.
    pub(crate) fn of_depth(refusal: Refusal, mode: u32, depth: u32) -> Cause {
        match refusal {
            Refusal::Mode => Cause::Mode { number: mode },
            Refusal::Depth => Cause::in_mode(mode, |mode| Cause::Depth { mode, depth }),
            _ => Cause::Plain,
        }
    }

    /// What the refusals of a mode, a depth and a size of tiles are about.
    pub(crate) fn of_tiles(refusal: Refusal, mode: u32, depth: u32, size: TileSize) -> Cause {
        match refusal {
            Refusal::Size => Cause::in_mode(mode, |mode| Cause::TileSize { mode, size }),
            _ => Cause::of_depth(refusal, mode, depth),
        }
    }

    /// The first pixel that does not fit the depth.
    pub(crate) fn of_pixels(depth: u32, pixels: &[u8]) -> Cause {
        let above = pixels.iter().enumerate().find(|&(_, &pixel)| u32::from(pixel) > top_pixel(depth));
        above.map_or(Cause::Plain, |(at, &value)| Cause::Pixel { depth, value, at })
    }
}

/// The largest pixel of a depth.
fn top_pixel(depth: u32) -> u32 {
    1u32.checked_shl(depth).map_or(u32::MAX, |pixels| pixels - 1)
}

impl Refused {
    #[cold]
    pub(crate) fn new(refusal: Refusal, cause: Cause) -> Refused {
        Refused { refusal, cause }
    }
}

impl fmt::Display for Refused {
    fn fmt(&self, f: &mut fmt::Formatter<'_>) -> fmt::Result {
        write!(f, "refused {}: ", self.refusal.number())?;
        self.cause.write(self.refusal, f)
    }
}

impl Error for Refused {}

impl From<Refused> for Refusal {
    fn from(refused: Refused) -> Refusal {
        refused.refusal
    }
}

impl From<Refusal> for Refused {
    fn from(refusal: Refusal) -> Refused {
        Refused::new(refusal, Cause::Plain)
    }
}
