//! What the station is told.

use std::error::Error;
use std::fmt;

/// Why a call was refused. Where several apply, the first in the order of the checks is given, and refusals are ordered
/// so: the least is given. That is the order of their numbers, but for 19, which comes after 6, 15 to 18, which come before
/// 11, and 14, which comes before all. There is no 10: any field of an entry was refused with it before each had a number
/// of its own.
///
/// A refusal is a number alone. The typed calls answer [`Refused`](crate::Refused), which has the values as well.
///
/// ```
/// use rumchivoat::Refusal;
///
/// assert_eq!(Refusal::Component.number(), 9);
/// assert_eq!(Refusal::Component.to_string(), "refused 9: a colour component is above the mode's top");
/// assert_eq!(Refusal::try_from(9), Ok(Refusal::Component));
/// assert!(Refusal::Component < Refusal::EntryTile && Refusal::EntryTile < Refusal::Output);
/// ```
#[derive(Debug, Clone, Copy, PartialEq, Eq, PartialOrd, Ord, Hash)]
#[non_exhaustive]
pub enum Refusal {
    /// 14: settings lines not as document 01 has them. Of the program alone, before all others.
    Settings,
    /// 1: mode number above 15.
    Mode,
    /// 2: an entry, picture, redraw, cell number or native flip in pce_sprite.
    PceSprite,
    /// 3: depth not in the mode's row.
    Depth,
    /// 4: tile size not allowed, columns or rows outside 1..64, or a tile number above 65,535.
    Size,
    /// 5: picture with flips on in a mode without flips.
    Flips,
    /// 6: set state counts more tiles than its room; of a title also more common tiles than their store holds, or more
    /// than 65,535 with its own; of a run also more rows than its picture has.
    Count,
    /// 19: a run ended before its last row, or a strip past it.
    Rows,
    /// 7: input length not the one required; in redrawing also tile bytes that end before a tile the map names; a strip
    /// that is not whole rows, or is empty; more tile bytes or map bytes than a mode 7 block holds.
    Length,
    /// 8: a pixel of 2^depth or more, in tile packing or set writing.
    Pixel,
    /// 9: a component r, g or b above the top, gray modes included.
    Component,
    /// 15: the tile index of an entry is larger than its bits can hold.
    EntryTile,
    /// 16: the palette index of an entry, or of a picture, is larger than the entry's bits can hold.
    EntryPalette,
    /// 17: a flip of an entry where there is none.
    EntryFlip,
    /// 18: priority of an entry where there is none.
    EntryPriority,
    /// 11: output buffer shorter than the bytes to be written.
    Output,
    /// 12: no room for the tiles.
    Room,
    /// 13: discarding on, discard counter 4,294,967,295, and an added tile matches; a run's counter would pass it within
    /// the strip.
    Discarded,
    /// An answer that this crate does not know, which an archive of another interface may give. Only the crate makes
    /// one; [`check_interface`](crate::check_interface) tells such an archive before the first call.
    #[non_exhaustive]
    Unknown {
        /// The refusal's number; 0 where the call was done and its value is none that it can have.
        number: u32,
    },
}

impl Refusal {
    /// Every refusal, in the order of the checks.
    pub const ALL: &'static [Refusal] = &[
        Refusal::Settings,
        Refusal::Mode,
        Refusal::PceSprite,
        Refusal::Depth,
        Refusal::Size,
        Refusal::Flips,
        Refusal::Count,
        Refusal::Rows,
        Refusal::Length,
        Refusal::Pixel,
        Refusal::Component,
        Refusal::EntryTile,
        Refusal::EntryPalette,
        Refusal::EntryFlip,
        Refusal::EntryPriority,
        Refusal::Output,
        Refusal::Room,
        Refusal::Discarded,
    ];

    /// Its number; the archive's own where this crate does not know it.
    pub const fn number(self) -> u32 {
        match self {
            Refusal::Settings => 14,
            Refusal::Mode => 1,
            Refusal::PceSprite => 2,
            Refusal::Depth => 3,
            Refusal::Size => 4,
            Refusal::Flips => 5,
            Refusal::Count => 6,
            Refusal::Rows => 19,
            Refusal::Length => 7,
            Refusal::Pixel => 8,
            Refusal::Component => 9,
            Refusal::EntryTile => 15,
            Refusal::EntryPalette => 16,
            Refusal::EntryFlip => 17,
            Refusal::EntryPriority => 18,
            Refusal::Output => 11,
            Refusal::Room => 12,
            Refusal::Discarded => 13,
            Refusal::Unknown { number } => number,
        }
    }

    /// The refusal of any number that the archive gives.
    pub(crate) fn of(number: u32) -> Refusal {
        Refusal::try_from(number).unwrap_or(Refusal::Unknown { number })
    }

    /// What it means, for a reader who has no paper at hand.
    pub(crate) const fn words(self) -> &'static str {
        match self {
            Refusal::Settings => "the sheet is not eight lines of settings and exactly the picture's pixels",
            Refusal::Mode => "the mode number is above 15",
            Refusal::PceSprite => "pce_sprite has no map entries, no pictures and no cell numbers",
            Refusal::Depth => "the mode does not have this depth",
            Refusal::Size => {
                "the mode has no tiles of this size, columns or rows are not 1 to 64, or a tile number is above 65,535"
            }
            Refusal::Flips => "flips are on, and the mode has none",
            Refusal::Count => {
                "more tiles are counted than there is room for, or than the common store holds, or more rows than the \
                 picture has"
            }
            Refusal::Rows => "the picture's last rows have not come yet, or the strip goes past them",
            Refusal::Length => {
                "the input is not as long as it must be, or longer than it may be, or not whole rows, or the map names a \
                 tile that is not there"
            }
            Refusal::Pixel => "a pixel does not fit the depth",
            Refusal::Component => "a colour component is above the mode's top",
            Refusal::EntryTile => "the tile index is larger than the mode's map entries can name",
            Refusal::EntryPalette => "the palette index is larger than the mode's map entries can name",
            Refusal::EntryFlip => "the entry is flipped, and the mode has no flips",
            Refusal::EntryPriority => "the entry has priority, and the mode has none",
            Refusal::Output => "the output is shorter than the bytes to be written",
            Refusal::Room => "there is no room for the tiles",
            Refusal::Discarded => "the tile is to be discarded, and the count of discarded tiles is at its end",
            Refusal::Unknown { .. } => {
                "the archive answers what this crate does not know: build both from one checkout"
            }
        }
    }
}

impl TryFrom<u32> for Refusal {
    /// The number, where it is no refusal's.
    type Error = u32;

    fn try_from(number: u32) -> Result<Self, u32> {
        Refusal::ALL.iter().copied().find(|refusal| refusal.number() == number).ok_or(number)
    }
}

impl fmt::Display for Refusal {
    fn fmt(&self, f: &mut fmt::Formatter<'_>) -> fmt::Result {
        write!(f, "refused {}: {}", self.number(), self.words())
    }
}

impl Error for Refusal {}

#[cfg(test)]
mod tests {
    use super::*;

    #[test]
    fn a_number_that_is_not_known_is_kept() {
        for number in [0, 10, 20, 255, u32::MAX] {
            let refusal = Refusal::of(number);
            assert_eq!(refusal, Refusal::Unknown { number });
            assert_eq!(refusal.number(), number);
            let words = "the archive answers what this crate does not know: build both from one checkout";
            assert_eq!(refusal.to_string(), format!("refused {number}: {words}"));
        }
    }

    #[test]
    fn refusals_are_in_the_order_of_the_checks() {
        let known = [14, 1, 2, 3, 4, 5, 6, 19, 7, 8, 9, 15, 16, 17, 18, 11, 12, 13];
        let numbers = known.into_iter().chain([20, 255, u32::MAX - 1, u32::MAX]).collect::<Vec<u32>>();
        let refusals: Vec<Refusal> = numbers.iter().map(|&number| Refusal::of(number)).collect();
        assert!(refusals.is_sorted());
        assert_eq!(refusals.iter().map(|refusal| refusal.number()).collect::<Vec<u32>>(), numbers);
        assert_eq!(refusals[..known.len()], *Refusal::ALL);
    }
}
