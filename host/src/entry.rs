//! Map entries.

use crate::{Cause, Mode, Refusal, Refused, raw};

/// A map entry. Each mode has its own bits for each field; the first field, in this order, that they cannot hold is
/// refused by its own number: [`Refusal::EntryTile`], [`Refusal::EntryPalette`], [`Refusal::EntryFlip`] (either),
/// [`Refusal::EntryPriority`].
#[derive(Debug, Clone, Copy, PartialEq, Eq, Hash, Default)]
pub struct Entry {
    /// The tile index.
    pub tile: u32,
    /// The palette index.
    pub palette: u32,
    /// Drawn with each row reversed.
    pub flip_h: bool,
    /// Drawn with the order of rows reversed.
    pub flip_v: bool,
    /// Drawn in front.
    pub priority: bool,
}

/// Packs an entry into the mode's one or two bytes, and answers their number. Unused bits are 0.
///
/// # Errors
///
/// The first that applies: [`Refusal::Mode`], [`Refusal::PceSprite`], the first field's that does not fit
/// ([`Refusal::EntryTile`], [`Refusal::EntryPalette`], [`Refusal::EntryFlip`], [`Refusal::EntryPriority`]),
/// [`Refusal::Output`].
///
/// # Example
///
/// ```
/// use rumchivoat::{Entry, Mode, Refusal, pack_entry};
///
/// let mut out = [0; 2];
/// // (i)
/// let entry = Entry { tile: 513, palette: 5, flip_h: true, priority: true, ..Entry::default() };
/// assert_eq!(pack_entry(Mode::Snes, entry, &mut out), Ok(2));
/// assert_eq!(out, [0x01, 0x76]);
/// // (j) the tile index's low bits in the second byte
/// let entry = Entry { tile: 801, palette: 2, flip_v: true, ..Entry::default() };
/// assert_eq!(pack_entry(Mode::Md, entry, &mut out), Ok(2));
/// assert_eq!(out, [0x53, 0x21]);
/// // (k) the largest entry of pce, and two that are none
/// let entry = Entry { tile: 4095, palette: 15, ..Entry::default() };
/// assert_eq!(pack_entry(Mode::Pce, entry, &mut out), Ok(2));
/// assert_eq!(out, [0xff, 0xff]);
/// let above = Entry { tile: 4096, ..entry };
/// assert_eq!(pack_entry(Mode::Pce, above, &mut out), Err(Refusal::EntryTile));
/// let flipped = Entry { flip_h: true, ..entry };
/// assert_eq!(pack_entry(Mode::Pce, flipped, &mut out), Err(Refusal::EntryFlip));
/// ```
pub fn pack_entry(mode: impl Into<u32>, entry: Entry, out: &mut [u8]) -> Result<usize, Refusal> {
    raw::pack_entry(mode.into(), entry, out).length()
}

/// Reads an entry from the mode's one or two bytes. Unused bits are ignored.
///
/// # Errors
///
/// The first that applies: [`Refusal::Mode`], [`Refusal::PceSprite`], [`Refusal::Length`].
///
/// # Example
///
/// ```
/// use rumchivoat::{Entry, Mode, Refusal, unpack_entry};
///
/// let entry = Entry { tile: 513, palette: 5, flip_h: true, priority: true, ..Entry::default() };
/// assert_eq!(unpack_entry(Mode::Snes, &[0x01, 0x76]), Ok(entry));
/// assert_eq!(unpack_entry(Mode::Snes, &[0x01]), Err(Refusal::Length));
/// assert_eq!(unpack_entry(Mode::PceSprite, &[]), Err(Refusal::PceSprite));
/// ```
pub fn unpack_entry(mode: impl Into<u32>, bytes: &[u8]) -> Result<Entry, Refusal> {
    raw::unpack_entry(mode.into(), bytes).entry()
}

/// Writes an entry's tile index alone, and answers its length: two bytes, low first, where the mode's tile bits exceed
/// 8, else one. Gbc has one: its ninth bit is an attribute. The whole entry is checked.
///
/// # Errors
///
/// The first that applies: [`Refusal::Mode`], [`Refusal::PceSprite`], the first field's that does not fit
/// ([`Refusal::EntryTile`], [`Refusal::EntryPalette`], [`Refusal::EntryFlip`], [`Refusal::EntryPriority`]),
/// [`Refusal::Output`].
///
/// # Example
///
/// ```
/// use rumchivoat::{Entry, Mode, tile_index};
///
/// let mut out = [0; 2];
/// let entry = Entry { tile: 0x123, ..Entry::default() };
/// assert_eq!(tile_index(Mode::Md, entry, &mut out), Ok(2));
/// assert_eq!(out, [0x23, 0x01]);
/// assert_eq!(tile_index(Mode::Gbc, entry, &mut out[..1]), Ok(1));
/// ```
pub fn tile_index(mode: impl Into<u32>, entry: Entry, out: &mut [u8]) -> Result<usize, Refusal> {
    raw::tile_index(mode.into(), entry, out).length()
}

/// The bits of an entry that are not its tile index, where they stand in the entry's other byte; 0 in a mode whose
/// entries have one byte. Gbc keeps tile bit 8. The whole entry is checked.
///
/// # Errors
///
/// The first that applies: [`Refusal::Mode`], [`Refusal::PceSprite`], the first field's that does not fit, as in
/// [`pack_entry`].
///
/// # Example
///
/// ```
/// use rumchivoat::{Entry, Mode, attribute};
///
/// let entry = Entry { tile: 513, palette: 5, flip_h: true, priority: true, ..Entry::default() };
/// assert_eq!(attribute(Mode::Snes, entry), Ok(0x74));
/// let entry = Entry { tile: 256, palette: 1, ..Entry::default() };
/// assert_eq!(attribute(Mode::Gbc, entry), Ok(0x09));
/// ```
pub fn attribute(mode: impl Into<u32>, entry: Entry) -> Result<u8, Refusal> {
    raw::attribute(mode.into(), entry).byte()
}

impl Entry {
    /// Packs the entry as [`pack_entry`] does, and says why where it is refused.
    ///
    /// # Errors
    ///
    /// Those of [`pack_entry`], with their causes.
    ///
    /// # Example
    ///
    /// ```
    /// use rumchivoat::{Entry, Mode, Refused};
    ///
    /// let entry = Entry { tile: 513, palette: 5, flip_h: true, priority: true, ..Entry::default() };
    /// let mut out = [0; 2];
    /// assert_eq!((entry.pack(Mode::Snes, &mut out)?, out), (2, [0x01, 0x76]));
    /// let refused = entry.pack(Mode::Snes, &mut out[..1]).unwrap_err();
    /// assert_eq!(refused.to_string(), "refused 11: the output needs 2 bytes and has 1");
    /// let refused = entry.pack(Mode::Gg, &mut out).unwrap_err();
    /// assert_eq!(refused.to_string(), "refused 15: tile index 513 is too large: gg has tiles 0 to 511");
    /// # Ok::<(), Refused>(())
    /// ```
    pub fn pack(self, mode: impl Into<u32>, out: &mut [u8]) -> Result<usize, Refused> {
        let mode = mode.into();
        let space = out.len();
        pack_entry(mode, self, out).map_err(|refusal| Refused::new(refusal, self.why_not_packed(refusal, mode, space)))
    }

    /// Packs the entry as [`pack_entry`] does, into a `Vec` of the mode's one or two bytes.
    ///
    /// # Errors
    ///
    /// Those of [`pack_entry`], with their causes, but for [`Refusal::Output`].
    ///
    /// # Example
    ///
    /// ```
    /// use rumchivoat::{Entry, Mode, Refused};
    ///
    /// let entry = Entry { tile: 4095, palette: 15, ..Entry::default() };
    /// assert_eq!(entry.pack_to_vec(Mode::Pce)?, [0xff, 0xff]);
    /// let flipped = Entry { flip_h: true, ..entry };
    /// assert_eq!(flipped.pack_to_vec(Mode::Pce).unwrap_err().to_string(), "refused 17: pce has no flips");
    /// # Ok::<(), Refused>(())
    /// ```
    pub fn pack_to_vec(self, mode: impl Into<u32>) -> Result<Vec<u8>, Refused> {
        let mut out = [0; MOST_BYTES];
        let written = self.pack(mode, &mut out)?;
        Ok(out.into_iter().take(written).collect())
    }

    /// Reads an entry as [`unpack_entry`] does, and says why where it is refused.
    ///
    /// # Errors
    ///
    /// The first that applies: [`Refusal::Mode`], [`Refusal::PceSprite`], [`Refusal::Length`], with their causes.
    ///
    /// # Example
    ///
    /// ```
    /// use rumchivoat::{Entry, Mode, Refused};
    ///
    /// assert_eq!(Entry::unpack(Mode::Gb, &[7])?, Entry { tile: 7, ..Entry::default() });
    /// let refused = Entry::unpack(Mode::Snes, &[7]).unwrap_err();
    /// assert_eq!(refused.to_string(), "refused 7: 2 bytes are needed, 1 was given");
    /// # Ok::<(), Refused>(())
    /// ```
    pub fn unpack(mode: impl Into<u32>, bytes: &[u8]) -> Result<Entry, Refused> {
        let mode = mode.into();
        unpack_entry(mode, bytes).map_err(|refusal| Refused::new(refusal, why_not_read(refusal, mode, bytes.len())))
    }

    fn why_not_packed(self, refusal: Refusal, number: u32, space: usize) -> Cause {
        let needed = |mode: Mode| mode.entry_bytes().unwrap_or(0);
        match refusal {
            Refusal::Mode => Cause::Mode { number },
            Refusal::EntryTile => Cause::in_mode(number, |mode| Cause::Tile { mode, tile: self.tile }),
            Refusal::EntryPalette => Cause::in_mode(number, |mode| Cause::Palette { mode, palette: self.palette }),
            Refusal::EntryFlip => Cause::in_mode(number, |mode| Cause::Flips { mode }),
            Refusal::EntryPriority => Cause::in_mode(number, |mode| Cause::Priority { mode }),
            Refusal::Output => {
                Cause::in_mode(number, |mode| Cause::Output { what: "output", needed: needed(mode), space })
            }
            _ => Cause::Plain,
        }
    }
}

/// The most bytes of an entry.
const MOST_BYTES: usize = 2;

/// Whether so many bits hold the number; no bits where the mode has no entries.
pub(crate) fn fits(number: u32, bits: Option<u32>) -> bool {
    u64::from(number) >> bits.unwrap_or(0) == 0
}

fn why_not_read(refusal: Refusal, number: u32, given: usize) -> Cause {
    let needed = |mode: Mode| mode.entry_bytes().unwrap_or(0);
    match refusal {
        Refusal::Mode => Cause::Mode { number },
        Refusal::Length => Cause::in_mode(number, |mode| Cause::Length { what: "byte", needed: needed(mode), given }),
        _ => Cause::Plain,
    }
}
