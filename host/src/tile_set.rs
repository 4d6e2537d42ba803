//! A set that keeps its store.

use crate::set::{is_native, row_cells};
use crate::{Cause, Logical, Native, Place, Refusal, Refused, Set, TileSize, logical_number, native_number};

/// What a set is made by.
///
/// ```
/// use rumchivoat::{Mode, Refused, SetSettings, TileSize};
///
/// // sprites of 16x16, each stored once, mirrored ones found, at most 32
/// let settings = SetSettings::new(Mode::Snes, 4, TileSize { width: 16, height: 16 }).flips().discarding().limit(32);
/// assert_eq!(settings.store_len(32)?, 32 * 256);
/// # Ok::<(), Refused>(())
/// ```
#[derive(Debug, Clone, Copy, PartialEq, Eq, Hash)]
#[non_exhaustive]
pub struct SetSettings {
    /// The mode's number.
    pub mode: u32,
    /// The bits of a pixel.
    pub depth: u32,
    /// The size of the tiles.
    pub size: TileSize,
    /// Whether a tile matches its mirror images.
    pub flips: bool,
    /// Whether a tile that matches one of the set is counted and not stored.
    pub discarding: bool,
    /// The most tiles to be stored; 0 for no limit.
    pub limit: u32,
}

impl SetSettings {
    /// Tiles of this size, without flips, discarding or limit. Snes has widths and heights of 8, 16, 32 and 64;
    /// pce_sprite widths of 16 and 32 and heights of 16, 32 and 64; the others width 8 and heights of 8, 16, 32 and 64.
    /// Nothing is checked before a set is made: any numbers can be given.
    pub fn new(mode: impl Into<u32>, depth: u32, size: TileSize) -> SetSettings {
        SetSettings { mode: mode.into(), depth, size, flips: false, discarding: false, limit: 0 }
    }

    /// With flips: a tile matches its mirror images. Any mode's set can have them.
    #[must_use]
    pub fn flips(self) -> SetSettings {
        SetSettings { flips: true, ..self }
    }

    /// With discarding: a tile that matches one of the set is counted and not stored.
    #[must_use]
    pub fn discarding(self) -> SetSettings {
        SetSettings { discarding: true, ..self }
    }

    /// With this limit, the most tiles to be stored; 0 for no limit.
    #[must_use]
    pub fn limit(self, tiles: u32) -> SetSettings {
        SetSettings { limit: tiles, ..self }
    }

    /// The length of a store that has room for so many tiles: a byte for each pixel.
    ///
    /// # Errors
    ///
    /// What a set of these settings and so many tiles is refused with, the first that applies: [`Refusal::Mode`],
    /// [`Refusal::Depth`], [`Refusal::Size`], [`Refusal::Count`] above the limit or 65,535 tiles, with their causes.
    ///
    /// # Example
    ///
    /// ```
    /// use rumchivoat::{Mode, Refused, SetSettings, TileSize};
    ///
    /// let settings = SetSettings::new(Mode::Md, 4, TileSize { width: 8, height: 16 });
    /// assert_eq!(settings.store_len(100)?, 100 * 128);
    /// let refused = settings.limit(99).store_len(100).unwrap_err();
    /// assert_eq!(refused.to_string(), "refused 6: the set counts 100 tiles, and there is room for 99");
    /// # Ok::<(), Refused>(())
    /// ```
    pub fn store_len(&self, tiles: u32) -> Result<usize, Refused> {
        let set = Set { stored: tiles, ..self.set()? };
        if tiles as usize > set.room(usize::MAX) {
            return Err(Refused::new(Refusal::Count, set.why_refused(Refusal::Count, usize::MAX)));
        }
        Ok(tiles as usize * self.size.pixels())
    }

    /// The cell at which a tile of the set's bytes starts, as [`native_number`] has it. At 8x8 the two numbers agree.
    ///
    /// # Errors
    ///
    /// The first that applies: [`Refusal::Mode`], [`Refusal::PceSprite`], [`Refusal::Size`], the last also for a tile number
    /// above 65,535, with their causes. The depth has no part in it.
    ///
    /// # Example
    ///
    /// ```
    /// use rumchivoat::{Logical, Mode, Native, Refused, SetSettings, TileSize};
    ///
    /// let settings = SetSettings::new(Mode::Snes, 4, TileSize { width: 16, height: 16 });
    /// // (l)
    /// assert_eq!(settings.native_number(Logical(8))?, Native(32));
    /// assert_eq!(settings.logical_number(Native(33))?, Logical(8));
    /// let refused = settings.native_number(Logical(65_536)).unwrap_err();
    /// assert_eq!(refused.to_string(), "refused 4: number 65536 leads to a tile above 65,535");
    /// # Ok::<(), Refused>(())
    /// ```
    pub fn native_number(&self, tile: Logical) -> Result<Native, Refused> {
        native_number(self.mode, self.size.width, self.size.height, tile)
            .map_err(|refusal| Refused::new(refusal, self.why_no_number(refusal, tile.0)))
    }

    /// The tile that a cell of the set's bytes belongs to, as [`logical_number`] has it.
    ///
    /// # Errors
    ///
    /// As [`native_number`](SetSettings::native_number), where the tile would be above 65,535.
    pub fn logical_number(&self, cell: Native) -> Result<Logical, Refused> {
        logical_number(self.mode, self.size.width, self.size.height, cell)
            .map_err(|refusal| Refused::new(refusal, self.why_no_number(refusal, cell.0)))
    }

    /// Where the size is one, the number is refused.
    fn why_no_number(&self, refusal: Refusal, number: u32) -> Cause {
        let first = native_number(self.mode, self.size.width, self.size.height, Logical(0));
        match (refusal, first) {
            (Refusal::Size, Ok(_)) => Cause::TileNumber { number },
            _ => Cause::of_tiles(refusal, self.mode, self.depth, self.size),
        }
    }

    /// A set of no tiles; 1, 3 and 4 where there is none.
    fn set(&self) -> Result<Set, Refused> {
        let cause = |refusal| Cause::of_tiles(refusal, self.mode, self.depth, self.size);
        Set::with_settings(*self).map_err(|refusal| Refused::new(refusal, cause(refusal)))
    }
}

/// A set together with its store, so that it is never used with the store of another job. The store is owned (a
/// `Vec<u8>`, an array) or borrowed (a `&mut [u8]`, which no other job can touch meanwhile), a byte for each pixel, and
/// comes back with [`into_parts`](TileSet::into_parts). What it holds at first does not matter: only stored tiles are
/// looked at and written.
///
/// Room is the least of 65,535, the store's whole tiles, and the limit if it is not 0.
///
/// ```
/// use rumchivoat::{Logical, Mode, Place, Refused, SetSettings, TileSet, TileSize};
///
/// let settings = SetSettings::new(Mode::Snes, 2, TileSize::CELL).flips().discarding();
/// let mut set = TileSet::new(settings, vec![0; settings.store_len(2)?])?;
///
/// let mut tile = [0; 64];
/// tile[0] = 1;
/// set.add(&tile)?;
/// // the same tile, seen in a mirror: found, and not stored again
/// tile.reverse();
/// let place = Place { place: Logical(0), flip_h: true, flip_v: true };
/// assert_eq!(set.look_up(&tile)?, Some(place));
/// set.add(&tile)?;
/// assert_eq!((set.len(), set.discarded()), (1, 1));
///
/// set.add(&[2; 64])?;
/// let refused = set.add(&[3; 64]).unwrap_err();
/// assert_eq!(refused.to_string(), "refused 12: there is room for 2 tiles and no more");
/// assert_eq!(set.write_to_vec()?.len(), 32);
/// # Ok::<(), Refused>(())
/// ```
///
/// Two jobs with one store do not compile:
///
/// ```compile_fail,E0499
/// use rumchivoat::{Mode, Refused, SetSettings, TileSet, TileSize};
///
/// let settings = SetSettings::new(Mode::Snes, 2, TileSize::CELL);
/// let mut store = vec![0; 128];
/// let mut one = TileSet::new(settings, &mut store[..])?;
/// let mut other = TileSet::new(settings, &mut store[..])?;
/// one.add(&[1; 64])?;
/// other.add(&[2; 64])?;
/// # Ok::<(), Refused>(())
/// ```
#[derive(Debug, Clone)]
pub struct TileSet<S> {
    pub(crate) set: Set,
    pub(crate) store: S,
}

impl<S: AsRef<[u8]> + AsMut<[u8]>> TileSet<S> {
    /// A set of no tiles over this store.
    ///
    /// # Errors
    ///
    /// The first that applies: [`Refusal::Mode`], [`Refusal::Depth`], [`Refusal::Size`], with their causes.
    ///
    /// # Example
    ///
    /// ```
    /// use rumchivoat::{Mode, Refused, SetSettings, TileSet, TileSize};
    ///
    /// // a borrowed store: it is the set's until the set is gone
    /// let mut store = [0; 128];
    /// let set = TileSet::new(SetSettings::new(Mode::Snes, 2, TileSize::CELL), &mut store[..])?;
    /// assert_eq!((set.len(), set.room()), (0, 2));
    ///
    /// let settings = SetSettings::new(Mode::Md, 4, TileSize { width: 16, height: 32 });
    /// let refused = TileSet::new(settings, vec![0; 512]).unwrap_err();
    /// assert_eq!(refused.to_string(), "refused 4: md has no tiles of 16x32");
    /// # Ok::<(), Refused>(())
    /// ```
    pub fn new(settings: SetSettings, store: S) -> Result<TileSet<S>, Refused> {
        Ok(TileSet { set: settings.set()?, store })
    }

    /// Reads a set from the mode's bytes into this store, as [`Set::read`] does: whole cells, up to the first tile that
    /// is not complete; of pce_sprite whole tiles. The set has no limit and discards; equal tiles are all kept.
    ///
    /// # Errors
    ///
    /// The first that applies: [`Refusal::Mode`], [`Refusal::Depth`], [`Refusal::Size`], [`Refusal::Length`],
    /// [`Refusal::Output`] where the store is too short, [`Refusal::Room`] for more than 65,535 tiles, with their
    /// causes.
    ///
    /// # Example
    ///
    /// ```
    /// use rumchivoat::{Logical, Mode, Refused, TileSet, TileSize};
    ///
    /// let flips = true;
    /// let set = TileSet::read(Mode::Gb, 1, TileSize::CELL, flips, &[0xff; 16], vec![0; 128])?;
    /// assert_eq!((set.len(), set.tile(Logical(1))), (2, Some([1; 64].as_slice())));
    ///
    /// let refused = TileSet::read(Mode::Gb, 1, TileSize::CELL, flips, &[0xff; 16], vec![0; 127]).unwrap_err();
    /// assert_eq!(refused.to_string(), "refused 11: the store needs 128 bytes and has 127");
    ///
    /// // a returned board's sprites: what is read of them is written again
    /// let (size, board) = (TileSize { width: 32, height: 64 }, [0x5a; 2 * 1024]);
    /// let sprites = TileSet::read(Mode::PceSprite, 4, size, flips, &board, vec![0; 2 * 2048])?;
    /// assert_eq!((sprites.len(), sprites.write_to_vec()?), (2, board.to_vec()));
    /// # Ok::<(), Refused>(())
    /// ```
    pub fn read(
        mode: impl Into<u32>,
        depth: u32,
        size: TileSize,
        flips: bool,
        bytes: &[u8],
        mut store: S,
    ) -> Result<TileSet<S>, Refused> {
        let (mode, space) = (mode.into(), store.as_ref().len());
        let part = part_bytes(mode, depth, size);
        let cause = |refusal| match refusal {
            Refusal::Length => Cause::Whole { what: "byte", part, given: bytes.len() },
            Refusal::Output => {
                let needed = read_tiles(mode, size, bytes.len() / part).saturating_mul(size.pixels());
                Cause::Output { what: "store", needed, space }
            }
            _ => Cause::of_tiles(refusal, mode, depth, size),
        };
        let set = Set::read(mode, depth, size.width, size.height, flips, bytes, store.as_mut());
        Ok(TileSet { set: set.map_err(|refusal| Refused::new(refusal, cause(refusal)))?, store })
    }

    /// Adds a tile's pixels, each cut to its low depth bits. With discarding on, a tile that the set has is counted as
    /// discarded; any other goes at the end of the stored ones. A refused set and its store stay as they are.
    ///
    /// # Errors
    ///
    /// The first that applies: [`Refusal::Count`] where the store is shorter than before, [`Refusal::Length`],
    /// [`Refusal::Room`], [`Refusal::Discarded`], with their causes.
    pub fn add(&mut self, pixels: &[u8]) -> Result<(), Refused> {
        let TileSet { set, store } = self;
        set.add(store.as_mut(), pixels).map_err(|refusal| self.why(refusal, pixels.len()))
    }

    /// Looks a tile's pixels up, each cut to its low depth bits: where the set has the tile, or nothing.
    ///
    /// # Errors
    ///
    /// The first that applies: [`Refusal::Count`] where the store is shorter than before, [`Refusal::Length`], with their
    /// causes.
    ///
    /// # Example
    ///
    /// ```
    /// use rumchivoat::{Mode, Refused, SetSettings, TileSet, TileSize};
    ///
    /// let set = TileSet::new(SetSettings::new(Mode::Snes, 2, TileSize::CELL), vec![0; 64])?;
    /// // the store is blank, and the set has no tile
    /// assert_eq!(set.look_up(&[0; 64])?, None);
    /// let refused = set.look_up(&[0; 63]).unwrap_err();
    /// assert_eq!(refused.to_string(), "refused 7: 64 pixels are needed, 63 were given");
    /// # Ok::<(), Refused>(())
    /// ```
    pub fn look_up(&self, pixels: &[u8]) -> Result<Option<Place>, Refused> {
        self.set.look_up(self.store.as_ref(), pixels).map_err(|refusal| self.why(refusal, pixels.len()))
    }

    /// The length of the bytes that [`write`](TileSet::write) writes.
    ///
    /// # Errors
    ///
    /// As [`Set::write_len`]: none of a set that is kept here.
    pub fn write_len(&self) -> Result<usize, Refused> {
        self.set.write_len()
    }

    /// Writes the set's tiles as the mode's bytes, as [`Set::write`] does, and answers their length.
    ///
    /// # Errors
    ///
    /// The first that applies: [`Refusal::Count`] where the store is shorter than before, [`Refusal::Output`], with their
    /// causes.
    ///
    /// # Example
    ///
    /// ```
    /// use rumchivoat::{Mode, Refused, SetSettings, TileSet, TileSize};
    ///
    /// let mut set = TileSet::new(SetSettings::new(Mode::Snes, 2, TileSize::CELL), vec![0; 64])?;
    /// set.add(&[1; 64])?;
    /// let mut bytes = [0; 16];
    /// assert_eq!(set.write(&mut bytes)?, 16);
    /// let refused = set.write(&mut bytes[1..]).unwrap_err();
    /// assert_eq!(refused.to_string(), "refused 11: the output needs 16 bytes and has 15");
    /// # Ok::<(), Refused>(())
    /// ```
    pub fn write(&self, out: &mut [u8]) -> Result<usize, Refused> {
        let space = out.len();
        self.set.write(self.store.as_ref(), out).map_err(|refusal| match refusal {
            Refusal::Output => {
                let cause = |needed| Cause::Output { what: "output", needed, space };
                Refused::new(refusal, self.write_len().map_or(Cause::Plain, cause))
            }
            Refusal::Pixel => Refused::new(refusal, Cause::of_pixels(self.set.depth, self.store.as_ref())),
            _ => self.why(refusal, 0),
        })
    }

    /// Writes the set's tiles as [`write`](TileSet::write) does, into a `Vec` of exactly their bytes.
    ///
    /// # Errors
    ///
    /// [`Refusal::Count`] where the store is shorter than before, with its cause.
    pub fn write_to_vec(&self) -> Result<Vec<u8>, Refused> {
        let mut out = vec![0; self.write_len()?];
        let written = self.write(&mut out)?;
        out.truncate(written);
        Ok(out)
    }

    /// Sets both counts to 0: the set has no tiles, and its store room for others.
    ///
    /// # Errors
    ///
    /// None of a set that is kept here, which has a mode, a depth and a size.
    ///
    /// # Example
    ///
    /// ```
    /// use rumchivoat::{Logical, Mode, Refused, SetSettings, TileSet, TileSize};
    ///
    /// let mut set = TileSet::new(SetSettings::new(Mode::Snes, 2, TileSize::CELL), vec![0; 64])?;
    /// set.add(&[1; 64])?;
    /// set.reset()?;
    /// assert_eq!((set.len(), set.tile(Logical(0)), set.write_to_vec()?), (0, None, vec![]));
    /// # Ok::<(), Refused>(())
    /// ```
    pub fn reset(&mut self) -> Result<(), Refused> {
        self.set.reset().map_err(|refusal| self.why(refusal, 0))
    }

    /// The pixels of a stored tile, a byte each; `None` where the set has no such tile.
    pub fn tile(&self, number: Logical) -> Option<&[u8]> {
        if number.0 >= self.set.stored {
            return None;
        }
        tile_at(self.store.as_ref(), self.set.size(), number.0)
    }

    /// How many tiles are stored.
    pub fn len(&self) -> usize {
        self.set.stored as usize
    }

    /// Whether no tile is stored.
    pub fn is_empty(&self) -> bool {
        self.set.stored == 0
    }

    /// How many added tiles matched and were not stored.
    pub fn discarded(&self) -> u32 {
        self.set.discarded
    }

    /// How many tiles there is room for, the stored ones counted.
    pub fn room(&self) -> usize {
        self.set.room(self.store.as_ref().len())
    }

    /// What the set was made by. A set that was read has no limit and discards.
    pub fn settings(&self) -> SetSettings {
        let Set { mode, depth, flips, discarding, limit, .. } = self.set;
        SetSettings { mode, depth, size: self.set.size(), flips, discarding, limit }
    }

    /// The set and its store, apart. The plain calls of [`Set`] take them; no call makes a `TileSet` of them again.
    ///
    /// ```
    /// use rumchivoat::{Mode, Refused, SetSettings, TileSet, TileSize};
    ///
    /// let mut tiles = TileSet::new(SetSettings::new(Mode::Snes, 2, TileSize::CELL), vec![0; 128])?;
    /// tiles.add(&[1; 64])?;
    /// let (set, store) = tiles.into_parts();
    /// assert_eq!((set.stored, store[63], store[64]), (1, 1, 0));
    /// # Ok::<(), Refused>(())
    /// ```
    pub fn into_parts(self) -> (Set, S) {
        (self.set, self.store)
    }

    /// Why a call on so many pixels was refused.
    pub(crate) fn why(&self, refusal: Refusal, given: usize) -> Refused {
        let cause = match refusal {
            Refusal::Length => Cause::Length { what: "pixel", needed: self.set.size().pixels(), given },
            _ => self.set.why_refused(refusal, self.store.as_ref().len()),
        };
        Refused::new(refusal, cause)
    }
}

/// The pixels of a tile of this size in a store; `None` where the store has no such tile.
pub(crate) fn tile_at(store: &[u8], size: TileSize, number: u32) -> Option<&[u8]> {
    let start = (number as usize).checked_mul(size.pixels())?;
    store.get(start..start.checked_add(size.pixels())?)
}

/// The bytes of the part that a set is read by, a cell or a whole native tile; 1 of a depth or a size that is none.
fn part_bytes(mode: u32, depth: u32, size: TileSize) -> usize {
    let part = if is_native(mode, size) { size } else { TileSize::CELL };
    part.bytes(depth).max(1)
}

/// The tiles that are read of so many parts: native tiles are all read; of cells, those of whole rows, and those of the
/// last row whose cells are all there.
fn read_tiles(mode: u32, size: TileSize, parts: usize) -> usize {
    let (across, down) = ((size.width as usize / 8).max(1), (size.height as usize / 8).max(1));
    if is_native(mode, size) {
        return parts;
    }
    let row = row_cells(mode);
    let (rows, rest) = (parts / (down * row), parts % (down * row));
    rows * (row / across) + rest.saturating_sub((down - 1) * row) / across
}
