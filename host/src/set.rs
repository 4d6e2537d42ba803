//! Tile sets, and the two kinds of tile number.

use crate::{Cause, Mode, Refusal, Refused, SetSettings, TileSize, raw};

/// A set's settings and state. Its tiles live in a store that is lent to each call, a byte for each pixel, tile after
/// tile, each row by row. A [`TileSet`](crate::TileSet) keeps both together: a plain set can be lent another set's store.
///
/// The fields are plain numbers, kept by the caller between calls. Every call checks them: what is no set is answered
/// with [`Refusal::Mode`], [`Refusal::Depth`] or [`Refusal::Size`], and a set that counts more tiles than its room with
/// [`Refusal::Count`]. Room is the least of 65,535, the store's whole tiles, and the limit if it is not 0.
///
/// ```
/// use rumchivoat::{Logical, Mode, Place, Refusal, Set, SetSettings, TileSize};
///
/// // room for two tiles of 8x8; flips and discarding on, no limit
/// let mut store = [0; 128];
/// let settings = SetSettings::new(Mode::Snes, 2, TileSize::CELL).flips().discarding();
/// let mut set = Set::with_settings(settings)?;
///
/// let mut tile = [0; 64];
/// tile[0] = 1;
/// set.add(&mut store, &tile)?;
/// // the same tile, seen in a mirror: found, and not stored again
/// tile.reverse();
/// let place = Place { place: Logical(0), flip_h: true, flip_v: true };
/// assert_eq!(set.look_up(&store, &tile), Ok(Some(place)));
/// set.add(&mut store, &tile)?;
/// assert_eq!((set.stored, set.discarded), (1, 1));
///
/// set.add(&mut store, &[2; 64])?;
/// assert_eq!(set.add(&mut store, &[3; 64]), Err(Refusal::Room));
/// let mut bytes = [0; 32];
/// assert_eq!(set.write(&store, &mut bytes), Ok(32));
/// # Ok::<(), Refusal>(())
/// ```
#[repr(C)]
#[derive(Debug, Clone, Copy, PartialEq, Eq, Hash, Default)]
pub struct Set {
    /// The mode's number.
    pub mode: u32,
    /// The bits of a pixel.
    pub depth: u32,
    /// The pixels of a tile's row.
    pub width: u32,
    /// The rows of a tile.
    pub height: u32,
    /// Whether a tile matches its mirror images.
    pub flips: bool,
    /// Whether a tile that matches one of the set is counted and not stored.
    pub discarding: bool,
    /// The most tiles to be stored; 0 for no limit.
    pub limit: u32,
    /// How many tiles of the store are the set's.
    pub stored: u32,
    /// How many added tiles matched and were not stored.
    pub discarded: u32,
}

/// Where a look-up finds a tile: the first that matches, and the first flip of none, h, v, both under which it does.
#[derive(Debug, Clone, Copy, PartialEq, Eq, Hash, Default)]
pub struct Place {
    /// The tile's number in the set.
    pub place: Logical,
    /// It matches with each row reversed.
    pub flip_h: bool,
    /// It matches with the order of rows reversed.
    pub flip_v: bool,
}

/// A native tile number: it counts cells of 8x8 as they stand in a set's bytes.
#[derive(Debug, Clone, Copy, PartialEq, Eq, PartialOrd, Ord, Hash, Default)]
pub struct Native(pub u32);

/// A logical tile number: it counts whole tiles.
#[derive(Debug, Clone, Copy, PartialEq, Eq, PartialOrd, Ord, Hash, Default)]
pub struct Logical(pub u32);

/// The most tiles of any set.
pub(crate) const MOST_TILES: usize = 65_535;

impl Set {
    /// A set of no tiles, by these settings.
    ///
    /// # Errors
    ///
    /// The first that applies: [`Refusal::Mode`], [`Refusal::Depth`], [`Refusal::Size`].
    ///
    /// # Example
    ///
    /// ```
    /// use rumchivoat::{Mode, Refusal, Set, SetSettings, TileSize};
    ///
    /// let settings = SetSettings::new(Mode::Md, 4, TileSize { width: 8, height: 32 }).flips().discarding();
    /// let set = Set::with_settings(settings)?;
    /// assert_eq!((set.stored, set.discarded), (0, 0));
    /// # Ok::<(), Refusal>(())
    /// ```
    pub fn with_settings(settings: SetSettings) -> Result<Set, Refusal> {
        let SetSettings { mode, depth, size, flips, discarding, limit } = settings;
        Set::new(mode, depth, size.width, size.height, flips, discarding, limit)
    }

    /// A set of no tiles, by plain numbers; [`with_settings`](Set::with_settings) names them. Snes has widths and heights of 8, 16, 32 and 64; pce_sprite its six sizes; the others width 8
    /// and those heights. Flips may be on in any mode.
    ///
    /// # Errors
    ///
    /// The first that applies: [`Refusal::Mode`], [`Refusal::Depth`], [`Refusal::Size`].
    ///
    /// # Example
    ///
    /// ```
    /// use rumchivoat::{Mode, Refusal, Set};
    ///
    /// let set = Set::new(Mode::Md, 4, 8, 32, true, true, 0)?;
    /// assert_eq!((set.stored, set.discarded), (0, 0));
    /// assert_eq!(Set::new(Mode::Md, 2, 8, 32, true, true, 0), Err(Refusal::Depth));
    /// assert_eq!(Set::new(Mode::Md, 4, 16, 32, true, true, 0), Err(Refusal::Size));
    /// # Ok::<(), Refusal>(())
    /// ```
    pub fn new(
        mode: impl Into<u32>,
        depth: u32,
        width: u32,
        height: u32,
        flips: bool,
        discarding: bool,
        limit: u32,
    ) -> Result<Set, Refusal> {
        raw::set_new(mode.into(), depth, width, height, flips, discarding, limit).set()
    }

    /// Sets both counts to 0. A refused set stays as it is.
    ///
    /// # Errors
    ///
    /// The first that applies: [`Refusal::Mode`], [`Refusal::Depth`], [`Refusal::Size`].
    ///
    /// # Example
    ///
    /// ```
    /// use rumchivoat::{Mode, Refusal, Set};
    ///
    /// let mut set = Set::new(Mode::Gb, 1, 8, 8, false, false, 0)?;
    /// set.add(&mut [0; 64], &[1; 64])?;
    /// assert_eq!(set.stored, 1);
    /// set.reset()?;
    /// assert_eq!(set.stored, 0);
    /// # Ok::<(), Refusal>(())
    /// ```
    pub fn reset(&mut self) -> Result<(), Refusal> {
        *self = raw::set_reset(*self).set()?;
        Ok(())
    }

    /// Looks a tile's pixels up, each cut to its low depth bits: where the set has the tile, or nothing.
    ///
    /// # Errors
    ///
    /// The first that applies: [`Refusal::Mode`], [`Refusal::Depth`], [`Refusal::Size`], [`Refusal::Count`],
    /// [`Refusal::Length`].
    ///
    /// # Example
    ///
    /// ```
    /// use rumchivoat::{Logical, Mode, Place, Refusal, Set};
    ///
    /// let mut store = [0; 64];
    /// let mut set = Set::new(Mode::Gba, 4, 8, 8, true, true, 0)?;
    /// let mut tile = [0; 64];
    /// tile[0] = 5;
    /// assert_eq!(set.look_up(&store, &tile), Ok(None));
    /// set.add(&mut store, &tile)?;
    /// // its first row reversed
    /// tile.swap(0, 7);
    /// let place = Place { place: Logical(0), flip_h: true, flip_v: false };
    /// assert_eq!(set.look_up(&store, &tile), Ok(Some(place)));
    /// // 0x15 is cut to 5
    /// tile[7] = 0x15;
    /// assert_eq!(set.look_up(&store, &tile), Ok(Some(place)));
    /// assert_eq!(set.look_up(&store, &tile[1..]), Err(Refusal::Length));
    /// # Ok::<(), Refusal>(())
    /// ```
    pub fn look_up(&self, store: &[u8], pixels: &[u8]) -> Result<Option<Place>, Refusal> {
        raw::set_look_up(*self, store, pixels).place()
    }

    /// Adds a tile's pixels, each cut to its low depth bits. With discarding on, a tile that the set has is counted in
    /// `discarded`; any other goes at the end of the stored ones. A refused set and its store stay as they are.
    ///
    /// # Errors
    ///
    /// The first that applies: [`Refusal::Mode`], [`Refusal::Depth`], [`Refusal::Size`], [`Refusal::Count`],
    /// [`Refusal::Length`], [`Refusal::Room`], [`Refusal::Discarded`].
    ///
    /// # Example
    ///
    /// ```
    /// use rumchivoat::{Mode, Refusal, Set};
    ///
    /// let mut store = [0; 256];
    /// let mut set = Set::new(Mode::Snes, 2, 8, 8, false, true, 1)?;
    /// set.add(&mut store, &[5; 64])?;
    /// assert_eq!(store[..65], [[1; 64].as_slice(), &[0]].concat());
    /// // the limit is 1: a second tile has no room, the same tile needs none
    /// assert_eq!(set.add(&mut store, &[2; 64]), Err(Refusal::Room));
    /// assert_eq!(set.add(&mut store, &[1; 64]), Ok(()));
    /// assert_eq!((set.stored, set.discarded), (1, 1));
    /// # Ok::<(), Refusal>(())
    /// ```
    pub fn add(&mut self, store: &mut [u8], pixels: &[u8]) -> Result<(), Refusal> {
        *self = raw::set_add(*self, store, pixels).set()?;
        Ok(())
    }

    /// Writes the set's tiles as the mode's bytes, and answers their length. Tiles that are larger than 8x8 are written
    /// cell by cell, the last row of cells filled up with blank ones; pce_sprite's tile by tile.
    ///
    /// # Errors
    ///
    /// The first that applies: [`Refusal::Mode`], [`Refusal::Depth`], [`Refusal::Size`], [`Refusal::Count`],
    /// [`Refusal::Pixel`], [`Refusal::Output`].
    ///
    /// # Example
    ///
    /// ```
    /// use rumchivoat::{Mode, Refusal, Set};
    ///
    /// // (l) nine tiles of 16x16: two rows of eight, 64 cells
    /// let mut store = [0; 9 * 256];
    /// let mut set = Set::new(Mode::Snes, 2, 16, 16, false, false, 0)?;
    /// for tile in 0..9 {
    ///     set.add(&mut store, &[tile; 256])?;
    /// }
    /// let mut bytes = [0; 64 * 16];
    /// assert_eq!(set.write(&store, &mut bytes), Ok(64 * 16));
    /// assert_eq!(set.write(&store, &mut bytes[1..]), Err(Refusal::Output));
    /// # Ok::<(), Refusal>(())
    /// ```
    pub fn write(&self, store: &[u8], out: &mut [u8]) -> Result<usize, Refusal> {
        raw::set_write(*self, store, out).length()
    }

    /// Reads a set from the mode's bytes into the store: whole cells, up to the first tile that is not complete; of
    /// pce_sprite whole tiles. The set has no limit and discards; equal tiles are all kept.
    /// [`TileSet::read`](crate::TileSet::read) takes the size as one.
    ///
    /// [`write`](Set::write) gives the same bytes back where they are whole rows of tiles, as those of 8x8 and of
    /// pce_sprite always are. Elsewhere it gives whole rows in which all cells are blank but those of the tiles read.
    ///
    /// # Errors
    ///
    /// The first that applies: [`Refusal::Mode`], [`Refusal::Depth`], [`Refusal::Size`], [`Refusal::Length`],
    /// [`Refusal::Output`] where the store is too short, [`Refusal::Room`] for more than 65,535 tiles.
    ///
    /// # Example
    ///
    /// ```
    /// use rumchivoat::{Mode, Refusal, Set};
    ///
    /// let mut store = [0xee; 16 * 256];
    /// // (l) 64 cells are sixteen tiles of 16x16
    /// let set = Set::read(Mode::Snes, 2, 16, 16, true, &[0; 64 * 16], &mut store)?;
    /// assert_eq!((set.stored, set.discarded, set.discarding, set.limit), (16, 0, true, 0));
    /// assert_eq!(store, [0; 16 * 256]);
    /// assert_eq!(Set::read(Mode::Snes, 2, 16, 16, true, &[0; 15], &mut store), Err(Refusal::Length));
    ///
    /// // two sprites of 16x16, and the same bytes again
    /// let board = [[0x5a; 128], [0xa5; 128]].concat();
    /// let set = Set::read(Mode::PceSprite, 4, 16, 16, true, &board, &mut store)?;
    /// let mut bytes = [0; 256];
    /// assert_eq!((set.stored, set.write(&store, &mut bytes)), (2, Ok(256)));
    /// assert_eq!(bytes, *board);
    /// assert_eq!(Set::read(Mode::PceSprite, 4, 16, 16, true, &board[1..], &mut store), Err(Refusal::Length));
    /// # Ok::<(), Refusal>(())
    /// ```
    pub fn read(
        mode: impl Into<u32>,
        depth: u32,
        width: u32,
        height: u32,
        flips: bool,
        bytes: &[u8],
        store: &mut [u8],
    ) -> Result<Set, Refusal> {
        raw::set_read(mode.into(), depth, width, height, flips, bytes, store).set()
    }

    /// The length of the bytes that [`write`](Set::write) writes.
    ///
    /// # Errors
    ///
    /// What the set is refused with, whatever its store, the first that applies: [`Refusal::Mode`], [`Refusal::Depth`],
    /// [`Refusal::Size`], [`Refusal::Count`], with their causes.
    ///
    /// # Example
    ///
    /// ```
    /// use rumchivoat::{Mode, Refused, Set, SetSettings, TileSize};
    ///
    /// let settings = SetSettings::new(Mode::Snes, 2, TileSize { width: 16, height: 16 });
    /// let mut set = Set::with_settings(settings)?;
    /// // (l) nine tiles of 16x16: two rows of eight, 64 cells
    /// set.stored = 9;
    /// assert_eq!(set.write_len()?, 64 * 16);
    /// # Ok::<(), Refused>(())
    /// ```
    pub fn write_len(&self) -> Result<usize, Refused> {
        let refused = |refusal| Refused::new(refusal, self.why_refused(refusal, usize::MAX));
        // the archive's own check of mode, depth and size
        raw::set_reset(*self).set().map_err(refused)?;
        if self.stored as usize > self.room(usize::MAX) {
            return Err(refused(Refusal::Count));
        }
        Ok(self.cells() * self.depth as usize * 8)
    }

    /// The size of the set's tiles.
    pub fn size(&self) -> TileSize {
        TileSize { width: self.width, height: self.height }
    }

    /// Room over a store of this length, of a set that is not refused.
    pub(crate) fn room(&self, store: usize) -> usize {
        let limit = if self.limit == 0 { MOST_TILES } else { self.limit as usize };
        limit.min(MOST_TILES).min(store / self.size().pixels().max(1))
    }

    /// The cells of the set's bytes. But for native tiles they fill whole rows, R = 16 of snes and 1 of others.
    fn cells(&self) -> usize {
        let (across, down) = ((self.width as usize / 8).max(1), self.height as usize / 8);
        let stored = self.stored as usize;
        if is_native(self.mode, self.size()) {
            return stored * across * down;
        }
        let row = row_cells(self.mode);
        stored.div_ceil((row / across).max(1)) * down * row
    }

    /// What the refusals of a set over a store of this length are about.
    pub(crate) fn why_refused(&self, refusal: Refusal, store: usize) -> Cause {
        match refusal {
            Refusal::Count => Cause::Count { stored: self.stored, room: self.room(store) },
            Refusal::Room => Cause::Room { room: self.room(store) },
            _ => Cause::of_tiles(refusal, self.mode, self.depth, self.size()),
        }
    }
}

/// Whether a set's bytes are its tiles, one after the other: those of 8x8, and of pce_sprite.
pub(crate) fn is_native(mode: u32, size: TileSize) -> bool {
    mode == Mode::PceSprite.number() || size == TileSize::CELL
}

/// R, the cells of a row of a set's bytes.
pub(crate) fn row_cells(mode: u32) -> usize {
    if mode == Mode::Snes.number() { 16 } else { 1 }
}

/// The cell at which a tile of the set's bytes starts. At 8x8 the two numbers agree.
///
/// # Errors
///
/// The first that applies: [`Refusal::Mode`], [`Refusal::PceSprite`], [`Refusal::Size`], the last also for a tile
/// number above 65,535.
///
/// # Example
///
/// ```
/// use rumchivoat::{Logical, Mode, Native, Refusal, native_number};
///
/// // (l)
/// assert_eq!(native_number(Mode::Snes, 16, 16, Logical(8)), Ok(Native(32)));
/// assert_eq!(native_number(Mode::Snes, 16, 16, Logical(65_536)), Err(Refusal::Size));
/// ```
pub fn native_number(mode: impl Into<u32>, width: u32, height: u32, tile: Logical) -> Result<Native, Refusal> {
    raw::native_number(mode.into(), width, height, tile.0).number().map(Native)
}

/// The tile that a cell of the set's bytes belongs to.
///
/// # Errors
///
/// The first that applies: [`Refusal::Mode`], [`Refusal::PceSprite`], [`Refusal::Size`], the last also where the tile
/// number would be above 65,535.
///
/// # Example
///
/// ```
/// use rumchivoat::{Logical, Mode, Native, Refusal, logical_number};
///
/// // (l)
/// assert_eq!(logical_number(Mode::Snes, 16, 16, Native(33)), Ok(Logical(8)));
/// assert_eq!(logical_number(Mode::Snes, 16, 16, Native(262_144)), Err(Refusal::Size));
/// ```
pub fn logical_number(mode: impl Into<u32>, width: u32, height: u32, cell: Native) -> Result<Logical, Refusal> {
    raw::logical_number(mode.into(), width, height, cell.0).number().map(Logical)
}
