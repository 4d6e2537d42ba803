//! Titles: a set of one's own, and a store of tiles in common with other titles, which none of them writes.

use crate::set::MOST_TILES;
use crate::tile_set::tile_at;
use crate::{Cause, Logical, Refusal, Refused, Set, SetSettings, TileSet, raw};

/// What a title's look-up finds: the first tile that matches, of the common ones and then of the title's own, and the
/// first flip of none, h, v, both under which it does.
#[derive(Debug, Clone, Copy, PartialEq, Eq, Hash)]
pub struct Held<'a> {
    /// The tile's number in the title: own tiles are numbered after the common ones.
    pub place: Logical,
    /// It matches with each row reversed.
    pub flip_h: bool,
    /// It matches with the order of rows reversed.
    pub flip_v: bool,
    /// Whether the common store holds it, or the title's own.
    pub common: bool,
    /// The tile's pixels as they are stored, a byte each: a part of the store that holds it.
    pub part: &'a [u8],
}

/// A set with a common store beside it makes a title. The common store has so many tiles of the set's size, and is only
/// read: any number of titles may be lent it. [`Title`] keeps all of it together.
impl Set {
    /// Looks a tile's pixels up, each cut to its low depth bits: among the common tiles, then among the set's own. The
    /// tile is handed back as a part of the store that holds it.
    ///
    /// # Errors
    ///
    /// The first that applies: [`Refusal::Mode`], [`Refusal::Depth`], [`Refusal::Size`], [`Refusal::Count`],
    /// [`Refusal::Length`]. [`Refusal::Count`] also where the common count is more than the whole tiles of the common
    /// store, or both counts together are more than 65,535.
    ///
    /// # Example
    ///
    /// ```
    /// use rumchivoat::{Held, Logical, Mode, Refusal, Set};
    ///
    /// // one common tile, and one of the title's own
    /// let (common, store) = ([1; 64], [2; 64]);
    /// let set = Set { stored: 1, ..Set::new(Mode::Snes, 2, 8, 8, true, true, 0)? };
    ///
    /// let held = Held { place: Logical(0), flip_h: false, flip_v: false, common: true, part: &common };
    /// assert_eq!(set.title_look_up(1, &common, &store, &[1; 64]), Ok(Some(held)));
    /// let held = Held { place: Logical(1), common: false, part: &store, ..held };
    /// assert_eq!(set.title_look_up(1, &common, &store, &[2; 64]), Ok(Some(held)));
    /// assert_eq!(set.title_look_up(1, &common, &store, &[3; 64]), Ok(None));
    /// // the common store has one tile
    /// assert_eq!(set.title_look_up(2, &common, &store, &[1; 64]), Err(Refusal::Count));
    /// # Ok::<(), Refusal>(())
    /// ```
    pub fn title_look_up<'a>(
        &self,
        common_count: u32,
        common: &'a [u8],
        store: &'a [u8],
        pixels: &[u8],
    ) -> Result<Option<Held<'a>>, Refusal> {
        raw::title_look_up(*self, common_count, common, store, pixels).held(common, store)
    }

    /// Adds a tile's pixels, each cut to its low depth bits. With discarding on, a tile that is a common one or one of
    /// the set's own is counted in `discarded`; any other goes at the end of the set's own. A refused set and its store
    /// stay as they are.
    ///
    /// # Errors
    ///
    /// The first that applies: [`Refusal::Mode`], [`Refusal::Depth`], [`Refusal::Size`], [`Refusal::Count`] as
    /// [`title_look_up`](Set::title_look_up) has it, [`Refusal::Length`], [`Refusal::Room`], [`Refusal::Discarded`].
    /// [`Refusal::Room`] also where both counts together are 65,535.
    ///
    /// # Example
    ///
    /// ```
    /// use rumchivoat::{Mode, Refusal, Set};
    ///
    /// let (common, mut store) = ([1; 64], [0; 64]);
    /// let mut set = Set::new(Mode::Snes, 2, 8, 8, false, true, 0)?;
    /// // 5 is cut to 1, the common tile: counted, and not stored
    /// set.title_add(1, &common, &mut store, &[5; 64])?;
    /// assert_eq!((set.stored, set.discarded, store), (0, 1, [0; 64]));
    /// set.title_add(1, &common, &mut store, &[2; 64])?;
    /// assert_eq!((set.stored, set.discarded, store), (1, 1, [2; 64]));
    /// assert_eq!(set.title_add(1, &common, &mut store, &[3; 64]), Err(Refusal::Room));
    /// # Ok::<(), Refusal>(())
    /// ```
    pub fn title_add(
        &mut self,
        common_count: u32,
        common: &[u8],
        store: &mut [u8],
        pixels: &[u8],
    ) -> Result<(), Refusal> {
        *self = raw::title_add(*self, common_count, common, store, pixels).set()?;
        Ok(())
    }
}

/// A title: a set with its own store, and a common store that it borrows and never writes. Any number of titles may
/// borrow the same one, and what one of them is answered depends on nothing of the others.
///
/// The common store holds tiles of the set's size, a byte for each pixel, one after the other, as [`TileSet`] keeps
/// them; so many of them, from the first, are the title's. Its own are numbered after them, 65,535 at most in all.
///
/// ```
/// use rumchivoat::{Held, Logical, Mode, Refused, SetSettings, TileSize, Title};
///
/// // the twins' font: two letters of 8x8
/// let mut font = [0; 128];
/// (font[0], font[64]) = (1, 2);
/// let settings = SetSettings::new(Mode::Snes, 2, TileSize::CELL).flips().discarding();
/// let mut red = Title::new(settings, 2, &font, vec![0; settings.store_len(8)?])?;
/// let mut blue = Title::new(settings, 2, &font, vec![0; settings.store_len(8)?])?;
///
/// // the second letter, seen in a mirror: found in the font, and not stored again
/// let mut letter = [0; 64];
/// letter[7] = 2;
/// red.add(&letter)?;
/// let held = Held { place: Logical(1), flip_h: true, flip_v: false, common: true, part: &font[64..] };
/// assert_eq!(red.look_up(&letter)?, Some(held));
/// assert_eq!((red.own().len(), red.own().discarded()), (0, 1));
///
/// // a tile of its own is numbered after the font, and the other title has none of it
/// red.add(&[3; 64])?;
/// let held = Held { place: Logical(2), flip_h: false, flip_v: false, common: false, part: &[3; 64] };
/// assert_eq!((red.look_up(&[3; 64])?, blue.look_up(&[3; 64])?), (Some(held), None));
/// blue.add(&letter)?;
/// assert_eq!((blue.own().len(), blue.own().discarded()), (0, 1));
/// # Ok::<(), Refused>(())
/// ```
///
/// As long as a title has it, nobody writes the common store:
///
/// ```compile_fail,E0506
/// # use rumchivoat::{Mode, Refused, SetSettings, TileSize, Title};
/// # let settings = SetSettings::new(Mode::Snes, 2, TileSize::CELL);
/// let mut font = [0; 128];
/// let mut red = Title::new(settings, 2, &font, vec![0; 128])?;
/// font[0] = 3;
/// red.add(&[1; 64])?;
/// # Ok::<(), Refused>(())
/// ```
///
/// Nor is it any title's own store:
///
/// ```compile_fail,E0502
/// # use rumchivoat::{Mode, Refused, SetSettings, TileSize, Title};
/// # let settings = SetSettings::new(Mode::Snes, 2, TileSize::CELL);
/// let mut font = [0; 128];
/// let red = Title::new(settings, 2, &font, vec![0; 128])?;
/// let mut blue = Title::new(settings, 0, &[], &mut font[..])?;
/// blue.add(&[1; 64])?;
/// red.look_up(&[1; 64])?;
/// # Ok::<(), Refused>(())
/// ```
#[derive(Debug, Clone)]
pub struct Title<'c, S> {
    own: TileSet<S>,
    common_count: u32,
    common: &'c [u8],
}

impl<'c, S: AsRef<[u8]> + AsMut<[u8]>> Title<'c, S> {
    /// A title of no tiles of its own, over so many tiles of this common store, and with this store of its own.
    ///
    /// # Errors
    ///
    /// The first that applies: [`Refusal::Mode`], [`Refusal::Depth`], [`Refusal::Size`], [`Refusal::Count`] where the
    /// common store does not hold so many tiles or they are more than 65,535, with their causes.
    ///
    /// # Example
    ///
    /// ```
    /// use rumchivoat::{Mode, Refused, SetSettings, TileSize, Title};
    ///
    /// let font = [0; 128];
    /// let settings = SetSettings::new(Mode::Snes, 2, TileSize::CELL);
    /// let title = Title::new(settings, 2, &font, vec![0; settings.store_len(8)?])?;
    /// assert_eq!((title.common_count(), title.own().len(), title.room()), (2, 0, 8));
    ///
    /// let refused = Title::new(settings, 3, &font, vec![0; 64]).unwrap_err();
    /// assert_eq!(refused.to_string(), "refused 6: the common store holds 2 tiles, and 3 are counted");
    /// # Ok::<(), Refused>(())
    /// ```
    pub fn new(settings: SetSettings, common_count: u32, common: &'c [u8], store: S) -> Result<Title<'c, S>, Refused> {
        Title::with_own(TileSet::new(settings, store)?, common_count, common)
    }

    /// A title whose own set has tiles already: one that was read, or another title's by [`into_own`](Title::into_own).
    ///
    /// # Errors
    ///
    /// [`Refusal::Count`] where the common store does not hold so many tiles, or they and the set's are more than
    /// 65,535, with its cause.
    ///
    /// # Example
    ///
    /// ```
    /// use rumchivoat::{Logical, Mode, Refused, TileSet, TileSize, Title};
    ///
    /// let font = [0; 128];
    /// let read = TileSet::read(Mode::Gb, 1, TileSize::CELL, false, &[0xff; 8], vec![0; 128])?;
    /// let title = Title::with_own(read, 2, &font)?;
    /// assert_eq!((title.own().len(), title.tile(Logical(2))), (1, Some([1; 64].as_slice())));
    /// # Ok::<(), Refused>(())
    /// ```
    pub fn with_own(own: TileSet<S>, common_count: u32, common: &'c [u8]) -> Result<Title<'c, S>, Refused> {
        let title = Title { own, common_count, common };
        // the archive's own check of the counts, which comes before that of the length: no tile has no pixels
        match title.look_up(&[]).map(|_| ()) {
            Err(refused) if refused.refusal != Refusal::Length => Err(refused),
            _ => Ok(title),
        }
    }

    /// Adds a tile's pixels, each cut to its low depth bits. With discarding on, a tile that is a common one or one of
    /// the title's own is counted as discarded; any other goes at the end of its own. A refused title stays as it is.
    ///
    /// # Errors
    ///
    /// The first that applies: [`Refusal::Count`] where the own store is shorter than before, [`Refusal::Length`],
    /// [`Refusal::Room`], [`Refusal::Discarded`], with their causes.
    ///
    /// # Example
    ///
    /// ```
    /// use rumchivoat::{Mode, Refused, SetSettings, TileSize, Title};
    ///
    /// let font = [1; 64];
    /// let settings = SetSettings::new(Mode::Snes, 2, TileSize::CELL).discarding();
    /// let mut title = Title::new(settings, 1, &font, vec![0; 64])?;
    /// title.add(&[1; 64])?;
    /// title.add(&[2; 64])?;
    /// assert_eq!((title.own().len(), title.own().discarded()), (1, 1));
    /// let refused = title.add(&[3; 64]).unwrap_err();
    /// assert_eq!(refused.to_string(), "refused 12: there is room for 1 tile and no more");
    /// # Ok::<(), Refused>(())
    /// ```
    pub fn add(&mut self, pixels: &[u8]) -> Result<(), Refused> {
        let TileSet { set, store } = &mut self.own;
        let added = set.title_add(self.common_count, self.common, store.as_mut(), pixels);
        added.map_err(|refusal| self.why(refusal, pixels.len()))
    }

    /// Looks a tile's pixels up, each cut to its low depth bits: among the common tiles, then among the title's own.
    /// The tile is handed back as a part of the store that holds it.
    ///
    /// # Errors
    ///
    /// The first that applies: [`Refusal::Count`] where the own store is shorter than before, [`Refusal::Length`], with
    /// their causes.
    ///
    /// # Example
    ///
    /// ```
    /// use rumchivoat::{Logical, Mode, Refused, SetSettings, TileSize, Title};
    ///
    /// let font = [1; 64];
    /// let title = Title::new(SetSettings::new(Mode::Snes, 2, TileSize::CELL), 1, &font, vec![0; 64])?;
    /// let held = title.look_up(&[1; 64])?;
    /// assert_eq!(held.map(|held| (held.place, held.common)), Some((Logical(0), true)));
    /// // the own store is blank, and the title has no tile in it
    /// assert_eq!(title.look_up(&[0; 64])?, None);
    /// # Ok::<(), Refused>(())
    /// ```
    pub fn look_up(&self, pixels: &[u8]) -> Result<Option<Held<'_>>, Refused> {
        let TileSet { set, store } = &self.own;
        let held = set.title_look_up(self.common_count, self.common, store.as_ref(), pixels);
        held.map_err(|refusal| self.why(refusal, pixels.len()))
    }

    /// Sets both counts of the own set to 0; the common tiles stay.
    ///
    /// # Errors
    ///
    /// None of a title, whose set has a mode, a depth and a size.
    ///
    /// # Example
    ///
    /// ```
    /// use rumchivoat::{Logical, Mode, Refused, SetSettings, TileSize, Title};
    ///
    /// let font = [1; 64];
    /// let mut title = Title::new(SetSettings::new(Mode::Snes, 2, TileSize::CELL), 1, &font, vec![0; 64])?;
    /// title.add(&[2; 64])?;
    /// title.reset()?;
    /// assert_eq!((title.own().len(), title.tile(Logical(1)), title.common_count()), (0, None, 1));
    /// # Ok::<(), Refused>(())
    /// ```
    pub fn reset(&mut self) -> Result<(), Refused> {
        self.own.reset()
    }

    /// The pixels of a tile, a byte each, by its number in the title: the common tiles, then the title's own. `None`
    /// where the title has no such tile.
    ///
    /// ```
    /// use rumchivoat::{Logical, Mode, Refused, SetSettings, TileSize, Title};
    ///
    /// let font = [1; 64];
    /// let mut title = Title::new(SetSettings::new(Mode::Snes, 2, TileSize::CELL), 1, &font, vec![0; 128])?;
    /// title.add(&[2; 64])?;
    /// assert_eq!(title.tile(Logical(0)), Some(&font[..]));
    /// assert_eq!((title.tile(Logical(1)), title.tile(Logical(2))), (Some([2; 64].as_slice()), None));
    /// # Ok::<(), Refused>(())
    /// ```
    pub fn tile(&self, number: Logical) -> Option<&[u8]> {
        match number.0.checked_sub(self.common_count) {
            Some(own) => self.own.tile(Logical(own)),
            None => tile_at(self.common, self.own.set.size(), number.0),
        }
    }

    /// How many own tiles there is room for, the stored ones counted: the own set's room, and no more than 65,535 less
    /// the common tiles.
    pub fn room(&self) -> usize {
        self.own.room().min(MOST_TILES.saturating_sub(self.common_count as usize))
    }

    /// How many tiles of the common store are the title's.
    pub fn common_count(&self) -> u32 {
        self.common_count
    }

    /// The title's own set: its counts, its settings, its bytes. Its tiles are numbered from 0 there.
    ///
    /// ```
    /// use rumchivoat::{Mode, Refused, SetSettings, TileSize, Title};
    ///
    /// let font = [1; 64];
    /// let mut title = Title::new(SetSettings::new(Mode::Snes, 2, TileSize::CELL), 1, &font, vec![0; 128])?;
    /// title.add(&[3; 64])?;
    /// // the own tile alone is written
    /// assert_eq!(title.own().write_to_vec()?, [0xff; 16]);
    /// # Ok::<(), Refused>(())
    /// ```
    pub fn own(&self) -> &TileSet<S> {
        &self.own
    }

    /// The title's own set, apart. [`with_own`](Title::with_own) makes a title of it again.
    pub fn into_own(self) -> TileSet<S> {
        self.own
    }

    /// Why a call on so many pixels was refused.
    fn why(&self, refusal: Refusal, given: usize) -> Refused {
        let (common, own) = (self.common_count, self.own.set.stored);
        let tiles = self.common.len() / self.own.set.size().pixels().max(1);
        let both = (common as usize).saturating_add(own as usize);
        let cause = match refusal {
            Refusal::Count if own as usize > self.own.room() => return self.own.why(refusal, given),
            Refusal::Count if common as usize > tiles => Cause::CommonCount { counted: common, tiles },
            Refusal::Count => Cause::BothCounts { common, own },
            Refusal::Room if both == MOST_TILES => Cause::RoomBeside { common, room: own as usize },
            _ => return self.own.why(refusal, given),
        };
        Refused::new(refusal, cause)
    }
}
