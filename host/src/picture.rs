//! Pictures: conversion into tiles and a map, and redrawing.

use std::fmt;

use crate::entry::{fits, unpack_entry};
use crate::{Cause, Mode, Refusal, Refused, raw};

/// The size of a picture and of its map, in tiles of 8x8 pixels.
///
/// ```
/// assert_eq!(rumchivoat::MapSize { columns: 32, rows: 28 }.to_string(), "32x28");
/// ```
#[derive(Debug, Clone, Copy, PartialEq, Eq, Hash)]
pub struct MapSize {
    /// The tiles of a row, 1 to 64.
    pub columns: u32,
    /// The rows of tiles, 1 to 64.
    pub rows: u32,
}

impl fmt::Display for MapSize {
    fn fmt(&self, f: &mut fmt::Formatter<'_>) -> fmt::Result {
        write!(f, "{}x{}", self.columns, self.rows)
    }
}

/// How a picture is converted, and redrawn.
///
/// ```
/// use rumchivoat::{MapSize, Mode, Refused, Settings};
///
/// // two tiles: 1 at the left one's top left, 1 at the right one's top right
/// let mut pixels = [0; 128];
/// pixels[0] = 1;
/// pixels[15] = 1;
///
/// // each tile stored once, mirrored tiles found, any number of tiles, palette index 0
/// let settings = Settings::new(Mode::Snes, 2, MapSize { columns: 2, rows: 1 }).flips().discarding();
/// let converted = settings.convert_to_vec(&pixels)?;
/// assert_eq!((converted.picture.tiles, converted.picture.discarded), (1, 1));
/// assert_eq!((converted.tiles.len(), &converted.map), (16, &vec![0x00, 0x00, 0x00, 0x40]));
/// assert_eq!(settings.redraw_to_vec(&converted.tiles, &converted.map)?, pixels);
///
/// let refused = settings.convert_to_vec(&pixels[1..]).unwrap_err();
/// assert_eq!(refused.to_string(), "refused 7: 128 pixels are needed, 127 were given");
/// # Ok::<(), Refused>(())
/// ```
#[derive(Debug, Clone, Copy, PartialEq, Eq, Hash)]
#[non_exhaustive]
pub struct Settings {
    /// The mode's number.
    pub mode: u32,
    /// The bits of a pixel.
    pub depth: u32,
    /// Whether a tile matches its mirror images.
    pub flip: bool,
    /// Whether a tile that matches an earlier one is counted and not stored.
    pub discard: bool,
    /// The most tiles to be stored; 0 for no limit.
    pub limit: u32,
    /// The palette index of every entry.
    pub palette: u32,
    /// The tiles of a row, 1 to 64.
    pub columns: u32,
    /// The rows of tiles, 1 to 64.
    pub rows: u32,
}

/// The pixels of a tile.
const TILE_PIXELS: usize = 64;

/// The most columns, and the most rows.
const MOST_SIDE: u32 = 64;

impl Settings {
    /// A picture of this size, without flips, discarding or limit, with palette index 0. Nothing is checked before a
    /// call: any numbers can be given.
    pub fn new(mode: impl Into<u32>, depth: u32, size: MapSize) -> Settings {
        let MapSize { columns, rows } = size;
        Settings { mode: mode.into(), depth, flip: false, discard: false, limit: 0, palette: 0, columns, rows }
    }

    /// With flips: a tile matches its mirror images.
    #[must_use]
    pub fn flips(self) -> Settings {
        Settings { flip: true, ..self }
    }

    /// With discarding: a tile that matches an earlier one is counted and not stored.
    #[must_use]
    pub fn discarding(self) -> Settings {
        Settings { discard: true, ..self }
    }

    /// With this limit, the most tiles to be stored; 0 for no limit.
    #[must_use]
    pub fn limit(self, tiles: u32) -> Settings {
        Settings { limit: tiles, ..self }
    }

    /// With this palette index in every entry.
    #[must_use]
    pub fn palette(self, index: u32) -> Settings {
        Settings { palette: index, ..self }
    }

    /// The size of the picture and its map.
    pub fn size(&self) -> MapSize {
        MapSize { columns: self.columns, rows: self.rows }
    }

    /// The length of the pixels: a byte each.
    ///
    /// # Errors
    ///
    /// What the settings alone are refused with, the first that applies: [`Refusal::Mode`], [`Refusal::PceSprite`],
    /// [`Refusal::Depth`], [`Refusal::Size`], [`Refusal::Flips`], [`Refusal::EntryPalette`], with their causes.
    ///
    /// # Example
    ///
    /// ```
    /// use rumchivoat::{MapSize, Mode, Refused, Settings};
    ///
    /// let screen = Settings::new(Mode::Snes, 4, MapSize { columns: 32, rows: 28 });
    /// assert_eq!(screen.pixel_len()?, 256 * 224);
    /// let refused = Settings::new(Mode::Pce, 4, screen.size()).flips().pixel_len().unwrap_err();
    /// assert_eq!(refused.to_string(), "refused 5: pce has no flips");
    /// # Ok::<(), Refused>(())
    /// ```
    pub fn pixel_len(&self) -> Result<usize, Refused> {
        self.checked()?;
        Ok(self.pixels())
    }

    /// The length of the map: an entry for each place.
    ///
    /// # Errors
    ///
    /// As [`pixel_len`](Settings::pixel_len).
    ///
    /// # Example
    ///
    /// ```
    /// use rumchivoat::{MapSize, Mode, Refused, Settings};
    ///
    /// assert_eq!(Settings::new(Mode::Snes, 4, MapSize { columns: 32, rows: 28 }).map_len()?, 2 * 32 * 28);
    /// # Ok::<(), Refused>(())
    /// ```
    pub fn map_len(&self) -> Result<usize, Refused> {
        let mode = self.checked()?;
        Ok(self.map_bytes(mode))
    }

    /// The most tile bytes that a conversion writes: of as many tiles as the picture has, or as the limit or the mode's
    /// tile bits allow if that is less.
    ///
    /// # Errors
    ///
    /// As [`pixel_len`](Settings::pixel_len).
    ///
    /// # Example
    ///
    /// ```
    /// use rumchivoat::{MapSize, Mode, Refused, Settings};
    ///
    /// let screen = Settings::new(Mode::Snes, 4, MapSize { columns: 32, rows: 28 });
    /// assert_eq!((screen.tile_len()?, screen.limit(500).tile_len()?), (896 * 32, 500 * 32));
    /// // an entry of gb names 256 tiles
    /// assert_eq!(Settings::new(Mode::Gb, 2, screen.size()).tile_len()?, 256 * 16);
    /// # Ok::<(), Refused>(())
    /// ```
    pub fn tile_len(&self) -> Result<usize, Refused> {
        let mode = self.checked()?;
        Ok(self.places().min(self.room(mode)) * self.tile_bytes())
    }

    /// Converts a picture as [`convert`] does, and says why where it is refused. It takes [`stack::CONVERT`] bytes of
    /// stack.
    ///
    /// # Errors
    ///
    /// As [`convert`], with their causes.
    ///
    /// # Example
    ///
    /// ```
    /// use rumchivoat::{MapSize, Mode, Refused, Settings};
    ///
    /// let settings = Settings::new(Mode::Gb, 1, MapSize { columns: 2, rows: 1 }).discarding();
    /// let (mut tiles, mut map) = ([0; 8], [0; 2]);
    /// assert_eq!(settings.convert(&[1; 128], &mut tiles, &mut map)?.tiles, 1);
    /// let refused = settings.convert(&[1; 128], &mut tiles, &mut map[1..]).unwrap_err();
    /// assert_eq!(refused.to_string(), "refused 11: the map needs 2 bytes and has 1");
    /// # Ok::<(), Refused>(())
    /// ```
    ///
    /// [`stack::CONVERT`]: crate::stack::CONVERT
    pub fn convert(&self, pixels: &[u8], tiles: &mut [u8], map: &mut [u8]) -> Result<Picture, Refused> {
        let spaces = (tiles.len(), map.len());
        convert(*self, pixels, tiles, map)
            .map_err(|refusal| Refused::new(refusal, self.why_not_converted(refusal, pixels.len(), spaces)))
    }

    /// Converts a picture as [`convert`] does, into a `Vec` of exactly the tile bytes and one of exactly the map's. It
    /// takes [`stack::CONVERT`](crate::stack::CONVERT) bytes of stack.
    ///
    /// # Errors
    ///
    /// As [`convert`], but for [`Refusal::Output`]; with their causes.
    ///
    /// # Example
    ///
    /// ```
    /// use rumchivoat::{MapSize, Mode, Refused, Settings};
    ///
    /// let settings = Settings::new(Mode::Gb, 1, MapSize { columns: 2, rows: 1 }).discarding();
    /// let converted = settings.convert_to_vec(&[1; 128])?;
    /// assert_eq!((converted.tiles, converted.map), (vec![0xff; 8], vec![0, 0]));
    /// # Ok::<(), Refused>(())
    /// ```
    pub fn convert_to_vec(&self, pixels: &[u8]) -> Result<Converted, Refused> {
        let (mut tiles, mut map) = (vec![0; self.tile_len()?], vec![0; self.map_len()?]);
        let picture = self.convert(pixels, &mut tiles, &mut map)?;
        tiles.truncate(picture.tile_bytes);
        map.truncate(picture.map_bytes);
        Ok(Converted { tiles, map, picture })
    }

    /// Redraws a picture of this mode, depth and size as [`redraw`] does, and says why where it is refused. The other
    /// settings have no part in it.
    ///
    /// # Errors
    ///
    /// As [`redraw`], with their causes.
    ///
    /// # Example
    ///
    /// ```
    /// use rumchivoat::{MapSize, Mode, Refused, Settings};
    ///
    /// let settings = Settings::new(Mode::Gb, 1, MapSize { columns: 2, rows: 1 });
    /// let mut pixels = [0; 128];
    /// assert_eq!(settings.redraw(&[0xff; 8], &[0, 0], &mut pixels)?, 128);
    /// let refused = settings.redraw(&[0xff; 8], &[0, 7], &mut pixels).unwrap_err();
    /// assert_eq!(refused.to_string(), "refused 7: the map names tile 7, and the tile bytes hold 1 tile");
    /// # Ok::<(), Refused>(())
    /// ```
    pub fn redraw(&self, tiles: &[u8], map: &[u8], out: &mut [u8]) -> Result<usize, Refused> {
        let space = out.len();
        redraw(self.mode, self.depth, self.columns, self.rows, tiles, map, out)
            .map_err(|refusal| Refused::new(refusal, self.why_not_redrawn(refusal, tiles, map, space)))
    }

    /// Redraws a picture as [`redraw`](Settings::redraw) does, into a `Vec` of its pixels.
    ///
    /// # Errors
    ///
    /// As [`redraw()`], but for [`Refusal::Output`]; with their causes.
    ///
    /// # Example
    ///
    /// ```
    /// use rumchivoat::{MapSize, Mode, Refused, Settings};
    ///
    /// let settings = Settings::new(Mode::Gb, 1, MapSize { columns: 2, rows: 1 });
    /// assert_eq!(settings.redraw_to_vec(&[0xff; 8], &[0, 0])?, [1; 128]);
    /// # Ok::<(), Refused>(())
    /// ```
    pub fn redraw_to_vec(&self, tiles: &[u8], map: &[u8]) -> Result<Vec<u8>, Refused> {
        self.sized()?;
        let mut out = vec![0; self.pixels()];
        let written = self.redraw(tiles, map, &mut out)?;
        out.truncate(written);
        Ok(out)
    }

    /// What conversion and redrawing check first: 1, 2, 3 and 4.
    fn sized(&self) -> Result<Mode, Refused> {
        let &Settings { mode: number, depth, .. } = self;
        let refused = |refusal| Refused::new(refusal, self.why_not_sized(refusal));
        let mode = Mode::try_from(number).map_err(refused)?;
        let is_side = |tiles: u32| (1..=MOST_SIDE).contains(&tiles);
        if mode.entry_bytes().is_none() {
            Err(refused(Refusal::PceSprite))
        } else if !mode.depths().contains(&depth) {
            Err(refused(Refusal::Depth))
        } else if !(is_side(self.columns) && is_side(self.rows)) {
            Err(refused(Refusal::Size))
        } else {
            Ok(mode)
        }
    }

    /// What of these settings refuses a conversion, whatever the picture and the buffers: 1 to 5, and 16.
    fn checked(&self) -> Result<Mode, Refused> {
        let mode = self.sized()?;
        if self.flip && !mode.has_flips() {
            Err(Refused::new(Refusal::Flips, Cause::Flips { mode }))
        } else if !fits(self.palette, mode.palette_bits()) {
            Err(Refused::new(Refusal::EntryPalette, Cause::Palette { mode, palette: self.palette }))
        } else {
            Ok(mode)
        }
    }

    /// The places of the map. A size that is refused may have more than can be counted.
    fn places(&self) -> usize {
        (self.columns as usize).saturating_mul(self.rows as usize)
    }

    fn pixels(&self) -> usize {
        self.places().saturating_mul(TILE_PIXELS)
    }

    fn map_bytes(&self, mode: Mode) -> usize {
        self.places().saturating_mul(mode.entry_bytes().unwrap_or(0))
    }

    pub(crate) fn tile_bytes(&self) -> usize {
        self.depth as usize * 8
    }

    /// The least of the limit if it is not 0, and 2 to the mode's tile bits.
    fn room(&self, mode: Mode) -> usize {
        let named = 1 << mode.tile_bits().unwrap_or(0);
        if self.limit == 0 { named } else { named.min(self.limit as usize) }
    }

    /// The same, and no more than the whole tiles of so many bytes.
    pub(crate) fn room_in(&self, mode: Mode, tile_space: usize) -> usize {
        self.room(mode).min(tile_space / self.tile_bytes().max(1))
    }

    fn why_not_sized(&self, refusal: Refusal) -> Cause {
        match refusal {
            Refusal::Size => Cause::MapSize { size: self.size() },
            _ => Cause::of_depth(refusal, self.mode, self.depth),
        }
    }

    pub(crate) fn why_not_converted(
        &self,
        refusal: Refusal,
        given: usize,
        (tile_space, map_space): (usize, usize),
    ) -> Cause {
        let in_mode = |cause: &dyn Fn(Mode) -> Cause| Cause::in_mode(self.mode, cause);
        match refusal {
            Refusal::Flips => in_mode(&|mode| Cause::Flips { mode }),
            Refusal::Length => Cause::Length { what: "pixel", needed: self.pixels(), given },
            Refusal::EntryPalette => in_mode(&|mode| Cause::Palette { mode, palette: self.palette }),
            Refusal::Output => {
                in_mode(&|mode| Cause::Output { what: "map", needed: self.map_bytes(mode), space: map_space })
            }
            Refusal::Room => in_mode(&|mode| Cause::Room { room: self.room_in(mode, tile_space) }),
            _ => self.why_not_sized(refusal),
        }
    }

    fn why_not_redrawn(&self, refusal: Refusal, tiles: &[u8], map: &[u8], space: usize) -> Cause {
        match refusal {
            Refusal::Length => Cause::in_mode(self.mode, |mode| self.why_wrong_lengths(mode, tiles, map)),
            Refusal::Output => Cause::Output { what: "output", needed: self.pixels(), space },
            _ => self.why_not_sized(refusal),
        }
    }

    fn why_wrong_lengths(&self, mode: Mode, tiles: &[u8], map: &[u8]) -> Cause {
        let (part, needed) = (self.tile_bytes().max(1), self.map_bytes(mode));
        if tiles.len() % part != 0 {
            Cause::Whole { what: "tile byte", part, given: tiles.len() }
        } else if map.len() != needed {
            Cause::Length { what: "map byte", needed, given: map.len() }
        } else {
            first_missing(mode, map, tiles.len() / part)
        }
    }
}

/// The first tile that the map names and the tile bytes do not hold.
fn first_missing(mode: Mode, map: &[u8], tiles: usize) -> Cause {
    let entries = map.chunks_exact(mode.entry_bytes().unwrap_or(1)).filter_map(|bytes| unpack_entry(mode, bytes).ok());
    let missing = entries.map(|entry| entry.tile).find(|&tile| tile as usize >= tiles);
    missing.map_or(Cause::Plain, |tile| Cause::Missing { tile, tiles })
}

/// What a conversion gives: how many tiles it stored and discarded, and how much of both buffers it wrote.
#[derive(Debug, Clone, Copy, PartialEq, Eq, Hash, Default)]
#[non_exhaustive]
pub struct Picture {
    /// The tiles stored.
    pub tiles: u32,
    /// The tiles that matched an earlier one and were not stored.
    pub discarded: u32,
    /// The length written to the tile buffer: depth x 8 for each tile.
    pub tile_bytes: usize,
    /// The length written to the map: an entry for each place of the picture.
    pub map_bytes: usize,
}

/// A picture that was converted, with its bytes.
#[derive(Debug, Clone, PartialEq, Eq, Hash)]
#[non_exhaustive]
pub struct Converted {
    /// The tile bytes.
    pub tiles: Vec<u8>,
    /// The map bytes.
    pub map: Vec<u8>,
    /// The counts, and the lengths of both.
    pub picture: Picture,
}

/// Converts a picture into tiles and a map. The pixels are a byte each, row by row over the whole picture; each is cut to
/// its low depth bits. Tiles are taken left to right and top to bottom; each entry of the map names the first stored tile
/// that matches, with the first flip of none, h, v, both under which it does, the given palette index and priority 0.
///
/// Room for tiles is the least of the limit if it is not 0, 2 to the mode's tile bits, and the whole tiles of the tile
/// buffer. It is known to suffice before the first byte is written.
///
/// The tiles are gathered on the stack, whatever the size of the picture: [`stack::CONVERT`](crate::stack::CONVERT)
/// bytes suffice for the call.
///
/// # Errors
///
/// The first that applies: [`Refusal::Mode`], [`Refusal::PceSprite`], [`Refusal::Depth`], [`Refusal::Size`] (columns or
/// rows not 1 to 64), [`Refusal::Flips`], [`Refusal::Length`] (not 64 x columns x rows pixels), [`Refusal::EntryPalette`],
/// [`Refusal::Output`] (the map), [`Refusal::Room`] (the tiles).
///
/// # Example
///
/// ```
/// use rumchivoat::{MapSize, Mode, Refusal, Settings, convert};
///
/// // two tiles: 1 at the left one's top left, 1 at the right one's top right
/// let mut pixels = [0; 128];
/// pixels[0] = 1;
/// pixels[15] = 1;
///
/// let settings = Settings::new(Mode::Snes, 2, MapSize { columns: 2, rows: 1 }).discarding();
/// let (mut tiles, mut map) = ([0xee; 17], [0xee; 5]);
/// let picture = convert(settings.flips(), &pixels, &mut tiles, &mut map)?;
/// assert_eq!((picture.tiles, picture.discarded), (1, 1));
/// assert_eq!((picture.tile_bytes, picture.map_bytes), (16, 4));
/// assert_eq!(tiles[..3], [0x80, 0x00, 0x00]);
/// // the first tile, and the first tile with its rows reversed
/// assert_eq!(map[..4], [0x00, 0x00, 0x00, 0x40]);
/// // the bytes after the written lengths stay
/// assert_eq!((tiles[16], map[4]), (0xee, 0xee));
///
/// // without flips there are two tiles, and no room for the second
/// assert_eq!(convert(settings, &pixels, &mut tiles, &mut map), Err(Refusal::Room));
/// # Ok::<(), Refusal>(())
/// ```
pub fn convert(settings: Settings, pixels: &[u8], tiles: &mut [u8], map: &mut [u8]) -> Result<Picture, Refusal> {
    raw::convert(settings, pixels, tiles, map).picture()
}

/// Draws a map's tiles: 64 x columns x rows pixels, a byte each, row by row over the whole picture. Answers their number.
/// What was converted comes back, each pixel cut to its low depth bits. [`stack::OTHERS`](crate::stack::OTHERS) bytes of
/// stack suffice for the call.
///
/// # Errors
///
/// The first that applies: [`Refusal::Mode`], [`Refusal::PceSprite`], [`Refusal::Depth`], [`Refusal::Size`] (columns
/// or rows not 1 to 64), [`Refusal::Length`] (tile bytes that are not whole tiles or end before a tile that the map
/// names, or map bytes that are not exactly the map's), [`Refusal::Output`].
///
/// # Example
///
/// ```
/// use rumchivoat::{Mode, Refusal, redraw};
///
/// let mut tiles = [0; 16];
/// tiles[0] = 0x80;
/// let mut pixels = [0; 128];
/// assert_eq!(redraw(Mode::Snes, 2, 2, 1, &tiles, &[0x00, 0x00, 0x00, 0x40], &mut pixels), Ok(128));
/// assert_eq!(pixels[..16], [1, 0, 0, 0, 0, 0, 0, 0, 0, 0, 0, 0, 0, 0, 0, 1]);
/// // there is no tile 1
/// let refused = redraw(Mode::Snes, 2, 2, 1, &tiles, &[0x00, 0x00, 0x01, 0x00], &mut pixels);
/// assert_eq!(refused, Err(Refusal::Length));
/// ```
pub fn redraw(
    mode: impl Into<u32>,
    depth: u32,
    columns: u32,
    rows: u32,
    tiles: &[u8],
    map: &[u8],
    out: &mut [u8],
) -> Result<usize, Refusal> {
    raw::redraw(mode.into(), depth, columns, rows, tiles, map, out).length()
}
