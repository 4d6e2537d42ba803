//! Pictures in strips: a run takes a picture's rows of tiles as they come.

use crate::{Cause, Picture, Refusal, Refused, Settings, raw};

/// A run: a picture that comes in strips, each of one or more whole rows of tiles, and its settings and state. The tile
/// bytes and the map are in buffers that are lent to each strip, the whole picture's, so that only a strip of its pixels
/// is in memory. [`Strips`] keeps all of it together: a plain run can be lent another run's buffers.
///
/// However a picture is cut into strips, with the same lengths of both buffers, bytes and counts are those of
/// [`convert`](crate::convert) on the whole. Where that is done, every strip is; where it is refused with
/// [`Refusal::Room`], some strip is.
///
/// The fields are plain numbers, kept by the caller, and updated by each strip that is taken. Between strips the caller
/// leaves them alone, and the bytes of both buffers that are written: a strip finds its tiles among the tile bytes as they
/// stand. Every call checks the fields: settings that are none are answered as [`start`](Run::start) answers them, and a
/// run that counts more tiles than its room, or more rows than its picture has, with [`Refusal::Count`].
///
/// ```
/// use rumchivoat::{MapSize, Mode, Refusal, Run, Settings};
///
/// // 2 x 2 tiles, of which one row comes after the other
/// let settings = Settings::new(Mode::Snes, 2, MapSize { columns: 2, rows: 2 }).flips().discarding();
/// let (mut tiles, mut map) = ([0; 64], [0; 8]);
/// let mut run = Run::start(settings)?;
///
/// // 1 at the left tile's top left, 1 at the right one's top right
/// let mut strip = [0; 128];
/// (strip[0], strip[15]) = (1, 1);
/// let so_far = run.take(&strip, &mut tiles, &mut map)?;
/// assert_eq!((so_far.tiles, so_far.discarded, so_far.map_bytes), (1, 1, 4));
/// // a row is still to come: the end is refused, and the run goes on
/// assert_eq!(run.end(), Err(Refusal::Rows));
///
/// // the same, upside down
/// strip.reverse();
/// run.take(&strip, &mut tiles, &mut map)?;
/// let picture = run.end()?;
/// assert_eq!((picture.tiles, picture.discarded, picture.tile_bytes), (1, 3, 16));
/// assert_eq!(map, [0x00, 0x00, 0x00, 0x40, 0x00, 0x80, 0x00, 0xc0]);
/// # Ok::<(), Refusal>(())
/// ```
#[repr(C)]
#[derive(Debug, Clone, Copy, PartialEq, Eq, Hash, Default)]
pub struct Run {
    /// The mode's number.
    pub mode: u32,
    /// The bits of a pixel.
    pub depth: u32,
    /// Whether a tile matches its mirror images.
    pub flip: bool,
    /// Whether a tile that matches an earlier one is counted and not stored.
    pub discard: bool,
    /// The most tiles to be stored; 0 for no limit.
    pub limit: u32,
    /// The palette index of every entry.
    pub palette: u32,
    /// The tiles of a row, 1 to 64.
    pub columns: u32,
    /// The rows of tiles, 1 to 64.
    pub rows: u32,
    /// The rows of tiles that have come.
    pub taken: u32,
    /// The tiles stored so far.
    pub tiles: u32,
    /// The tiles that matched an earlier one and were not stored, so far.
    pub discarded: u32,
}

/// The pixels of a tile.
const TILE_PIXELS: usize = 64;

impl Run {
    /// A run of a picture of these settings, of which no row has come.
    ///
    /// # Errors
    ///
    /// The first that applies: [`Refusal::Mode`], [`Refusal::PceSprite`], [`Refusal::Depth`], [`Refusal::Size`] (columns
    /// or rows not 1 to 64), [`Refusal::Flips`], [`Refusal::EntryPalette`].
    ///
    /// # Example
    ///
    /// ```
    /// use rumchivoat::{MapSize, Mode, Refusal, Run, Settings};
    ///
    /// let screen = Settings::new(Mode::Snes, 4, MapSize { columns: 32, rows: 28 });
    /// let run = Run::start(screen)?;
    /// assert_eq!((run.taken, run.tiles, run.discarded), (0, 0, 0));
    /// assert_eq!((run.rows_left(), run.row_len()), (28, 256 * 8));
    /// assert_eq!(Run::start(screen.palette(8)), Err(Refusal::EntryPalette));
    /// # Ok::<(), Refusal>(())
    /// ```
    pub fn start(settings: Settings) -> Result<Run, Refusal> {
        raw::strip_start(settings).run()
    }

    /// Takes the picture's next rows of tiles, one or more, and answers the counts and the lengths so far. The pixels
    /// are a byte each, row by row over the strip's whole width; each is cut to its low depth bits. New tiles are written
    /// after those that the run counts, and entries after those of the rows that have come; all other bytes stay. A
    /// refused strip leaves the run and both buffers as they are, and another may be taken in its place.
    ///
    /// It takes [`stack::STRIP`](crate::stack::STRIP) bytes of stack.
    ///
    /// # Errors
    ///
    /// The first that applies: those of [`start`](Run::start) up to [`Refusal::Flips`]; [`Refusal::Count`] (more tiles
    /// than the room, the tile buffer's too, or more rows than the picture has); [`Refusal::Rows`] (more pixels than are
    /// still to come); [`Refusal::Length`] (no pixels, or no whole rows of tiles); [`Refusal::EntryPalette`];
    /// [`Refusal::Output`] (the map, which is the whole picture's at every strip); [`Refusal::Room`] (the tiles);
    /// [`Refusal::Discarded`] (the count of discarded tiles would pass 4,294,967,295).
    ///
    /// # Example
    ///
    /// ```
    /// use rumchivoat::{MapSize, Mode, Refusal, Run, Settings};
    ///
    /// let settings = Settings::new(Mode::Gb, 1, MapSize { columns: 2, rows: 3 }).discarding();
    /// let (mut tiles, mut map) = ([0xee; 24], [0xee; 6]);
    /// let mut run = Run::start(settings)?;
    ///
    /// run.take(&[1; 128], &mut tiles, &mut map)?;
    /// assert_eq!((run.taken, run.tiles, run.discarded), (1, 1, 1));
    /// // nine lines are no row of tiles, and no strip; nor are three rows where two are to come
    /// assert_eq!(run.take(&[0; 144], &mut tiles, &mut map), Err(Refusal::Length));
    /// assert_eq!(run.take(&[], &mut tiles, &mut map), Err(Refusal::Length));
    /// assert_eq!(run.take(&[0; 384], &mut tiles, &mut map), Err(Refusal::Rows));
    ///
    /// // two rows at once
    /// let so_far = run.take(&[0; 256], &mut tiles, &mut map)?;
    /// assert_eq!((so_far.tile_bytes, so_far.map_bytes), (16, 6));
    /// assert_eq!((run.rows_left(), map), (0, [0, 0, 1, 1, 1, 1]));
    /// // the bytes after the written length stay
    /// assert_eq!(tiles[8..], [[0; 8], [0xee; 8]].concat());
    /// # Ok::<(), Refusal>(())
    /// ```
    pub fn take(&mut self, pixels: &[u8], tiles: &mut [u8], map: &mut [u8]) -> Result<Picture, Refusal> {
        raw::strip_take(self, pixels, tiles, map).picture()
    }

    /// The whole picture's counts and lengths, once all its rows have come. Where the end is refused the run goes on.
    ///
    /// # Errors
    ///
    /// The first that applies: those of [`start`](Run::start) up to [`Refusal::Flips`]; [`Refusal::Count`] (more tiles
    /// than the limit or the mode's entries allow, or more rows than the picture has); [`Refusal::Rows`] (rows are still
    /// to come); [`Refusal::EntryPalette`].
    ///
    /// # Example
    ///
    /// ```
    /// use rumchivoat::{MapSize, Mode, Refusal, Run, Settings};
    ///
    /// let mut run = Run::start(Settings::new(Mode::Gb, 1, MapSize { columns: 1, rows: 1 }))?;
    /// assert_eq!(run.end(), Err(Refusal::Rows));
    /// let last = run.take(&[1; 64], &mut [0; 8], &mut [0; 1])?;
    /// assert_eq!(run.end(), Ok(last));
    /// # Ok::<(), Refusal>(())
    /// ```
    pub fn end(&self) -> Result<Picture, Refusal> {
        raw::strip_end(*self).picture()
    }

    /// How many rows of tiles are still to come.
    pub fn rows_left(&self) -> u32 {
        self.rows.saturating_sub(self.taken)
    }

    /// The length of one row of tiles: the pixels of its eight lines, a byte each. A strip is one or more of them.
    pub fn row_len(&self) -> usize {
        (self.columns as usize).saturating_mul(TILE_PIXELS)
    }

    /// What the picture is converted by.
    pub fn settings(&self) -> Settings {
        let Run { mode, depth, flip, discard, limit, palette, columns, rows, .. } = *self;
        Settings { mode, depth, flip, discard, limit, palette, columns, rows }
    }
}

/// A run together with its tile buffer and its map, so that no other job writes them between strips. The buffers are owned
/// (a `Vec<u8>`) or borrowed (a `&mut [u8]`), and come back with [`into_parts`](Strips::into_parts). What they hold at
/// first does not matter.
///
/// A station that reads from a bus needs memory for one row of tiles beside them:
///
/// ```
/// use std::error::Error;
/// use std::io::Read;
/// use rumchivoat::{MapSize, Mode, Settings, Strips};
///
/// fn from_bus(settings: Settings, bus: &mut impl Read) -> Result<Strips<Vec<u8>>, Box<dyn Error>> {
///     let mut strips = Strips::start(settings, vec![0; settings.tile_len()?], vec![0; settings.map_len()?])?;
///     let mut row = vec![0; strips.row_len()];
///     while strips.rows_left() > 0 {
///         bus.read_exact(&mut row)?;
///         strips.take(&row)?;
///     }
///     Ok(strips)
/// }
///
/// # fn main() -> Result<(), Box<dyn Error>> {
/// let settings = Settings::new(Mode::Snes, 2, MapSize { columns: 2, rows: 4 }).flips().discarding();
/// let pixels: Vec<u8> = (0..512).map(|place| (place % 100 / 60) as u8).collect();
/// let strips = from_bus(settings, &mut pixels.as_slice())?;
///
/// let whole = settings.convert_to_vec(&pixels)?;
/// assert_eq!((strips.end()?, strips.tiles(), strips.map()), (whole.picture, &whole.tiles[..], &whole.map[..]));
/// # Ok(())
/// # }
/// ```
///
/// As long as a run has them, nobody else writes its buffers:
///
/// ```compile_fail,E0506
/// # use rumchivoat::{MapSize, Mode, Refused, Settings, Strips};
/// # let settings = Settings::new(Mode::Gb, 1, MapSize { columns: 1, rows: 2 });
/// let (mut tiles, mut map) = ([0; 16], [0; 2]);
/// let mut strips = Strips::start(settings, &mut tiles[..], &mut map[..])?;
/// strips.take(&[1; 64])?;
/// tiles[0] = 3;
/// strips.take(&[1; 64])?;
/// # Ok::<(), Refused>(())
/// ```
#[derive(Debug, Clone)]
pub struct Strips<B> {
    run: Run,
    tiles: B,
    map: B,
}

impl<B: AsRef<[u8]> + AsMut<[u8]>> Strips<B> {
    /// A run of a picture of these settings, of which no row has come, with this tile buffer and this map.
    /// [`Settings::tile_len`] and [`Settings::map_len`] say how long they need to be.
    ///
    /// # Errors
    ///
    /// The first that applies: those of [`Run::start`]; [`Refusal::Output`] where the map is shorter than the whole
    /// picture's; with their causes. A tile buffer of any length is taken: what has no room in it is refused with its
    /// strip.
    ///
    /// # Example
    ///
    /// ```
    /// use rumchivoat::{MapSize, Mode, Refused, Settings, Strips};
    ///
    /// let screen = Settings::new(Mode::Snes, 4, MapSize { columns: 32, rows: 28 });
    /// let strips = Strips::start(screen, vec![0; screen.tile_len()?], vec![0; screen.map_len()?])?;
    /// assert_eq!((strips.rows_taken(), strips.rows_left(), strips.row_len()), (0, 28, 256 * 8));
    ///
    /// let refused = Strips::start(screen, vec![0; 32], vec![0; 64]).unwrap_err();
    /// assert_eq!(refused.to_string(), "refused 11: the map needs 1792 bytes and has 64");
    /// # Ok::<(), Refused>(())
    /// ```
    pub fn start(settings: Settings, tiles: B, map: B) -> Result<Strips<B>, Refused> {
        let spaces = (tiles.as_ref().len(), map.as_ref().len());
        let refused = |refusal| Refused::new(refusal, settings.why_not_converted(refusal, 0, spaces));
        let run = Run::start(settings).map_err(refused)?;
        if spaces.1 < settings.map_len()? {
            return Err(refused(Refusal::Output));
        }
        Ok(Strips { run, tiles, map })
    }

    /// Takes the picture's next rows of tiles as [`Run::take`] does, and says why where they are refused. The run and
    /// its bytes are then as they were, and another strip may be taken in its place. It takes
    /// [`stack::STRIP`](crate::stack::STRIP) bytes of stack.
    ///
    /// # Errors
    ///
    /// The first that applies: [`Refusal::Count`] where the tile buffer is shorter than before; [`Refusal::Rows`];
    /// [`Refusal::Length`]; [`Refusal::Output`] where the map is shorter than before; [`Refusal::Room`]; with their
    /// causes.
    ///
    /// # Example
    ///
    /// ```
    /// use rumchivoat::{MapSize, Mode, Refused, Settings, Strips};
    ///
    /// let settings = Settings::new(Mode::Gb, 1, MapSize { columns: 2, rows: 2 });
    /// let mut strips = Strips::start(settings, vec![0; settings.tile_len()?], vec![0; settings.map_len()?])?;
    ///
    /// // the last byte of the row was lost
    /// let refused = strips.take(&[1; 127]).unwrap_err();
    /// let words = "refused 7: a strip is whole rows of tiles, 128 pixels each, and 127 were given";
    /// assert_eq!((refused.to_string(), strips.rows_taken()), (words.to_owned(), 0));
    /// assert_eq!(strips.take(&[1; 128])?.map_bytes, 2);
    ///
    /// let refused = strips.take(&[1; 256]).unwrap_err();
    /// assert_eq!(refused.to_string(), "refused 19: 128 pixels are still to come, 256 were given");
    /// # Ok::<(), Refused>(())
    /// ```
    pub fn take(&mut self, pixels: &[u8]) -> Result<Picture, Refused> {
        let taken = self.run.take(pixels, self.tiles.as_mut(), self.map.as_mut());
        taken.map_err(|refusal| Refused::new(refusal, self.why_not_taken(refusal, pixels.len())))
    }

    /// The whole picture's counts and lengths, once all its rows have come. Where the end is refused the run goes on.
    ///
    /// # Errors
    ///
    /// [`Refusal::Rows`] while rows are still to come, with its cause.
    ///
    /// # Example
    ///
    /// ```
    /// use rumchivoat::{MapSize, Mode, Refused, Settings, Strips};
    ///
    /// let settings = Settings::new(Mode::Gb, 1, MapSize { columns: 2, rows: 2 }).discarding();
    /// let mut strips = Strips::start(settings, vec![0; settings.tile_len()?], vec![0; settings.map_len()?])?;
    /// strips.take(&[1; 128])?;
    /// assert_eq!(strips.end().unwrap_err().to_string(), "refused 19: 1 row of tiles is still to come");
    /// strips.take(&[1; 128])?;
    /// let picture = strips.end()?;
    /// assert_eq!((picture.tiles, picture.discarded), (1, 3));
    /// # Ok::<(), Refused>(())
    /// ```
    pub fn end(&self) -> Result<Picture, Refused> {
        self.run.end().map_err(|refusal| Refused::new(refusal, self.why_not_ended(refusal)))
    }

    /// How many rows of tiles have come.
    pub fn rows_taken(&self) -> u32 {
        self.run.taken
    }

    /// How many rows of tiles are still to come.
    pub fn rows_left(&self) -> u32 {
        self.run.rows_left()
    }

    /// The length of one row of tiles: the pixels of its eight lines, a byte each. A strip is one or more of them.
    pub fn row_len(&self) -> usize {
        self.run.row_len()
    }

    /// The tile bytes written so far.
    pub fn tiles(&self) -> &[u8] {
        let written = (self.run.tiles as usize).saturating_mul(self.run.settings().tile_bytes());
        self.tiles.as_ref().get(..written).unwrap_or_default()
    }

    /// The map bytes written so far: an entry for each tile of the rows that have come.
    pub fn map(&self) -> &[u8] {
        // a picture of no rows is none, and has no bytes
        let come = Settings { rows: self.run.taken, ..self.run.settings() };
        let written = come.map_len().unwrap_or(0);
        self.map.as_ref().get(..written).unwrap_or_default()
    }

    /// What the picture is converted by.
    pub fn settings(&self) -> Settings {
        self.run.settings()
    }

    /// The run, its tile buffer and its map, apart. The plain calls of [`Run`] take them; no call makes `Strips` of them
    /// again.
    ///
    /// ```
    /// use rumchivoat::{MapSize, Mode, Refused, Settings, Strips};
    ///
    /// let settings = Settings::new(Mode::Gb, 1, MapSize { columns: 1, rows: 2 });
    /// let mut strips = Strips::start(settings, vec![0; 16], vec![0; 2])?;
    /// strips.take(&[1; 64])?;
    /// let (mut run, mut tiles, mut map) = strips.into_parts();
    /// assert_eq!((run.taken, run.tiles, tiles[7], tiles[8]), (1, 1, 0xff, 0));
    /// run.take(&[0; 64], &mut tiles, &mut map)?;
    /// assert_eq!((run.end()?.tiles, map), (2, vec![0, 1]));
    /// # Ok::<(), Refused>(())
    /// ```
    pub fn into_parts(self) -> (Run, B, B) {
        (self.run, self.tiles, self.map)
    }

    /// Why a strip of so many pixels was refused.
    fn why_not_taken(&self, refusal: Refusal, given: usize) -> Cause {
        let row = self.run.row_len();
        match refusal {
            Refusal::Count => self.why_counted(),
            Refusal::Rows => Cause::PastRows { left: row.saturating_mul(self.run.rows_left() as usize), given },
            Refusal::Length => Cause::Strip { row, given },
            _ => {
                let spaces = (self.tiles.as_ref().len(), self.map.as_ref().len());
                self.settings().why_not_converted(refusal, given, spaces)
            }
        }
    }

    fn why_not_ended(&self, refusal: Refusal) -> Cause {
        match refusal {
            Refusal::Count => self.why_counted(),
            Refusal::Rows => Cause::RowsLeft { left: self.run.rows_left() },
            _ => Cause::Plain,
        }
    }

    /// The rows of a run that is kept here are its picture's: what is counted too many are tiles.
    fn why_counted(&self) -> Cause {
        let settings = self.settings();
        let room = |mode| settings.room_in(mode, self.tiles.as_ref().len());
        Cause::in_mode(settings.mode, |mode| Cause::RunCount { tiles: self.run.tiles, room: room(mode) })
    }
}
