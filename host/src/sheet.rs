//! The program on slices: a sheet of settings with a picture's pixels, answered with a text.

use crate::{Refusal, raw};

/// A length that no text of [`run`] exceeds, as proved: a buffer of this size holds every text.
pub const LONGEST_TEXT: usize = 67_840;

/// A text that was written: how long it is, and whether it is a report or tells a refusal.
#[derive(Debug, Clone, Copy, PartialEq, Eq, Hash)]
pub struct Ran {
    /// The length of the text, from the start of the buffer.
    pub written: usize,
    /// The number N of a text `refused=N`; `None` where the text is a report, followed by tile bytes and map bytes.
    pub told: Option<Refusal>,
}

/// Does what the program `convert` does, with slices for its standard input and output: reads a sheet of eight lines
/// with its picture's pixels, and writes the whole text that the program writes.
///
/// The lines are `mode`, `depth`, `flip`, `discard`, `limit`, `palette`, `columns` and `rows` in this order, each
/// `key=text` and a newline; numbers are decimal up to 4,294,967,295 with no leading zero, flip and discard 0 or 1,
/// columns and rows at most 32. Exactly 64 x columns x rows pixel bytes follow. The text is a report, then the tile
/// bytes and the map bytes; or it is `refused=N` and a newline. N is 14 where the input is not such a sheet, else what
/// [`convert`] refuses the picture with, given 65,536 bytes for tiles.
///
/// A text that tells a refusal is written like any other, so it comes as `Ok`. No text tells 11.
///
/// Tiles, map and what a conversion gathers are on the stack: [`stack::RUN`](crate::stack::RUN) bytes suffice for the
/// call.
///
/// [`convert`]: crate::convert
///
/// # Errors
///
/// [`Refusal::Output`], where the text does not fit `out`. [`LONGEST_TEXT`] bytes hold every text.
///
/// # Example
///
/// ```
/// use rumchivoat::{LONGEST_TEXT, Ran, Refusal, run};
///
/// // two tiles: 1 at the left one's top left, 1 at the right one's top right
/// let mut pixels = [0; 128];
/// pixels[0] = 1;
/// pixels[15] = 1;
/// let lines = b"mode=snes\ndepth=2\nflip=1\ndiscard=1\nlimit=0\npalette=0\ncolumns=2\nrows=1\n";
/// let sheet = [&lines[..], &pixels].concat();
///
/// let mut out = vec![0xee; LONGEST_TEXT];
/// let ran = run(&sheet, &mut out)?;
/// let report = b"mode=snes\ndepth=2\nflip=1\ndiscard=1\ncolumns=2\nrows=1\n\
///     tiles=1\ndiscarded=1\ntilebytes=16\nmapbytes=4\n";
/// let tiles = [0x80, 0, 0, 0, 0, 0, 0, 0, 0, 0, 0, 0, 0, 0, 0, 0];
/// let map = [0x00, 0x00, 0x00, 0x40];
/// let text = [&report[..], &tiles, &map].concat();
/// assert_eq!(ran, Ran { written: text.len(), told: None });
/// assert_eq!(out[..ran.written], text);
/// // the bytes after the text stay
/// assert!(out[ran.written..].iter().all(|&byte| byte == 0xee));
///
/// // a pixel is missing: the text tells 14
/// let ran = run(&sheet[..sheet.len() - 1], &mut out)?;
/// assert_eq!(ran, Ran { written: 11, told: Some(Refusal::Settings) });
/// assert_eq!(out[..11], *b"refused=14\n");
///
/// // the text does not fit: nothing is written
/// let mut short = [0xee; 10];
/// assert_eq!(run(&sheet[1..], &mut short), Err(Refusal::Output));
/// assert_eq!(short, [0xee; 10]);
/// # Ok::<(), Refusal>(())
/// ```
pub fn run(input: &[u8], out: &mut [u8]) -> Result<Ran, Refusal> {
    raw::run(input, out).ran()
}

/// A text, and whether it is a report or tells a refusal.
#[derive(Debug, Clone, PartialEq, Eq, Hash)]
#[non_exhaustive]
pub struct Text {
    /// The whole text: a report followed by tile bytes and map bytes, or `refused=N` and a newline.
    pub bytes: Vec<u8>,
    /// The number N of a text `refused=N`; `None` where the text is a report.
    pub told: Option<Refusal>,
}

/// Does what [`run`] does, and gives the text in a `Vec`. It takes [`stack::RUN`](crate::stack::RUN) bytes of stack.
///
/// # Errors
///
/// None of an archive of this crate's interface: every text fits.
///
/// # Example
///
/// ```
/// use rumchivoat::{Refusal, run_to_vec};
///
/// let text = run_to_vec(b"no sheet")?;
/// assert_eq!((text.bytes, text.told), (b"refused=14\n".to_vec(), Some(Refusal::Settings)));
/// # Ok::<(), Refusal>(())
/// ```
pub fn run_to_vec(input: &[u8]) -> Result<Text, Refusal> {
    let mut bytes = vec![0; LONGEST_TEXT];
    let Ran { written, told } = run(input, &mut bytes)?;
    bytes.truncate(written);
    Ok(Text { bytes, told })
}
