//! Colours, and one channel of a colour.

use crate::mode::Colors;
use crate::{Cause, Mode, Refusal, Refused, raw};

/// How a channel's value, 0 to 255, is brought down to a mode's components.
#[derive(Debug, Clone, Copy, PartialEq, Eq)]
pub enum Rounding {
    /// Shift right: the top bits remain.
    Truncate,
    /// The whole part of (value x top + 127) / 255.
    Nearest,
}

/// Packs colours, four bytes each (r, g, b, a), into the mode's bytes, and answers the length written. Alpha is ignored;
/// gb, ngp and ws read red only, and gb and ws take exactly four colours.
///
/// # Errors
///
/// The first that applies: [`Refusal::Mode`], [`Refusal::Length`], [`Refusal::Component`], [`Refusal::Output`].
///
/// # Example
///
/// ```
/// use rumchivoat::{Mode, Refusal, pack_colors};
///
/// let mut out = [0; 2];
/// // (e) least byte first
/// assert_eq!(pack_colors(Mode::Snes, &[31, 0, 16, 255], &mut out), Ok(2));
/// assert_eq!(out, [0x1f, 0x40]);
/// // (f) most byte first
/// assert_eq!(pack_colors(Mode::Md, &[7, 1, 4, 255], &mut out), Ok(2));
/// assert_eq!(out, [0x08, 0x2e]);
///
/// let grays = |r: [u8; 4]| r.map(|r| [r, r, r, 255]).concat();
/// // (g) one byte; the byte after it stays
/// assert_eq!(pack_colors(Mode::Gb, &grays([3, 2, 1, 0]), &mut out), Ok(1));
/// assert_eq!(out, [0xe4, 0x2e]);
/// // (h)
/// assert_eq!(pack_colors(Mode::Ws, &grays([7, 5, 2, 0]), &mut out), Ok(2));
/// assert_eq!(out, [0x20, 0x75]);
///
/// assert_eq!(pack_colors(Mode::Snes, &[32, 0, 0, 255], &mut out), Err(Refusal::Component));
/// ```
pub fn pack_colors(mode: impl Into<u32>, colors: &[u8], out: &mut [u8]) -> Result<usize, Refusal> {
    raw::pack_colors(mode.into(), colors, out).length()
}

/// Unpacks the mode's bytes into colours, four bytes each (r, g, b, 255), and answers the length written. Unused bits
/// are ignored; gb takes exactly one byte, ws two, ngp four.
///
/// # Errors
///
/// The first that applies: [`Refusal::Mode`], [`Refusal::Length`], [`Refusal::Output`].
///
/// # Example
///
/// ```
/// use rumchivoat::{Mode, Refusal, unpack_colors};
///
/// let mut out = [0; 4];
/// assert_eq!(unpack_colors(Mode::Snes, &[0x1f, 0x40], &mut out), Ok(4));
/// assert_eq!(out, [31, 0, 16, 255]);
/// assert_eq!(unpack_colors(Mode::Snes, &[0x1f], &mut out), Err(Refusal::Length));
/// assert_eq!(unpack_colors(Mode::Gb, &[0xe4], &mut out), Err(Refusal::Output));
/// ```
pub fn unpack_colors(mode: impl Into<u32>, bytes: &[u8], out: &mut [u8]) -> Result<usize, Refusal> {
    raw::unpack_colors(mode.into(), bytes, out).length()
}

/// Brings one channel's value down to a component of the mode, 0 to its top.
///
/// # Errors
///
/// [`Refusal::Mode`].
///
/// # Example
///
/// ```
/// use rumchivoat::{Mode, Rounding, reduce_channel};
///
/// assert_eq!(reduce_channel(Mode::Gb, 127, Rounding::Truncate), Ok(1));
/// assert_eq!(reduce_channel(Mode::Gb, 128, Rounding::Nearest), Ok(2));
/// ```
pub fn reduce_channel(mode: impl Into<u32>, value: u8, rounding: Rounding) -> Result<u8, Refusal> {
    raw::reduce_channel(mode.into(), value, rounding == Rounding::Nearest).byte()
}

/// Brings a component of the mode up to 0 to 255, by repeating its bits. Reducing the result, by either rounding, gives
/// the component again.
///
/// # Errors
///
/// The first that applies: [`Refusal::Mode`], [`Refusal::Component`].
///
/// # Example
///
/// ```
/// use rumchivoat::{Mode, Refusal, scale_up};
///
/// assert_eq!(scale_up(Mode::Snes, 16), Ok(0b10000_100));
/// assert_eq!(scale_up(Mode::Md, 5), Ok(0b101_101_10));
/// assert_eq!(scale_up(Mode::Md, 8), Err(Refusal::Component));
/// ```
pub fn scale_up(mode: impl Into<u32>, component: u32) -> Result<u8, Refusal> {
    raw::scale_up(mode.into(), component).byte()
}

/// The bytes of a colour, r, g, b and a.
const COLOR_BYTES: usize = 4;

/// The colours of a palette where a mode takes exactly so many.
const FOUR: usize = 4;

/// Packs colours as [`pack_colors`] does, into a `Vec` of exactly the mode's bytes.
///
/// # Errors
///
/// The first that applies: [`Refusal::Mode`], [`Refusal::Length`], [`Refusal::Component`], with their causes.
///
/// # Example
///
/// ```
/// use rumchivoat::{Mode, Refused, pack_colors_to_vec};
///
/// assert_eq!(pack_colors_to_vec(Mode::Snes, &[31, 0, 16, 255])?, [0x1f, 0x40]);
/// let refused = pack_colors_to_vec(Mode::Snes, &[0, 0, 0, 255, 0, 32, 0, 255]).unwrap_err();
/// assert_eq!(refused.to_string(), "refused 9: colour 1 has a component of 32, and snes's top is 31");
/// # Ok::<(), Refused>(())
/// ```
pub fn pack_colors_to_vec(mode: impl Into<u32>, colors: &[u8]) -> Result<Vec<u8>, Refused> {
    let mode = mode.into();
    let mut out = vec![0; packed_most(mode, colors.len())];
    let written = pack_colors(mode, colors, &mut out)
        .map_err(|refusal| Refused::new(refusal, why_not_packed(refusal, mode, colors)))?;
    out.truncate(written);
    Ok(out)
}

/// Unpacks colours as [`unpack_colors`] does, into a `Vec` of four bytes for each colour.
///
/// # Errors
///
/// The first that applies: [`Refusal::Mode`], [`Refusal::Length`], with their causes.
///
/// # Example
///
/// ```
/// use rumchivoat::{Mode, Refused, unpack_colors_to_vec};
///
/// assert_eq!(unpack_colors_to_vec(Mode::Snes, &[0x1f, 0x40])?, [31, 0, 16, 255]);
/// let refused = unpack_colors_to_vec(Mode::Ngp, &[7; 3]).unwrap_err();
/// assert_eq!(refused.to_string(), "refused 7: 4 bytes are needed, 3 were given");
/// # Ok::<(), Refused>(())
/// ```
pub fn unpack_colors_to_vec(mode: impl Into<u32>, bytes: &[u8]) -> Result<Vec<u8>, Refused> {
    let mode = mode.into();
    let mut out = vec![0; unpacked_most(mode, bytes.len())];
    let written = unpack_colors(mode, bytes, &mut out)
        .map_err(|refusal| Refused::new(refusal, why_not_unpacked(refusal, mode, bytes.len())))?;
    out.truncate(written);
    Ok(out)
}

/// As many bytes as colours of this length pack to, where they are packed.
fn packed_most(mode: u32, length: usize) -> usize {
    match Mode::try_from(mode).map(Mode::colors) {
        Ok(Colors::Each(bytes)) => length / COLOR_BYTES * bytes,
        Ok(Colors::Four(bytes)) => *bytes,
        Ok(Colors::Grays) => length / COLOR_BYTES,
        Err(_) => 0,
    }
}

/// As many bytes as mode bytes of this length unpack to, where they are unpacked.
fn unpacked_most(mode: u32, length: usize) -> usize {
    match Mode::try_from(mode).map(Mode::colors) {
        Ok(Colors::Each(bytes)) => length / bytes * COLOR_BYTES,
        Ok(Colors::Four(_) | Colors::Grays) => FOUR * COLOR_BYTES,
        Err(_) => 0,
    }
}

fn why_not_packed(refusal: Refusal, number: u32, colors: &[u8]) -> Cause {
    match refusal {
        Refusal::Mode => Cause::Mode { number },
        Refusal::Length => Cause::in_mode(number, |mode| unpackable(mode, colors.len())),
        Refusal::Component => Cause::in_mode(number, |mode| above_top(mode, colors)),
        _ => Cause::Plain,
    }
}

/// Why colours of this length are not packed.
fn unpackable(mode: Mode, length: usize) -> Cause {
    match mode.colors() {
        Colors::Four(_) if length % COLOR_BYTES == 0 => {
            Cause::Length { what: "colour", needed: FOUR, given: length / COLOR_BYTES }
        }
        _ => Cause::Whole { what: "byte", part: COLOR_BYTES, given: length },
    }
}

/// The first component above the mode's top; alpha is none.
fn above_top(mode: Mode, colors: &[u8]) -> Cause {
    let components = colors.chunks_exact(COLOR_BYTES).enumerate().flat_map(|(color, bytes)| {
        let components = bytes.iter().take(COLOR_BYTES - 1);
        components.map(move |&value| (color, value))
    });
    let above = components.into_iter().find(|&(_, value)| value > mode.top());
    above.map_or(Cause::Plain, |(color, value)| Cause::Component { mode, value, color })
}

fn why_not_unpacked(refusal: Refusal, number: u32, given: usize) -> Cause {
    let length = |mode: Mode| match *mode.colors() {
        Colors::Each(part) => Cause::Whole { what: "byte", part, given },
        Colors::Four(needed) => Cause::Length { what: "byte", needed, given },
        Colors::Grays => Cause::Length { what: "byte", needed: FOUR, given },
    };
    match refusal {
        Refusal::Mode => Cause::Mode { number },
        Refusal::Length => Cause::in_mode(number, length),
        _ => Cause::Plain,
    }
}
