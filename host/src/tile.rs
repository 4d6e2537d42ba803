//! Native tiles: 8x8 in every mode but pce_sprite, which has its six sizes.

use std::fmt;

use crate::{Cause, Refusal, Refused, raw};

/// The size of a tile, in pixels.
///
/// ```
/// use rumchivoat::TileSize;
///
/// assert_eq!(TileSize { width: 16, height: 32 }.to_string(), "16x32");
/// assert_eq!(TileSize::CELL, TileSize { width: 8, height: 8 });
/// ```
#[derive(Debug, Clone, Copy, PartialEq, Eq, Hash)]
pub struct TileSize {
    /// The pixels of a row.
    pub width: u32,
    /// The rows.
    pub height: u32,
}

impl TileSize {
    /// A cell, 8x8: the native tile of every mode but pce_sprite.
    pub const CELL: TileSize = TileSize { width: 8, height: 8 };

    /// The pixels of a tile. A size that no mode has may have more than can be counted.
    pub(crate) const fn pixels(self) -> usize {
        (self.width as usize).saturating_mul(self.height as usize)
    }

    /// The bytes of a native tile of this size.
    pub(crate) const fn bytes(self, depth: u32) -> usize {
        self.pixels().saturating_mul(depth as usize) / 8
    }
}

impl fmt::Display for TileSize {
    fn fmt(&self, f: &mut fmt::Formatter<'_>) -> fmt::Result {
        write!(f, "{}x{}", self.width, self.height)
    }
}

/// Packs a tile's pixels, a byte each, row by row, into the mode's bytes, and answers the length written: depth x 8 for
/// 8x8. Pce_sprite packs widths 16 and 32 and heights 16, 32 and 64, each 128 bytes for each cell of 16x16.
///
/// # Errors
///
/// The first that applies: [`Refusal::Mode`], [`Refusal::Depth`], [`Refusal::Size`], [`Refusal::Length`],
/// [`Refusal::Pixel`], [`Refusal::Output`].
///
/// # Example
///
/// ```
/// use rumchivoat::{Mode, Refusal, pack_tile};
///
/// let mut pixels = [0; 64];
/// pixels[..8].copy_from_slice(&[0, 1, 2, 3, 0, 1, 2, 3]);
/// let mut out = [0xee; 33];
/// // (a) the row's low plane, then its high plane, the leftmost pixel in the top bit
/// assert_eq!(pack_tile(Mode::Snes, 2, 8, 8, &pixels, &mut out), Ok(16));
/// assert_eq!(out[..3], [0x55, 0x33, 0x00]);
/// // (b) two bits a pixel
/// assert_eq!(pack_tile(Mode::Ngp, 2, 8, 8, &pixels, &mut out), Ok(16));
/// assert_eq!(out[..3], [0x1b, 0x1b, 0x00]);
/// // (c) the first pixel in the low nibble, or in the high one
/// pixels[..2].copy_from_slice(&[1, 2]);
/// assert_eq!(pack_tile(Mode::Gba, 4, 8, 8, &pixels, &mut out), Ok(32));
/// assert_eq!(out[0], 0x21);
/// assert_eq!(pack_tile(Mode::WscPacked, 4, 8, 8, &pixels, &mut out), Ok(32));
/// assert_eq!(out[0], 0x12);
/// // the byte after the written length stays
/// assert_eq!(out[32], 0xee);
///
/// // (d) one pixel of a sprite: column 9, row 0
/// let mut sprite = [0; 256];
/// sprite[9] = 8;
/// let mut out = [0; 128];
/// assert_eq!(pack_tile(Mode::PceSprite, 4, 16, 16, &sprite, &mut out), Ok(128));
/// assert_eq!(out[97], 0x02);
///
/// assert_eq!(pack_tile(Mode::PceSprite, 4, 8, 8, &pixels, &mut out), Err(Refusal::Size));
/// pixels[0] = 4;
/// assert_eq!(pack_tile(Mode::Snes, 2, 8, 8, &pixels, &mut out), Err(Refusal::Pixel));
/// ```
pub fn pack_tile(
    mode: impl Into<u32>,
    depth: u32,
    width: u32,
    height: u32,
    pixels: &[u8],
    out: &mut [u8],
) -> Result<usize, Refusal> {
    raw::pack_tile(mode.into(), depth, width, height, pixels, out).length()
}

/// Unpacks a tile's bytes into pixels, a byte each, row by row, and answers their number. It inverts packing, at every
/// depth.
///
/// # Errors
///
/// The first that applies: [`Refusal::Mode`], [`Refusal::Depth`], [`Refusal::Size`], [`Refusal::Length`],
/// [`Refusal::Output`].
///
/// # Example
///
/// ```
/// use rumchivoat::{Mode, Refusal, unpack_tile};
///
/// let mut bytes = [0; 16];
/// let mut out = [0; 64];
/// // (a)
/// bytes[..2].copy_from_slice(&[0x55, 0x33]);
/// assert_eq!(unpack_tile(Mode::Snes, 2, 8, 8, &bytes, &mut out), Ok(64));
/// assert_eq!(out[..9], [0, 1, 2, 3, 0, 1, 2, 3, 0]);
/// // (b)
/// bytes[..2].copy_from_slice(&[0x1b, 0x1b]);
/// assert_eq!(unpack_tile(Mode::Ngp, 2, 8, 8, &bytes, &mut out), Ok(64));
/// assert_eq!(out[..9], [0, 1, 2, 3, 0, 1, 2, 3, 0]);
/// // (c)
/// let mut bytes = [0; 32];
/// bytes[0] = 0x21;
/// assert_eq!(unpack_tile(Mode::Gba, 4, 8, 8, &bytes, &mut out), Ok(64));
/// assert_eq!(out[..3], [1, 2, 0]);
/// assert_eq!(unpack_tile(Mode::WscPacked, 4, 8, 8, &bytes, &mut out), Ok(64));
/// assert_eq!(out[..3], [2, 1, 0]);
/// // (d)
/// let mut bytes = [0; 128];
/// bytes[97] = 0x02;
/// let mut sprite = [0; 256];
/// assert_eq!(unpack_tile(Mode::PceSprite, 4, 16, 16, &bytes, &mut sprite), Ok(256));
/// assert_eq!(sprite[9], 8);
///
/// // one byte a row
/// assert_eq!(unpack_tile(Mode::Gb, 1, 8, 8, &[0x80; 8], &mut out), Ok(64));
/// assert_eq!(out[..9], [1, 0, 0, 0, 0, 0, 0, 0, 1]);
/// assert_eq!(unpack_tile(Mode::Gb, 2, 8, 8, &[0x80; 8], &mut out), Err(Refusal::Length));
/// ```
pub fn unpack_tile(
    mode: impl Into<u32>,
    depth: u32,
    width: u32,
    height: u32,
    bytes: &[u8],
    out: &mut [u8],
) -> Result<usize, Refusal> {
    raw::unpack_tile(mode.into(), depth, width, height, bytes, out).length()
}

/// Flips a native tile of 8x8 without unpacking it, and answers the length written, depth x 8. H reverses each row, v
/// the order of rows; with neither the bytes are copied. What is written is what the flipped pixels pack to, and the
/// bytes that come may hold anything. Every mode's tiles are flipped, whether its map entries have flips or not, but
/// pce_sprite's, which are not 8x8.
///
/// # Errors
///
/// The first that applies: [`Refusal::Mode`], [`Refusal::PceSprite`], [`Refusal::Depth`], [`Refusal::Length`] (the
/// bytes are not one tile's), [`Refusal::Output`].
///
/// # Example
///
/// ```
/// use rumchivoat::{Mode, Refusal, flip_tile};
///
/// // the first row is 0 1 2 3 0 1 2 3
/// let mut bytes = [0; 16];
/// bytes[..2].copy_from_slice(&[0x55, 0x33]);
/// let mut out = [0xee; 17];
/// assert_eq!(flip_tile(Mode::Snes, 2, true, false, &bytes, &mut out), Ok(16));
/// assert_eq!(out[..3], [0xaa, 0xcc, 0x00]);
/// // the first row becomes the last one; the byte after the written length stays
/// assert_eq!(flip_tile(Mode::Snes, 2, false, true, &bytes, &mut out), Ok(16));
/// assert_eq!((out[0], &out[13..]), (0x00, &[0x00, 0x55, 0x33, 0xee][..]));
/// // the two pixels of a byte change their places, and the byte goes to the other end
/// let mut bytes = [0; 32];
/// bytes[0] = 0x21;
/// let mut out = [0; 32];
/// assert_eq!(flip_tile(Mode::Gba, 4, true, true, &bytes, &mut out), Ok(32));
/// assert_eq!((out[0], out[31]), (0x00, 0x12));
///
/// assert_eq!(flip_tile(Mode::PceSprite, 4, true, false, &[0; 128], &mut out), Err(Refusal::PceSprite));
/// assert_eq!(flip_tile(Mode::Gba, 4, true, false, &[0; 64], &mut out), Err(Refusal::Length));
/// ```
pub fn flip_tile(
    mode: impl Into<u32>,
    depth: u32,
    flip_h: bool,
    flip_v: bool,
    bytes: &[u8],
    out: &mut [u8],
) -> Result<usize, Refusal> {
    raw::flip_tile(mode.into(), depth, flip_h, flip_v, bytes, out).length()
}

/// The most pixels of a native tile: pce_sprite's 32x64.
const MOST_PIXELS: usize = 2048;

/// The most bytes of a native tile: pce_sprite's 32x64 at depth 4.
const MOST_BYTES: usize = 1024;

/// Packs a tile as [`pack_tile`] does, into a `Vec` of exactly its bytes.
///
/// # Errors
///
/// The first that applies: [`Refusal::Mode`], [`Refusal::Depth`], [`Refusal::Size`], [`Refusal::Length`], [`Refusal::Pixel`],
/// with their causes.
///
/// # Example
///
/// ```
/// use rumchivoat::{Mode, Refused, TileSize, pack_tile_to_vec};
///
/// let mut pixels = [0; 64];
/// pixels[..8].copy_from_slice(&[0, 1, 2, 3, 0, 1, 2, 3]);
/// let bytes = pack_tile_to_vec(Mode::Snes, 2, TileSize::CELL, &pixels)?;
/// assert_eq!((bytes.len(), bytes[0], bytes[1]), (16, 0x55, 0x33));
///
/// let refused = pack_tile_to_vec(Mode::Snes, 7, TileSize::CELL, &pixels).unwrap_err();
/// assert_eq!(refused.to_string(), "refused 3: snes has depths 2, 4 and 8, not 7");
/// pixels[9] = 4;
/// let refused = pack_tile_to_vec(Mode::Snes, 2, TileSize::CELL, &pixels).unwrap_err();
/// assert_eq!(refused.to_string(), "refused 8: pixel 9 is 4, and depth 2 holds 0 to 3");
/// # Ok::<(), Refused>(())
/// ```
pub fn pack_tile_to_vec(mode: impl Into<u32>, depth: u32, size: TileSize, pixels: &[u8]) -> Result<Vec<u8>, Refused> {
    let (mode, mut out) = (mode.into(), vec![0; size.bytes(depth).min(MOST_BYTES)]);
    let written = pack_tile(mode, depth, size.width, size.height, pixels, &mut out).map_err(|refusal| {
        let cause = match refusal {
            Refusal::Length => Cause::Length { what: "pixel", needed: size.pixels(), given: pixels.len() },
            Refusal::Pixel => Cause::of_pixels(depth, pixels),
            _ => Cause::of_tiles(refusal, mode, depth, size),
        };
        Refused::new(refusal, cause)
    })?;
    out.truncate(written);
    Ok(out)
}

/// Unpacks a tile as [`unpack_tile`] does, into a `Vec` of its pixels.
///
/// # Errors
///
/// The first that applies: [`Refusal::Mode`], [`Refusal::Depth`], [`Refusal::Size`], [`Refusal::Length`], with their causes.
///
/// # Example
///
/// ```
/// use rumchivoat::{Mode, Refused, TileSize, unpack_tile_to_vec};
///
/// let pixels = unpack_tile_to_vec(Mode::Gb, 1, TileSize::CELL, &[0x80; 8])?;
/// assert_eq!((pixels.len(), pixels[0], pixels[1], pixels[8]), (64, 1, 0, 1));
/// let refused = unpack_tile_to_vec(Mode::Gb, 2, TileSize::CELL, &[0x80; 8]).unwrap_err();
/// assert_eq!(refused.to_string(), "refused 7: 16 bytes are needed, 8 were given");
/// # Ok::<(), Refused>(())
/// ```
pub fn unpack_tile_to_vec(mode: impl Into<u32>, depth: u32, size: TileSize, bytes: &[u8]) -> Result<Vec<u8>, Refused> {
    let (mode, mut out) = (mode.into(), vec![0; size.pixels().min(MOST_PIXELS)]);
    let written = unpack_tile(mode, depth, size.width, size.height, bytes, &mut out)
        .map_err(|refusal| Refused::new(refusal, why_not_taken(refusal, mode, depth, size, bytes.len())))?;
    out.truncate(written);
    Ok(out)
}

/// Flips a tile as [`flip_tile`] does, into a `Vec` of exactly its bytes.
///
/// # Errors
///
/// The first that applies: [`Refusal::Mode`], [`Refusal::PceSprite`], [`Refusal::Depth`], [`Refusal::Length`], with
/// their causes.
///
/// # Example
///
/// ```
/// use rumchivoat::{Mode, Refused, flip_tile_to_vec};
///
/// let bytes = flip_tile_to_vec(Mode::Gb, 1, true, false, &[0x80, 0x40, 0, 0, 0, 0, 0, 0x0f])?;
/// assert_eq!(bytes, [0x01, 0x02, 0, 0, 0, 0, 0, 0xf0]);
/// // both flips, and each by itself: they undo each other
/// let both = flip_tile_to_vec(Mode::Gb, 1, true, true, &bytes)?;
/// let again = flip_tile_to_vec(Mode::Gb, 1, false, true, &both)?;
/// assert_eq!(flip_tile_to_vec(Mode::Gb, 1, true, false, &again)?, bytes);
///
/// let refused = flip_tile_to_vec(Mode::Gb, 2, true, false, &bytes).unwrap_err();
/// assert_eq!(refused.to_string(), "refused 7: 16 bytes are needed, 8 were given");
/// # Ok::<(), Refused>(())
/// ```
pub fn flip_tile_to_vec(
    mode: impl Into<u32>,
    depth: u32,
    flip_h: bool,
    flip_v: bool,
    bytes: &[u8],
) -> Result<Vec<u8>, Refused> {
    let (mode, size) = (mode.into(), TileSize::CELL);
    let mut out = vec![0; size.bytes(depth).min(MOST_BYTES)];
    let written = flip_tile(mode, depth, flip_h, flip_v, bytes, &mut out)
        .map_err(|refusal| Refused::new(refusal, why_not_taken(refusal, mode, depth, size, bytes.len())))?;
    out.truncate(written);
    Ok(out)
}

/// Why so many native bytes were not taken for a tile of this size.
fn why_not_taken(refusal: Refusal, mode: u32, depth: u32, size: TileSize, given: usize) -> Cause {
    match refusal {
        Refusal::Length => Cause::Length { what: "byte", needed: size.bytes(depth), given },
        _ => Cause::of_tiles(refusal, mode, depth, size),
    }
}
