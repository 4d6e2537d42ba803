//! The mode 7 block: a map and tiles as the console holds them, made and split.

use crate::{Cause, Refusal, Refused, raw};

/// The bytes of a mode 7 block, as a loader puts it into the console: 16,384 pairs, in each pair the even byte from a map
/// of 128x128 places, the odd byte from the 256 tiles of 64 pixels.
pub const MODE7_BLOCK: usize = 32_768;

/// The bytes of each half of a block: a map of 128x128 places, a byte each, and 256 tiles of 64 pixels, a byte each.
pub const MODE7_HALF: usize = 16_384;

/// Makes a mode 7 block from tile bytes and map bytes, and answers its length, [`MODE7_BLOCK`]. Byte 2i is byte i of the
/// map, and byte 2i + 1 byte i of the tiles. Either may be shorter than [`MODE7_HALF`], or empty: it is filled with 0.
/// [`stack::OTHERS`](crate::stack::OTHERS) bytes of stack suffice for the call.
///
/// # A picture's map
///
/// A snes_mode7 picture of up to 64x64 tiles is converted into tile bytes, at most 256 tiles of 64, which go in as they
/// are, and a map of columns x rows bytes. The block's map always has 128 bytes a row, so that a picture's map goes in as
/// it is only where it is one row: the host lays its rows out, row r from place 128 x r on, and as many places further as
/// the column where the picture is to start.
///
/// Places that nobody wrote are 0, and the console shows tile 0 there. So an artist keeps the first tile of the picture
/// blank, or the host writes the number of another tile around it.
///
/// # Errors
///
/// The first that applies: [`Refusal::Length`] (tiles or map longer than [`MODE7_HALF`]), [`Refusal::Output`].
///
/// # Example
///
/// ```
/// use rumchivoat::{MODE7_BLOCK, Refusal, mode7_make};
///
/// let mut block = vec![0xee; MODE7_BLOCK + 1];
/// assert_eq!(mode7_make(&[1, 2, 3], &[0x0a, 0x0b], &mut block), Ok(MODE7_BLOCK));
/// // a byte of the map, then one of the tiles; 0 where there is none
/// assert_eq!(block[..8], [0x0a, 1, 0x0b, 2, 0, 3, 0, 0]);
/// assert!(block[8..MODE7_BLOCK].iter().all(|&byte| byte == 0));
/// // the byte after the written length stays
/// assert_eq!(block[MODE7_BLOCK], 0xee);
///
/// assert_eq!(mode7_make(&[0; 16_385], &[], &mut block), Err(Refusal::Length));
/// assert_eq!(mode7_make(&[], &[], &mut block[2..]), Err(Refusal::Output));
/// ```
pub fn mode7_make(tiles: &[u8], map: &[u8], out: &mut [u8]) -> Result<usize, Refusal> {
    raw::mode7_make(tiles, map, out).length()
}

/// Splits a mode 7 block into its two halves, and answers the length written to each, [`MODE7_HALF`]: the tiles get the
/// odd bytes, the map the even ones. It inverts [`mode7_make`]: made again, the halves are the block, and what a block was
/// made from comes back with the 0 that filled it. [`stack::OTHERS`](crate::stack::OTHERS) bytes of stack suffice for the
/// call.
///
/// # Errors
///
/// The first that applies: [`Refusal::Length`] (the block has not exactly [`MODE7_BLOCK`] bytes), [`Refusal::Output`]
/// (tiles or map shorter than [`MODE7_HALF`]).
///
/// # Example
///
/// ```
/// use rumchivoat::{MODE7_BLOCK, MODE7_HALF, Refusal, mode7_split};
///
/// let mut block = vec![0; MODE7_BLOCK];
/// block[..4].copy_from_slice(&[0x0a, 1, 0x0b, 2]);
/// let (mut tiles, mut map) = (vec![0xee; MODE7_HALF], vec![0xee; MODE7_HALF + 1]);
/// assert_eq!(mode7_split(&block, &mut tiles, &mut map), Ok(MODE7_HALF));
/// assert_eq!((&tiles[..3], &map[..3]), (&[1, 2, 0][..], &[0x0a, 0x0b, 0][..]));
/// // the byte after the written length stays
/// assert_eq!(map[MODE7_HALF], 0xee);
///
/// assert_eq!(mode7_split(&block[2..], &mut tiles, &mut map), Err(Refusal::Length));
/// assert_eq!(mode7_split(&block, &mut tiles[1..], &mut map), Err(Refusal::Output));
/// ```
pub fn mode7_split(block: &[u8], tiles: &mut [u8], map: &mut [u8]) -> Result<usize, Refusal> {
    raw::mode7_split(block, tiles, map).length()
}

/// A mode 7 block taken apart.
#[derive(Debug, Clone, PartialEq, Eq, Hash)]
#[non_exhaustive]
pub struct Mode7Halves {
    /// The tile bytes: 256 tiles of 64 pixels, a byte each.
    pub tiles: Vec<u8>,
    /// The map bytes: 128 rows of 128 places, a byte each.
    pub map: Vec<u8>,
}

/// Makes a mode 7 block as [`mode7_make`] does, into a `Vec` of exactly its bytes.
///
/// # Errors
///
/// [`Refusal::Length`], where tiles or map are longer than [`MODE7_HALF`], with its cause.
///
/// # Example
///
/// A picture of 2x2 tiles, the first one blank, in the middle of the block's map:
///
/// ```
/// use rumchivoat::{MODE7_HALF, MapSize, Mode, Refused, Settings, mode7_make_to_vec, mode7_split_to_vec};
///
/// // the first row has two blank tiles, the second one a tile of 1 and a tile of 2
/// let mut pixels = [0; 256];
/// for line in pixels[128..].chunks_exact_mut(16) {
///     line[..8].fill(1);
///     line[8..].fill(2);
/// }
/// let settings = Settings::new(Mode::SnesMode7, 8, MapSize { columns: 2, rows: 2 }).discarding();
/// let converted = settings.convert_to_vec(&pixels)?;
/// assert_eq!((converted.tiles.len(), &converted.map[..]), (3 * 64, &[0, 0, 1, 2][..]));
///
/// // the picture's rows, each 128 places after the one before, from column 63 and row 63 on
/// let mut map = vec![0; MODE7_HALF];
/// for (row, entries) in converted.map.chunks_exact(2).enumerate() {
///     map[128 * (63 + row) + 63..][..2].copy_from_slice(entries);
/// }
/// let block = mode7_make_to_vec(&converted.tiles, &map)?;
/// assert_eq!(block[2 * (128 * 64 + 63)..][..4], [1, 0, 2, 0]);
///
/// // and back: the tile bytes with the 0 that filled them, and the map
/// let halves = mode7_split_to_vec(&block)?;
/// assert!(halves.tiles.starts_with(&converted.tiles) && halves.map == map);
/// assert_eq!(settings.redraw_to_vec(&halves.tiles, &converted.map)?, pixels);
///
/// let refused = mode7_make_to_vec(&[0; 16_385], &map).unwrap_err();
/// assert_eq!(refused.to_string(), "refused 7: a mode 7 block holds at most 16384 tile bytes, 16385 were given");
/// # Ok::<(), Refused>(())
/// ```
pub fn mode7_make_to_vec(tiles: &[u8], map: &[u8]) -> Result<Vec<u8>, Refused> {
    let mut out = vec![0; MODE7_BLOCK];
    let written = mode7_make(tiles, map, &mut out)
        .map_err(|refusal| Refused::new(refusal, why_not_made(refusal, tiles.len(), map.len())))?;
    out.truncate(written);
    Ok(out)
}

/// Splits a mode 7 block as [`mode7_split`] does, into a `Vec` for each of its halves.
///
/// # Errors
///
/// [`Refusal::Length`], where the block has not exactly [`MODE7_BLOCK`] bytes, with its cause.
///
/// # Example
///
/// ```
/// use rumchivoat::{MODE7_BLOCK, MODE7_HALF, Refused, mode7_make_to_vec, mode7_split_to_vec};
///
/// let block: Vec<u8> = (0..MODE7_BLOCK).map(|place| (place % 251) as u8).collect();
/// let halves = mode7_split_to_vec(&block)?;
/// assert_eq!((halves.tiles.len(), halves.map.len()), (MODE7_HALF, MODE7_HALF));
/// assert_eq!((halves.map[1], halves.tiles[1]), (2, 3));
/// assert_eq!(mode7_make_to_vec(&halves.tiles, &halves.map)?, block);
///
/// let refused = mode7_split_to_vec(&block[..5]).unwrap_err();
/// assert_eq!(refused.to_string(), "refused 7: a mode 7 block has 32768 bytes, 5 were given");
/// # Ok::<(), Refused>(())
/// ```
pub fn mode7_split_to_vec(block: &[u8]) -> Result<Mode7Halves, Refused> {
    let (mut tiles, mut map) = (vec![0; MODE7_HALF], vec![0; MODE7_HALF]);
    let written = mode7_split(block, &mut tiles, &mut map)
        .map_err(|refusal| Refused::new(refusal, why_not_split(refusal, block.len())))?;
    tiles.truncate(written);
    map.truncate(written);
    Ok(Mode7Halves { tiles, map })
}

/// Which of both inputs is too long; the tiles where both are.
fn why_not_made(refusal: Refusal, tiles: usize, map: usize) -> Cause {
    match refusal {
        Refusal::Length if tiles > MODE7_HALF => Cause::Mode7Half { what: "tile byte", given: tiles },
        Refusal::Length => Cause::Mode7Half { what: "map byte", given: map },
        _ => Cause::Plain,
    }
}

fn why_not_split(refusal: Refusal, given: usize) -> Cause {
    match refusal {
        Refusal::Length => Cause::Mode7Block { given },
        _ => Cause::Plain,
    }
}
