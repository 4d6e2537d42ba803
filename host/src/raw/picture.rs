//! Pictures.

use super::{Written, done};
use crate::{Refusal, Settings};

/// The answer of a conversion.
#[repr(C)]
#[derive(Debug, Clone, Copy)]
pub(crate) struct Picture {
    refusal: u32,
    tiles: u32,
    discarded: u32,
    tile_bytes: usize,
    map_bytes: usize,
}

unsafe extern "C" {
    fn rumchivoat_convert(
        mode: u32,
        depth: u32,
        flip: bool,
        discard: bool,
        limit: u32,
        palette: u32,
        columns: u32,
        rows: u32,
        pixels: *const u8,
        pixels_len: usize,
        tiles: *mut u8,
        tiles_len: usize,
        map: *mut u8,
        map_len: usize,
    ) -> Picture;

    fn rumchivoat_redraw(
        mode: u32,
        depth: u32,
        columns: u32,
        rows: u32,
        tiles: *const u8,
        tiles_len: usize,
        map: *const u8,
        map_len: usize,
        out: *mut u8,
        out_len: usize,
    ) -> Written;
}

#[inline]
pub(crate) fn convert(settings: Settings, pixels: &[u8], tiles: &mut [u8], map: &mut [u8]) -> Picture {
    let Settings { mode, depth, flip, discard, limit, palette, columns, rows } = settings;
    unsafe {
        rumchivoat_convert(
            mode,
            depth,
            flip,
            discard,
            limit,
            palette,
            columns,
            rows,
            pixels.as_ptr(),
            pixels.len(),
            tiles.as_mut_ptr(),
            tiles.len(),
            map.as_mut_ptr(),
            map.len(),
        )
    }
}

#[inline]
pub(crate) fn redraw(
    mode: u32,
    depth: u32,
    columns: u32,
    rows: u32,
    tiles: &[u8],
    map: &[u8],
    out: &mut [u8],
) -> Written {
    let (tiles_start, map_start, out_start) = (tiles.as_ptr(), map.as_ptr(), out.as_mut_ptr());
    let (tiles_len, map_len, out_len) = (tiles.len(), map.len(), out.len());
    unsafe {
        rumchivoat_redraw(mode, depth, columns, rows, tiles_start, tiles_len, map_start, map_len, out_start, out_len)
    }
}

impl Picture {
    #[cfg(test)]
    pub(super) fn is_bare_if_refused(&self) -> bool {
        let counts = self.tiles != 0 || self.discarded != 0;
        self.refusal == 0 || !(counts || self.tile_bytes != 0 || self.map_bytes != 0)
    }

    /// The counts and lengths.
    #[inline]
    pub(crate) fn picture(self) -> Result<crate::Picture, Refusal> {
        done(self.refusal)?;
        let Picture { tiles, discarded, tile_bytes, map_bytes, .. } = self;
        Ok(crate::Picture { tiles, discarded, tile_bytes, map_bytes })
    }
}

#[cfg(test)]
mod tests {
    //! A refused answer holds nothing else, whatever refuses it.

    use super::*;

    /// A picture of two tiles that is done in snes, and what makes each check refuse it.
    fn settings() -> impl Iterator<Item = Settings> {
        let modes = (0..16).chain([16, 255, u32::MAX]);
        let sized = modes
            .flat_map(|mode| [(2, 1), (1, 2), (0, 1), (65, 1), (1, 65), (u32::MAX, u32::MAX)].map(|size| (mode, size)));
        let deep = sized.flat_map(|(mode, size)| [0, 2, 4, 8, 9, u32::MAX].map(|depth| (mode, size, depth)));
        deep.flat_map(|(mode, (columns, rows), depth)| {
            [(false, 0, 0), (true, 0, 0), (false, 1, 0), (true, 2, 1), (false, 0, u32::MAX)].map(
                |(flip, limit, palette)| Settings { mode, depth, flip, discard: !flip, limit, palette, columns, rows },
            )
        })
    }

    #[test]
    fn refused_pictures_tell_nothing() {
        let pixels = [[1; 64], [2; 64]].concat();
        for settings in settings() {
            for length in [0, 64, 128] {
                for (tile_room, map_room) in [(0, 4), (16, 4), (128, 3), (128, 4)] {
                    let (mut tiles, mut map) = (vec![0xa5; tile_room], vec![0xa5; map_room]);
                    let picture = convert(settings, &pixels[..length], &mut tiles, &mut map);
                    assert!(picture.is_bare_if_refused(), "{settings:?} {picture:?}");
                }
            }
        }
    }

    #[test]
    fn refused_redrawing_tells_no_length() {
        let (tiles, map) = ([0; 128], [0, 0, 0, 0, 255, 255]);
        for Settings { mode, depth, columns, rows, .. } in settings() {
            for tile_length in [0, 15, 16, 64, 128] {
                for map_range in [0..0, 0..2, 0..4, 2..6] {
                    for room in [0, 127, 128] {
                        let (tiles, map) = (&tiles[..tile_length], &map[map_range.clone()]);
                        let mut out = vec![0xa5; room];
                        let written = redraw(mode, depth, columns, rows, tiles, map, &mut out);
                        assert!(written.is_bare_if_refused(), "{mode} {depth} {columns} {rows} {written:?}");
                    }
                }
            }
        }
    }
}
