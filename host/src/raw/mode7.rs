//! The mode 7 block.

use super::Written;

unsafe extern "C" {
    fn rumchivoat_mode7_make(
        tiles: *const u8,
        tiles_len: usize,
        map: *const u8,
        map_len: usize,
        out: *mut u8,
        out_len: usize,
    ) -> Written;

    fn rumchivoat_mode7_split(
        block: *const u8,
        block_len: usize,
        tiles: *mut u8,
        tiles_len: usize,
        map: *mut u8,
        map_len: usize,
    ) -> Written;
}

#[inline]
pub(crate) fn mode7_make(tiles: &[u8], map: &[u8], out: &mut [u8]) -> Written {
    let (tiles_start, map_start, out_start) = (tiles.as_ptr(), map.as_ptr(), out.as_mut_ptr());
    let (tiles_len, map_len, out_len) = (tiles.len(), map.len(), out.len());
    unsafe { rumchivoat_mode7_make(tiles_start, tiles_len, map_start, map_len, out_start, out_len) }
}

#[inline]
pub(crate) fn mode7_split(block: &[u8], tiles: &mut [u8], map: &mut [u8]) -> Written {
    let (start, tiles_start, map_start) = (block.as_ptr(), tiles.as_mut_ptr(), map.as_mut_ptr());
    let (length, tiles_len, map_len) = (block.len(), tiles.len(), map.len());
    unsafe { rumchivoat_mode7_split(start, length, tiles_start, tiles_len, map_start, map_len) }
}
