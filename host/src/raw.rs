//! The archive's functions as they are: a lent slice is a pointer and a length, a lent record a pointer, an answer is a
//! struct by value.
//!
//! None of them asks anything of its arguments beyond what Rust's own types give, so each call below is sound for every
//! slice and number: of two lent slices one is `&mut`, and then they do not overlap, or both are only read.

mod mode7;
mod picture;
mod sheet;
mod strip;
mod title;

pub(crate) use mode7::{mode7_make, mode7_split};
pub(crate) use picture::{convert, redraw};
pub(crate) use sheet::run;
pub(crate) use strip::{strip_end, strip_start, strip_take};
pub(crate) use title::{title_add, title_look_up};

use crate::{Logical, Refusal, Set};

/// The answer of a call that writes.
#[repr(C)]
#[derive(Debug, Clone, Copy)]
pub(crate) struct Written {
    refusal: u32,
    written: usize,
}

/// The answer of a call that gives a number.
#[repr(C)]
#[derive(Debug, Clone, Copy)]
pub(crate) struct Number {
    refusal: u32,
    value: u32,
}

/// The answer of a call that gives an entry.
#[repr(C)]
#[derive(Debug, Clone, Copy)]
pub(crate) struct Entry {
    refusal: u32,
    tile: u32,
    palette: u32,
    flip_h: bool,
    flip_v: bool,
    priority: bool,
}

/// The answer of a call that gives a set.
#[repr(C)]
#[derive(Debug, Clone, Copy)]
pub(crate) struct SetAnswer {
    refusal: u32,
    set: Set,
}

/// The answer of a look-up.
#[repr(C)]
#[derive(Debug, Clone, Copy)]
pub(crate) struct Place {
    refusal: u32,
    found: bool,
    place: u32,
    flip_h: bool,
    flip_v: bool,
}

unsafe extern "C" {
    safe fn rumchivoat_interface() -> u32;

    fn rumchivoat_pack_tile(
        mode: u32,
        depth: u32,
        width: u32,
        height: u32,
        pixels: *const u8,
        pixels_len: usize,
        out: *mut u8,
        out_len: usize,
    ) -> Written;

    fn rumchivoat_unpack_tile(
        mode: u32,
        depth: u32,
        width: u32,
        height: u32,
        bytes: *const u8,
        bytes_len: usize,
        out: *mut u8,
        out_len: usize,
    ) -> Written;

    fn rumchivoat_flip_tile(
        mode: u32,
        depth: u32,
        flip_h: bool,
        flip_v: bool,
        bytes: *const u8,
        bytes_len: usize,
        out: *mut u8,
        out_len: usize,
    ) -> Written;

    fn rumchivoat_pack_colors(mode: u32, colors: *const u8, colors_len: usize, out: *mut u8, out_len: usize)
    -> Written;

    fn rumchivoat_unpack_colors(mode: u32, bytes: *const u8, bytes_len: usize, out: *mut u8, out_len: usize)
    -> Written;

    safe fn rumchivoat_reduce_channel(mode: u32, value: u8, nearest: bool) -> Number;

    safe fn rumchivoat_scale_up(mode: u32, component: u32) -> Number;

    fn rumchivoat_pack_entry(
        mode: u32,
        tile: u32,
        palette: u32,
        flip_h: bool,
        flip_v: bool,
        priority: bool,
        out: *mut u8,
        out_len: usize,
    ) -> Written;

    fn rumchivoat_unpack_entry(mode: u32, bytes: *const u8, bytes_len: usize) -> Entry;

    fn rumchivoat_tile_index(
        mode: u32,
        tile: u32,
        palette: u32,
        flip_h: bool,
        flip_v: bool,
        priority: bool,
        out: *mut u8,
        out_len: usize,
    ) -> Written;

    safe fn rumchivoat_attribute(
        mode: u32,
        tile: u32,
        palette: u32,
        flip_h: bool,
        flip_v: bool,
        priority: bool,
    ) -> Number;

    safe fn rumchivoat_set_new(
        mode: u32,
        depth: u32,
        width: u32,
        height: u32,
        flips: bool,
        discarding: bool,
        limit: u32,
    ) -> SetAnswer;

    safe fn rumchivoat_set_reset(set: Set) -> SetAnswer;

    fn rumchivoat_set_look_up(
        set: Set,
        store: *const u8,
        store_len: usize,
        pixels: *const u8,
        pixels_len: usize,
    ) -> Place;

    fn rumchivoat_set_add(
        set: Set,
        store: *mut u8,
        store_len: usize,
        pixels: *const u8,
        pixels_len: usize,
    ) -> SetAnswer;

    fn rumchivoat_set_write(set: Set, store: *const u8, store_len: usize, out: *mut u8, out_len: usize) -> Written;

    fn rumchivoat_set_read(
        mode: u32,
        depth: u32,
        width: u32,
        height: u32,
        flips: bool,
        bytes: *const u8,
        bytes_len: usize,
        store: *mut u8,
        store_len: usize,
    ) -> SetAnswer;

    safe fn rumchivoat_native_number(mode: u32, width: u32, height: u32, logical: u32) -> Number;

    safe fn rumchivoat_logical_number(mode: u32, width: u32, height: u32, native: u32) -> Number;
}

#[inline]
pub(crate) fn interface() -> u32 {
    rumchivoat_interface()
}

#[inline]
pub(crate) fn pack_tile(mode: u32, depth: u32, width: u32, height: u32, pixels: &[u8], out: &mut [u8]) -> Written {
    let (out_start, out_len) = (out.as_mut_ptr(), out.len());
    unsafe { rumchivoat_pack_tile(mode, depth, width, height, pixels.as_ptr(), pixels.len(), out_start, out_len) }
}

#[inline]
pub(crate) fn unpack_tile(mode: u32, depth: u32, width: u32, height: u32, bytes: &[u8], out: &mut [u8]) -> Written {
    let (out_start, out_len) = (out.as_mut_ptr(), out.len());
    unsafe { rumchivoat_unpack_tile(mode, depth, width, height, bytes.as_ptr(), bytes.len(), out_start, out_len) }
}

#[inline]
pub(crate) fn flip_tile(mode: u32, depth: u32, flip_h: bool, flip_v: bool, bytes: &[u8], out: &mut [u8]) -> Written {
    let (out_start, out_len) = (out.as_mut_ptr(), out.len());
    unsafe { rumchivoat_flip_tile(mode, depth, flip_h, flip_v, bytes.as_ptr(), bytes.len(), out_start, out_len) }
}

#[inline]
pub(crate) fn pack_colors(mode: u32, colors: &[u8], out: &mut [u8]) -> Written {
    unsafe { rumchivoat_pack_colors(mode, colors.as_ptr(), colors.len(), out.as_mut_ptr(), out.len()) }
}

#[inline]
pub(crate) fn unpack_colors(mode: u32, bytes: &[u8], out: &mut [u8]) -> Written {
    unsafe { rumchivoat_unpack_colors(mode, bytes.as_ptr(), bytes.len(), out.as_mut_ptr(), out.len()) }
}

#[inline]
pub(crate) fn reduce_channel(mode: u32, value: u8, nearest: bool) -> Number {
    rumchivoat_reduce_channel(mode, value, nearest)
}

#[inline]
pub(crate) fn scale_up(mode: u32, component: u32) -> Number {
    rumchivoat_scale_up(mode, component)
}

#[inline]
pub(crate) fn pack_entry(mode: u32, entry: crate::Entry, out: &mut [u8]) -> Written {
    let crate::Entry { tile, palette, flip_h, flip_v, priority } = entry;
    unsafe { rumchivoat_pack_entry(mode, tile, palette, flip_h, flip_v, priority, out.as_mut_ptr(), out.len()) }
}

#[inline]
pub(crate) fn unpack_entry(mode: u32, bytes: &[u8]) -> Entry {
    unsafe { rumchivoat_unpack_entry(mode, bytes.as_ptr(), bytes.len()) }
}

#[inline]
pub(crate) fn tile_index(mode: u32, entry: crate::Entry, out: &mut [u8]) -> Written {
    let crate::Entry { tile, palette, flip_h, flip_v, priority } = entry;
    unsafe { rumchivoat_tile_index(mode, tile, palette, flip_h, flip_v, priority, out.as_mut_ptr(), out.len()) }
}

#[inline]
pub(crate) fn attribute(mode: u32, entry: crate::Entry) -> Number {
    let crate::Entry { tile, palette, flip_h, flip_v, priority } = entry;
    rumchivoat_attribute(mode, tile, palette, flip_h, flip_v, priority)
}

#[inline]
pub(crate) fn set_new(
    mode: u32,
    depth: u32,
    width: u32,
    height: u32,
    flips: bool,
    discarding: bool,
    limit: u32,
) -> SetAnswer {
    rumchivoat_set_new(mode, depth, width, height, flips, discarding, limit)
}

#[inline]
pub(crate) fn set_reset(set: Set) -> SetAnswer {
    rumchivoat_set_reset(set)
}

#[inline]
pub(crate) fn set_look_up(set: Set, store: &[u8], pixels: &[u8]) -> Place {
    unsafe { rumchivoat_set_look_up(set, store.as_ptr(), store.len(), pixels.as_ptr(), pixels.len()) }
}

#[inline]
pub(crate) fn set_add(set: Set, store: &mut [u8], pixels: &[u8]) -> SetAnswer {
    unsafe { rumchivoat_set_add(set, store.as_mut_ptr(), store.len(), pixels.as_ptr(), pixels.len()) }
}

#[inline]
pub(crate) fn set_write(set: Set, store: &[u8], out: &mut [u8]) -> Written {
    unsafe { rumchivoat_set_write(set, store.as_ptr(), store.len(), out.as_mut_ptr(), out.len()) }
}

#[inline]
pub(crate) fn set_read(
    mode: u32,
    depth: u32,
    width: u32,
    height: u32,
    flips: bool,
    bytes: &[u8],
    store: &mut [u8],
) -> SetAnswer {
    let (start, length) = (store.as_mut_ptr(), store.len());
    unsafe { rumchivoat_set_read(mode, depth, width, height, flips, bytes.as_ptr(), bytes.len(), start, length) }
}

#[inline]
pub(crate) fn native_number(mode: u32, width: u32, height: u32, logical: u32) -> Number {
    rumchivoat_native_number(mode, width, height, logical)
}

#[inline]
pub(crate) fn logical_number(mode: u32, width: u32, height: u32, native: u32) -> Number {
    rumchivoat_logical_number(mode, width, height, native)
}

/// `Ok` for 0, else the refusal of this number.
#[inline]
fn done(refusal: u32) -> Result<(), Refusal> {
    if refusal == 0 { Ok(()) } else { Err(refusal_of(refusal)) }
}

/// Any number is a refusal, one that this crate does not know as well.
#[cold]
fn refusal_of(number: u32) -> Refusal {
    Refusal::of(number)
}

impl Written {
    /// "A refusal returns its number, all else returned 0 or nothing."
    #[cfg(test)]
    fn is_bare_if_refused(&self) -> bool {
        self.refusal == 0 || self.written == 0
    }

    /// The length written.
    #[inline]
    pub(crate) fn length(self) -> Result<usize, Refusal> {
        done(self.refusal)?;
        Ok(self.written)
    }
}

impl Number {
    #[cfg(test)]
    fn is_bare_if_refused(&self) -> bool {
        self.refusal == 0 || self.value == 0
    }

    /// The number.
    #[inline]
    pub(crate) fn number(self) -> Result<u32, Refusal> {
        done(self.refusal)?;
        Ok(self.value)
    }

    /// The number of a call that answers a component, a channel's value or an attribute.
    #[inline]
    pub(crate) fn byte(self) -> Result<u8, Refusal> {
        // the archive is proved to give a byte; another archive's value is not cut, and not answered
        u8::try_from(self.number()?).map_err(|_| Refusal::of(0))
    }
}

impl Entry {
    #[cfg(test)]
    fn is_bare_if_refused(&self) -> bool {
        let set = self.flip_h || self.flip_v || self.priority;
        self.refusal == 0 || (self.tile == 0 && self.palette == 0 && !set)
    }

    /// The entry read.
    #[inline]
    pub(crate) fn entry(self) -> Result<crate::Entry, Refusal> {
        done(self.refusal)?;
        let Entry { tile, palette, flip_h, flip_v, priority, .. } = self;
        Ok(crate::Entry { tile, palette, flip_h, flip_v, priority })
    }
}

impl SetAnswer {
    /// "Lent bytes and set state are untouched": a refusal hands back the set that came, an empty one where none did.
    #[cfg(test)]
    fn is_as_it_came_if_refused(&self, came: Set) -> bool {
        self.refusal == 0 || self.set == came
    }

    /// The set.
    #[inline]
    pub(crate) fn set(self) -> Result<Set, Refusal> {
        done(self.refusal)?;
        Ok(self.set)
    }
}

impl Place {
    /// Nothing else where it is refused, nor where nothing is found.
    #[cfg(test)]
    fn is_bare_unless_found(&self) -> bool {
        let set = self.place != 0 || self.flip_h || self.flip_v;
        if self.found { self.refusal == 0 } else { !set }
    }

    /// The place, or nothing.
    #[inline]
    pub(crate) fn place(self) -> Result<Option<crate::Place>, Refusal> {
        done(self.refusal)?;
        let Place { place, flip_h, flip_v, .. } = self;
        Ok(self.found.then_some(crate::Place { place: Logical(place), flip_h, flip_v }))
    }
}

#[cfg(test)]
mod tests;
