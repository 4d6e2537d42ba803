//! Titles.

use super::{SetAnswer, done, refusal_of};
use crate::{Logical, Refusal, Set};

/// The answer of a title's look-up.
#[repr(C)]
#[derive(Debug, Clone, Copy)]
pub(crate) struct Held {
    refusal: u32,
    found: bool,
    place: u32,
    flip_h: bool,
    flip_v: bool,
    common: bool,
    at: usize,
    len: usize,
}

unsafe extern "C" {
    fn rumchivoat_title_look_up(
        set: Set,
        common_count: u32,
        common: *const u8,
        common_len: usize,
        store: *const u8,
        store_len: usize,
        pixels: *const u8,
        pixels_len: usize,
    ) -> Held;

    fn rumchivoat_title_add(
        set: Set,
        common_count: u32,
        common: *const u8,
        common_len: usize,
        store: *mut u8,
        store_len: usize,
        pixels: *const u8,
        pixels_len: usize,
    ) -> SetAnswer;
}

#[inline]
pub(crate) fn title_look_up(set: Set, common_count: u32, common: &[u8], store: &[u8], pixels: &[u8]) -> Held {
    let (common_start, store_start, start) = (common.as_ptr(), store.as_ptr(), pixels.as_ptr());
    let (wide, room, length) = (common.len(), store.len(), pixels.len());
    unsafe { rumchivoat_title_look_up(set, common_count, common_start, wide, store_start, room, start, length) }
}

#[inline]
pub(crate) fn title_add(set: Set, common_count: u32, common: &[u8], store: &mut [u8], pixels: &[u8]) -> SetAnswer {
    let (common_start, store_start, start) = (common.as_ptr(), store.as_mut_ptr(), pixels.as_ptr());
    let (wide, room, length) = (common.len(), store.len(), pixels.len());
    unsafe { rumchivoat_title_add(set, common_count, common_start, wide, store_start, room, start, length) }
}

impl Held {
    /// Nothing else where it is refused, nor where nothing is found.
    #[cfg(test)]
    pub(super) fn is_bare_unless_found(&self) -> bool {
        let set = self.place != 0 || self.flip_h || self.flip_v || self.common;
        if self.found { self.refusal == 0 } else { !(set || self.at != 0 || self.len != 0) }
    }

    /// The tile with its part of the store that holds it, the common one or the title's own; or nothing.
    #[inline]
    pub(crate) fn held<'a>(self, common: &'a [u8], own: &'a [u8]) -> Result<Option<crate::Held<'a>>, Refusal> {
        done(self.refusal)?;
        if !self.found {
            return Ok(None);
        }
        let store = if self.common { common } else { own };
        // the archive is proved to give a part of the store; another archive's is not cut, and not answered
        let part = self.at.checked_add(self.len).and_then(|end| store.get(self.at..end));
        let part = part.ok_or_else(|| refusal_of(0))?;
        let Held { place, flip_h, flip_v, common, .. } = self;
        Ok(Some(crate::Held { place: Logical(place), flip_h, flip_v, common, part }))
    }
}

#[cfg(test)]
mod tests {
    //! What is answered of any archive's numbers.

    use super::*;

    /// The last tile of a common store of two, or of an own store of three.
    fn last(common: bool) -> Held {
        let at = if common { 64 } else { 128 };
        Held { refusal: 0, found: true, place: 4, flip_h: true, flip_v: false, common, at, len: 64 }
    }

    #[test]
    fn a_part_is_of_the_store_that_holds_it() {
        let (common, own) = ([1; 128], [2; 192]);
        for (is_common, part) in [(true, &common[64..]), (false, &own[128..])] {
            let held = crate::Held { place: Logical(4), flip_h: true, flip_v: false, common: is_common, part };
            assert_eq!(last(is_common).held(&common, &own), Ok(Some(held)));
        }
        assert_eq!(Held { found: false, ..last(true) }.held(&common, &own), Ok(None));
    }

    #[test]
    fn a_part_that_is_not_there_is_not_cut() {
        let (common, own) = ([1; 128], [2; 192]);
        for held in [last(true), last(false)] {
            for (at, len) in [(held.at + 1, 64), (held.at, 65), (usize::MAX, 1), (1, usize::MAX), (200, 0)] {
                assert_eq!(Held { at, len, ..held }.held(&common, &own), Err(Refusal::of(0)), "{at} {len}");
            }
        }
    }

    #[test]
    fn a_number_that_is_not_known_is_answered() {
        for refusal in [15, 16, 255, u32::MAX] {
            assert_eq!(Held { refusal, ..last(true) }.held(&[], &[]), Err(Refusal::of(refusal)));
        }
    }
}
