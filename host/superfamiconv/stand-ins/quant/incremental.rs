//! Declares what `quant` imports. No ported function reaches it.

use crate::color::NormalizedColor;
use crate::dither::Dither;
use crate::image::Image;
use crate::mode::{Mode, color::ColorRounding};
use crate::palette::{Palette, Subpalette};

pub fn dither_available(_dither: Dither) -> Result<(), String> {
    unreachable!("stand-in for incremental::dither_available")
}

pub fn quantize_image(
    _image: &Image,
    _mode: Mode,
    _max_subpalettes: usize,
    _capacity: usize,
    _color_zero: Option<NormalizedColor>,
    _tile_width: u32,
    _tile_height: u32,
    _dither: Dither,
    _rounding: ColorRounding,
) -> Result<(Palette, Image), String> {
    unreachable!("stand-in for incremental::quantize_image")
}

pub fn remap(
    _image: &Image,
    _subpalette: &Subpalette,
    _dither: Dither,
    _rounding: ColorRounding,
) -> Result<(Vec<u8>, Vec<NormalizedColor>), String> {
    unreachable!("stand-in for incremental::remap")
}
