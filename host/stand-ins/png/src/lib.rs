//! Stands in for png: declares what the Rust imports. No ported function reaches any of it, and each function
//! panics if it is ever called.

use std::borrow::Cow;
use std::io::{BufRead, Write};
use std::ops::BitOr;

/// Bits of a sample.
#[derive(Clone, Copy, PartialEq, Eq)]
pub enum BitDepth {
    /// Eight bits.
    Eight = 8,
}

/// What a pixel holds.
#[derive(Clone, Copy, PartialEq, Eq)]
pub enum ColorType {
    /// A palette index.
    Indexed,
    /// A gray and alpha.
    GrayscaleAlpha,
    /// Red, green, blue and alpha.
    Rgba,
}

/// What a decoder does to the pixels.
#[derive(Clone, Copy)]
pub struct Transformations;

impl Transformations {
    /// Adds alpha.
    pub const ALPHA: Self = Transformations;
    /// Widens samples.
    pub const EXPAND: Self = Transformations;
    /// Narrows samples of sixteen bits.
    pub const STRIP_16: Self = Transformations;
}

impl BitOr for Transformations {
    type Output = Self;

    fn bitor(self, _other: Self) -> Self {
        self
    }
}

/// What a file says of its picture.
pub struct Info {
    /// Pixels of a row.
    pub width: u32,
    /// Rows.
    pub height: u32,
    /// Bits of a sample.
    pub bit_depth: BitDepth,
    /// What a pixel holds.
    pub color_type: ColorType,
    /// The palette, three bytes a colour.
    pub palette: Option<Cow<'static, [u8]>>,
    /// The palette's alphas.
    pub trns: Option<Cow<'static, [u8]>>,
}

/// Opens a file.
pub struct Decoder;

impl Decoder {
    /// Never reached.
    pub fn new(_file: impl BufRead) -> Self {
        unreachable!("stand-in for png: Decoder::new")
    }

    /// Never reached.
    pub fn set_transformations(&mut self, _transformations: Transformations) {
        unreachable!("stand-in for png: Decoder::set_transformations")
    }

    /// Never reached.
    pub fn read_info(self) -> Result<Reader, String> {
        unreachable!("stand-in for png: Decoder::read_info")
    }
}

/// Reads a file's pixels.
pub struct Reader;

impl Reader {
    /// Never reached.
    pub fn info(&self) -> &Info {
        unreachable!("stand-in for png: Reader::info")
    }

    /// Never reached.
    pub fn output_buffer_size(&self) -> Option<usize> {
        unreachable!("stand-in for png: Reader::output_buffer_size")
    }

    /// Never reached.
    pub fn next_frame(&mut self, _pixels: &mut [u8]) -> Result<(), String> {
        unreachable!("stand-in for png: Reader::next_frame")
    }

    /// Never reached.
    pub fn output_color_type(&self) -> (ColorType, BitDepth) {
        unreachable!("stand-in for png: Reader::output_color_type")
    }
}

/// Describes a file to be written.
pub struct Encoder<W: Write>(W);

impl<W: Write> Encoder<W> {
    /// Never reached.
    pub fn new(_file: W, _width: u32, _height: u32) -> Self {
        unreachable!("stand-in for png: Encoder::new")
    }

    /// Never reached.
    pub fn set_color(&mut self, _color: ColorType) {
        unreachable!("stand-in for png: Encoder::set_color")
    }

    /// Never reached.
    pub fn set_depth(&mut self, _depth: BitDepth) {
        unreachable!("stand-in for png: Encoder::set_depth")
    }

    /// Never reached.
    pub fn set_palette(&mut self, _palette: Vec<u8>) {
        unreachable!("stand-in for png: Encoder::set_palette")
    }

    /// Never reached.
    pub fn set_trns(&mut self, _alphas: Vec<u8>) {
        unreachable!("stand-in for png: Encoder::set_trns")
    }

    /// Never reached.
    pub fn write_header(self) -> Result<Writer, String> {
        unreachable!("stand-in for png: Encoder::write_header")
    }
}

/// Writes a file's pixels.
pub struct Writer;

impl Writer {
    /// Never reached.
    pub fn write_image_data(&mut self, _pixels: &[u8]) -> Result<(), String> {
        unreachable!("stand-in for png: Writer::write_image_data")
    }
}
