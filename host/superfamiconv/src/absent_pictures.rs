//! The names of `pictures.rs` where the Rust's text is absent: callers compile, and a call panics.
#![allow(missing_docs)] // `pictures.rs` has it

use crate::plain::{Mode, Tileset};

#[derive(Clone, Copy)]
pub struct Settings {
    pub mode: Mode,
    pub depth: u32,
    pub flip: bool,
    pub discard: bool,
    pub limit: u32,
    pub palette: u32,
    pub columns: u32,
    pub rows: u32,
}

pub struct Palettes;

pub struct Converted {
    pub set: Tileset,
    pub is_full: bool,
    pub map: Vec<u8>,
    pub blank: u32,
}

fn absent() -> ! {
    panic!("{}", crate::ABSENT)
}

pub fn max_tile_count(_mode: Mode) -> u32 {
    absent()
}

pub fn convert(_settings: Settings, _most: u32, _pixels: &[u8]) -> Converted {
    absent()
}

pub fn redraw(_set: &Tileset, _settings: Settings, _map: &[u8]) -> Result<Vec<u8>, String> {
    absent()
}

pub fn mode7_interleaved(_columns: u32, _rows: u32, _tiles: &[u8], _map: &[u8]) -> Result<Vec<u8>, String> {
    absent()
}

pub fn convert_pixels(_settings: Settings, _pixels: &[u8]) -> (Vec<u8>, Vec<u8>) {
    absent()
}

pub fn palettes(_mode: Mode, _depth: u32) -> Palettes {
    absent()
}

pub fn redraw_colors(_settings: Settings, _palettes: &Palettes, _tiles: &[u8], _map: &[u8]) -> usize {
    absent()
}
