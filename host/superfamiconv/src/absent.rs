//! The names of `plain.rs` where the Rust's text is absent: callers compile, and a call panics.
#![allow(missing_docs)] // `plain.rs` has it

/// The Rust's mode.
#[derive(Clone, Copy)]
pub struct Mode;

/// The Rust's colour at a mode's own precision.
#[derive(Clone, Copy)]
pub struct Color;

/// The Rust's map entry.
#[derive(Clone, Copy)]
pub struct Entry;

/// The Rust's tile.
pub struct Tile;

/// The Rust's tile set.
pub struct Tileset;

/// The Rust's image.
pub struct Image;

fn absent() -> ! {
    panic!("{}", crate::ABSENT)
}

pub fn mode(_number: u32) -> Mode {
    absent()
}

pub fn name(_mode: Mode) -> String {
    absent()
}

pub fn colors(_bytes: &[u8]) -> Vec<Color> {
    absent()
}

pub fn rgba(_colors: &[Color]) -> Vec<u8> {
    absent()
}

pub fn entry(_tile: u32, _palette: u32, _flip_h: bool, _flip_v: bool, _priority: bool) -> Entry {
    absent()
}

pub fn fields(_entry: Entry) -> (u32, u32, bool, bool, bool) {
    absent()
}

pub fn pack_tile(_mode: Mode, _depth: u32, _width: u32, _height: u32, _pixels: &[u8]) -> Result<Vec<u8>, String> {
    absent()
}

pub fn unpack_tile(_mode: Mode, _depth: u32, _width: u32, _height: u32, _bytes: &[u8]) -> Result<Vec<u8>, String> {
    absent()
}

pub fn flipped(_pixels: &[u8], _width: u32, _flip_h: bool, _flip_v: bool) -> Vec<u8> {
    absent()
}

pub fn flip_tile(_mode: Mode, _depth: u32, _flip_h: bool, _flip_v: bool, _bytes: &[u8]) -> Result<Vec<u8>, String> {
    absent()
}

pub fn matching_flip(_pixels: &[u8], _turned: &[u8]) -> Option<(bool, bool)> {
    absent()
}

pub fn pack_colors(_mode: Mode, _colors: &[Color]) -> Result<Vec<u8>, String> {
    absent()
}

pub fn unpack_colors(_mode: Mode, _bytes: &[u8]) -> Result<Vec<Color>, String> {
    absent()
}

pub fn reduce_channel(_mode: Mode, _value: u8, _nearest: bool) -> u8 {
    absent()
}

pub fn reduce_gray(_mode: Mode, _value: u8, _nearest: bool) -> u8 {
    absent()
}

pub fn scale_up(_mode: Mode, _component: u8) -> u8 {
    absent()
}

pub fn mapentry_size(_mode: Mode) -> usize {
    absent()
}

pub fn pack_mapentry(_mode: Mode, _entry: Entry) -> Vec<u8> {
    absent()
}

pub fn unpack_mapentry(_mode: Mode, _bytes: &[u8]) -> Entry {
    absent()
}

pub fn get_tile_index(_mode: Mode, _entry: Entry) -> Vec<u8> {
    absent()
}

pub fn get_attribute(_mode: Mode, _entry: Entry) -> u8 {
    absent()
}

pub fn image(_width: u32, _height: u32, _pixels: &[u8]) -> Image {
    absent()
}

pub fn tileset(
    _mode: Mode,
    _depth: u32,
    _width: u32,
    _height: u32,
    _flips: bool,
    _discarding: bool,
    _limit: u32,
) -> Tileset {
    absent()
}

pub fn add(_set: &mut Tileset, _tile: &Image) -> Result<(), String> {
    absent()
}

pub fn look_up(_set: &Tileset, _mode: Mode, _depth: u32, _tile: &Image) -> Option<(u32, bool, bool)> {
    absent()
}

pub fn counts(_set: &Tileset) -> (u32, u32) {
    absent()
}

pub fn with_discarded(_set: Tileset, _discarded: u32) -> Tileset {
    absent()
}

pub fn tile_pixels(_set: &Tileset) -> Vec<u8> {
    absent()
}

pub fn last_tile(_set: &Tileset) -> Vec<u8> {
    absent()
}

pub fn to_native_data(_set: &Tileset) -> Result<Vec<u8>, String> {
    absent()
}

pub fn from_native_data(
    _mode: Mode,
    _depth: u32,
    _width: u32,
    _height: u32,
    _flips: bool,
    _bytes: &[u8],
) -> Result<Tileset, String> {
    absent()
}

pub fn tiles_from_native(
    _mode: Mode,
    _depth: u32,
    _width: u32,
    _height: u32,
    _flips: bool,
    _bytes: &[u8],
) -> Result<Vec<Tile>, String> {
    absent()
}

pub fn native_tile_index(_mode: Mode, _width: u32, _height: u32, _tile: u32) -> u32 {
    absent()
}

pub fn logical_tile_index(_mode: Mode, _width: u32, _height: u32, _cell: u32) -> u32 {
    absent()
}
