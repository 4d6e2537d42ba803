//! "Colour bytes".

use crate::{Answer, row, write};

/// How a mode's colours stand in bytes.
enum Layout {
    /// A word of so many bytes for each colour: the sum of each component times its weight.
    Word { bytes: usize, most_first: bool, weights: [u32; 3] },
    /// Exactly four grays in one number of so many bytes, each `bits` wide, from the bottom.
    FourGrays { bytes: usize, bits: u32 },
    /// A gray a byte.
    GrayBytes,
}

use Layout::{FourGrays, GrayBytes, Word};

/// The layout of a mode below 16.
#[rustfmt::skip]
fn layout(name: &str) -> Layout {
    let least_first = |weights| Word { bytes: 2, most_first: false, weights };
    match name {
        "snes" | "snes_mode7" | "gbc" | "gba" | "gba_affine" => least_first([1, 32, 1024]),
        "gg" | "wsc" | "wsc_packed"                          => least_first([256, 16, 1]),
        "ngpc"                                               => least_first([1, 16, 256]),
        "pce" | "pce_sprite"                                 => least_first([8, 64, 1]),
        "md"  => Word { bytes: 2, most_first: true, weights: [2, 32, 512] },
        "sms" => Word { bytes: 1, most_first: false, weights: [1, 4, 16] },
        "gb"  => FourGrays { bytes: 1, bits: 2 },
        "ws"  => FourGrays { bytes: 2, bits: 4 },
        "ngp" => GrayBytes,
        _     => unreachable!("the sixteen names are above"),
    }
}

/// The bytes that so many bytes of colours pack to, or 7: a colour is four bytes, "gb exactly four colours", "ws exactly
/// four".
pub fn packed_length(mode: u32, colors: usize) -> Answer<usize> {
    let layout = layout(row(mode)?.name);
    if !colors.is_multiple_of(4) {
        return Err(7);
    }
    match layout {
        Word { bytes, .. } => Ok(colors / 4 * bytes),
        FourGrays { bytes, .. } if colors == 16 => Ok(bytes),
        FourGrays { .. } => Err(7),
        GrayBytes => Ok(colors / 4),
    }
}

/// The colours that so many bytes unpack to, or 7: whole words, one palette of gb or ws, "exactly four bytes" of ngp.
pub fn unpacked_count(mode: u32, length: usize) -> Answer<usize> {
    match layout(row(mode)?.name) {
        Word { bytes, .. } if length.is_multiple_of(bytes) => Ok(length / bytes),
        FourGrays { bytes, .. } if length == bytes => Ok(4),
        GrayBytes if length == 4 => Ok(4),
        _ => Err(7),
    }
}

/// Refusals 1, 7, 9, 11.
pub fn pack_colors(mode: u32, colors: &[u8], out: &mut [u8]) -> Answer<usize> {
    let row = row(mode)?;
    packed_length(mode, colors.len())?;
    let above = |color: &[u8]| color[..3].iter().any(|&component| u32::from(component) > row.top);
    if colors.chunks_exact(4).any(above) {
        return Err(9);
    }
    write(&packed(row.name, row.top, colors), out)
}

fn packed(name: &str, top: u32, colors: &[u8]) -> Vec<u8> {
    let reds = || colors.chunks_exact(4).map(|color| top - u32::from(color[0]));
    match layout(name) {
        Word { bytes, most_first, weights } => {
            colors.chunks_exact(4).flat_map(|color| word_bytes(weighed(color, weights), bytes, most_first)).collect()
        }
        FourGrays { bytes, bits } => {
            let number = reds().zip(0..).map(|(gray, place)| gray * 2u32.pow(bits * place)).sum();
            word_bytes(number, bytes, false)
        }
        GrayBytes => reds().map(|gray| gray as u8).collect(),
    }
}

fn weighed(color: &[u8], weights: [u32; 3]) -> u32 {
    color.iter().zip(weights).map(|(&component, weight)| u32::from(component) * weight).sum()
}

fn word_bytes(word: u32, bytes: usize, most_first: bool) -> Vec<u8> {
    let mut least_first: Vec<u8> = (0..bytes as u32).map(|place| (word / 256u32.pow(place) % 256) as u8).collect();
    if most_first {
        least_first.reverse();
    }
    least_first
}

/// Refusals 1, 7, 11.
pub fn unpack_colors(mode: u32, bytes: &[u8], out: &mut [u8]) -> Answer<usize> {
    let row = row(mode)?;
    unpacked_count(mode, bytes.len())?;
    write(&unpacked(row.name, row.top, bytes), out)
}

fn unpacked(name: &str, top: u32, bytes: &[u8]) -> Vec<u8> {
    let gray = |field: u32| {
        let red = (top - field % (top + 1)) as u8;
        [red, red, red, 255]
    };
    match layout(name) {
        Word { bytes: size, most_first, weights } => bytes
            .chunks_exact(size)
            .flat_map(|word| {
                let word = word_of(word, most_first);
                let [r, g, b] = weights.map(|weight| (word / weight % (top + 1)) as u8);
                [r, g, b, 255]
            })
            .collect(),
        FourGrays { bits, .. } => {
            let number = word_of(bytes, false);
            (0..4).flat_map(|place| gray(number / 2u32.pow(bits * place))).collect()
        }
        GrayBytes => bytes.iter().flat_map(|&byte| gray(u32::from(byte))).collect(),
    }
}

fn word_of(bytes: &[u8], most_first: bool) -> u32 {
    let join = |word: u32, &byte: &u8| word * 256 + u32::from(byte);
    if most_first { bytes.iter().fold(0, join) } else { bytes.iter().rev().fold(0, join) }
}
