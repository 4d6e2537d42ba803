//! "A channel with top m".

use crate::{Answer, row};

/// A top is one less than a power of two; this is the power.
fn component_bits(top: u32) -> u32 {
    (top + 1).ilog2()
}

/// Refusal 1. "`Truncate` shifts right; `Nearest` is the whole part of (value x m + 127) / 255."
pub fn reduce_channel(mode: u32, value: u8, nearest: bool) -> Answer<u32> {
    let top = row(mode)?.top;
    let value = u32::from(value);
    if nearest { Ok((value * top + 127) / 255) } else { Ok(value / 2u32.pow(8 - component_bits(top))) }
}

/// Refusals 1, 9. "Takes a component (else 9) and repeats its bits": from the top bit down, over eight bits.
pub fn scale_up(mode: u32, component: u32) -> Answer<u32> {
    let top = row(mode)?.top;
    if component > top {
        return Err(9);
    }
    let bits = component_bits(top);
    let bit_from_top = |place: u32| component / 2u32.pow(bits - 1 - place % bits) % 2;
    Ok((0..8).map(bit_from_top).fold(0, |value, bit| value * 2 + bit))
}
