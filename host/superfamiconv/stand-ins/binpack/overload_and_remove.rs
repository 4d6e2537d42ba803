//! Declares what `binpack` imports. No ported function reaches it.

use std::collections::BTreeSet;

use crate::color::ReducedColor;

pub fn pack(
    _requirements: &[BTreeSet<ReducedColor>],
    _capacity: usize,
    _seed: Option<u64>,
) -> Vec<BTreeSet<ReducedColor>> {
    unreachable!("stand-in for overload_and_remove::pack")
}
