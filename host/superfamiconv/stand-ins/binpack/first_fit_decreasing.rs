//! Declares what `binpack` imports. No ported function reaches it.

use std::collections::BTreeSet;

use crate::color::ReducedColor;

pub fn pack(_requirements: &[BTreeSet<ReducedColor>], _capacity: usize) -> Vec<BTreeSet<ReducedColor>> {
    unreachable!("stand-in for first_fit_decreasing::pack")
}
