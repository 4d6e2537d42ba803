//! Stands in for the Rust's random numbers: no module names anything of them.
