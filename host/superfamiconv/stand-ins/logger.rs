//! Stands in for the Rust's logger: no module names anything of it.
