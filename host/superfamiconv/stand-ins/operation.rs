//! Stands in for the Rust's operations: no module names anything of them.
