//! How much stack the calls take, in bytes: enough for the call and all that it calls, on x86-64 and aarch64.
//!
//! A thread needs this much below the caller, and what the caller and the start of a thread take. The archive for x86-64
//! touches the pages of a large frame one by one, from the top: a stack that is too short ends the process at its guard
//! page, and no memory is harmed.
//!
//! ```
//! use std::thread;
//! use rumchivoat::{MapSize, Mode, Settings, stack};
//!
//! let settings = Settings::new(Mode::Snes, 4, MapSize { columns: 2, rows: 1 });
//! let work = move || settings.convert_to_vec(&[1; 128]).is_ok();
//! let station = thread::Builder::new().stack_size(stack::CONVERT + 64 * 1024).spawn(work)?;
//! assert!(station.join().expect("the thread ends"));
//! # Ok::<(), std::io::Error>(())
//! ```

/// [`convert`](crate::convert), and the calls over it.
pub const CONVERT: usize = 56 * 1024;

/// [`Run::take`](crate::Run::take), and [`Strips::take`](crate::Strips::take).
pub const STRIP: usize = 56 * 1024;

/// [`run`](crate::run), and [`run_to_vec`](crate::run_to_vec).
pub const RUN: usize = 128 * 1024;

/// Every other call.
pub const OTHERS: usize = 8 * 1024;
