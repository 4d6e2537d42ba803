//! Pictures in strips.

use super::done;
use super::picture::Picture;
use crate::{Refusal, Run, Settings};

/// The answer of a call that gives a run.
#[repr(C)]
#[derive(Debug, Clone, Copy)]
pub(crate) struct RunAnswer {
    refusal: u32,
    run: Run,
}

unsafe extern "C" {
    safe fn rumchivoat_strip_start(
        mode: u32,
        depth: u32,
        flip: bool,
        discard: bool,
        limit: u32,
        palette: u32,
        columns: u32,
        rows: u32,
    ) -> RunAnswer;

    fn rumchivoat_strip_take(
        run: &mut Run,
        pixels: *const u8,
        pixels_len: usize,
        tiles: *mut u8,
        tiles_len: usize,
        map: *mut u8,
        map_len: usize,
    ) -> Picture;

    safe fn rumchivoat_strip_end(run: Run) -> Picture;
}

#[inline]
pub(crate) fn strip_start(settings: Settings) -> RunAnswer {
    let Settings { mode, depth, flip, discard, limit, palette, columns, rows } = settings;
    rumchivoat_strip_start(mode, depth, flip, discard, limit, palette, columns, rows)
}

#[inline]
pub(crate) fn strip_take(run: &mut Run, pixels: &[u8], tiles: &mut [u8], map: &mut [u8]) -> Picture {
    let (start, tiles_start, map_start) = (pixels.as_ptr(), tiles.as_mut_ptr(), map.as_mut_ptr());
    let (length, tiles_len, map_len) = (pixels.len(), tiles.len(), map.len());
    unsafe { rumchivoat_strip_take(run, start, length, tiles_start, tiles_len, map_start, map_len) }
}

#[inline]
pub(crate) fn strip_end(run: Run) -> Picture {
    rumchivoat_strip_end(run)
}

impl RunAnswer {
    /// The run.
    #[inline]
    pub(crate) fn run(self) -> Result<Run, Refusal> {
        done(self.refusal)?;
        Ok(self.run)
    }
}

#[cfg(test)]
mod tests {
    //! A refused answer holds nothing else, whatever refuses it, and a refused strip leaves the record.

    use super::*;
    use crate::MapSize;

    /// Settings around every boundary.
    fn settings() -> impl Iterator<Item = Settings> {
        let modes = (0..16).chain([16, 255, u32::MAX]);
        let sized = modes.flat_map(|mode| [(2, 3), (0, 1), (65, 1), (1, 65)].map(|size| (mode, size)));
        let deep = sized.flat_map(|(mode, size)| [0, 2, 4, 8, u32::MAX].map(|depth| (mode, size, depth)));
        deep.flat_map(|(mode, (columns, rows), depth)| {
            let settings = Settings::new(mode, depth, MapSize { columns, rows }).discarding();
            [settings, settings.flips(), settings.limit(1), settings.palette(16)]
        })
    }

    /// A run of these settings in each of several states.
    fn runs(settings: Settings) -> impl Iterator<Item = Run> {
        let Settings { mode, depth, flip, discard, limit, palette, columns, rows } = settings;
        let states = [(0, 0, 0), (1, 1, 7), (2, 1, u32::MAX), (3, 2, 0), (4, 1, 0), (u32::MAX, u32::MAX, u32::MAX)];
        states.into_iter().map(move |(taken, tiles, discarded)| Run {
            mode,
            depth,
            flip,
            discard,
            limit,
            palette,
            columns,
            rows,
            taken,
            tiles,
            discarded,
        })
    }

    #[test]
    fn refused_runs_are_empty() {
        for settings in settings() {
            let started = strip_start(settings);
            assert!(started.refusal == 0 || started.run == Run::default(), "{settings:?} {started:?}");
        }
    }

    #[test]
    fn refused_strips_tell_nothing_and_leave_the_record() {
        for run in settings().flat_map(runs) {
            for length in [0, 64, 128, 129, 256, 512] {
                for (tile_room, map_room) in [(0, 12), (16, 12), (128, 11), (128, 12)] {
                    let (mut tiles, mut map) = (vec![0; tile_room], vec![0xa5; map_room]);
                    let mut after = run;
                    let taken = strip_take(&mut after, &vec![1; length], &mut tiles, &mut map);
                    assert!(taken.is_bare_if_refused(), "{run:?} {taken:?}");
                    assert!(taken.picture().is_ok() || after == run, "{run:?} {after:?}");
                }
            }
            assert!(strip_end(run).is_bare_if_refused(), "{run:?}");
        }
    }

    #[test]
    fn a_number_that_is_not_known_is_answered() {
        for refusal in [20, 255, u32::MAX] {
            assert_eq!(RunAnswer { refusal, run: Run::default() }.run(), Err(Refusal::of(refusal)));
        }
    }
}
