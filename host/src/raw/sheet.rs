//! The program on slices.

use super::{Written, refusal_of};
use crate::{Ran, Refusal};

unsafe extern "C" {
    fn rumchivoat_run(input: *const u8, input_len: usize, out: *mut u8, out_len: usize) -> Written;
}

#[inline]
pub(crate) fn run(input: &[u8], out: &mut [u8]) -> Written {
    unsafe { rumchivoat_run(input.as_ptr(), input.len(), out.as_mut_ptr(), out.len()) }
}

impl Written {
    /// Whether the text of `run` does not fit, and nothing is written. No text tells 11, the number of a map too short:
    /// the program's map holds 32 x 32 entries, and a sheet has no more.
    fn does_not_fit(&self) -> bool {
        self.refusal == Refusal::Output.number()
    }

    /// The text of `run`, which is written also where it tells a refusal; no text is empty.
    #[inline]
    pub(crate) fn ran(self) -> Result<Ran, Refusal> {
        if self.does_not_fit() {
            return Err(Refusal::Output);
        }
        let told = (self.refusal != 0).then(|| refusal_of(self.refusal));
        Ok(Ran { written: self.written, told })
    }
}

#[cfg(test)]
mod tests {
    //! Nothing is written exactly where 11 is answered.

    use super::*;

    const SHEETS: [&str; 4] = [
        "mode=gb\ndepth=1\nflip=0\ndiscard=1\nlimit=0\npalette=0\ncolumns=1\nrows=1\n",
        "mode=gb\ndepth=1\nflip=1\ndiscard=1\nlimit=0\npalette=0\ncolumns=1\nrows=1\n",
        "mode=gb\ndepth=1\nflip=0\ndiscard=1\nlimit=0\npalette=1\ncolumns=1\nrows=1\n",
        "mode=gb\ndepth=1\nflip=2\ndiscard=1\nlimit=0\npalette=0\ncolumns=1\nrows=1\n",
    ];

    #[test]
    fn texts_that_do_not_fit_tell_no_length() {
        for sheet in SHEETS {
            let input = [sheet.as_bytes(), &[0; 64]].concat();
            let written = run(&input, &mut [0xa5; 256]).written;
            for room in 0..=written + 1 {
                let answer = run(&input, &mut vec![0xa5; room]);
                assert_eq!(answer.does_not_fit(), room < written, "{sheet} in {room} bytes");
                assert_eq!(answer.written, if room < written { 0 } else { written }, "{sheet} in {room} bytes");
            }
        }
    }
}
