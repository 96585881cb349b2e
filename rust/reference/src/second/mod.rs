//! Documents 01 and 02 a second time, in plain Rust, as far as the library goes.
//!
//! Written from the documents alone, in their order and their words; it shares no code with the proved
//! library. Tests hold the two against each other, and the benchmark takes this one as its yardstick:
//! a remainder for every source place and a division for every sample.

mod block;
mod border;
mod explanation;
mod forecast;
mod hexlines;
mod line;
mod picture;
mod quarters;
mod readings;
mod steps;
mod tickets;

pub use block::{block_work_places, straighten_block};
pub use border::{interpolated, Border};
pub use explanation::{explain, Parts};
pub use forecast::{forecast, Forecast};
pub use hexlines::{answer_input, answer_line};
pub use line::{coefficients, fraction, line_work_places, move_line, rounded, weights};
pub use picture::{passes, straighten, work_places, Setting};
pub use quarters::{inverse_move, joined_moves, quarter_move};
pub use readings::{floats_out, grey, greys_out, reading, summary, Reading, Summary};
pub use steps::{level, level_checked, sine, with_step, LARGEST_STEP};
pub use tickets::{ask, commit, Ticket};

/// The longest line, and the largest width and height, in samples.
pub const LONGEST: usize = 1_024;

/// Why a call was refused: the document's number, and under numbers 6 and 15 the place of the sample.
#[derive(Clone, Copy, Debug, PartialEq, Eq)]
pub struct Refused {
    /// 1 to 9, as document 01 lists them, or 12, 14, 15, 16 or 17 of document 02.
    pub number: u32,
    /// Depth of the first sample of a block beyond the range; 0 for every other number and call.
    pub depth: usize,
    /// Row of the first sample beyond the range, or below the threshold; 0 for every other number.
    pub row: usize,
    /// Column of that sample; 0 for every other number.
    pub column: usize,
}

impl Refused {
    /// A refusal that names no sample.
    fn under(number: u32) -> Refused {
        Refused { number, depth: 0, row: 0, column: 0 }
    }
}

/// What an accepted call that moves lines answers.
#[derive(Clone, Copy, Debug, PartialEq, Eq)]
pub struct Told {
    /// Lines interpolated.
    pub count: u32,
    /// The smallest output sample.
    pub smallest: i32,
    /// The largest output sample.
    pub largest: i32,
}

impl Told {
    /// A count, with the smallest and the largest sample over the lines of an output; there is at least one.
    fn over<'a>(count: u32, lines: impl Iterator<Item = &'a [i32]>) -> Told {
        let mut told = Told { count, smallest: i32::MAX, largest: i32::MIN };
        for &sample in lines.flatten() {
            told.smallest = told.smallest.min(sample);
            told.largest = told.largest.max(sample);
        }
        told
    }
}

/// Passes where the condition of a refusal number does not hold.
fn refuse_if(condition: bool, number: u32) -> Result<(), Refused> {
    if condition {
        Err(Refused::under(number))
    } else {
        Ok(())
    }
}

/// Number 1: a width, height or line length of 0 or over 1,024.
fn judge_size(length: usize) -> Result<(), Refused> {
    refuse_if(length == 0 || length > LONGEST, 1)
}

/// Number 6: the first sample beyond plus or minus `range`, in row order.
fn judge_samples(width: usize, height: usize, picture: &[i32], range: i32) -> Result<(), Refused> {
    for row in 0..height {
        for column in 0..width {
            if !(-range..=range).contains(&picture[row * width + column]) {
                return Err(Refused { number: 6, depth: 0, row, column });
            }
        }
    }
    Ok(())
}
