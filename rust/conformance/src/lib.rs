//! What the tests share: the proved library and the second implementation behind one trait, a generator of
//! numbers, and the vector files.

pub mod blocks;
pub mod c;
pub mod calls;
pub mod declarations;
pub mod files;
pub mod install;
pub mod level;
#[cfg(feature = "library")]
mod library;
pub mod numbers;
pub mod quarters;
mod second;
pub mod tables;

use blocks::BlockCall;
use calls::{ExplainCall, LineCall};
#[cfg(feature = "library")]
pub use library::{raw_setting, Library};
use quarters::QuarterCall;
use reference::second::{Border, Forecast, Parts, Setting, Ticket};
pub use second::Second;

/// What the document says of an answer: number, depth, row, column and count.
#[derive(Clone, Copy, Debug, PartialEq, Eq)]
pub struct Answer {
    pub number: u32,
    /// 0 for every call but a block's.
    pub depth: usize,
    pub row: usize,
    pub column: usize,
    pub count: u32,
}

impl Answer {
    /// An accepted call's answer.
    pub fn accepted(count: u32) -> Answer {
        Answer::of(0, 0, 0, count)
    }

    /// The answer of a refusal that names no sample.
    pub fn refused(number: u32) -> Answer {
        Answer::of(number, 0, 0, 0)
    }

    /// An answer from its figures, without a depth.
    pub fn of(number: u32, row: usize, column: usize, count: u32) -> Answer {
        Answer { number, depth: 0, row, column, count }
    }

    /// The answer of a block whose first bad sample stands at a depth, a row and a column.
    pub fn bad_sample(depth: usize, row: usize, column: usize) -> Answer {
        Answer { depth, ..Answer::of(6, row, column, 0) }
    }
}

/// The smallest and the largest output sample of a call that moves lines, both 0 where it is refused.
#[derive(Clone, Copy, Debug, Default, PartialEq, Eq)]
pub struct Extremes {
    pub smallest: i32,
    pub largest: i32,
}

impl Extremes {
    /// Those of some samples.
    pub fn of(samples: &[i32]) -> Extremes {
        let extremes = samples.iter().min().zip(samples.iter().max());
        let (&smallest, &largest) = extremes.expect("a line or a picture has samples");
        Extremes { smallest, largest }
    }
}

/// What levelling with a picture takes beside the picture: its size, x1, y1, x2, y2, and the threshold.
pub type LineUnderPoints = ((usize, usize), [i32; 4], i32);

/// The public calls of documents 01 and 02. Floats are compared by their bits, so they are answered as such.
pub trait Implementation {
    fn straighten(
        &self,
        size: (usize, usize),
        setting: Setting,
        picture: &[i32],
        result: &mut [i32],
        work: &mut [i32],
    ) -> (Answer, Extremes);
    /// The answer, whose count is 0, and the ticket.
    fn ask(
        &self,
        size: (usize, usize),
        setting: Setting,
        picture: &[i32],
        result: &[i32],
        work: &[i32],
    ) -> (Answer, Ticket);
    fn commit(
        &self,
        ticket: Ticket,
        size: (usize, usize),
        picture: &[i32],
        result: &mut [i32],
        work: &mut [i32],
    ) -> (Answer, Extremes);
    /// The answer, whose count is 0, and the figures.
    fn forecast(&self, size: (usize, usize), setting: Setting, largest: u32) -> (Answer, Forecast);
    fn move_line(&self, call: &LineCall, result: &mut [i32], work: &mut [i32]) -> (Answer, Extremes);
    /// The answer, whose count is 0, and the parts.
    fn explain(&self, call: &ExplainCall, work: &mut [i32]) -> (Answer, Parts);
    /// The answer, which under number 6 names a depth too.
    fn straighten_block(&self, call: &BlockCall, result: &mut [i32], work: &mut [i32]) -> (Answer, Extremes);
    /// The answer, whose count is 0, and the width and height of the moved picture.
    fn quarter_move(&self, call: &QuarterCall, result: &mut [i32]) -> (Answer, (usize, usize));
    /// The number, and the move that equals the first and then the second.
    fn joined_moves(&self, first: u32, second: u32) -> (u32, u32);
    /// The number, and the move that takes a move back.
    fn inverse_move(&self, quarter: u32) -> (u32, u32);
    fn work_places(&self, size: (usize, usize)) -> usize;
    fn line_work_places(&self, n: usize) -> usize;
    /// Of a width, height and depth, and a plane.
    fn block_work_places(&self, sides: [usize; 3], plane: u32) -> usize;
    fn with_kernel(&self, setting: Setting, kernel: u32) -> Setting;
    fn with_centre(&self, setting: Setting, cx: usize, cy: usize) -> Setting;
    fn with_shears(&self, setting: Setting, a: i32, b: i32) -> Setting;
    fn with_border(&self, setting: Setting, border: Border) -> Setting;
    fn with_step(&self, setting: Setting, t: i32) -> (u32, Setting);
    fn sine(&self, t: i32) -> (u32, i32);
    fn level(&self, x1: i32, y1: i32, x2: i32, y2: i32) -> (u32, i32);
    /// The answer, whose count is 0, and the step, of a size, two points and a threshold.
    fn level_checked(&self, line: LineUnderPoints, picture: &[i32]) -> (Answer, i32);
    fn greys_out(&self, size: (usize, usize), picture: &[i32], greys: &mut [u8]) -> Answer;
    fn floats_out(&self, size: (usize, usize), picture: &[i32], floats: &mut [f32]) -> Answer;
    /// The answer, the case (0 Level, 1 Under, 2 Over) and the bits of its greys.
    fn reading(&self, size: (usize, usize), column: usize, row: usize, picture: &[i32])
        -> (Answer, u32, u32);
    /// The answer and the bits of the darkest and the lightest grey.
    fn summary(&self, size: (usize, usize), picture: &[i32]) -> (Answer, u32, u32);
    fn answer_line(&self, line: &[u8]) -> Vec<u8>;
}

/// Makes a test of each named check, for the second implementation and, where it is linked, for the library.
#[macro_export]
macro_rules! for_both_implementations {
    ($($check:ident),+ $(,)?) => {
        mod second_implementation {
            $(#[test] fn $check() { super::$check(&$crate::Second) })+
        }
        #[cfg(feature = "library")]
        mod library {
            $(#[test] fn $check() { super::$check(&$crate::Library) })+
        }
    };
}
