//! Calls that move pictures by quarter turns and mirrors, with what they were lent and what they left.

use super::calls::{buffer, untouched_from};
use super::numbers::Numbers;
use super::{Answer, Implementation};

/// The moves by number.
pub const MOVES: [u32; 8] = [0, 1, 2, 3, 4, 5, 6, 7];

/// Numbers that are no move, each refused under number 16.
pub const NO_MOVES: [u32; 6] = [8, 9, 255, 256, 1 << 31, u32::MAX];

/// A picture handed in for a quarter move.
#[derive(Clone)]
pub struct QuarterCall {
    pub size: (usize, usize),
    pub quarter: u32,
    pub picture: Vec<i32>,
    pub result_length: usize,
}

/// What such a call answered, the width and height that it told, and what it left in the result.
#[derive(Clone, Debug, PartialEq, Eq)]
pub struct QuarterOutcome {
    pub answer: Answer,
    pub size: (usize, usize),
    pub result: Vec<i32>,
}

impl QuarterCall {
    /// A call with a result of just the length that it takes.
    pub fn fitting(size: (usize, usize), quarter: u32, picture: Vec<i32>) -> QuarterCall {
        QuarterCall { size, quarter, picture, result_length: size.0 * size.1 }
    }

    /// A call in which nothing is wrong.
    pub fn good(numbers: &mut Numbers, size: (usize, usize), quarter: u32) -> QuarterCall {
        QuarterCall::fitting(size, quarter, numbers.samples(size.0 * size.1, 1_048_576))
    }

    /// How many places of the picture and of the result the call takes.
    fn places(&self) -> usize {
        self.size.0.wrapping_mul(self.size.1)
    }

    /// Makes the call, and holds it to this: refused, it tells the size 0 by 0 and leaves its result as it was; accepted,
    /// it tells a size of as many places, and touches no later place.
    pub fn run(&self, implementation: &dyn Implementation) -> QuarterOutcome {
        let mut result = buffer(self.result_length);
        let (answer, size) = implementation.quarter_move(self, &mut result);
        if answer.number != 0 {
            assert!(untouched_from(0, &result), "a refused call wrote to its result");
            assert_eq!(size, (0, 0), "a refused call told of a size");
        } else {
            assert!(untouched_from(self.places(), &result), "a later place of the result was written");
            assert_eq!(size.0 * size.1, self.places(), "a moved picture has as many samples");
        }
        QuarterOutcome { answer, size, result }
    }

    /// A call on a small picture in which anything may be wrong.
    pub fn hostile(numbers: &mut Numbers) -> QuarterCall {
        let (size, quarter) = ((1 + numbers.below(6), 1 + numbers.below(6)), numbers.one_of(&MOVES));
        let mut call = QuarterCall::good(numbers, size, quarter);
        for _ in 0..numbers.below(3) {
            call.spoil(numbers);
        }
        call
    }

    /// Makes one thing about the call wrong, or a buffer longer.
    fn spoil(&mut self, numbers: &mut Numbers) {
        let place = numbers.below(self.picture.len().max(1));
        match numbers.below(8) {
            0 => self.size.0 = numbers.one_of(&[0, 1_025, 1 << 32, usize::MAX]),
            1 => self.size.1 = numbers.one_of(&[0, 1_025, 1 << 32, usize::MAX]),
            2 => drop(self.picture.pop()),
            3 => self.result_length = self.result_length.saturating_sub(1),
            4 => self.quarter = numbers.one_of(&NO_MOVES),
            5 => self.result_length += 3,
            6 => self.picture.push(i32::MIN),
            _ if self.picture.is_empty() => self.picture.push(0),
            _ => self.picture[place] = numbers.one_of(&[1_048_577, -1_048_577, i32::MAX, i32::MIN]),
        }
    }
}

impl QuarterOutcome {
    /// The moved picture, handed in for another move; this one was accepted.
    pub fn moved_on(&self, quarter: u32) -> QuarterCall {
        assert_eq!(self.answer, Answer::accepted(0), "a picture that was moved");
        QuarterCall::fitting(self.size, quarter, self.result.clone())
    }
}

/// The column and row to which a move brings the sample at a column and a row of a picture of some size.
pub fn place_after(quarter: u32, size: (usize, usize), place: (usize, usize)) -> (usize, usize) {
    let ((width, height), (x, y)) = (size, place);
    let (from_the_right, from_the_bottom) = (width - 1 - x, height - 1 - y);
    match quarter {
        0 => (x, y),
        1 => (from_the_bottom, x),
        2 => (from_the_right, from_the_bottom),
        3 => (y, from_the_right),
        4 => (from_the_right, y),
        5 => (from_the_bottom, from_the_right),
        6 => (x, from_the_bottom),
        7 => (y, x),
        _ => panic!("there is no move {quarter}"),
    }
}

/// Width and height of a picture after a move.
pub fn size_after(quarter: u32, (width, height): (usize, usize)) -> (usize, usize) {
    if quarter % 2 == 0 {
        (width, height)
    } else {
        (height, width)
    }
}

/// The moved picture, each sample put where [`place_after`] says.
pub fn moved(quarter: u32, size: (usize, usize), picture: &[i32]) -> Vec<i32> {
    let (width, _) = size_after(quarter, size);
    let mut result = vec![0; size.0 * size.1];
    for (place, &sample) in picture.iter().enumerate().take(size.0 * size.1) {
        let (x, y) = place_after(quarter, size, (place % size.0, place / size.0));
        result[y * width + x] = sample;
    }
    result
}

/// Its picture is printed only if it is small.
impl std::fmt::Debug for QuarterCall {
    fn fmt(&self, f: &mut std::fmt::Formatter<'_>) -> std::fmt::Result {
        let QuarterCall { size, quarter, picture, result_length } = self;
        write!(f, "size {size:?}, move {quarter}, {} samples, result {result_length}", picture.len())?;
        if picture.len() <= 150 {
            write!(f, ": {picture:?}")?;
        }
        Ok(())
    }
}
