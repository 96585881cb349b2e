//! Quarter turns and mirrors: the eight exact moves of a picture, their table and their inverses.

use super::readings::LARGEST_READ_SAMPLE;
use super::{judge_samples, judge_size, refuse_if, Refused};

/// The moves by number.
const MOVES: [u32; 8] = [0, 1, 2, 3, 4, 5, 6, 7];

/// A picture of its own, row by row.
#[derive(Clone, PartialEq, Eq)]
struct Picture {
    width: usize,
    height: usize,
    samples: Vec<i32>,
}

impl Picture {
    /// The sample at a row and a column.
    fn at(&self, row: usize, column: usize) -> i32 {
        self.samples[row * self.width + column]
    }

    /// A clockwise quarter turn: each column, read from the bottom up, becomes a row, the left one the uppermost.
    fn turned(&self) -> Picture {
        let row = |column: usize| (0..self.height).rev().map(move |row| self.at(row, column));
        Picture { width: self.height, height: self.width, samples: (0..self.width).flat_map(row).collect() }
    }

    /// A left-right mirror: each row is read from the right.
    fn mirrored(&self) -> Picture {
        let row = |row: usize| (0..self.width).rev().map(move |column| self.at(row, column));
        Picture { samples: (0..self.height).flat_map(row).collect(), ..*self }
    }

    /// 0 to 3: that many clockwise quarter turns; 4 to 7: a left-right mirror and then 0 to 3 turns.
    fn moved(&self, quarter: u32) -> Picture {
        let mut picture = if quarter < 4 { self.clone() } else { self.mirrored() };
        for _ in 0..quarter % 4 {
            picture = picture.turned();
        }
        picture
    }
}

/// A picture that no two of the eight moves leave alike.
fn telling() -> Picture {
    Picture { width: 3, height: 2, samples: (1..=6).collect() }
}

/// The move that leaves such a picture of the telling one.
fn found(moved: &Picture) -> u32 {
    MOVES.into_iter().find(|&quarter| telling().moved(quarter) == *moved).expect("one of the eight moves")
}

/// Number 16: a move number above 7.
fn judge_move(quarter: u32) -> Result<(), Refused> {
    refuse_if(!MOVES.contains(&quarter), 16)
}

/// Moves `picture` into the first width times height places of `result`, and tells the new width and height.
pub fn quarter_move(
    width: usize,
    height: usize,
    quarter: u32,
    picture: &[i32],
    result: &mut [i32],
) -> Result<(usize, usize), Refused> {
    judge_size(width)?;
    judge_size(height)?;
    let places = width * height;
    refuse_if(picture.len() < places || result.len() < places, 2)?;
    judge_move(quarter)?;
    judge_samples(width, height, picture, LARGEST_READ_SAMPLE)?;
    let moved = Picture { width, height, samples: picture[..places].to_vec() }.moved(quarter);
    result[..places].copy_from_slice(&moved.samples);
    Ok((moved.width, moved.height))
}

/// The table's entry in the row of the first move and the column of the second: the one move that both in a row equal.
pub fn joined_moves(first: u32, second: u32) -> Result<u32, Refused> {
    judge_move(first)?;
    judge_move(second)?;
    Ok(found(&telling().moved(first).moved(second)))
}

/// The move after which, and before which, a move leaves the picture.
pub fn inverse_move(quarter: u32) -> Result<u32, Refused> {
    judge_move(quarter)?;
    let undoes = |other: &u32| telling().moved(quarter).moved(*other) == telling();
    Ok(MOVES.into_iter().find(undoes).expect("every move has an inverse"))
}

#[cfg(test)]
mod tests {
    use super::*;

    #[test]
    fn the_eight_moves_of_the_telling_picture_differ() {
        for (quarter, other) in MOVES.into_iter().flat_map(|quarter| MOVES.map(|other| (quarter, other))) {
            let alike = telling().moved(quarter) == telling().moved(other);
            assert_eq!(alike, quarter == other, "{quarter} and {other}");
        }
    }

    #[test]
    fn an_inverse_is_one_on_both_sides() {
        for quarter in MOVES {
            let inverse = inverse_move(quarter).expect("a move");
            assert_eq!(joined_moves(quarter, inverse), Ok(0), "{quarter} and then {inverse}");
            assert_eq!(joined_moves(inverse, quarter), Ok(0), "{inverse} and then {quarter}");
        }
    }
}
