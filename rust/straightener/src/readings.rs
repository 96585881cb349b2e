//! What is read from a picture: greys, floats, a reading at a point, a summary.

use crate::raw;
use crate::refusal::{accepted, Refusal};
use straightener_sys as sys;

/// Black of the video range (Recommendation ITU-R BT.601), grey 16, as a sample.
pub const BLACK: i32 = sys::STRAIGHTENER_BLACK;

/// White of the video range (Recommendation ITU-R BT.601), grey 235, as a sample.
pub const WHITE: i32 = sys::STRAIGHTENER_WHITE;

/// A reading at a point: from [`BLACK`] to [`WHITE`], below black or above white, each with its greys.
///
/// The greys are exact: the sample is 128 times the greys of a Level, `BLACK` less 128 times those of an
/// Under, or `WHITE` plus 128 times those of an Over. Rust prints an `f32` with as few digits as tell it from
/// its neighbours, 16.0078125 as 16.007813; `f64::from` has them all.
#[derive(Clone, Copy, Debug, PartialEq)]
pub enum Reading {
    /// The sample's greys, 16 to 235.
    Level(f32),
    /// By how many greys the sample lies below black, grey 16.
    Under(f32),
    /// By how many greys the sample lies above white, grey 235.
    Over(f32),
}

/// The darkest and the lightest grey of a picture, held to no range.
#[derive(Clone, Copy, Debug, PartialEq)]
#[non_exhaustive]
pub struct Summary {
    /// The smallest sample, in greys.
    pub darkest: f32,
    /// The largest sample, in greys.
    pub lightest: f32,
}

/// Fills the first width times height places of `greys` with the nearest greys, held to 0 to 255 and not to
/// the video range.
///
/// Samples lie within plus or minus 1,048,576. Refused with [`Refusal::Size`], [`Refusal::Buffer`] or
/// [`Refusal::Sample`].
///
/// ```
/// # fn main() -> Result<(), straightener::Refusal> {
/// let mut greys = [0; 4];
/// straightener::greys_out(4, 1, &[-500, 63, 64, 40_000], &mut greys)?;
/// assert_eq!(greys, [0, 0, 1, 255]);
/// # Ok(())
/// # }
/// ```
pub fn greys_out(width: usize, height: usize, picture: &[i32], greys: &mut [u8]) -> Result<(), Refusal> {
    let answer = raw::greys_out(width, height, picture, greys);
    accepted(answer.number, answer.row, answer.column)
}

/// Fills the first width times height places of `floats` with the samples in greys, exact.
///
/// Samples lie within plus or minus 1,048,576. Refused with [`Refusal::Size`], [`Refusal::Buffer`] or
/// [`Refusal::Sample`].
///
/// ```
/// # fn main() -> Result<(), straightener::Refusal> {
/// let mut floats = [0.0; 2];
/// straightener::floats_out(2, 1, &[-64, 129], &mut floats)?;
/// assert_eq!(floats, [-0.5, 1.0078125]);
/// # Ok(())
/// # }
/// ```
pub fn floats_out(width: usize, height: usize, picture: &[i32], floats: &mut [f32]) -> Result<(), Refusal> {
    let answer = raw::floats_out(width, height, picture, floats);
    accepted(answer.number, answer.row, answer.column)
}

/// The reading at a column and a row of a picture whose samples lie within plus or minus 1,048,576; all of
/// them are judged, also those beside the point.
///
/// Refused with [`Refusal::Size`], [`Refusal::Buffer`], [`Refusal::Sample`] or [`Refusal::Point`].
///
/// ```
/// # fn main() -> Result<(), straightener::Refusal> {
/// use straightener::{reading, Reading, BLACK, WHITE};
///
/// let picture = [0, BLACK - 64, BLACK, WHITE, 128 * 250];
/// assert_eq!(reading(5, 1, 0, 0, &picture)?, Reading::Under(16.0));
/// assert_eq!(reading(5, 1, 1, 0, &picture)?, Reading::Under(0.5));
/// assert_eq!(reading(5, 1, 2, 0, &picture)?, Reading::Level(16.0));
/// assert_eq!(reading(5, 1, 3, 0, &picture)?, Reading::Level(235.0));
/// assert_eq!(reading(5, 1, 4, 0, &picture)?, Reading::Over(15.0));
/// # Ok(())
/// # }
/// ```
pub fn reading(
    width: usize,
    height: usize,
    column: usize,
    row: usize,
    picture: &[i32],
) -> Result<Reading, Refusal> {
    let answer = raw::reading(width, height, column, row, picture);
    accepted(answer.number, answer.row, answer.column)?;
    Ok(match answer.kind {
        sys::STRAIGHTENER_LEVEL => Reading::Level(answer.greys),
        sys::STRAIGHTENER_UNDER => Reading::Under(answer.greys),
        _ => Reading::Over(answer.greys),
    })
}

/// The darkest and the lightest grey of a picture whose samples lie within plus or minus 1,048,576.
///
/// Refused with [`Refusal::Size`], [`Refusal::Buffer`] or [`Refusal::Sample`].
///
/// ```
/// # fn main() -> Result<(), straightener::Refusal> {
/// let summary = straightener::summary(3, 1, &[-64, 128, 32_768])?;
/// assert_eq!((summary.darkest, summary.lightest), (-0.5, 256.0));
/// # Ok(())
/// # }
/// ```
pub fn summary(width: usize, height: usize, picture: &[i32]) -> Result<Summary, Refusal> {
    let answer = raw::summary(width, height, picture);
    accepted(answer.number, answer.row, answer.column)?;
    Ok(Summary { darkest: answer.darkest, lightest: answer.lightest })
}
