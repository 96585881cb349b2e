//! Straightening, one line moved, steps and levelling, and the line format.

use crate::raw;
use crate::refusal::{accepted, Refusal};
use crate::setting::{Border, Kernel, Setting};

/// What straightening tells beside the picture or the block.
#[derive(Clone, Copy, Debug, PartialEq, Eq, Hash)]
#[non_exhaustive]
pub struct Straightened {
    /// The number of lines interpolated, those that neither moved by whole samples nor became all
    /// background; a row that is interpolated in both its passes counts twice. Of a block it is the sum over
    /// its slices.
    pub count: u32,
    /// The smallest sample of the result.
    pub smallest: i32,
    /// The largest sample of the result.
    pub largest: i32,
}

impl Straightened {
    /// What an accepted answer tells.
    pub(crate) fn told(answer: raw::Answer) -> Result<Straightened, Refusal> {
        accepted(answer.number, answer.row, answer.column)?;
        Ok(Straightened { count: answer.count, smallest: answer.smallest, largest: answer.largest })
    }
}

/// What moving a line tells beside the line.
#[derive(Clone, Copy, Debug, PartialEq, Eq, Hash)]
#[non_exhaustive]
pub struct Moved {
    /// Whether the line was interpolated, that is, neither moved by whole samples nor became all background.
    pub interpolated: bool,
    /// The smallest sample of the result: below every sample of the line only where the kernel overshoots, or
    /// a darker background comes in.
    pub smallest: i32,
    /// The largest sample of the result: above every sample of the line only where the kernel overshoots, or a
    /// lighter background comes in.
    pub largest: i32,
}

/// The places of work that [`straighten`] takes: 12 for each sample of the longer side, or 0 for a size that
/// it refuses.
///
/// ```
/// assert_eq!(straightener::work_places(640, 480), 7_680);
/// assert_eq!(straightener::work_places(640, 1_025), 0);
/// ```
pub fn work_places(width: usize, height: usize) -> usize {
    raw::work_places(width, height)
}

/// The places of work that [`move_line`] takes: 6 for each sample of the line, or 0 for a length that it
/// refuses.
///
/// ```
/// assert_eq!(straightener::line_work_places(640), 3_840);
/// ```
pub fn line_work_places(length: usize) -> usize {
    raw::line_work_places(length)
}

/// Straightens a picture into buffers of the caller's.
///
/// `picture` and `result` take width times height places, row by row, and `work` takes
/// [`work_places`]; samples of the picture lie within plus or minus 32,767, 128 to one grey. What `result`
/// and `work` hold before does not matter; afterwards those places of `work` are 0. Longer buffers are
/// fine: their later places stay as they are.
///
/// With [`Kernel::Linear`] every sample of the result lies between the smallest and the largest of the
/// picture's samples, the background being one of them where it is set. With linear and [`Kernel::Keys`], of
/// two accepted calls that are alike but that the second has one number added to every sample and to the
/// background, the second's samples, smallest and largest are higher by that number; with
/// [`Kernel::Spline`] its samples lie within 13 units of that. Its count is the same.
///
/// Refused with [`Refusal::Size`], [`Refusal::Buffer`], [`Refusal::Centre`], [`Refusal::Shear`],
/// [`Refusal::Background`] or [`Refusal::Sample`], the first of them that applies; then no buffer is
/// touched.
///
/// ```
/// # fn main() -> Result<(), straightener::Refusal> {
/// use straightener::{straighten, work_places, Kernel, Setting};
///
/// let setting = Setting::new().with_kernel(Kernel::Keys).with_centre(1, 1).with_shears(-4_096, 4_096);
/// let mut result = [0; 9];
/// let mut work = vec![0; work_places(3, 3)];
/// let told = straighten(3, 3, setting, &[1, 2, 3, 4, 5, 6, 7, 8, 9], &mut result, &mut work)?;
/// assert_eq!((result, told.count), ([7, 4, 1, 8, 5, 2, 9, 6, 3], 0));
/// assert_eq!((told.smallest, told.largest), (1, 9));
/// # Ok(())
/// # }
/// ```
pub fn straighten(
    width: usize,
    height: usize,
    setting: Setting,
    picture: &[i32],
    result: &mut [i32],
    work: &mut [i32],
) -> Result<Straightened, Refusal> {
    Straightened::told(raw::straighten(width, height, setting.into(), picture, result, work))
}

/// Straightens a picture into a new one; refused as [`straighten`] is.
///
/// ```
/// # fn main() -> Result<(), straightener::Refusal> {
/// use straightener::{straightened, Refusal, Setting};
///
/// let setting = Setting::new().with_shears(2_048, 0);
/// let (result, told) = straightened(2, 2, setting, &[0, 10, 0, 10])?;
/// assert_eq!((result, told.count), (vec![0, 10, 5, 5], 2));
///
/// let too_light = straightened(2, 2, setting, &[0, 10, 32_768, 10]);
/// assert_eq!(too_light, Err(Refusal::Sample { row: 1, column: 0 }));
/// # Ok(())
/// # }
/// ```
pub fn straightened(
    width: usize,
    height: usize,
    setting: Setting,
    picture: &[i32],
) -> Result<(Vec<i32>, Straightened), Refusal> {
    // A picture that is too short is refused before its result would be of use.
    let places = picture.len().min(width.saturating_mul(height));
    let (mut result, mut work) = (vec![0; places], vec![0; work_places(width, height)]);
    let told = straighten(width, height, setting, picture, &mut result, &mut work)?;
    Ok((result, told))
}

/// Moves a line by d/4,096 samples, toward higher places for a positive d. On background a line that moves
/// by its own length or more, either way, becomes all background.
///
/// `result` takes as many places as the line and `work` takes [`line_work_places`]. The line has 1 to
/// 1,024 samples within plus or minus 294,912; d lies within plus or minus 4,194,304, and a background
/// within plus or minus 32,767. With Keys and the spline the result may lie beyond the line's own range;
/// with linear it lies between the smallest and the largest of the line's samples, the background being one
/// of them where it is set. With linear and Keys, of two accepted calls that are alike but that the second
/// has one number added to every sample and to the background, the second's samples, smallest and largest are
/// higher by that number; with the spline its samples lie within 1 unit of that.
///
/// Refused with [`Refusal::Size`], [`Refusal::Buffer`], [`Refusal::Shear`], [`Refusal::Background`] or
/// [`Refusal::Sample`].
///
/// ```
/// # fn main() -> Result<(), straightener::Refusal> {
/// use straightener::{line_work_places, move_line, Border, Kernel};
///
/// let (line, mut result, mut work) = ([0, 0, 16, 0], [0; 4], vec![0; line_work_places(4)]);
/// let told = move_line(Kernel::Keys, -2_048, Border::Wrapped, &line, &mut result, &mut work)?;
/// assert_eq!((result, told.interpolated), ([-1, 9, 9, -1], true));
/// assert_eq!((told.smallest, told.largest), (-1, 9));
///
/// let grey = Border::Background(100);
/// assert!(move_line(Kernel::Keys, -2_048, grey, &line, &mut result, &mut work)?.interpolated);
/// assert_eq!(result, [-7, 9, 3, 49]);
/// assert!(!move_line(Kernel::Keys, 4 * 4_096, grey, &line, &mut result, &mut work)?.interpolated);
/// assert_eq!(result, [100; 4]);
/// # Ok(())
/// # }
/// ```
pub fn move_line(
    kernel: Kernel,
    d: i32,
    border: Border,
    line: &[i32],
    result: &mut [i32],
    work: &mut [i32],
) -> Result<Moved, Refusal> {
    let (border, background) = border.numbers();
    let answer = raw::move_line(line.len(), kernel.number(), d, border, background, line, result, work);
    accepted(answer.number, answer.row, answer.column)?;
    Ok(Moved { interpolated: answer.count == 1, smallest: answer.smallest, largest: answer.largest })
}

/// S(t), in 4,096ths: the shear of the columns at step t, from -1,697 to 1,697.
///
/// Refused with [`Refusal::Shear`].
///
/// ```
/// # fn main() -> Result<(), straightener::Refusal> {
/// assert_eq!(straightener::sine(1_000)?, 1_887);
/// # Ok(())
/// # }
/// ```
pub fn sine(step: i32) -> Result<i32, Refusal> {
    let answer = raw::sine(step);
    accepted(answer.number, 0, 0)?;
    Ok(answer.value)
}

/// The step that levels the graticule line through column x1, row y1 and column x2, row y2.
///
/// Refused with [`Refusal::Point`] for a coordinate that is not from 0 to 1,023, and with
/// [`Refusal::Slope`] where the second point is not to the right or lies beyond 45 degrees; a line in any other
/// direction takes a quarter turn first, as [`level_any`](crate::level_any) tells it.
///
/// ```
/// # fn main() -> Result<(), straightener::Refusal> {
/// assert_eq!(straightener::level(0, 0, 100, 1)?, -20);
/// # Ok(())
/// # }
/// ```
pub fn level(x1: i32, y1: i32, x2: i32, y2: i32) -> Result<i32, Refusal> {
    let answer = raw::level(x1, y1, x2, y2);
    accepted(answer.number, 0, 0)?;
    Ok(answer.value)
}

/// The step that [`level`] answers, where no sample on the line through the two points is below a threshold: for
/// points that may have been set on a trace, or beside the graticule, by mistake.
///
/// The points are each a column and a row, (x1, y1) the left one and (x2, y2) the right one.
/// In every column x from x1 to x2, both included, the sample in row (2(y1·dx + dy·(x - x1)) + dx)/(2·dx),
/// rounded down, is looked at, where dx is x2 - x1 and dy is y2 - y1: the row nearest to the line. `picture` takes
/// width times height places, row by row, with samples within plus or minus 1,048,576, 128 to one grey. The
/// threshold is any number in that unit: [`i32::MIN`] refuses no line, and with [`i32::MAX`] every one is refused.
///
/// Refused with [`Refusal::Size`], [`Refusal::Buffer`], [`Refusal::Sample`], [`Refusal::Point`] for a point outside
/// this picture, [`Refusal::Slope`] or, where none of these applies, [`Refusal::Threshold`] just if a sample that
/// is looked at is below the threshold: it names the leftmost.
///
/// ```
/// # fn main() -> Result<(), straightener::Refusal> {
/// use straightener::{level, level_checked, Refusal};
///
/// // A light line falls to the right through a dark screen, 8 columns wide.
/// let mut screen = [2_048; 8 * 4];
/// for place in [0, 1, 8 + 2, 8 + 3, 8 + 4, 8 + 5, 16 + 6, 16 + 7] {
///     screen[place] = 30_080;
/// }
/// assert_eq!(level_checked(8, 4, (0, 0), (7, 2), 16_000, &screen)?, level(0, 0, 7, 2)?);
///
/// // The right point was set one row too low.
/// let mistaken = level_checked(8, 4, (0, 0), (7, 3), 16_000, &screen);
/// assert_eq!(mistaken, Err(Refusal::Threshold { row: 2, column: 4 }));
/// # Ok(())
/// # }
/// ```
pub fn level_checked(
    width: usize,
    height: usize,
    (x1, y1): (i32, i32),
    (x2, y2): (i32, i32),
    threshold: i32,
    picture: &[i32],
) -> Result<i32, Refusal> {
    let raw::CheckedStep { number, row, column, step } =
        raw::level_checked(width, height, x1, y1, x2, y2, threshold, picture);
    accepted(number, row, column)?;
    Ok(step)
}

/// The answer to one line of the line format, given without its line feed; the answer ends in one. A line
/// that is refused is answered too: its number stands in the answer's text. No refusal of the call itself
/// is known, since the longest answer has room.
///
/// ```
/// # fn main() -> Result<(), straightener::Refusal> {
/// let answer = straightener::answer_line(b"000000000100010000000080")?;
/// assert_eq!(answer, b"0000000001000100004000\n");
/// # Ok(())
/// # }
/// ```
pub fn answer_line(line: &[u8]) -> Result<Vec<u8>, Refusal> {
    let mut answer = vec![0; raw::LONGEST_ANSWER];
    let answered = raw::answer_line(line, &mut answer);
    accepted(answered.number, 0, 0)?;
    answer.truncate(answered.written);
    Ok(answer)
}
