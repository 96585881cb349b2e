//! Quarter turns and mirrors: the eight exact moves of a picture, and levelling in any direction.

use crate::calls::level;
use crate::raw;
use crate::refusal::{accepted, Refusal};
use straightener_sys as sys;

/// One of the eight exact moves of a picture: so many clockwise quarter turns, or a left-right mirror and then so many
/// turns. Every sample goes to a place of its own, and none is changed.
///
/// ```
/// use straightener::Quarter;
///
/// assert_eq!(Quarter::Clockwise.then(Quarter::Clockwise), Quarter::HalfTurn);
/// assert_eq!(Quarter::Clockwise.inverse(), Quarter::CounterClockwise);
///
/// // Where one of two moves mirrors the picture, it matters which comes first.
/// assert_eq!(Quarter::Mirror.then(Quarter::Clockwise), Quarter::MirrorClockwise);
/// assert_eq!(Quarter::Clockwise.then(Quarter::Mirror), Quarter::MirrorCounterClockwise);
/// ```
#[derive(Clone, Copy, Debug, PartialEq, Eq, Hash)]
pub enum Quarter {
    /// The picture as it is.
    Stay,
    /// A quarter turn clockwise: the upper left corner goes to the upper right.
    Clockwise,
    /// A half turn: the upper left corner goes to the lower right.
    HalfTurn,
    /// A quarter turn counter-clockwise: the upper left corner goes to the lower left.
    CounterClockwise,
    /// A left-right mirror: left and right exchanged.
    Mirror,
    /// A left-right mirror, then a quarter turn clockwise: the upper left and the lower right corner exchanged.
    MirrorClockwise,
    /// A left-right mirror, then a half turn: top and bottom exchanged.
    MirrorHalfTurn,
    /// A left-right mirror, then a quarter turn counter-clockwise: rows and columns exchanged.
    MirrorCounterClockwise,
}

impl Quarter {
    /// The eight moves in the order of their numbers.
    ///
    /// ```
    /// use straightener::Quarter;
    ///
    /// // A move and its inverse leave the picture, whichever comes first.
    /// for quarter in Quarter::ALL {
    ///     assert_eq!(quarter.then(quarter.inverse()), Quarter::Stay);
    ///     assert_eq!(quarter.inverse().then(quarter), Quarter::Stay);
    /// }
    /// ```
    pub const ALL: [Quarter; 8] = [
        Quarter::Stay,
        Quarter::Clockwise,
        Quarter::HalfTurn,
        Quarter::CounterClockwise,
        Quarter::Mirror,
        Quarter::MirrorClockwise,
        Quarter::MirrorHalfTurn,
        Quarter::MirrorCounterClockwise,
    ];

    /// The move's number: 0 to 3 are that many clockwise quarter turns, 4 to 7 a left-right mirror and then 0 to 3
    /// turns.
    ///
    /// ```
    /// assert_eq!(straightener::Quarter::MirrorClockwise.number(), 5);
    /// ```
    pub fn number(self) -> u32 {
        match self {
            Quarter::Stay => sys::STRAIGHTENER_STAY,
            Quarter::Clockwise => sys::STRAIGHTENER_CLOCKWISE,
            Quarter::HalfTurn => sys::STRAIGHTENER_HALF_TURN,
            Quarter::CounterClockwise => sys::STRAIGHTENER_COUNTER_CLOCKWISE,
            Quarter::Mirror => sys::STRAIGHTENER_MIRROR,
            Quarter::MirrorClockwise => sys::STRAIGHTENER_MIRROR_CLOCKWISE,
            Quarter::MirrorHalfTurn => sys::STRAIGHTENER_MIRROR_HALF_TURN,
            Quarter::MirrorCounterClockwise => sys::STRAIGHTENER_MIRROR_COUNTER_CLOCKWISE,
        }
    }

    /// The move of a number; none above 7.
    ///
    /// ```
    /// use straightener::Quarter;
    ///
    /// assert_eq!(Quarter::from_number(3), Some(Quarter::CounterClockwise));
    /// assert_eq!(Quarter::from_number(8), None);
    /// ```
    pub fn from_number(number: u32) -> Option<Quarter> {
        Quarter::ALL.into_iter().find(|quarter| quarter.number() == number)
    }

    /// The one move that equals this one and then the next, of any picture.
    ///
    /// ```
    /// # fn main() -> Result<(), straightener::Refusal> {
    /// use straightener::{quarter_moved, Quarter};
    ///
    /// let (turned, width, height) = quarter_moved(3, 2, Quarter::Clockwise, &[1, 2, 3, 4, 5, 6])?;
    /// let both = Quarter::Clockwise.then(Quarter::Mirror);
    /// assert_eq!(
    ///     quarter_moved(width, height, Quarter::Mirror, &turned),
    ///     quarter_moved(3, 2, both, &[1, 2, 3, 4, 5, 6])
    /// );
    /// # Ok(())
    /// # }
    /// ```
    #[must_use = "the move itself stays as it was"]
    pub fn then(self, next: Quarter) -> Quarter {
        Quarter::of(raw::joined_moves(self.number(), next.number()))
    }

    /// The move that takes this one back, made before it or after it.
    ///
    /// ```
    /// use straightener::Quarter;
    ///
    /// assert_eq!(Quarter::CounterClockwise.inverse(), Quarter::Clockwise);
    /// assert_eq!(Quarter::MirrorClockwise.inverse(), Quarter::MirrorClockwise);
    /// ```
    #[must_use = "the move itself stays as it was"]
    pub fn inverse(self) -> Quarter {
        Quarter::of(raw::inverse_move(self.number()))
    }

    /// Width and height of a picture that was moved: its own, or the other way round.
    ///
    /// ```
    /// use straightener::Quarter;
    ///
    /// assert_eq!(Quarter::HalfTurn.moved_size(640, 480), (640, 480));
    /// assert_eq!(Quarter::Clockwise.moved_size(640, 480), (480, 640));
    /// ```
    pub fn moved_size(self, width: usize, height: usize) -> (usize, usize) {
        match self {
            Quarter::Stay | Quarter::HalfTurn | Quarter::Mirror | Quarter::MirrorHalfTurn => (width, height),
            _ => (height, width),
        }
    }

    /// The move that the library answers for moves: it is proved to be one of the eight.
    fn of(answer: raw::Quarter) -> Quarter {
        Quarter::ALL[answer.value as usize]
    }
}

/// Moves a picture by quarter turns and a mirror into a buffer of the caller's, and tells the width and the height of
/// the moved picture.
///
/// `picture` and `result` take width times height places, row by row, `result` in its own width; samples lie within
/// plus or minus 1,048,576. What `result` holds before does not matter, and longer buffers are fine: their later places
/// stay as they are.
///
/// Two moves in a row leave what the one leaves that [`Quarter::then`] names. What a move leaves can be handed to
/// [`straighten`](crate::straighten) like any picture, with the width and the height that are told here, a centre in the
/// moved picture, and samples within plus or minus 32,767; the limits of 3/2, 2 and 10 units are then from the exact
/// fractions of the moved picture.
///
/// Refused with [`Refusal::Size`], [`Refusal::Buffer`] or [`Refusal::Sample`], the first of them that applies; then no
/// buffer is touched. The row and the column of a sample beyond the range are those in `picture`.
///
/// ```
/// # fn main() -> Result<(), straightener::Refusal> {
/// use straightener::{quarter_move, Quarter};
///
/// let (picture, mut result) = ([1, 2, 3, 4, 5, 6], [0; 6]);
/// assert_eq!(quarter_move(3, 2, Quarter::Clockwise, &picture, &mut result)?, (2, 3));
/// assert_eq!(result, [4, 1, 5, 2, 6, 3]);
/// # Ok(())
/// # }
/// ```
pub fn quarter_move(
    width: usize,
    height: usize,
    quarter: Quarter,
    picture: &[i32],
    result: &mut [i32],
) -> Result<(usize, usize), Refusal> {
    let raw::QuarterAnswer { number, row, column, width, height } =
        raw::quarter_move(width, height, quarter.number(), picture, result);
    accepted(number, row, column)?;
    Ok((width, height))
}

/// Moves a picture by quarter turns and a mirror into a new one, which comes with its width and its height; refused as
/// [`quarter_move`] is.
///
/// ```
/// # fn main() -> Result<(), straightener::Refusal> {
/// use straightener::{quarter_moved, Quarter, Refusal};
///
/// let nine = [1, 2, 3, 4, 5, 6, 7, 8, 9];
/// assert_eq!(quarter_moved(3, 3, Quarter::Clockwise, &nine)?, (vec![7, 4, 1, 8, 5, 2, 9, 6, 3], 3, 3));
/// assert_eq!(quarter_moved(3, 2, Quarter::Mirror, &nine)?, (vec![3, 2, 1, 6, 5, 4], 3, 2));
///
/// let too_light = quarter_moved(2, 2, Quarter::HalfTurn, &[1, 2, 1_048_577, 4]);
/// assert_eq!(too_light, Err(Refusal::Sample { row: 1, column: 0 }));
/// # Ok(())
/// # }
/// ```
pub fn quarter_moved(
    width: usize,
    height: usize,
    quarter: Quarter,
    picture: &[i32],
) -> Result<(Vec<i32>, usize, usize), Refusal> {
    // A picture that is too short is refused before its result would be of use.
    let mut result = vec![0; picture.len().min(width.saturating_mul(height))];
    let (width, height) = quarter_move(width, height, quarter, picture, &mut result)?;
    Ok((result, width, height))
}

/// The last column and row of the largest picture.
const LAST: i32 = 1_023;

/// The quarter turn and the step that level a graticule line through two points on it in any direction, also one that
/// [`level`] refuses: with a camera that is mounted sideways such a line runs up or down.
///
/// (x1, y1) is the line's left end as the screen is read, and (x2, y2) its right end, each a column and a row of the
/// picture as it was photographed. Moved by the turn and then straightened with the step, the line runs level, from the
/// first point on the left to the second on the right. The turn is [`Quarter::Stay`], [`Quarter::Clockwise`],
/// [`Quarter::HalfTurn`] or [`Quarter::CounterClockwise`], in this order the first that makes a line of it which `level`
/// takes, and never a mirror. Points that are handed in the other way round give the picture upside down.
///
/// The step is the proved one of the points as they were moved. That this is the turn to make is tested, and not
/// proved.
///
/// Refused with [`Refusal::Point`] for a coordinate that is not from 0 to 1,023, and with [`Refusal::Slope`] for two
/// points in one place.
///
/// ```
/// # fn main() -> Result<(), straightener::Refusal> {
/// use straightener::{level_any, quarter_moved, straightened, Border, Quarter, Setting, BLACK, WHITE};
///
/// // The camera was mounted sideways. On a picture of 40 by 64 samples the screen's middle graticule line, three
/// // samples across, runs upward, from its left end at (22, 60) to its right end at (18, 4).
/// let (width, height) = (40, 64);
/// let is_light = |x: i32, y: i32| (14 * (x - 22) - (y - 60)).abs() <= 21;
/// let grey = |place: i32| if is_light(place % 40, place / 40) { WHITE } else { BLACK };
/// let picture: Vec<i32> = (0..40 * 64).map(grey).collect();
///
/// let (quarter, step) = level_any(22, 60, 18, 4)?;
/// assert_eq!((quarter, step), (Quarter::Clockwise, 146));
///
/// // The turn first; then the step, about a centre in the turned picture.
/// let (turned, width, height) = quarter_moved(width, height, quarter, &picture)?;
/// assert_eq!((width, height), (64, 40));
/// let setting = Setting::new()
///     .with_centre(width / 2, height / 2)
///     .with_border(Border::Background(BLACK))
///     .with_step(step)?;
/// let (screen, _) = straightened(width, height, setting, &turned)?;
///
/// // The line is level now, in row 20, with glass above and below it.
/// let row = |y: usize| &screen[y * width + 3..][..58];
/// assert!(row(20).iter().all(|&sample| sample > WHITE - 128));
/// assert!(row(17).iter().chain(row(23)).all(|&sample| sample < BLACK + 128));
/// # Ok(())
/// # }
/// ```
pub fn level_any(x1: i32, y1: i32, x2: i32, y2: i32) -> Result<(Quarter, i32), Refusal> {
    let turns = [Quarter::Stay, Quarter::Clockwise, Quarter::HalfTurn, Quarter::CounterClockwise];
    let mut points = [(x1, y1), (x2, y2)];
    for turn in turns {
        let [(x1, y1), (x2, y2)] = points;
        match level(x1, y1, x2, y2) {
            Err(Refusal::Slope) => {}
            answer => return answer.map(|step| (turn, step)),
        }
        // Clockwise in the largest picture; the step goes by the distance of the points, which is alike in all.
        points = points.map(|(x, y)| (LAST - y, x));
    }
    Err(Refusal::Slope)
}
