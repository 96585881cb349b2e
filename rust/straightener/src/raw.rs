//! The C interface of the proved library with slices for pointers and lengths, all of it safe.
//!
//! [`crate::straighten`] and its neighbours are easier to use; these calls also take what no type of
//! theirs can say, such as a kernel number that there is no kernel for. `include/straightener.h` says
//! what every argument means.

use straightener_sys as sys;

pub use straightener_sys::{
    straightener_answer as Answer, straightener_asked as Asked, straightener_block_answer as BlockAnswer,
    straightener_change as Change, straightener_checked_step as CheckedStep,
    straightener_explanation_answer as ExplanationAnswer, straightener_forecast_answer as ForecastAnswer,
    straightener_line_answer as LineAnswer, straightener_quarter as Quarter,
    straightener_quarter_answer as QuarterAnswer, straightener_reading_answer as ReadingAnswer,
    straightener_setting as Setting, straightener_step as Step, straightener_summary_answer as SummaryAnswer,
    straightener_term as Term, straightener_ticket as Ticket, STRAIGHTENER_LONGEST_ANSWER as LONGEST_ANSWER,
};

// Each call below hands over slices whole: they are valid for their lengths and, being borrowed, do not
// overlap. The library is proved to stay within them for every input, so no call has a condition.

/// Straightens a picture.
pub fn straighten(
    width: usize,
    height: usize,
    setting: Setting,
    picture: &[i32],
    result: &mut [i32],
    work: &mut [i32],
) -> Answer {
    let (picture, picture_len) = (picture.as_ptr(), picture.len());
    let (result, result_len) = (result.as_mut_ptr(), result.len());
    let (work, work_len) = (work.as_mut_ptr(), work.len());
    // SAFETY: borrowed slices, see above.
    unsafe {
        sys::straightener_straighten(
            width,
            height,
            setting,
            picture,
            picture_len,
            result,
            result_len,
            work,
            work_len,
        )
    }
}

/// Asks what straightening a picture will do, and writes nothing. A refused asking comes with a ticket of size
/// 0 by 0 and count 0, with the setting as it was asked.
pub fn ask(
    width: usize,
    height: usize,
    setting: Setting,
    picture: &[i32],
    result: &[i32],
    work: &[i32],
) -> Asked {
    let (picture, picture_len) = (picture.as_ptr(), picture.len());
    let (result, result_len) = (result.as_ptr(), result.len());
    let (work, work_len) = (work.as_ptr(), work.len());
    // SAFETY: borrowed slices, see above; all of them are only read.
    unsafe {
        sys::straightener_ask(
            width,
            height,
            setting,
            picture,
            picture_len,
            result,
            result_len,
            work,
            work_len,
        )
    }
}

/// Straightens a picture on a ticket.
pub fn commit(
    ticket: Ticket,
    width: usize,
    height: usize,
    picture: &[i32],
    result: &mut [i32],
    work: &mut [i32],
) -> Answer {
    let (picture, picture_len) = (picture.as_ptr(), picture.len());
    let (result, result_len) = (result.as_mut_ptr(), result.len());
    let (work, work_len) = (work.as_mut_ptr(), work.len());
    // SAFETY: borrowed slices, see above.
    unsafe {
        sys::straightener_commit(
            ticket,
            width,
            height,
            picture,
            picture_len,
            result,
            result_len,
            work,
            work_len,
        )
    }
}

/// Tells what a straightening takes and can leave, before there is a picture.
pub fn forecast(width: usize, height: usize, setting: Setting, largest: u32) -> ForecastAnswer {
    // SAFETY: plain values.
    unsafe { sys::straightener_forecast(width, height, setting, largest) }
}

/// Straightens every slice of a block in one plane.
#[allow(clippy::too_many_arguments)]
pub fn straighten_block(
    width: usize,
    height: usize,
    depth: usize,
    plane: u32,
    setting: Setting,
    block: &[i32],
    result: &mut [i32],
    work: &mut [i32],
) -> BlockAnswer {
    let (block, block_len) = (block.as_ptr(), block.len());
    let (result, result_len) = (result.as_mut_ptr(), result.len());
    let (work, work_len) = (work.as_mut_ptr(), work.len());
    // SAFETY: borrowed slices, see above.
    unsafe {
        sys::straightener_straighten_block(
            width, height, depth, plane, setting, block, block_len, result, result_len, work, work_len,
        )
    }
}

/// Moves one line.
#[allow(clippy::too_many_arguments)]
pub fn move_line(
    n: usize,
    kernel: u32,
    d: i32,
    border: u32,
    background: i32,
    line: &[i32],
    result: &mut [i32],
    work: &mut [i32],
) -> Answer {
    let (line, line_len) = (line.as_ptr(), line.len());
    let (result, result_len) = (result.as_mut_ptr(), result.len());
    let (work, work_len) = (work.as_mut_ptr(), work.len());
    // SAFETY: borrowed slices, see above.
    unsafe {
        sys::straightener_move_line(
            n, kernel, d, border, background, line, line_len, result, result_len, work, work_len,
        )
    }
}

/// What made one sample of a moved line.
pub fn explain(n: usize, kernel: u32, d: i32, k: usize, line: &[i32], work: &mut [i32]) -> ExplanationAnswer {
    let (line, line_len) = (line.as_ptr(), line.len());
    let (work, work_len) = (work.as_mut_ptr(), work.len());
    // SAFETY: borrowed slices, see above.
    unsafe { sys::straightener_explain(n, kernel, d, k, line, line_len, work, work_len) }
}

/// Moves a picture by quarter turns and a mirror.
pub fn quarter_move(
    width: usize,
    height: usize,
    quarter: u32,
    picture: &[i32],
    result: &mut [i32],
) -> QuarterAnswer {
    let (picture, picture_len) = (picture.as_ptr(), picture.len());
    let (result, result_len) = (result.as_mut_ptr(), result.len());
    // SAFETY: borrowed slices, see above.
    unsafe {
        sys::straightener_quarter_move(width, height, quarter, picture, picture_len, result, result_len)
    }
}

/// The one move that equals two in a row.
pub fn joined_moves(first: u32, second: u32) -> Quarter {
    // SAFETY: plain values.
    unsafe { sys::straightener_joined_moves(first, second) }
}

/// The move that takes a move back.
pub fn inverse_move(quarter: u32) -> Quarter {
    // SAFETY: plain values.
    unsafe { sys::straightener_inverse_move(quarter) }
}

/// The places of work that a picture takes; 0 for a size that is refused.
pub fn work_places(width: usize, height: usize) -> usize {
    // SAFETY: plain values.
    unsafe { sys::straightener_work_places(width, height) }
}

/// The places of work that a block takes; 0 for a side or a plane that is refused.
pub fn block_work_places(width: usize, height: usize, depth: usize, plane: u32) -> usize {
    // SAFETY: plain values.
    unsafe { sys::straightener_block_work_places(width, height, depth, plane) }
}

/// The places of work that a line takes; 0 for a length that is refused.
pub fn line_work_places(n: usize) -> usize {
    // SAFETY: plain values.
    unsafe { sys::straightener_line_work_places(n) }
}

/// The setting with another kernel.
pub fn with_kernel(setting: Setting, kernel: u32) -> Setting {
    // SAFETY: plain values.
    unsafe { sys::straightener_with_kernel(setting, kernel) }
}

/// The setting with the centre at another column and row.
pub fn with_centre(setting: Setting, cx: usize, cy: usize) -> Setting {
    // SAFETY: plain values.
    unsafe { sys::straightener_with_centre(setting, cx, cy) }
}

/// The setting with other shears of the rows and of the columns, in 4,096ths.
pub fn with_shears(setting: Setting, a: i32, b: i32) -> Setting {
    // SAFETY: plain values.
    unsafe { sys::straightener_with_shears(setting, a, b) }
}

/// The setting with another border: 0 wrapped, any other number background of a sample value.
pub fn with_border(setting: Setting, border: u32, background: i32) -> Setting {
    // SAFETY: plain values.
    unsafe { sys::straightener_with_border(setting, border, background) }
}

/// The setting with the shears of a step.
pub fn with_step(setting: Setting, t: i32) -> Change {
    // SAFETY: plain values.
    unsafe { sys::straightener_with_step(setting, t) }
}

/// S(t).
pub fn sine(t: i32) -> Step {
    // SAFETY: plain values.
    unsafe { sys::straightener_sine(t) }
}

/// The step that levels the line through two points.
pub fn level(x1: i32, y1: i32, x2: i32, y2: i32) -> Step {
    // SAFETY: plain values.
    unsafe { sys::straightener_level(x1, y1, x2, y2) }
}

/// That step, where no sample on the line is below a threshold.
#[allow(clippy::too_many_arguments)]
pub fn level_checked(
    width: usize,
    height: usize,
    x1: i32,
    y1: i32,
    x2: i32,
    y2: i32,
    threshold: i32,
    picture: &[i32],
) -> CheckedStep {
    let (picture, picture_len) = (picture.as_ptr(), picture.len());
    // SAFETY: a borrowed slice, see above.
    unsafe { sys::straightener_level_checked(width, height, x1, y1, x2, y2, threshold, picture, picture_len) }
}

/// The samples as greys.
pub fn greys_out(width: usize, height: usize, picture: &[i32], greys: &mut [u8]) -> Answer {
    let (picture, picture_len) = (picture.as_ptr(), picture.len());
    // SAFETY: borrowed slices, see above.
    unsafe {
        sys::straightener_greys_out(width, height, picture, picture_len, greys.as_mut_ptr(), greys.len())
    }
}

/// The samples over 128.
pub fn floats_out(width: usize, height: usize, picture: &[i32], floats: &mut [f32]) -> Answer {
    let (picture, picture_len) = (picture.as_ptr(), picture.len());
    // SAFETY: borrowed slices, see above.
    unsafe {
        sys::straightener_floats_out(width, height, picture, picture_len, floats.as_mut_ptr(), floats.len())
    }
}

/// The reading at a point.
pub fn reading(width: usize, height: usize, column: usize, row: usize, picture: &[i32]) -> ReadingAnswer {
    // SAFETY: a borrowed slice, see above.
    unsafe { sys::straightener_reading(width, height, column, row, picture.as_ptr(), picture.len()) }
}

/// The darkest and the lightest grey.
pub fn summary(width: usize, height: usize, picture: &[i32]) -> SummaryAnswer {
    // SAFETY: a borrowed slice, see above.
    unsafe { sys::straightener_summary(width, height, picture.as_ptr(), picture.len()) }
}

/// The answer to one line of the line format, given without its line feed. Refuses under 2 if `answer`
/// is too short; [`LONGEST_ANSWER`] places always suffice.
pub fn answer_line(line: &[u8], answer: &mut [u8]) -> LineAnswer {
    // SAFETY: borrowed slices, see above.
    unsafe { sys::straightener_answer_line(line.as_ptr(), line.len(), answer.as_mut_ptr(), answer.len()) }
}
