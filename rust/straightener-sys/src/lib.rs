//! The C interface of the proved picture straightener, name for name but for the words of a refusal:
//! `include/straightener.h` says what every call does, in which unit, and when it is refused. The package
//! `straightener` has it in safe types.
//!
//! Every function is proved to answer what the header says for every input, as long as each pointer is
//! valid for the length that comes with it and no two buffers of a call overlap. That is all that a caller
//! has to see to.
#![no_std]
#![allow(non_camel_case_types)]

/// The call was accepted.
pub const STRAIGHTENER_ACCEPTED: u32 = 0;
/// Refusal of a width, height, depth or line length.
pub const STRAIGHTENER_REFUSED_SIZE: u32 = 1;
/// Refusal of a buffer.
pub const STRAIGHTENER_REFUSED_BUFFER: u32 = 2;
/// Refusal of a centre.
pub const STRAIGHTENER_REFUSED_CENTRE: u32 = 3;
/// Refusal of a shear, a step or a move.
pub const STRAIGHTENER_REFUSED_SHEAR: u32 = 4;
/// Refusal of a kernel.
pub const STRAIGHTENER_REFUSED_KERNEL: u32 = 5;
/// Refusal of a sample beyond its range, by its row and column, and in a block by its depth too.
pub const STRAIGHTENER_REFUSED_SAMPLE: u32 = 6;
/// Refusal of a point.
pub const STRAIGHTENER_REFUSED_POINT: u32 = 7;
/// Refusal of two points as a graticule line.
pub const STRAIGHTENER_REFUSED_SLOPE: u32 = 8;
/// Refusal of a line of the line format.
pub const STRAIGHTENER_REFUSED_LINE: u32 = 9;
/// Refusal of a background.
pub const STRAIGHTENER_REFUSED_BACKGROUND: u32 = 12;
/// Refusal of a ticket of another size.
pub const STRAIGHTENER_REFUSED_TICKET: u32 = 14;
/// Refusal of a line by a sample below the threshold, by its row and column.
pub const STRAIGHTENER_REFUSED_THRESHOLD: u32 = 15;
/// Refusal of a quarter move.
pub const STRAIGHTENER_REFUSED_MOVE: u32 = 16;
/// Refusal of a plane.
pub const STRAIGHTENER_REFUSED_PLANE: u32 = 17;

/// The kernel of the two nearest samples.
pub const STRAIGHTENER_LINEAR: u32 = 0;
/// Keys' cubic convolution.
pub const STRAIGHTENER_KEYS: u32 = 1;
/// The cubic spline.
pub const STRAIGHTENER_SPLINE: u32 = 2;

/// Beyond its ends a line goes on with its other end.
pub const STRAIGHTENER_WRAPPED: u32 = 0;
/// Beyond its ends a line goes on with background.
pub const STRAIGHTENER_ON_BACKGROUND: u32 = 1;

/// Slices of a block by depth: columns across, rows down.
pub const STRAIGHTENER_ACROSS_AND_DOWN: u32 = 0;
/// Slices of a block by row: columns across, rows in depth.
pub const STRAIGHTENER_ACROSS_AND_DEPTH: u32 = 1;
/// Slices of a block by column: columns down, rows in depth.
pub const STRAIGHTENER_DOWN_AND_DEPTH: u32 = 2;

/// A picture stays as it is.
pub const STRAIGHTENER_STAY: u32 = 0;
/// A quarter turn clockwise.
pub const STRAIGHTENER_CLOCKWISE: u32 = 1;
/// A half turn.
pub const STRAIGHTENER_HALF_TURN: u32 = 2;
/// A quarter turn counter-clockwise.
pub const STRAIGHTENER_COUNTER_CLOCKWISE: u32 = 3;
/// A left-right mirror.
pub const STRAIGHTENER_MIRROR: u32 = 4;
/// A left-right mirror, then a quarter turn clockwise.
pub const STRAIGHTENER_MIRROR_CLOCKWISE: u32 = 5;
/// A left-right mirror, then a half turn.
pub const STRAIGHTENER_MIRROR_HALF_TURN: u32 = 6;
/// A left-right mirror, then a quarter turn counter-clockwise.
pub const STRAIGHTENER_MIRROR_COUNTER_CLOCKWISE: u32 = 7;

/// A reading from black to white.
pub const STRAIGHTENER_LEVEL: u32 = 0;
/// A reading below black.
pub const STRAIGHTENER_UNDER: u32 = 1;
/// A reading above white.
pub const STRAIGHTENER_OVER: u32 = 2;

/// Black of the video range, grey 16, as a sample.
pub const STRAIGHTENER_BLACK: i32 = 2_048;
/// White of the video range, grey 235, as a sample.
pub const STRAIGHTENER_WHITE: i32 = 30_080;

/// The most bytes that the answer to a line of the line format takes, with its line feed.
pub const STRAIGHTENER_LONGEST_ANSWER: usize = 32_783;

/// Kernel, centre, shears and border.
#[repr(C)]
#[derive(Clone, Copy, Debug, Default, PartialEq, Eq, Hash)]
pub struct straightener_setting {
    /// 0 linear, 1 Keys, 2 cubic spline.
    pub kernel: u32,
    /// Column of the centre.
    pub cx: usize,
    /// Row of the centre.
    pub cy: usize,
    /// Shear of the rows, in 4,096ths.
    pub a: i32,
    /// Shear of the columns, in 4,096ths.
    pub b: i32,
    /// 0 wrapped, any other number background.
    pub border: u32,
    /// The background's sample value, in units of 1/128 grey; ignored where wrapped.
    pub background: i32,
}

/// What most calls answer.
#[repr(C)]
#[derive(Clone, Copy, Debug, PartialEq, Eq)]
pub struct straightener_answer {
    /// 0, or the refusal number.
    pub number: u32,
    /// Row of the first sample beyond the range under number 6, else 0.
    pub row: usize,
    /// Column of the first sample beyond the range under number 6, else 0.
    pub column: usize,
    /// Lines interpolated.
    pub count: u32,
    /// The smallest sample of the moved line or of the straightened picture, else 0.
    pub smallest: i32,
    /// The largest sample of the moved line or of the straightened picture, else 0.
    pub largest: i32,
}

/// What straightening a block answers.
#[repr(C)]
#[derive(Clone, Copy, Debug, PartialEq, Eq)]
pub struct straightener_block_answer {
    /// 0, or the refusal number.
    pub number: u32,
    /// Depth of the first sample beyond the range under number 6, else 0.
    pub depth: usize,
    /// Row of that sample, else 0.
    pub row: usize,
    /// Column of that sample, else 0.
    pub column: usize,
    /// Lines interpolated, over all slices.
    pub count: u32,
    /// The smallest sample of the straightened block, 0 where refused.
    pub smallest: i32,
    /// The largest sample of the straightened block, 0 where refused.
    pub largest: i32,
}

/// What a straightening will do.
#[repr(C)]
#[derive(Clone, Copy, Debug, Default, PartialEq, Eq, Hash)]
pub struct straightener_ticket {
    /// The width that was asked, 0 where the asking was refused.
    pub width: usize,
    /// The height that was asked, 0 where the asking was refused.
    pub height: usize,
    /// The setting as it was asked.
    pub setting: straightener_setting,
    /// Lines that will be interpolated, 0 where the asking was refused.
    pub count: u32,
}

/// What asking answers.
#[repr(C)]
#[derive(Clone, Copy, Debug, PartialEq, Eq)]
pub struct straightener_asked {
    /// 0, or the refusal number.
    pub number: u32,
    /// As in [`straightener_answer`].
    pub row: usize,
    /// As in [`straightener_answer`].
    pub column: usize,
    /// The ticket.
    pub ticket: straightener_ticket,
}

/// What every straightening of one size and setting takes and can leave.
#[repr(C)]
#[derive(Clone, Copy, Debug, PartialEq, Eq)]
pub struct straightener_forecast_answer {
    /// 0, or the refusal number.
    pub number: u32,
    /// 0.
    pub row: usize,
    /// 0.
    pub column: usize,
    /// Places of work, 0 where refused.
    pub work: usize,
    /// Lines that will be interpolated, 0 where refused.
    pub count: u32,
    /// Every sample of the result lies from -bound to bound; 0 where refused.
    pub bound: i32,
}

/// One term of the weighted sum that makes a sample.
#[repr(C)]
#[derive(Clone, Copy, Debug, Default, PartialEq, Eq, Hash)]
pub struct straightener_term {
    /// The source place in the line.
    pub place: usize,
    /// Its weight.
    pub weight: i64,
    /// The sample that stands there, or the spline's coefficient.
    pub value: i32,
    /// Weight times value.
    pub product: i64,
}

/// What made one sample of a moved line; terms, sum, divisor and quotient are 0 where refused.
#[repr(C)]
#[derive(Clone, Copy, Debug, PartialEq, Eq)]
pub struct straightener_explanation_answer {
    /// 0, or the refusal number.
    pub number: u32,
    /// As in [`straightener_answer`].
    pub row: usize,
    /// As in [`straightener_answer`].
    pub column: usize,
    /// The four terms.
    pub terms: [straightener_term; 4],
    /// The sum of the products.
    pub sum: i64,
    /// What the sum is divided by.
    pub divisor: i64,
    /// The sum over the divisor to the nearest whole number, halves upward: the sample.
    pub quotient: i32,
}

/// What a quarter move of a picture answers.
#[repr(C)]
#[derive(Clone, Copy, Debug, PartialEq, Eq)]
pub struct straightener_quarter_answer {
    /// 0, or the refusal number.
    pub number: u32,
    /// Row of the first sample beyond the range under number 6, in the picture handed in, else 0.
    pub row: usize,
    /// Column of that sample, else 0.
    pub column: usize,
    /// Width of the moved picture, 0 where refused.
    pub width: usize,
    /// Height of the moved picture, 0 where refused.
    pub height: usize,
}

/// A quarter move.
#[repr(C)]
#[derive(Clone, Copy, Debug, PartialEq, Eq)]
pub struct straightener_quarter {
    /// 0, or the refusal number.
    pub number: u32,
    /// The move, 0 where refused.
    pub value: u32,
}

/// A changed setting, or the setting as it was under number 4.
#[repr(C)]
#[derive(Clone, Copy, Debug, PartialEq, Eq)]
pub struct straightener_change {
    /// 0, or the refusal number.
    pub number: u32,
    /// The setting handed back.
    pub setting: straightener_setting,
}

/// A step or a shear.
#[repr(C)]
#[derive(Clone, Copy, Debug, PartialEq, Eq)]
pub struct straightener_step {
    /// 0, or the refusal number.
    pub number: u32,
    /// The value, 0 where refused.
    pub value: i32,
}

/// What levelling with a picture answers.
#[repr(C)]
#[derive(Clone, Copy, Debug, PartialEq, Eq)]
pub struct straightener_checked_step {
    /// 0, or the refusal number.
    pub number: u32,
    /// Row of the first sample beyond the range under number 6, of the leftmost below the threshold under 15, else 0.
    pub row: usize,
    /// Column of that sample, else 0.
    pub column: usize,
    /// The step, 0 where refused.
    pub step: i32,
}

/// A reading at a point.
#[repr(C)]
#[derive(Clone, Copy, Debug, PartialEq)]
pub struct straightener_reading_answer {
    /// 0, or the refusal number.
    pub number: u32,
    /// As in [`straightener_answer`].
    pub row: usize,
    /// As in [`straightener_answer`].
    pub column: usize,
    /// 0 Level, 1 Under, 2 Over.
    pub kind: u32,
    /// The reading's greys.
    pub greys: f32,
}

/// The bytes written of an answer to a line of the line format.
#[repr(C)]
#[derive(Clone, Copy, Debug, PartialEq, Eq)]
pub struct straightener_line_answer {
    /// 0, or the refusal number.
    pub number: u32,
    /// How many bytes were written, 0 where refused.
    pub written: usize,
}

/// The darkest and the lightest grey of a picture.
#[repr(C)]
#[derive(Clone, Copy, Debug, PartialEq)]
pub struct straightener_summary_answer {
    /// 0, or the refusal number.
    pub number: u32,
    /// As in [`straightener_answer`].
    pub row: usize,
    /// As in [`straightener_answer`].
    pub column: usize,
    /// The smallest sample over 128.
    pub darkest: f32,
    /// The largest sample over 128.
    pub lightest: f32,
}

#[rustfmt::skip]
extern "C" {
    /// Straightens a picture.
    pub fn straightener_straighten(
        width: usize, height: usize, setting: straightener_setting,
        picture: *const i32, picture_len: usize,
        result: *mut i32, result_len: usize,
        work: *mut i32, work_len: usize,
    ) -> straightener_answer;

    /// Asks what straightening a picture will do, and writes nothing.
    pub fn straightener_ask(
        width: usize, height: usize, setting: straightener_setting,
        picture: *const i32, picture_len: usize,
        result: *const i32, result_len: usize,
        work: *const i32, work_len: usize,
    ) -> straightener_asked;

    /// Straightens a picture on a ticket.
    pub fn straightener_commit(
        ticket: straightener_ticket, width: usize, height: usize,
        picture: *const i32, picture_len: usize,
        result: *mut i32, result_len: usize,
        work: *mut i32, work_len: usize,
    ) -> straightener_answer;

    /// Tells what a straightening takes and can leave, before there is a picture.
    pub fn straightener_forecast(
        width: usize, height: usize, setting: straightener_setting, largest: u32,
    ) -> straightener_forecast_answer;

    /// Straightens every slice of a block in one plane.
    pub fn straightener_straighten_block(
        width: usize, height: usize, depth: usize, plane: u32, setting: straightener_setting,
        block: *const i32, block_len: usize,
        result: *mut i32, result_len: usize,
        work: *mut i32, work_len: usize,
    ) -> straightener_block_answer;

    /// Moves one line.
    pub fn straightener_move_line(
        n: usize, kernel: u32, d: i32, border: u32, background: i32,
        line: *const i32, line_len: usize,
        result: *mut i32, result_len: usize,
        work: *mut i32, work_len: usize,
    ) -> straightener_answer;

    /// What made one sample of a moved line.
    pub fn straightener_explain(
        n: usize, kernel: u32, d: i32, k: usize,
        line: *const i32, line_len: usize,
        work: *mut i32, work_len: usize,
    ) -> straightener_explanation_answer;

    /// Moves a picture by quarter turns and a mirror.
    pub fn straightener_quarter_move(
        width: usize, height: usize, quarter: u32,
        picture: *const i32, picture_len: usize,
        result: *mut i32, result_len: usize,
    ) -> straightener_quarter_answer;

    /// The one move that equals two in a row.
    pub fn straightener_joined_moves(first: u32, second: u32) -> straightener_quarter;

    /// The move that takes a move back.
    pub fn straightener_inverse_move(quarter: u32) -> straightener_quarter;

    /// The places of work that a picture takes; 0 for a size that is refused.
    pub fn straightener_work_places(width: usize, height: usize) -> usize;

    /// The places of work that a block takes; 0 for a side or a plane that is refused.
    pub fn straightener_block_work_places(width: usize, height: usize, depth: usize, plane: u32) -> usize;

    /// The places of work that a line takes; 0 for a length that is refused.
    pub fn straightener_line_work_places(n: usize) -> usize;

    /// The setting with another kernel.
    pub fn straightener_with_kernel(setting: straightener_setting, kernel: u32) -> straightener_setting;

    /// The setting with the centre at another column and row.
    pub fn straightener_with_centre(setting: straightener_setting, cx: usize, cy: usize) -> straightener_setting;

    /// The setting with other shears of the rows and of the columns.
    pub fn straightener_with_shears(setting: straightener_setting, a: i32, b: i32) -> straightener_setting;

    /// The setting with another border.
    pub fn straightener_with_border(
        setting: straightener_setting, border: u32, background: i32,
    ) -> straightener_setting;

    /// The setting with the shears of a step.
    pub fn straightener_with_step(setting: straightener_setting, t: i32) -> straightener_change;

    /// S(t).
    pub fn straightener_sine(t: i32) -> straightener_step;

    /// The step that levels the graticule line through two points.
    pub fn straightener_level(x1: i32, y1: i32, x2: i32, y2: i32) -> straightener_step;

    /// That step, where no sample on the line is below a threshold.
    pub fn straightener_level_checked(
        width: usize, height: usize, x1: i32, y1: i32, x2: i32, y2: i32, threshold: i32,
        picture: *const i32, picture_len: usize,
    ) -> straightener_checked_step;

    /// The samples as greys.
    pub fn straightener_greys_out(
        width: usize, height: usize,
        picture: *const i32, picture_len: usize,
        greys: *mut u8, greys_len: usize,
    ) -> straightener_answer;

    /// The samples over 128.
    pub fn straightener_floats_out(
        width: usize, height: usize,
        picture: *const i32, picture_len: usize,
        floats: *mut f32, floats_len: usize,
    ) -> straightener_answer;

    /// The reading at a point.
    pub fn straightener_reading(
        width: usize, height: usize, column: usize, row: usize,
        picture: *const i32, picture_len: usize,
    ) -> straightener_reading_answer;

    /// The darkest and the lightest grey.
    pub fn straightener_summary(
        width: usize, height: usize,
        picture: *const i32, picture_len: usize,
    ) -> straightener_summary_answer;

    /// The answer to one line of the line format.
    pub fn straightener_answer_line(
        line: *const u8, line_len: usize,
        answer: *mut u8, answer_len: usize,
    ) -> straightener_line_answer;
}
