//! The proved library as one of the implementations.

use crate::blocks::BlockCall;
use crate::calls::{ExplainCall, LineCall};
use crate::quarters::QuarterCall;
use crate::{Answer, Extremes, Implementation, LineUnderPoints};
use reference::second::{Border, Forecast, Parts, Setting, Ticket};
use straightener::raw;

/// The proved library.
pub struct Library;

/// The answer of a call that moves lines.
fn moved(answer: raw::Answer) -> (Answer, Extremes) {
    let raw::Answer { number, row, column, count, smallest, largest } = answer;
    (Answer::of(number, row, column, count), Extremes { smallest, largest })
}

/// The answer of a call that moves none, and so has no extremes.
fn unmoved(answer: raw::Answer) -> Answer {
    let (answer, extremes) = moved(answer);
    assert_eq!(extremes, Extremes::default(), "a call that moves nothing told of extremes");
    answer
}

/// The library's form of a setting.
pub fn raw_setting(setting: Setting) -> raw::Setting {
    let Setting { kernel, cx, cy, a, b, border } = setting;
    let (border, background) = raw_border(border);
    raw::Setting { kernel, cx, cy, a, b, border, background }
}

/// The library's form of a border.
fn raw_border(border: Border) -> (u32, i32) {
    match border {
        Border::Wrapped => (0, 0),
        Border::Background(value) => (1, value),
    }
}

/// The second implementation's form of a setting.
fn plain_setting(setting: raw::Setting) -> Setting {
    let raw::Setting { kernel, cx, cy, a, b, border, background } = setting;
    let border = if border == 0 { Border::Wrapped } else { Border::Background(background) };
    Setting { kernel, cx, cy, a, b, border }
}

impl Implementation for Library {
    fn straighten(
        &self,
        (width, height): (usize, usize),
        setting: Setting,
        picture: &[i32],
        result: &mut [i32],
        work: &mut [i32],
    ) -> (Answer, Extremes) {
        moved(raw::straighten(width, height, raw_setting(setting), picture, result, work))
    }

    fn ask(
        &self,
        (width, height): (usize, usize),
        setting: Setting,
        picture: &[i32],
        result: &[i32],
        work: &[i32],
    ) -> (Answer, Ticket) {
        let asked = raw::ask(width, height, raw_setting(setting), picture, result, work);
        let raw::Ticket { width, height, setting, count } = asked.ticket;
        let ticket = Ticket { width, height, setting: plain_setting(setting), count };
        (Answer::of(asked.number, asked.row, asked.column, 0), ticket)
    }

    fn commit(
        &self,
        ticket: Ticket,
        (width, height): (usize, usize),
        picture: &[i32],
        result: &mut [i32],
        work: &mut [i32],
    ) -> (Answer, Extremes) {
        let setting = raw_setting(ticket.setting);
        let ticket = raw::Ticket { width: ticket.width, height: ticket.height, setting, count: ticket.count };
        moved(raw::commit(ticket, width, height, picture, result, work))
    }

    fn forecast(&self, size: (usize, usize), setting: Setting, largest: u32) -> (Answer, Forecast) {
        let raw::ForecastAnswer { number, row, column, work, count, bound } =
            raw::forecast(size.0, size.1, raw_setting(setting), largest);
        (Answer::of(number, row, column, 0), Forecast { work, count, bound })
    }

    fn move_line(&self, call: &LineCall, result: &mut [i32], work: &mut [i32]) -> (Answer, Extremes) {
        let &LineCall { n, kernel, d, ref line, .. } = call;
        let (border, background) = raw_border(call.border);
        moved(raw::move_line(n, kernel, d, border, background, line, result, work))
    }

    /// The products and their sum, which document 02 does not ask for, are held to the rest here.
    fn explain(&self, call: &ExplainCall, work: &mut [i32]) -> (Answer, Parts) {
        let &ExplainCall { n, kernel, d, k, ref line, .. } = call;
        let raw::ExplanationAnswer { number, row, column, terms, sum, divisor, quotient } =
            raw::explain(n, kernel, d, k, line, work);
        assert!(terms.iter().all(|term| term.product == term.weight * i64::from(term.value)), "{call:?}");
        assert_eq!(sum, terms.iter().map(|term| term.product).sum(), "{call:?}");
        let (places, values) = (terms.map(|term| term.place), terms.map(|term| term.value));
        let weights = terms.map(|term| term.weight);
        (Answer::of(number, row, column, 0), Parts { places, weights, values, divisor, quotient })
    }

    fn straighten_block(&self, call: &BlockCall, result: &mut [i32], work: &mut [i32]) -> (Answer, Extremes) {
        let &BlockCall { sides: [width, height, depth], plane, setting, ref block, .. } = call;
        let setting = raw_setting(setting);
        let told = raw::straighten_block(width, height, depth, plane, setting, block, result, work);
        let raw::BlockAnswer { number, depth, row, column, count, smallest, largest } = told;
        (Answer { depth, ..Answer::of(number, row, column, count) }, Extremes { smallest, largest })
    }

    fn quarter_move(&self, call: &QuarterCall, result: &mut [i32]) -> (Answer, (usize, usize)) {
        let &QuarterCall { size: (width, height), quarter, ref picture, .. } = call;
        let raw::QuarterAnswer { number, row, column, width, height } =
            raw::quarter_move(width, height, quarter, picture, result);
        (Answer::of(number, row, column, 0), (width, height))
    }

    fn joined_moves(&self, first: u32, second: u32) -> (u32, u32) {
        let raw::Quarter { number, value } = raw::joined_moves(first, second);
        (number, value)
    }

    fn inverse_move(&self, quarter: u32) -> (u32, u32) {
        let raw::Quarter { number, value } = raw::inverse_move(quarter);
        (number, value)
    }

    fn work_places(&self, (width, height): (usize, usize)) -> usize {
        raw::work_places(width, height)
    }

    fn line_work_places(&self, n: usize) -> usize {
        raw::line_work_places(n)
    }

    fn block_work_places(&self, [width, height, depth]: [usize; 3], plane: u32) -> usize {
        raw::block_work_places(width, height, depth, plane)
    }

    fn with_kernel(&self, setting: Setting, kernel: u32) -> Setting {
        plain_setting(raw::with_kernel(raw_setting(setting), kernel))
    }

    fn with_centre(&self, setting: Setting, cx: usize, cy: usize) -> Setting {
        plain_setting(raw::with_centre(raw_setting(setting), cx, cy))
    }

    fn with_shears(&self, setting: Setting, a: i32, b: i32) -> Setting {
        plain_setting(raw::with_shears(raw_setting(setting), a, b))
    }

    fn with_border(&self, setting: Setting, border: Border) -> Setting {
        let (border, background) = raw_border(border);
        plain_setting(raw::with_border(raw_setting(setting), border, background))
    }

    fn with_step(&self, setting: Setting, t: i32) -> (u32, Setting) {
        let change = raw::with_step(raw_setting(setting), t);
        (change.number, plain_setting(change.setting))
    }

    fn sine(&self, t: i32) -> (u32, i32) {
        let step = raw::sine(t);
        (step.number, step.value)
    }

    fn level(&self, x1: i32, y1: i32, x2: i32, y2: i32) -> (u32, i32) {
        let step = raw::level(x1, y1, x2, y2);
        (step.number, step.value)
    }

    fn level_checked(&self, (size, points, threshold): LineUnderPoints, picture: &[i32]) -> (Answer, i32) {
        let ((width, height), [x1, y1, x2, y2]) = (size, points);
        let raw::CheckedStep { number, row, column, step } =
            raw::level_checked(width, height, x1, y1, x2, y2, threshold, picture);
        (Answer::of(number, row, column, 0), step)
    }

    fn greys_out(&self, (width, height): (usize, usize), picture: &[i32], greys: &mut [u8]) -> Answer {
        unmoved(raw::greys_out(width, height, picture, greys))
    }

    fn floats_out(&self, (width, height): (usize, usize), picture: &[i32], floats: &mut [f32]) -> Answer {
        unmoved(raw::floats_out(width, height, picture, floats))
    }

    fn reading(
        &self,
        (width, height): (usize, usize),
        column: usize,
        row: usize,
        picture: &[i32],
    ) -> (Answer, u32, u32) {
        let read = raw::reading(width, height, column, row, picture);
        (Answer::of(read.number, read.row, read.column, 0), read.kind, read.greys.to_bits())
    }

    fn summary(&self, (width, height): (usize, usize), picture: &[i32]) -> (Answer, u32, u32) {
        let summary = raw::summary(width, height, picture);
        let answer = Answer::of(summary.number, summary.row, summary.column, 0);
        (answer, summary.darkest.to_bits(), summary.lightest.to_bits())
    }

    fn answer_line(&self, line: &[u8]) -> Vec<u8> {
        straightener::answer_line(line).expect("the longest answer has room")
    }
}
