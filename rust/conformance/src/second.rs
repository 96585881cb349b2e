//! The second implementation as one of the implementations.

use crate::blocks::BlockCall;
use crate::calls::{ExplainCall, LineCall};
use crate::quarters::QuarterCall;
use crate::{Answer, Extremes, Implementation, LineUnderPoints};
use reference::second::{self, Border, Forecast, Parts, Refused, Setting, Ticket, Told};

/// The second implementation.
pub struct Second;

/// Makes one answer of both outcomes.
fn answer(outcome: Result<u32, Refused>) -> Answer {
    match outcome {
        Ok(count) => Answer::accepted(count),
        Err(Refused { number, depth, row, column }) => Answer { depth, ..Answer::of(number, row, column, 0) },
    }
}

/// The answer of a call that moves lines, with its extremes.
fn moved(outcome: Result<Told, Refused>) -> (Answer, Extremes) {
    let extremes = outcome
        .map_or(Extremes::default(), |told| Extremes { smallest: told.smallest, largest: told.largest });
    (answer(outcome.map(|told| told.count)), extremes)
}

/// A step, a shear or a quarter move with its number.
fn valued<Value: Default>(outcome: Result<Value, Refused>) -> (u32, Value) {
    match outcome {
        Ok(value) => (0, value),
        Err(refused) => (refused.number, Value::default()),
    }
}

impl Implementation for Second {
    fn straighten(
        &self,
        (width, height): (usize, usize),
        setting: Setting,
        picture: &[i32],
        result: &mut [i32],
        work: &mut [i32],
    ) -> (Answer, Extremes) {
        moved(second::straighten(width, height, setting, picture, result, work))
    }

    fn ask(
        &self,
        (width, height): (usize, usize),
        setting: Setting,
        picture: &[i32],
        result: &[i32],
        work: &[i32],
    ) -> (Answer, Ticket) {
        let (outcome, ticket) = second::ask(width, height, setting, picture, result, work);
        (answer(outcome.map(|()| 0)), ticket)
    }

    fn commit(
        &self,
        ticket: Ticket,
        (width, height): (usize, usize),
        picture: &[i32],
        result: &mut [i32],
        work: &mut [i32],
    ) -> (Answer, Extremes) {
        moved(second::commit(ticket, width, height, picture, result, work))
    }

    fn forecast(&self, size: (usize, usize), setting: Setting, largest: u32) -> (Answer, Forecast) {
        let outcome = second::forecast(size.0, size.1, setting, largest);
        (answer(outcome.map(|_| 0)), outcome.unwrap_or_default())
    }

    fn move_line(&self, call: &LineCall, result: &mut [i32], work: &mut [i32]) -> (Answer, Extremes) {
        let &LineCall { n, kernel, d, border, ref line, .. } = call;
        moved(second::move_line(n, kernel, d, border, line, result, work))
    }

    fn explain(&self, call: &ExplainCall, work: &mut [i32]) -> (Answer, Parts) {
        let &ExplainCall { n, kernel, d, k, ref line, .. } = call;
        let outcome = second::explain(n, kernel, d, k, line, work);
        (answer(outcome.map(|_| 0)), outcome.unwrap_or_default())
    }

    fn straighten_block(&self, call: &BlockCall, result: &mut [i32], work: &mut [i32]) -> (Answer, Extremes) {
        let &BlockCall { sides, plane, setting, ref block, .. } = call;
        moved(second::straighten_block(sides, plane, setting, block, result, work))
    }

    fn quarter_move(&self, call: &QuarterCall, result: &mut [i32]) -> (Answer, (usize, usize)) {
        let &QuarterCall { size: (width, height), quarter, ref picture, .. } = call;
        let outcome = second::quarter_move(width, height, quarter, picture, result);
        (answer(outcome.map(|_| 0)), outcome.unwrap_or_default())
    }

    fn joined_moves(&self, first: u32, second: u32) -> (u32, u32) {
        valued(second::joined_moves(first, second))
    }

    fn inverse_move(&self, quarter: u32) -> (u32, u32) {
        valued(second::inverse_move(quarter))
    }

    fn work_places(&self, (width, height): (usize, usize)) -> usize {
        second::work_places(width, height)
    }

    fn line_work_places(&self, n: usize) -> usize {
        second::line_work_places(n)
    }

    fn block_work_places(&self, sides: [usize; 3], plane: u32) -> usize {
        second::block_work_places(sides, plane)
    }

    fn with_kernel(&self, setting: Setting, kernel: u32) -> Setting {
        setting.with_kernel(kernel)
    }

    fn with_centre(&self, setting: Setting, cx: usize, cy: usize) -> Setting {
        setting.with_centre(cx, cy)
    }

    fn with_shears(&self, setting: Setting, a: i32, b: i32) -> Setting {
        setting.with_shears(a, b)
    }

    fn with_border(&self, setting: Setting, border: Border) -> Setting {
        setting.with_border(border)
    }

    fn with_step(&self, setting: Setting, t: i32) -> (u32, Setting) {
        second::with_step(setting, t)
    }

    fn sine(&self, t: i32) -> (u32, i32) {
        valued(second::sine(t))
    }

    fn level(&self, x1: i32, y1: i32, x2: i32, y2: i32) -> (u32, i32) {
        valued(second::level(x1, y1, x2, y2))
    }

    fn level_checked(&self, (size, points, threshold): LineUnderPoints, picture: &[i32]) -> (Answer, i32) {
        let outcome = second::level_checked(size, points, threshold, picture);
        (answer(outcome.map(|_| 0)), outcome.unwrap_or(0))
    }

    fn greys_out(&self, (width, height): (usize, usize), picture: &[i32], greys: &mut [u8]) -> Answer {
        answer(second::greys_out(width, height, picture, greys).map(|()| 0))
    }

    fn floats_out(&self, (width, height): (usize, usize), picture: &[i32], floats: &mut [f32]) -> Answer {
        answer(second::floats_out(width, height, picture, floats).map(|()| 0))
    }

    fn reading(
        &self,
        (width, height): (usize, usize),
        column: usize,
        row: usize,
        picture: &[i32],
    ) -> (Answer, u32, u32) {
        let outcome = second::reading(width, height, column, row, picture);
        let (case, greys) = match outcome {
            Ok(second::Reading::Level(greys)) => (0, greys),
            Ok(second::Reading::Under(greys)) => (1, greys),
            Ok(second::Reading::Over(greys)) => (2, greys),
            Err(_) => (0, 0.0),
        };
        (answer(outcome.map(|_| 0)), case, greys.to_bits())
    }

    fn summary(&self, (width, height): (usize, usize), picture: &[i32]) -> (Answer, u32, u32) {
        let outcome = second::summary(width, height, picture);
        let (darkest, lightest) = outcome.map_or((0.0, 0.0), |summary| (summary.darkest, summary.lightest));
        (answer(outcome.map(|_| 0)), darkest.to_bits(), lightest.to_bits())
    }

    fn answer_line(&self, line: &[u8]) -> Vec<u8> {
        second::answer_line(line)
    }
}
