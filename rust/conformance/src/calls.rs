//! Calls that fill buffers, with what they were lent and what they left.

use super::numbers::Numbers;
use super::{Answer, Extremes, Implementation};
use reference::second::{Border, Parts, Setting, Ticket};
use std::hint::black_box;

/// Backgrounds that are refused under number 12.
pub const BAD_BACKGROUNDS: [i32; 4] = [32_768, -32_768, i32::MAX, i32::MIN];

/// What place `k` of a buffer holds before a call: a number that no call writes.
pub fn untouched(k: usize) -> i32 {
    0x5A5A_0000 + k as i32 % 1_000
}

/// A buffer as it is lent.
pub fn buffer(length: usize) -> Vec<i32> {
    (0..length).map(untouched).collect()
}

/// Whether all places from `first` on are as they were lent.
pub fn untouched_from(first: usize, buffer: &[i32]) -> bool {
    (first..buffer.len()).all(|k| buffer[k] == untouched(k))
}

/// A border with a number added to its background.
fn raised(border: Border, added: i32) -> Border {
    match border {
        Border::Wrapped => Border::Wrapped,
        Border::Background(value) => Border::Background(value + added),
    }
}

/// What a call answered, and what it left in the buffers.
#[derive(Clone, Debug, PartialEq, Eq)]
pub struct Outcome {
    pub answer: Answer,
    pub extremes: Extremes,
    pub result: Vec<i32>,
    pub work: Vec<i32>,
}

impl Outcome {
    /// Holds the buffers and the extremes to the documents: untouched and 0 where refused; else `places` of the
    /// result and `work_places` of work written, work with 0, and no later place, and the extremes those of
    /// the samples written.
    pub(crate) fn held_to_the_documents(self, places: usize, work_places: usize) -> Outcome {
        if self.answer.number != 0 {
            assert!(untouched_from(0, &self.result), "a refused call wrote to its result");
            assert!(untouched_from(0, &self.work), "a refused call wrote to its work");
            assert_eq!(self.extremes, Extremes::default(), "a refused call told of extremes");
            return self;
        }
        assert!(untouched_from(places, &self.result), "a later place of the result was written");
        assert!(untouched_from(work_places, &self.work), "a later place of work was written");
        assert!(self.work[..work_places].iter().all(|&v| v == 0), "work was not left at 0");
        let extremes = Extremes::of(&self.result[..places]);
        assert_eq!(self.extremes, extremes, "the extremes are not those of the samples written");
        self
    }
}

/// A picture handed in for straightening.
#[derive(Clone, Debug)]
pub struct PictureCall {
    pub size: (usize, usize),
    pub setting: Setting,
    pub picture: Vec<i32>,
    pub result_length: usize,
    pub work_length: usize,
}

impl PictureCall {
    /// A call with buffers of just the lengths that it takes.
    pub fn fitting(size: (usize, usize), setting: Setting, picture: Vec<i32>) -> PictureCall {
        let (result_length, work_length) = (size.0 * size.1, 12 * size.0.max(size.1));
        PictureCall { size, setting, picture, result_length, work_length }
    }

    /// Makes the call.
    pub fn run(&self, implementation: &dyn Implementation) -> Outcome {
        let (mut result, mut work) = (buffer(self.result_length), buffer(self.work_length));
        let (answer, extremes) =
            implementation.straighten(self.size, self.setting, &self.picture, &mut result, &mut work);
        self.held(Outcome { answer, extremes, result, work })
    }

    /// Asks what the call would do; the buffers are to stay as they were.
    pub fn ask(&self, implementation: &dyn Implementation) -> (Answer, Ticket) {
        let (mut result, mut work) = (buffer(self.result_length), buffer(self.work_length));
        let asked = implementation.ask(self.size, self.setting, &self.picture, &result, &work);
        // The compiler may take what was lent to be read as unchanged; from here on it may not.
        black_box((&mut result, &mut work));
        assert!(untouched_from(0, &result) && untouched_from(0, &work), "an asking wrote to a buffer");
        asked
    }

    /// Commits the call on a ticket, with the ticket's setting in place of the call's own.
    pub fn commit(&self, ticket: Ticket, implementation: &dyn Implementation) -> Outcome {
        let (mut result, mut work) = (buffer(self.result_length), buffer(self.work_length));
        let (answer, extremes) =
            implementation.commit(ticket, self.size, &self.picture, &mut result, &mut work);
        self.held(Outcome { answer, extremes, result, work })
    }

    /// The same call with a number added to every sample and to the background.
    pub fn raised(&self, added: i32) -> PictureCall {
        let setting = self.setting.with_border(raised(self.setting.border, added));
        PictureCall { setting, picture: self.picture.iter().map(|v| v + added).collect(), ..self.clone() }
    }

    /// Holds an outcome to the documents, by the size of the call.
    fn held(&self, outcome: Outcome) -> Outcome {
        let (width, height) = self.size;
        outcome.held_to_the_documents(width.wrapping_mul(height), width.max(height).wrapping_mul(12))
    }

    /// A call on a small picture in which anything may be wrong.
    pub fn hostile(numbers: &mut Numbers) -> PictureCall {
        let size = (1 + numbers.below(6), 1 + numbers.below(6));
        let (kernel, samples) = (numbers.below(3) as u32, numbers.samples(size.0 * size.1, 32_767));
        let setting = numbers.setting(kernel, size.0, size.1);
        let mut call = PictureCall::fitting(size, setting, samples);
        for _ in 0..numbers.below(3) {
            call.spoil(numbers);
        }
        call
    }

    /// Makes one thing about the call wrong, or a buffer longer.
    fn spoil(&mut self, numbers: &mut Numbers) {
        let beyond = numbers.one_of(&[4_097, -4_097, i32::MAX, i32::MIN]);
        let place = numbers.below(self.picture.len().max(1));
        match numbers.below(13) {
            0 => self.size.0 = numbers.one_of(&[0, 1_025, usize::MAX]),
            1 => self.size.1 = numbers.one_of(&[0, 1_025, usize::MAX, 1 << 32]),
            2 => drop(self.picture.pop()),
            3 => self.result_length = self.result_length.saturating_sub(1),
            4 => self.work_length -= 1,
            5 => self.setting.cx = numbers.one_of(&[self.size.0, usize::MAX]),
            6 => self.setting.cy = numbers.one_of(&[self.size.1, usize::MAX]),
            7 => self.setting.a = beyond,
            8 => self.setting.b = beyond,
            9 => self.setting.kernel = numbers.one_of(&[3, 4, 256, u32::MAX]),
            10 => (self.result_length, self.work_length) = (self.result_length + 3, self.work_length + 5),
            11 => self.setting.border = Border::Background(numbers.one_of(&BAD_BACKGROUNDS)),
            _ if self.picture.is_empty() => self.picture.push(0),
            _ => self.picture[place] = numbers.one_of(&[32_768, -32_768, i32::MAX, i32::MIN]),
        }
    }
}

/// A line handed in to be moved.
#[derive(Clone, Debug)]
pub struct LineCall {
    pub n: usize,
    pub kernel: u32,
    pub d: i32,
    pub border: Border,
    pub line: Vec<i32>,
    pub result_length: usize,
    pub work_length: usize,
}

impl LineCall {
    /// A call with buffers of just the lengths that it takes.
    pub fn fitting(kernel: u32, d: i32, line: Vec<i32>) -> LineCall {
        let n = line.len();
        LineCall { n, kernel, d, border: Border::Wrapped, line, result_length: n, work_length: 6 * n }
    }

    /// The same call with another border.
    pub fn with_border(self, border: Border) -> LineCall {
        LineCall { border, ..self }
    }

    /// The same call with a number added to every sample and to the background.
    pub fn raised(&self, added: i32) -> LineCall {
        let line = self.line.iter().map(|v| v + added).collect();
        LineCall { line, border: raised(self.border, added), ..self.clone() }
    }

    /// Makes the call.
    pub fn run(&self, implementation: &dyn Implementation) -> Outcome {
        let (mut result, mut work) = (buffer(self.result_length), buffer(self.work_length));
        let (answer, extremes) = implementation.move_line(self, &mut result, &mut work);
        Outcome { answer, extremes, result, work }.held_to_the_documents(self.n, self.n.wrapping_mul(6))
    }

    /// A call on a short line in which anything may be wrong.
    pub fn hostile(numbers: &mut Numbers) -> LineCall {
        let n = 1 + numbers.below(40);
        let line = numbers.samples(n, 294_912);
        let range = numbers.one_of(&[4_194_304, 4_096 * n as i32]);
        let (kernel, d) = (numbers.below(3) as u32, numbers.edgy(range));
        let mut call = LineCall::fitting(kernel, d, line).with_border(numbers.border());
        for _ in 0..numbers.below(3) {
            call.spoil(numbers);
        }
        call
    }

    /// Makes one thing about the call wrong, or a buffer longer.
    fn spoil(&mut self, numbers: &mut Numbers) {
        let place = numbers.below(self.line.len().max(1));
        match numbers.below(9) {
            0 => self.n = numbers.one_of(&[0, 1_025, usize::MAX]),
            1 => drop(self.line.pop()),
            2 => self.result_length = self.result_length.saturating_sub(1),
            3 => self.work_length -= 1,
            4 => self.d = numbers.one_of(&[4_194_305, -4_194_305, i32::MAX, i32::MIN]),
            5 => self.kernel = numbers.one_of(&[3, 4, 256, u32::MAX]),
            6 => (self.result_length, self.work_length) = (self.result_length + 3, self.work_length + 5),
            7 => self.border = Border::Background(numbers.one_of(&BAD_BACKGROUNDS)),
            _ if self.line.is_empty() => self.line.push(0),
            _ => self.line[place] = numbers.one_of(&[294_913, -294_913, i32::MAX, i32::MIN]),
        }
    }
}

/// A place of a wrapped line that is to be explained.
#[derive(Clone, Debug)]
pub struct ExplainCall {
    pub n: usize,
    pub kernel: u32,
    pub d: i32,
    pub k: usize,
    pub line: Vec<i32>,
    pub work_length: usize,
}

impl ExplainCall {
    /// A call on place k of a line, with as much work as it takes.
    pub fn fitting(kernel: u32, d: i32, k: usize, line: Vec<i32>) -> ExplainCall {
        ExplainCall { n: line.len(), kernel, d, k, work_length: 6 * line.len(), line }
    }

    /// Makes the call, and holds it to this: the work that it takes is 0 afterwards, all other work untouched, and refused
    /// every part is 0.
    pub fn run(&self, implementation: &dyn Implementation) -> (Answer, Parts) {
        let mut work = buffer(self.work_length);
        let (answer, parts) = implementation.explain(self, &mut work);
        let cleared = if answer.number == 0 { 6 * self.n } else { 0 };
        assert!(work[..cleared].iter().all(|&v| v == 0), "work was not left at 0");
        assert!(untouched_from(cleared, &work), "a place of work was written that the call does not take");
        assert!(answer.number == 0 || parts == Parts::default(), "a refused call told of parts");
        (answer, parts)
    }

    /// The same line moved, wrapped, into a result of its length; one of a length that is refused needs no more places.
    pub fn moved(&self) -> LineCall {
        let &ExplainCall { n, kernel, d, work_length, ref line, .. } = self;
        let (border, result_length) = (Border::Wrapped, n.min(1_024));
        LineCall { n, kernel, d, border, line: line.clone(), result_length, work_length }
    }

    /// A call on a short line in which anything may be wrong; what can be wrong with a moved line is made wrong there.
    pub fn hostile(numbers: &mut Numbers) -> ExplainCall {
        let LineCall { n, kernel, d, line, work_length, .. } = LineCall::hostile(numbers);
        let k = match numbers.below(8) {
            0 => numbers.one_of(&[n, n.wrapping_add(1), line.len(), usize::MAX, usize::MAX - 3]),
            _ => numbers.below(n.clamp(1, 1_024)),
        };
        ExplainCall { n, kernel, d, k, line, work_length }
    }
}
