//! The eight moves of a picture, each beside a plain copy of its samples.

use super::{figure, grouped, median, noise, seconds, table_head, table_row, to_digits};
use std::hint::black_box;
use straightener::{raw, Quarter};

/// Sizes of pictures, and how many calls are timed at once so that the clock resolves them.
const SIZES: [(usize, usize, u32); 4] =
    [(1_024, 1_024, 3), (1_000, 1_000, 3), (640, 480, 10), (64, 64, 1_000)];

/// The moves by number.
const MOVES: [&str; 8] = [
    "stay",
    "clockwise",
    "half turn",
    "counter-clockwise",
    "mirror",
    "mirror, clockwise",
    "mirror, half turn",
    "mirror, counter-clockwise",
];

/// Seconds of one call in one round: each move, then the copy.
type Times = [f64; MOVES.len() + 1];

/// A picture to move, with its result, and what the rounds measured.
struct Case {
    size: (usize, usize),
    calls: u32,
    picture: Vec<i32>,
    result: Vec<i32>,
    rounds: Vec<Times>,
}

impl Case {
    /// A picture of noise.
    fn new((width, height, calls): (usize, usize, u32)) -> Case {
        Case {
            size: (width, height),
            calls,
            picture: noise(width * height).into_iter().map(|grey| 128 * i32::from(grey)).collect(),
            result: vec![0; width * height],
            rounds: Vec::new(),
        }
    }

    /// Moves the picture into the result.
    fn move_once(&mut self, quarter: u32) {
        let Case { size: (width, height), picture, result, .. } = self;
        let answer = raw::quarter_move(*width, *height, quarter, black_box(picture), result);
        assert_eq!(black_box(answer).number, 0);
    }

    /// Copies the picture into the result.
    fn copy_once(&mut self) {
        self.result.copy_from_slice(black_box(&self.picture));
        black_box(&mut self.result);
    }

    /// Holds every move to what its inverse makes of it.
    fn check(&mut self) {
        for quarter in Quarter::ALL {
            self.move_once(quarter.number());
            let (width, height) = quarter.moved_size(self.size.0, self.size.1);
            let mut back = vec![0; self.picture.len()];
            raw::quarter_move(width, height, quarter.inverse().number(), &self.result, &mut back);
            assert!(back == self.picture, "{quarter:?} and its inverse do not leave the picture");
        }
    }

    /// Times each move and the copy once.
    fn round(&mut self) {
        // Untimed, so that the first call that is timed finds the picture as near as the others do.
        self.copy_once();
        let calls = self.calls;
        let mut times = [0.0; MOVES.len() + 1];
        for (quarter, time) in (0..).zip(&mut times[..MOVES.len()]) {
            *time = seconds(calls, || self.move_once(quarter));
        }
        times[MOVES.len()] = seconds(calls, || self.copy_once());
        self.rounds.push(times);
    }

    /// The median milliseconds of one contestant, as they are printed.
    fn milliseconds(&self, contestant: usize) -> f64 {
        to_digits(3, 1e3 * median(self.rounds.iter().map(|times| times[contestant]).collect()))
    }

    /// The rows of the table, one for each move.
    fn rows(&self) -> Vec<String> {
        let size = format!("{} by {}", grouped(self.size.0 as f64), grouped(self.size.1 as f64));
        let copy = self.milliseconds(MOVES.len());
        let row = |(quarter, name): (usize, &&str)| {
            let moved = self.milliseconds(quarter);
            let [moved_time, copy_time] = [moved, copy].map(|time| format!("{} ms", figure(3, time)));
            table_row(&[size.clone(), name.to_string(), moved_time, copy_time, figure(2, moved / copy)])
        };
        MOVES.iter().enumerate().map(row).collect()
    }
}

/// Measures every move of pictures of every size, and prints the table.
pub fn measure(rounds: usize) {
    let mut cases = SIZES.map(Case::new);
    cases.iter_mut().for_each(Case::check);
    for _ in 0..rounds {
        cases.iter_mut().for_each(Case::round);
    }
    println!("\nQuarter moves, beside a plain copy of the samples in the same rounds.\n");
    println!("{}", table_head(&["Picture", "Move", "Library", "Copy", "Times copy"]));
    cases.iter().flat_map(Case::rows).for_each(|row| println!("{row}"));
}
