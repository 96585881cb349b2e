//! A block by one call, against a single call for each of its slices.

use super::{figure, median, noise, seconds, table_head, table_row, to_digits, BACKGROUND, KERNELS, STEP};
use std::hint::black_box;
use straightener::raw;

/// Width, height and depth of the block.
const SIDE: usize = 128;

/// The samples of a slice.
const PLACES: usize = SIDE * SIDE;

/// The planes by number.
const PLANES: [&str; 3] = ["across and down", "across and depth", "down and depth"];

/// The borders by number.
const BORDERS: [&str; 2] = ["wrapped", "background"];

/// The block, and what is lent to both contestants.
struct Buffers {
    block: Vec<i32>,
    result: Vec<i32>,
    work: Vec<i32>,
    picture: Vec<i32>,
    straightened: Vec<i32>,
}

impl Buffers {
    /// A block of noise.
    fn new() -> Buffers {
        Buffers {
            block: noise(SIDE * PLACES).into_iter().map(|grey| 128 * i32::from(grey)).collect(),
            result: vec![0; SIDE * PLACES],
            work: vec![0; raw::work_places(SIDE, SIDE)],
            picture: vec![0; PLACES],
            straightened: vec![0; PLACES],
        }
    }

    /// Copies a slice out of the block.
    fn cut(&mut self, plane: u32, slice: usize) {
        let (block, picture) = (black_box(&self.block), &mut self.picture);
        match plane {
            0 => picture.copy_from_slice(&block[slice * PLACES..][..PLACES]),
            1 => {
                for (row, depth) in picture.chunks_mut(SIDE).zip(block.chunks(PLACES)) {
                    row.copy_from_slice(&depth[slice * SIDE..][..SIDE]);
                }
            }
            _ => {
                for (sample, row) in picture.iter_mut().zip(block.chunks(SIDE)) {
                    *sample = row[slice];
                }
            }
        }
    }

    /// Copies a straightened slice into the result.
    fn put_back(&mut self, plane: u32, slice: usize) {
        let (straightened, result) = (&self.straightened, &mut self.result);
        match plane {
            0 => result[slice * PLACES..][..PLACES].copy_from_slice(straightened),
            1 => {
                for (row, depth) in straightened.chunks(SIDE).zip(result.chunks_mut(PLACES)) {
                    depth[slice * SIDE..][..SIDE].copy_from_slice(row);
                }
            }
            _ => {
                for (&sample, row) in straightened.iter().zip(result.chunks_mut(SIDE)) {
                    row[slice] = sample;
                }
            }
        }
    }
}

/// A plane and a setting, and the seconds of each round: by one call, by single calls.
struct Case {
    plane: u32,
    setting: raw::Setting,
    rounds: Vec<[f64; 2]>,
}

impl Case {
    /// A case at the step, about the middle of each slice.
    fn new(plane: u32, kernel: u32, border: u32) -> Case {
        let (cx, cy, background) = (SIDE / 2, SIDE / 2, BACKGROUND);
        let level = raw::Setting { kernel, cx, cy, a: 0, b: 0, border, background };
        Case { plane, setting: raw::with_step(level, STEP).setting, rounds: Vec::new() }
    }

    /// Straightens the block by one call, and answers the count.
    fn by_one_call(&self, buffers: &mut Buffers) -> u32 {
        let Buffers { block, result, work, .. } = buffers;
        let block = black_box(&block[..]);
        let answer = raw::straighten_block(SIDE, SIDE, SIDE, self.plane, self.setting, block, result, work);
        assert_eq!(black_box(answer).number, 0);
        answer.count
    }

    /// Straightens the block slice by slice, and answers the sum of the counts.
    fn by_single_calls(&self, buffers: &mut Buffers) -> u32 {
        let mut count = 0;
        for slice in 0..SIDE {
            buffers.cut(self.plane, slice);
            let Buffers { picture, straightened, work, .. } = buffers;
            let answer = raw::straighten(SIDE, SIDE, self.setting, picture, straightened, work);
            assert_eq!(black_box(answer).number, 0);
            count += answer.count;
            buffers.put_back(self.plane, slice);
        }
        count
    }

    /// Holds both contestants to the same result and count.
    fn check(&self, buffers: &mut Buffers) {
        let count = self.by_one_call(buffers);
        let result = buffers.result.clone();
        buffers.result.fill(0);
        assert_eq!(self.by_single_calls(buffers), count);
        assert!(result == buffers.result, "the slices of the block are not those of the single calls");
    }

    /// Times both contestants once.
    fn round(&mut self, buffers: &mut Buffers) {
        // Untimed, so that the first contestant finds the block as near as the second does.
        self.by_one_call(buffers);
        let block = seconds(1, || assert!(self.by_one_call(buffers) > 0));
        let singles = seconds(1, || assert!(self.by_single_calls(buffers) > 0));
        self.rounds.push([block, singles]);
    }

    /// The row of the table.
    fn row(&self) -> String {
        let time = |contestant: usize| {
            to_digits(3, 1e3 * median(self.rounds.iter().map(|times| times[contestant]).collect()))
        };
        let (block, singles) = (time(0), time(1));
        let names = [
            PLANES[self.plane as usize],
            KERNELS[self.setting.kernel as usize].0,
            BORDERS[self.setting.border as usize],
        ];
        let times = [block, singles].map(|time| format!("{} ms", figure(3, time)));
        table_row(&[&names.map(str::to_string)[..], &times[..], &[figure(2, block / singles)]].concat())
    }
}

/// Measures every plane with every kernel under both borders, and prints the table.
pub fn measure(rounds: usize) {
    let mut buffers = Buffers::new();
    let mut cases: Vec<Case> = (0..18).map(|i| Case::new(i / 6, i / 2 % 3, i % 2)).collect();
    cases.iter().for_each(|case| case.check(&mut buffers));
    for _ in 0..rounds {
        cases.iter_mut().for_each(|case| case.round(&mut buffers));
    }
    println!(
        "\nA block of {SIDE} by {SIDE} by {SIDE} at step {STEP}: one call, and a single call for each slice, which is copied \
         out of the block and back.\n"
    );
    println!("{}", table_head(&["Plane", "Kernel", "Border", "Block", "Single calls", "Of single calls"]));
    cases.iter().for_each(|case| println!("{}", case.row()));
}
