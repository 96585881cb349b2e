//! What made a sample: the parts that are shown, that they make the sample which the move writes, and which
//! number comes first.

use conformance::calls::{ExplainCall, LineCall};
use conformance::numbers::Numbers;
use conformance::{for_both_implementations, Answer, Implementation};
use reference::second::{self, Border, Parts};

for_both_implementations!(
    every_place_of_a_moved_line,
    the_longest_line,
    parts_add_up,
    whole_moves_take_one_sample,
    a_line_of_one_sample,
    samples_at_the_ends_of_their_range,
    explained_where_it_is_moved,
    a_line_on_background_as_the_middle_of_a_longer_one,
    places_at_their_edges,
    the_number_that_comes_first,
    buffers_one_place_too_short_and_longer,
);

/// The divisors of the kernels: D³, 2·D³ and 16·6·D³.
const DIVISORS: [i64; 3] = [1 << 36, 1 << 37, 96 << 36];

/// The parts of an explanation that is accepted.
fn parts(call: &ExplainCall, implementation: &dyn Implementation) -> Parts {
    let (answer, parts) = call.run(implementation);
    assert_eq!(answer, Answer::accepted(0), "{call:?}");
    parts
}

/// Holds every place of a line to the line as it is moved.
fn assert_every_place(kernel: u32, d: i32, line: &[i32], implementation: &dyn Implementation) {
    let call = |k| ExplainCall::fitting(kernel, d, k, line.to_vec());
    let moved = call(0).moved().run(implementation).result;
    for (k, &sample) in moved.iter().enumerate() {
        assert_eq!(parts(&call(k), implementation).quotient, sample, "place {k} of {line:?}, d = {d}");
    }
}

fn every_place_of_a_moved_line(implementation: &dyn Implementation) {
    let mut numbers = Numbers::seeded(110);
    for turn in 0..1_500 {
        let n = 1 + numbers.below(12);
        let (range, d) = (numbers.one_of(&[2, 500, 294_912]), numbers.edgy(4_194_304));
        assert_every_place(turn % 3, d, &numbers.samples(n, range), implementation);
    }
    // Every fraction of a sample, either way, under every kernel.
    let line = numbers.samples(3, 294_912);
    for d in -4_096..=4_096 {
        for kernel in 0..3 {
            assert_every_place(kernel, d, &line, implementation);
        }
    }
}

fn the_longest_line(implementation: &dyn Implementation) {
    let mut numbers = Numbers::seeded(111);
    for kernel in 0..3 {
        let (line, d) = (numbers.samples(1_024, 294_912), numbers.edgy(4_194_304));
        let moved = ExplainCall::fitting(kernel, d, 0, line.clone()).moved().run(implementation).result;
        for k in [0, 1, 511, 1_022, 1_023] {
            let call = ExplainCall::fitting(kernel, d, k, line.clone());
            assert_eq!(
                parts(&call, implementation).quotient,
                moved[k],
                "place {k}, kernel {kernel}, d = {d}"
            );
        }
    }
}

/// The parts by document 01, worked out here: places in a row, samples or coefficients, and the nearest quotient.
fn parts_add_up(implementation: &dyn Implementation) {
    let mut numbers = Numbers::seeded(112);
    for turn in 0..6_000 {
        let (kernel, n) = (turn % 3, 1 + numbers.below(9));
        let (k, d) = (numbers.below(n), numbers.edgy(4_194_304));
        let call = ExplainCall::fitting(kernel, d, k, numbers.samples(n, 294_912));
        let parts = parts(&call, implementation);
        // Place 1 of the four lies as far before k as the line moves: d + f is a multiple of 4,096.
        let f = (-d).rem_euclid(4_096);
        let own = (k as i32 - (d + f) / 4_096).rem_euclid(n as i32) as usize;
        assert_eq!(parts.places, [n - 1, 0, 1, 2].map(|i| (own + i) % n), "{call:?}");
        let source = match kernel {
            2 => second::coefficients(&call.line),
            _ => call.line.iter().map(|&sample| sample.into()).collect(),
        };
        assert_eq!(parts.values.map(i64::from), parts.places.map(|place| source[place]), "{call:?}");
        assert_eq!(parts.divisor, DIVISORS[kernel as usize], "{call:?}");
        let over = if kernel == 2 { parts.divisor / 16 } else { parts.divisor };
        assert_eq!(parts.weights.iter().sum::<i64>(), over, "{call:?}");
        let sum: i128 = (0..4).map(|i| i128::from(parts.weights[i]) * i128::from(parts.values[i])).sum();
        // The nearest, and of two as near the upper: the error is above -1/2 and at most 1/2.
        let error = 2 * (i128::from(parts.divisor) * i128::from(parts.quotient) - sum);
        assert!(-i128::from(parts.divisor) < error && error <= parts.divisor.into(), "{call:?}");
        assert!(i64::try_from(sum).is_ok(), "the sum takes more than 64 bits: {call:?}");
    }
}

/// Linear and Keys weigh the sample itself alone where a line moves by whole samples.
fn whole_moves_take_one_sample(implementation: &dyn Implementation) {
    for (kernel, weight) in [(0, 1 << 36), (1, 1 << 37)] {
        for (d, place) in [(0, 2), (4_096, 1), (-4_096, 3), (8_192, 0), (3 * 4_096, 3), (-4_194_304, 2)] {
            let call = ExplainCall::fitting(kernel, d, 2, vec![10, 20, 30, 40]);
            let parts = parts(&call, implementation);
            assert_eq!((parts.places[1], parts.weights), (place, [0, weight, 0, 0]), "{call:?}");
            assert_eq!(parts.quotient, call.line[place], "{call:?}");
        }
    }
}

fn a_line_of_one_sample(implementation: &dyn Implementation) {
    for kernel in 0..3 {
        for d in [0, 1, -2_048, 4_194_304] {
            let parts = parts(&ExplainCall::fitting(kernel, d, 0, vec![-7]), implementation);
            assert_eq!((parts.places, parts.quotient), ([0; 4], -7), "kernel {kernel}, d = {d}");
        }
    }
}

/// The largest sums: lines that alternate between the ends of the range.
fn samples_at_the_ends_of_their_range(implementation: &dyn Implementation) {
    for kernel in 0..3 {
        for n in [1, 2, 3, 4, 24, 25] {
            let line: Vec<i32> = (0..n).map(|k| if k % 2 == 0 { 294_912 } else { -294_912 }).collect();
            for d in [-2_048, 1, 2_047, 2_048, 4_095] {
                assert_every_place(kernel, d, &line, implementation);
            }
        }
    }
}

/// A place of a line has its explanation just where the line is moved, and is else refused under the same number.
fn explained_where_it_is_moved(implementation: &dyn Implementation) {
    let (mut numbers, mut beyond) = (Numbers::seeded(113), 0);
    for _ in 0..6_000 {
        let call = ExplainCall::hostile(&mut numbers);
        let (answer, parts) = call.run(implementation);
        let outcome = call.moved().run(implementation);
        let expected = match outcome.answer.number {
            0 | 6 if call.k >= call.n => Answer::refused(7),
            number => Answer::of(number, outcome.answer.row, outcome.answer.column, 0),
        };
        assert_eq!(answer, expected, "{call:?}");
        assert!(answer.number != 0 || parts.quotient == outcome.result[call.k], "{call:?}");
        beyond += usize::from(answer.number == 7);
    }
    assert!(beyond > 100, "{beyond} places beyond the line");
}

/// What README says of lines on background, up to the longest that has room for it.
fn a_line_on_background_as_the_middle_of_a_longer_one(implementation: &dyn Implementation) {
    let mut numbers = Numbers::seeded(114);
    for turn in 0..600 {
        let n = if turn < 3 { 341 } else { 1 + numbers.below(9) };
        let (line, d, b) =
            (numbers.samples(n, 294_912), numbers.edgy(4_096 * n as i32 - 1), numbers.edgy(32_767));
        let call = LineCall::fitting(turn % 3, d, line.clone()).with_border(Border::Background(b));
        let (moved, side) = (call.run(implementation).result, vec![b; n]);
        let longer = [&side[..], &line, &side].concat();
        for k in [0, n / 2, n - 1] {
            let explained = ExplainCall::fitting(turn % 3, d, n + k, longer.clone());
            assert_eq!(parts(&explained, implementation).quotient, moved[k], "place {k} of {call:?}");
        }
    }
}

fn places_at_their_edges(implementation: &dyn Implementation) {
    for n in [1, 2, 1_023, 1_024] {
        // The buffer has more places than the line.
        let call = |k| ExplainCall { n, ..ExplainCall::fitting(1, 700, k, vec![5; n + 3]) };
        assert_eq!(parts(&call(n - 1), implementation).quotient, 5);
        for k in [n, n + 1, n + 3, 1 << 32, usize::MAX] {
            assert_eq!(call(k).run(implementation).0, Answer::refused(7), "place {k} of {n}");
        }
    }
}

// The numbers in the order 1, 2, 4, 5, 7, 6, each with all that come after it.
fn the_number_that_comes_first(implementation: &dyn Implementation) {
    type Spoil = fn(&mut ExplainCall);
    let spoils: [(u32, Spoil); 6] = [
        (6, |call| call.line[2] = -294_913),
        (7, |call| call.k = 3),
        (5, |call| call.kernel = 3),
        (4, |call| call.d = 4_194_305),
        (2, |call| call.work_length = 17),
        (1, |call| call.n = 0),
    ];
    let mut call = ExplainCall::fitting(2, 700, 1, vec![1, 2, 3]);
    assert_eq!(call.run(implementation).0, Answer::accepted(0));
    for (number, spoil) in spoils {
        spoil(&mut call);
        let column = if number == 6 { 2 } else { 0 };
        assert_eq!(call.run(implementation).0, Answer::of(number, 0, column, 0));
    }
}

fn buffers_one_place_too_short_and_longer(implementation: &dyn Implementation) {
    for kernel in 0..3 {
        let good = ExplainCall::fitting(kernel, 700, 4, vec![9, 8, 7, 6, 5]);
        let told = good.run(implementation);
        assert_eq!(told.0, Answer::accepted(0));
        let short_line = ExplainCall { line: good.line[1..].to_vec(), ..good.clone() };
        let short_work = ExplainCall { work_length: 29, ..good.clone() };
        for call in [short_line, short_work] {
            assert_eq!(call.run(implementation).0, Answer::refused(2), "{call:?}");
        }
        // What stands past the line is neither judged nor weighed.
        let longer = [&good.line[..], &[i32::MAX, i32::MIN]].concat();
        let longer = ExplainCall { line: longer, work_length: 37, ..good.clone() };
        assert_eq!(longer.run(implementation), told, "{longer:?}");
    }
}
