//! What the kernels keep: under linear every output sample lies between the smallest and the largest of the
//! samples and the background; under linear and Keys a number that is added to all of them is added to every
//! output sample, as long as both calls are accepted, and under the spline nearly so.

use conformance::calls::{LineCall, Outcome, PictureCall};
use conformance::numbers::Numbers;
use conformance::{for_both_implementations, Answer, Extremes, Implementation};
use reference::second::{Border, Setting};
use std::fmt::Debug;

for_both_implementations!(
    linear_keeps_the_range_of_every_picture,
    linear_keeps_the_range_of_every_line,
    keys_and_the_spline_overshoot,
    the_background_is_one_of_the_samples,
    linear_and_keys_add_a_number_to_every_picture,
    linear_and_keys_add_a_number_to_every_line,
    the_spline_does_not_always_add_a_number,
    the_spline_adds_a_number_to_within_1_unit_of_a_line,
    the_spline_adds_a_number_to_within_13_units_of_a_picture,
    a_background_that_is_left_where_it_was,
    as_long_as_both_are_accepted,
);

/// How many pictures, and how many lines, each of the random tests takes.
const MANY: usize = 5_000;

/// Pictures that are accepted, under one kernel and both borders; some of up to 150 by 150, the others of up
/// to 12 by 12.
fn pictures(seed: u64, kernel: u32) -> impl Iterator<Item = PictureCall> {
    let mut numbers = Numbers::seeded(seed);
    (0..MANY).map(move |_| {
        let most = if numbers.once_in(100) { 150 } else { 12 };
        let size = (1 + numbers.below(most), 1 + numbers.below(most));
        let (range, setting) = (numbers.one_of(&[50, 32_767]), numbers.setting(kernel, size.0, size.1));
        PictureCall::fitting(size, setting, numbers.samples(size.0 * size.1, range))
    })
}

/// Lines that are accepted, under one kernel and both borders; some of up to 1,024 samples, the others of up to
/// 40.
fn lines(seed: u64, kernel: u32) -> impl Iterator<Item = LineCall> {
    let mut numbers = Numbers::seeded(seed);
    (0..MANY).map(move |_| {
        let most = if numbers.once_in(100) { 1_024 } else { 40 };
        let n = 1 + numbers.below(most);
        let (range, far) = (numbers.one_of(&[50, 294_912]), numbers.one_of(&[4_096 * n as i32, 4_194_304]));
        let (d, border) = (numbers.edgy(far), numbers.border());
        LineCall::fitting(kernel, d, numbers.samples(n, range)).with_border(border)
    })
}

#[test]
fn the_random_calls_are_of_both_borders_and_all_sizes() {
    let are_both = |wrapped: usize| (MANY / 3..MANY * 2 / 3).contains(&wrapped);
    assert!(are_both(pictures(125, 0).filter(|call| call.setting.border == Border::Wrapped).count()));
    assert!(are_both(lines(128, 0).filter(|call| call.border == Border::Wrapped).count()));
    let is_large = |call: PictureCall| call.size.0.min(call.size.1) > 100;
    let is_strip = |call: PictureCall| call.size.0.min(call.size.1) == 1 && call.picture.len() > 10;
    assert!(pictures(125, 0).any(is_large) && pictures(125, 0).any(is_strip));
    assert!(lines(128, 0).any(|call| call.n > 900) && lines(128, 0).any(|call| call.n == 1));
}

/// The smallest and the largest of the samples and the background.
fn range(samples: &[i32], border: Border) -> Extremes {
    match border {
        Border::Wrapped => Extremes::of(samples),
        Border::Background(value) => Extremes::of(&[samples, &[value]].concat()),
    }
}

/// Whether an accepted call left a sample, or told of one, beyond the range of what it was handed.
fn overshoots(outcome: &Outcome, samples: &[i32], border: Border) -> bool {
    assert_eq!(outcome.answer.number, 0, "the call is accepted");
    let range = range(samples, border);
    let is_beyond = |&v: &i32| v < range.smallest || v > range.largest;
    outcome.result.iter().any(is_beyond)
        || is_beyond(&outcome.extremes.smallest)
        || is_beyond(&outcome.extremes.largest)
}

fn linear_keeps_the_range_of_every_picture(implementation: &dyn Implementation) {
    for call in pictures(121, 0) {
        let outcome = call.run(implementation);
        assert!(!overshoots(&outcome, &call.picture, call.setting.border), "{call:?}");
    }
}

fn linear_keeps_the_range_of_every_line(implementation: &dyn Implementation) {
    for call in lines(122, 0) {
        assert!(!overshoots(&call.run(implementation), &call.line, call.border), "{call:?}");
    }
}

/// A line and a picture by hand for each, and many a random picture.
fn keys_and_the_spline_overshoot(implementation: &dyn Implementation) {
    let peak = LineCall::fitting(1, -2_048, vec![0, 0, 16, 0]).run(implementation);
    assert_eq!(peak.result, [-1, 9, 9, -1]);
    assert!(overshoots(&peak, &[0, 0, 16, 0], Border::Wrapped), "by 1, below");
    let dip = LineCall::fitting(1, -2_048, vec![16, 16, 0, 16]).run(implementation);
    assert_eq!(dip.result, [17, 7, 7, 17]);
    assert!(overshoots(&dip, &[16, 16, 0, 16], Border::Wrapped), "by 1, above");
    let edge = LineCall::fitting(2, 2_048, vec![0, 0, 100]).run(implementation);
    assert_eq!(edge.result, [62, -25, 62]);
    let halfway = |kernel: u32, column: &[i32]| {
        let setting = Setting::default().with_kernel(kernel).with_shears(0, -2_048);
        let picture = column.iter().flat_map(|&v| [0, v]).collect();
        PictureCall::fitting((2, column.len()), setting, picture).run(implementation).result
    };
    assert_eq!(halfway(1, &[0, 0, 16, 0]), [0, -1, 0, 9, 0, 9, 0, -1]);
    assert_eq!(halfway(2, &[0, 0, 100]), [0, -25, 0, 62, 0, 62]);
    for kernel in [1, 2] {
        let beyond = pictures(123, kernel)
            .filter(|call| overshoots(&call.run(implementation), &call.picture, call.setting.border));
        assert!(beyond.count() > MANY / 4, "kernel {kernel} overshoots in many pictures");
    }
}

fn the_background_is_one_of_the_samples(implementation: &dyn Implementation) {
    let (line, light) = (vec![0, 10], Border::Background(100));
    let outcome = LineCall::fitting(0, 2_048, line.clone()).with_border(light).run(implementation);
    assert_eq!(outcome.result, [50, 5]);
    assert!(!overshoots(&outcome, &line, light) && overshoots(&outcome, &line, Border::Wrapped));
}

/// What an outcome becomes where a number is added: to each sample and to both extremes, and nothing to the count.
fn raised(outcome: &Outcome, added: i32) -> Outcome {
    let Extremes { smallest, largest } = outcome.extremes;
    Outcome {
        extremes: Extremes { smallest: smallest + added, largest: largest + added },
        result: outcome.result.iter().map(|v| v + added).collect(),
        ..outcome.clone()
    }
}

/// Holds two calls to it: one that is accepted, and the same with a number added to all that it was handed.
fn assert_added(outcome: &Outcome, higher: &Outcome, added: i32, call: &dyn Debug) {
    assert_eq!(outcome.answer.number, 0, "{call:?}");
    assert_eq!(higher, &raised(outcome, added), "{added} added to {call:?}");
}

/// A number that can be added to all of a range without leaving ±`limit`, often the least or the greatest.
fn addable(numbers: &mut Numbers, range: Extremes, limit: i32) -> i32 {
    let (least, greatest) = (-limit - range.smallest, limit - range.largest);
    let any = least + numbers.below((greatest - least + 1) as usize) as i32;
    numbers.one_of(&[least, greatest, any, any])
}

/// A number to add to a picture that stays accepted.
fn addable_to_picture(numbers: &mut Numbers, call: &PictureCall) -> i32 {
    addable(numbers, range(&call.picture, call.setting.border), 32_767)
}

/// A number to add to a line that stays accepted: the background's range is narrower than that of the samples.
fn addable_to_line(numbers: &mut Numbers, call: &LineCall) -> i32 {
    let added = addable(numbers, Extremes::of(&call.line), 294_912);
    match call.border {
        Border::Wrapped => added,
        Border::Background(value) => added.clamp(-32_767 - value, 32_767 - value),
    }
}

fn linear_and_keys_add_a_number_to_every_picture(implementation: &dyn Implementation) {
    let (mut numbers, mut tried) = (Numbers::seeded(124), 0);
    for call in pictures(125, 0).chain(pictures(126, 1)) {
        let added = addable_to_picture(&mut numbers, &call);
        let higher = call.raised(added).run(implementation);
        assert_added(&call.run(implementation), &higher, added, &call);
        tried += usize::from(added != 0);
    }
    assert!(tried > MANY, "most numbers are not 0: {tried}");
}

fn linear_and_keys_add_a_number_to_every_line(implementation: &dyn Implementation) {
    let (mut numbers, mut tried) = (Numbers::seeded(127), 0);
    for call in lines(128, 0).chain(lines(129, 1)) {
        let added = addable_to_line(&mut numbers, &call);
        let higher = call.raised(added).run(implementation);
        assert_added(&call.run(implementation), &higher, added, &call);
        tried += usize::from(added != 0);
    }
    assert!(tried > MANY, "most numbers are not 0: {tried}");
}

/// Half-way between 5 and 0, and between 6 and 1: the rounding of the coefficients takes 5/2 down and 7/2 up.
fn the_spline_does_not_always_add_a_number(implementation: &dyn Implementation) {
    let call = LineCall::fitting(2, 2_048, vec![5, 0]);
    assert_eq!(call.run(implementation).result, [2, 2]);
    assert_eq!(call.raised(1).run(implementation).result, [4, 4]);
    let setting = Setting::default().with_kernel(2).with_shears(0, -2_048);
    let call = PictureCall::fitting((2, 2), setting, vec![0, 5, 0, 0]);
    assert_eq!(call.run(implementation).result, [0, 2, 0, 2]);
    assert_eq!(call.raised(1).run(implementation).result, [1, 4, 1, 4]);
}

/// How far at most the samples of the second of two accepted calls lie from those of the first with a number
/// added; their counts are the same.
fn off(outcome: &Outcome, higher: &Outcome, added: i32) -> i32 {
    assert_eq!([outcome.answer.number, higher.answer.number], [0; 2], "both are accepted");
    assert_eq!(outcome.answer.count, higher.answer.count);
    let samples = outcome.result.iter().zip(&higher.result);
    samples.map(|(sample, higher)| (higher - (sample + added)).abs()).max().expect("a sample")
}

fn the_spline_adds_a_number_to_within_1_unit_of_a_line(implementation: &dyn Implementation) {
    let mut numbers = Numbers::seeded(132);
    let differing = lines(133, 2).filter(|call| {
        let added = addable_to_line(&mut numbers, call);
        let off = off(&call.run(implementation), &call.raised(added).run(implementation), added);
        assert!(off <= 1, "{added} added to {call:?}");
        off == 1
    });
    assert!(differing.count() > MANY / 8, "many lines differ");
}

/// A picture by hand whose lower row rises by 3 where 1 is added, and many a random picture.
fn the_spline_adds_a_number_to_within_13_units_of_a_picture(implementation: &dyn Implementation) {
    let setting = Setting::default().with_kernel(2).with_shears(2_048, 2_048);
    let call = PictureCall::fitting((2, 2), setting, vec![7, 12, 9, 4]);
    assert_eq!(call.run(implementation).result, [7, 9, 7, 7]);
    assert_eq!(call.raised(1).run(implementation).result, [8, 11, 10, 10]);
    let mut numbers = Numbers::seeded(130);
    let differing = pictures(131, 2).filter(|call| {
        let added = addable_to_picture(&mut numbers, call);
        let off = off(&call.run(implementation), &call.raised(added).run(implementation), added);
        assert!(off <= 13, "{added} added to {call:?}");
        off > 0
    });
    assert!(differing.count() > MANY / 4, "many pictures differ");
}

fn a_background_that_is_left_where_it_was(implementation: &dyn Implementation) {
    let call = LineCall::fitting(0, 2_048, vec![0, 10]).with_border(Border::Background(100));
    assert_eq!(call.run(implementation).result, [50, 5]);
    assert_eq!(call.raised(10).run(implementation).result, [60, 15]);
    let left = call.raised(10).with_border(call.border);
    assert_eq!(left.run(implementation).result, [55, 15]);
}

/// A sample that is taken past its range, and a background, which is told first.
fn as_long_as_both_are_accepted(implementation: &dyn Implementation) {
    let setting = Setting::default().with_border(Border::Background(32_000));
    let call = PictureCall::fitting((2, 1), setting, vec![0, 32_766]);
    let answer = |added| call.raised(added).run(implementation).answer;
    assert_eq!([answer(0), answer(1)], [Answer::accepted(0); 2]);
    assert_eq!(answer(2), Answer::of(6, 0, 1, 0));
    assert_eq!(answer(768), Answer::refused(12));
}
