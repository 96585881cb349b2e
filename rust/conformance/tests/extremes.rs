//! The smallest and the largest output sample of a moved line and of a straightened picture.
//!
//! Every call that the tests make through `calls` is held to the samples that it wrote, and to 0 where it is
//! refused; here stand examples by hand, and what a wrong answer would most likely be.

use conformance::calls::{LineCall, PictureCall};
use conformance::numbers::Numbers;
use conformance::{for_both_implementations, Extremes, Implementation};
use reference::second::{Border, Setting};

for_both_implementations!(
    overshoot_beside_a_steep_edge,
    samples_on_one_side_of_0,
    later_places_are_not_looked_at,
    passes_1_and_2_do_not_count,
    whole_sample_moves_keep_them,
    background_counts_where_it_comes_in,
    a_refusal_after_an_accepted_call_returns_0,
    they_agree_with_the_summary,
);

fn extremes(smallest: i32, largest: i32) -> Extremes {
    Extremes { smallest, largest }
}

/// Moved by half a sample, an edge from 1,000 to 9,000 units overshoots by a sixteenth of itself under Keys, by
/// more under the spline and not at all under linear.
fn overshoot_beside_a_steep_edge(implementation: &dyn Implementation) {
    let edge = vec![1_000, 1_000, 1_000, 9_000, 9_000, 9_000];
    let moved = |kernel| LineCall::fitting(kernel, 2_048, edge.clone()).run(implementation);
    assert_eq!(moved(0).extremes, extremes(1_000, 9_000));
    assert_eq!(moved(1).result, [5_000, 500, 500, 5_000, 9_500, 9_500]);
    assert_eq!(moved(1).extremes, extremes(500, 9_500));
    let spline = moved(2).extremes;
    assert!(spline.smallest < 500 && spline.largest > 9_500, "the spline overshoots further: {spline:?}");
}

fn samples_on_one_side_of_0(implementation: &dyn Implementation) {
    for (line, expected) in [([5, 9, 6], extremes(5, 9)), ([-5, -9, -6], extremes(-9, -5))] {
        assert_eq!(LineCall::fitting(2, 4_096, line.to_vec()).run(implementation).extremes, expected);
        let call = PictureCall::fitting((3, 1), Setting::default(), line.to_vec());
        assert_eq!(call.run(implementation).extremes, expected);
    }
}

fn later_places_are_not_looked_at(implementation: &dyn Implementation) {
    let line = LineCall { n: 2, result_length: 7, ..LineCall::fitting(0, 0, vec![3, 4, i32::MIN]) };
    assert_eq!(line.run(implementation).extremes, extremes(3, 4));
    let picture = vec![3, 4, i32::MAX, i32::MIN];
    let picture =
        PictureCall { result_length: 9, ..PictureCall::fitting((2, 1), Setting::default(), picture) };
    assert_eq!(picture.run(implementation).extremes, extremes(3, 4));
}

/// Pass 1 leaves the picture's 9,000, and pass 3 does not; of the result the smallest sample stands in row 0 and
/// the largest in row 1.
fn passes_1_and_2_do_not_count(implementation: &dyn Implementation) {
    let setting = Setting::default().with_kernel(1).with_centre(2, 1).with_shears(1_000, -2_048);
    let call = PictureCall::fitting((3, 2), setting, vec![1_000, 4_000, 2_000, 3_000, 9_000, 5_000]);
    let outcome = call.run(implementation);
    assert_eq!(outcome.result, [3_880, 5_676, 1_459, 1_566, 6_419, 5_000]);
    assert_eq!(outcome.extremes, extremes(1_459, 6_419));
}

fn whole_sample_moves_keep_them(implementation: &dyn Implementation) {
    let mut numbers = Numbers::seeded(6);
    for kernel in 0..3 {
        let line = numbers.samples(50, 294_912);
        for d in [0, 4_096, -13 * 4_096, 4_194_304] {
            let moved = LineCall::fitting(kernel, d, line.clone()).run(implementation);
            assert_eq!(moved.extremes, Extremes::of(&line), "kernel {kernel}, d = {d}");
        }
    }
}

fn background_counts_where_it_comes_in(implementation: &dyn Implementation) {
    let moved = |d, border| LineCall::fitting(0, d, vec![7, 8, 9]).with_border(border).run(implementation);
    let dark = Border::Background(-32_767);
    assert_eq!(moved(4_096, dark).extremes, extremes(-32_767, 8));
    assert_eq!(moved(3 * 4_096, dark).extremes, extremes(-32_767, -32_767));
    assert_eq!(moved(0, dark).extremes, extremes(7, 9));
    assert_eq!(moved(4_096, Border::Wrapped).extremes, extremes(7, 9));
}

fn a_refusal_after_an_accepted_call_returns_0(implementation: &dyn Implementation) {
    let line = LineCall::fitting(1, 2_048, vec![100, 200, 300]);
    let picture = PictureCall::fitting((3, 1), Setting::default(), vec![100, 200, 300]);
    for _ in 0..2 {
        assert_ne!(line.run(implementation).extremes, Extremes::default());
        let refused = LineCall { line: vec![100, 200, 294_913], ..line.clone() }.run(implementation);
        assert_eq!((refused.answer.number, refused.extremes), (6, Extremes::default()));
        assert_eq!(picture.run(implementation).extremes, extremes(100, 300));
        let refused = PictureCall { work_length: 35, ..picture.clone() }.run(implementation);
        assert_eq!((refused.answer.number, refused.extremes), (2, Extremes::default()));
    }
}

/// The summary of a result is its smallest and its largest sample over 128.
fn they_agree_with_the_summary(implementation: &dyn Implementation) {
    let mut numbers = Numbers::seeded(66);
    for _ in 0..200 {
        let size = (1 + numbers.below(12), 1 + numbers.below(12));
        let (kernel, samples) = (numbers.below(3) as u32, numbers.samples(size.0 * size.1, 32_767));
        let setting = numbers.setting(kernel, size.0, size.1);
        let outcome = PictureCall::fitting(size, setting, samples).run(implementation);
        let (answer, darkest, lightest) = implementation.summary(size, &outcome.result);
        assert_eq!((outcome.answer.number, answer.number), (0, 0));
        let units = |bits| (128.0 * f64::from(f32::from_bits(bits))) as i32;
        assert_eq!(outcome.extremes, extremes(units(darkest), units(lightest)), "{size:?} {setting:?}");
    }
}
