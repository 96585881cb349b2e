//! Results against exact fractions, under both borders: demand 3 for every size from 1 by 1 to 9 by 9, moved
//! lines of up to 27 places, and spline coefficients.
//!
//! `cargo test --test exact_limits -- --nocapture` prints the largest distance found for each kernel and border.

use conformance::calls::{LineCall, PictureCall};
use conformance::numbers::Numbers;
use conformance::{for_both_implementations, Implementation};
use reference::exact::{self, Fractions, Whole};
use reference::second::{self, Border, Setting};

for_both_implementations!(
    every_sample_within_its_limit,
    one_grey_is_exact,
    one_grey_on_another_background_is_not,
    whole_sample_moves_are_exact,
    every_moved_line_within_its_limit,
    every_line_moved_on_background_within_its_limit,
);

/// The kernels by number.
const KERNELS: [&str; 3] = ["linear", "Keys", "cubic spline"];

/// Pictures for each size, kernel and border whose distance is taken.
const PICTURES: usize = 12;

/// Every size from 1 by 1 to 9 by 9: between background samples on each side, 9 samples have 27 places.
fn sizes() -> impl Iterator<Item = (usize, usize)> {
    (0..81).map(|i| (1 + i % 9, 1 + i / 9))
}

/// Every size with each kernel, wrapped and on a background.
fn cases(numbers: &mut Numbers) -> Vec<(usize, usize, u32, Border)> {
    let mut cases = Vec::new();
    for (width, height) in sizes() {
        for kernel in 0..3 {
            cases.push((width, height, kernel, Border::Wrapped));
            cases.push((width, height, kernel, Border::Background(numbers.edgy(32_767))));
        }
    }
    cases
}

/// The straightened picture of an accepted call, and its exact picture.
fn straightened(implementation: &dyn Implementation, call: &PictureCall) -> (Vec<i32>, Fractions) {
    let outcome = call.run(implementation);
    assert_eq!(outcome.answer.number, 0, "{call:?}");
    let exact = exact::picture(call.size.0, call.size.1, call.setting, &call.picture);
    (outcome.result, exact)
}

/// The largest distance found over pictures of every size, for a kernel and either border.
fn largest_distance(
    implementation: &dyn Implementation,
    numbers: &mut Numbers,
    kernel: u32,
    on_background: bool,
) -> f64 {
    let mut largest = 0.0_f64;
    for (width, height) in sizes() {
        for _ in 0..PICTURES {
            let value = numbers.edgy(32_767);
            let border = if on_background { Border::Background(value) } else { Border::Wrapped };
            let setting = numbers.setting(kernel, width, height).with_border(border);
            let samples = numbers.samples(width * height, 32_767);
            let call = PictureCall::fitting((width, height), setting, samples);
            let (result, exact) = straightened(implementation, &call);
            assert!(exact::within_limits(kernel, &result, &exact), "beyond its limit: {call:?}");
            largest = largest.max(exact::largest_distance(&result, &exact));
        }
    }
    largest
}

fn every_sample_within_its_limit(implementation: &dyn Implementation) {
    let mut numbers = Numbers::seeded(11);
    for (kernel, (most, over)) in (0..).zip(exact::LIMITS) {
        for on_background in [false, true] {
            let largest = largest_distance(implementation, &mut numbers, kernel, on_background);
            let (limit, border) =
                (most as f64 / over as f64, if on_background { "background" } else { "wrapped" });
            println!("{}, {border}: at most {largest:.4} of {limit} units", KERNELS[kernel as usize]);
            assert!(largest > 0.5 && largest <= limit, "{largest} of {limit}");
        }
    }
}

fn one_grey_is_exact(implementation: &dyn Implementation) {
    let mut numbers = Numbers::seeded(12);
    for (width, height, kernel, border) in cases(&mut numbers) {
        let grey = if let Border::Background(value) = border { value } else { numbers.edgy(32_767) };
        let setting = numbers.setting(kernel, width, height).with_border(border);
        let call = PictureCall::fitting((width, height), setting, vec![grey; width * height]);
        let (result, exact) = straightened(implementation, &call);
        assert!(exact::equal(&result, &exact), "not exact: {call:?}");
        assert_eq!(result, vec![grey; width * height], "the grey changed: {call:?}");
    }
}

fn one_grey_on_another_background_is_not(implementation: &dyn Implementation) {
    for kernel in 0..3 {
        let sheared = Setting { kernel, cx: 2, cy: 2, a: 1_234, b: -987, border: Border::Background(0) };
        let call = PictureCall::fitting((5, 5), sheared, vec![9_999; 25]);
        let (result, exact) = straightened(implementation, &call);
        assert!(result.iter().any(|&v| v != result[0]), "all equal: {call:?}");
        assert!(!exact::equal(&result, &exact), "rounded nowhere: {call:?}");
        assert!(exact::within_limits(kernel, &result, &exact), "beyond its limit: {call:?}");
    }
}

fn whole_sample_moves_are_exact(implementation: &dyn Implementation) {
    let mut numbers = Numbers::seeded(13);
    for (width, height, kernel, border) in cases(&mut numbers) {
        let whole = [-4_096, 0, 4_096];
        let mut setting = numbers.setting(kernel, width, height).with_border(border);
        // With one row, or one column, every shear moves it by no sample at all.
        setting.a = if height == 1 { setting.a } else { numbers.one_of(&whole) };
        setting.b = if width == 1 { setting.b } else { numbers.one_of(&whole) };
        let call = PictureCall::fitting((width, height), setting, numbers.samples(width * height, 32_767));
        assert_eq!(call.run(implementation).answer.count, 0);
        let (result, exact) = straightened(implementation, &call);
        assert!(exact::equal(&result, &exact), "not exact: {call:?}");
    }
}

/// A line of whole numbers as fractions.
fn fractions(line: &[i32]) -> Fractions {
    Fractions { numbers: line.iter().map(|&v| Whole::from(i64::from(v))).collect(), over: Whole::from(1) }
}

/// Holds a moved line to its exact fractions.
fn assert_line_within_its_limit(implementation: &dyn Implementation, call: &LineCall) {
    let outcome = call.run(implementation);
    assert_eq!(outcome.answer.number, 0, "{call:?}");
    let exact = exact::moved_in(call.border, call.kernel, i64::from(call.d), &fractions(&call.line));
    assert!(exact::line_within_limits(call.kernel, &outcome.result, &exact), "beyond its limit: {call:?}");
}

// The library hands out no coefficients; what shows of them is the spline's moved line, which is held
// here to 1/2 unit for its one rounding and 1/4 for coefficients within 4 of 16 times the exact ones.
fn every_moved_line_within_its_limit(implementation: &dyn Implementation) {
    let mut numbers = Numbers::seeded(15);
    for n in (1..=exact::LONGEST).cycle().take(40 * exact::LONGEST) {
        for kernel in 0..3 {
            let (d, line) = (numbers.edgy(4_194_304), numbers.samples(n, 294_912));
            assert_line_within_its_limit(implementation, &LineCall::fitting(kernel, d, line));
        }
    }
}

fn every_line_moved_on_background_within_its_limit(implementation: &dyn Implementation) {
    let mut numbers = Numbers::seeded(16);
    for n in (1..=exact::LONGEST / 3).cycle().take(100 * (exact::LONGEST / 3)) {
        for kernel in 0..3 {
            let (d, line) = (numbers.edgy(4_096 * n as i32), numbers.samples(n, 294_912));
            let border = Border::Background(numbers.edgy(32_767));
            let call = LineCall::fitting(kernel, d, line).with_border(border);
            assert_line_within_its_limit(implementation, &call);
        }
    }
}

#[test]
fn the_second_implementations_coefficients_are_within_4_of_16_times_the_exact_ones() {
    let mut numbers = Numbers::seeded(14);
    for n in (1..=exact::LONGEST).cycle().take(30 * exact::LONGEST) {
        let line = numbers.samples(n, 294_912);
        let exact = exact::coefficients(&fractions(&line));
        let most = exact.over.times(4);
        for (c, number) in second::coefficients(&line).into_iter().zip(&exact.numbers) {
            let off = exact.over.times(c).minus(&number.times(16));
            assert!(off.magnitude_at_most(&most), "a coefficient of {line:?}");
        }
    }
}

#[test]
fn unturned_and_flat_pictures_are_beyond_the_limits() {
    let setting = Setting { kernel: 2, cx: 2, cy: 2, a: -80, b: 160, ..Setting::default() };
    let samples: Vec<i32> = (0..25).map(|place| if place % 5 == 0 { 32_000 } else { 0 }).collect();
    let exact = exact::picture(5, 5, setting, &samples);
    assert!(!exact::within_limits(2, &samples, &exact), "handed back unturned");
    assert!(!exact::within_limits(2, &[6_400; 25], &exact), "a flat grey");
}
