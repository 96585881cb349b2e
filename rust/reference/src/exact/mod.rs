//! The exact picture of document 01, in fractions, with nothing rounded in any pass, under both borders of
//! document 02.
//!
//! Support for tests of small pictures: lines of at most [`LONGEST`] samples, or a third of that on
//! background. The weights here come from the published kernels as functions of distance, not from the
//! document's table of rows, so that the two check each other.

mod whole;

pub use whole::Whole;

use crate::second::{Border, Setting};
use std::sync::OnceLock;

/// The longest line whose cyclic system is solved: 9 samples between 9 of background on each side.
pub const LONGEST: usize = 27;

/// Distances are counted in 4,096ths of a sample.
const D: i64 = 4_096;

/// Whole numbers over one positive whole number: the samples of a picture or of a line.
#[derive(Clone, Debug)]
pub struct Fractions {
    /// The numbers E of the document, row by row.
    pub numbers: Vec<Whole>,
    /// The number Q of the document, above 0.
    pub over: Whole,
}

/// What a kernel's weights stand over: n times D cubed.
fn weights_over(kernel: u32) -> i64 {
    [1, 2, 6][kernel as usize] * D * D * D
}

/// n times D cubed times the kernel at a distance of t/4,096 samples, for t from 0 to 2 D.
fn kernel_at(kernel: u32, t: i64) -> i64 {
    let (near, square, cube) = (t < D, t * t, t * t * t);
    match (kernel, near) {
        // The triangle.
        (0, true) => (D - t) * D * D,
        (0, false) => 0,
        // Keys' cubic convolution with a = -1/2, twice.
        (1, true) => 3 * cube - 5 * square * D + 2 * D * D * D,
        (1, false) => -cube + 5 * square * D - 8 * t * D * D + 4 * D * D * D,
        // The cubic B-spline, six times.
        (_, true) => 3 * cube - 6 * square * D + 4 * D * D * D,
        (_, false) => (2 * D - t).pow(3),
    }
}

/// The exact solution g, over `det`, of g(k-1) + 4 g(k) + g(k+1) = 1 at k = 0 and 0 elsewhere, cyclically.
struct Impulse {
    g: Vec<i64>,
    det: i64,
}

/// The solution for n places, worked out once.
fn impulse(n: usize) -> &'static Impulse {
    static SOLVED: [OnceLock<Impulse>; LONGEST + 1] = [const { OnceLock::new() }; LONGEST + 1];
    assert!((1..=LONGEST).contains(&n), "exact lines have 1 to {LONGEST} places");
    SOLVED[n].get_or_init(|| solved(n))
}

/// Solves the cyclic system by elimination without fractions (Bareiss): every quotient is whole.
fn solved(n: usize) -> Impulse {
    let mut rows = vec![vec![0_i128; n + 1]; n];
    for (k, row) in rows.iter_mut().enumerate() {
        row[(k + n - 1) % n] += 1;
        row[k] += 4;
        row[(k + 1) % n] += 1;
    }
    rows[0][n] = 1;
    let mut last_pivot = 1;
    for p in 0..n {
        let pivot_row = rows[p].clone();
        for (_, row) in rows.iter_mut().enumerate().filter(|(k, _)| *k != p) {
            let factor = row[p];
            for (entry, pivot_entry) in row.iter_mut().zip(&pivot_row) {
                *entry = (*entry * pivot_row[p] - factor * pivot_entry) / last_pivot;
            }
        }
        last_pivot = pivot_row[p];
    }
    // The last pivot is the determinant, and row k now reads det * g(k) = its last entry.
    Impulse { g: rows.iter().map(|row| row[n] as i64).collect(), det: last_pivot as i64 }
}

/// The exact spline coefficients of a line: c(k-1) + 4 c(k) + c(k+1) = 6 s(k), cyclically.
pub fn coefficients(line: &Fractions) -> Fractions {
    let n = line.numbers.len();
    let Impulse { g, det } = impulse(n);
    let number = |k: usize| {
        let mut sum = Whole::zero();
        for (j, s) in line.numbers.iter().enumerate() {
            sum = sum.plus(&s.times(6 * g[(k + n - j) % n]));
        }
        sum
    };
    Fractions { numbers: (0..n).map(number).collect(), over: line.over.times(*det) }
}

/// What the numbers of a line stand over once it is moved, whatever the move.
fn over_once_moved(kernel: u32, line: &Fractions) -> Whole {
    let det = if kernel == 2 { impulse(line.numbers.len()).det } else { 1 };
    line.over.times(det).times(weights_over(kernel))
}

/// The line moved by d/4,096 samples with wrapping, unrounded.
pub fn moved(kernel: u32, d: i64, line: &Fractions) -> Fractions {
    let n = line.numbers.len() as i64;
    let source = if kernel == 2 { coefficients(line) } else { line.clone() };
    let number = |k: i64| {
        let mut sum = Whole::zero();
        // Output k lies at k - d/4,096; only places less than two samples away count.
        let at = k * D - d;
        for place in at.div_euclid(D) - 1..=at.div_euclid(D) + 2 {
            let weight = kernel_at(kernel, (place * D - at).abs());
            sum = sum.plus(&source.numbers[place.rem_euclid(n) as usize].times(weight));
        }
        sum
    };
    Fractions { numbers: (0..n).map(number).collect(), over: over_once_moved(kernel, line) }
}

/// The line moved by d/4,096 samples with the edges of a border, unrounded.
pub fn moved_in(border: Border, kernel: u32, d: i64, line: &Fractions) -> Fractions {
    match border {
        Border::Wrapped => moved(kernel, d, line),
        Border::Background(value) => moved_on_background(i64::from(value), kernel, d, line),
    }
}

/// The line moved on a background: all background where it moves by its length or more, else set between
/// as many background samples on each side, moved with wrapping, and the middle kept.
fn moved_on_background(value: i64, kernel: u32, d: i64, line: &Fractions) -> Fractions {
    let n = line.numbers.len();
    let side = vec![line.over.times(value); n];
    let longer = Fractions { numbers: [&side[..], &line.numbers, &side].concat(), over: line.over.clone() };
    if d.abs() >= n as i64 * D {
        // Over the same number as the other lines of its pass.
        let over = over_once_moved(kernel, &longer);
        return Fractions { numbers: vec![over.times(value); n], over };
    }
    let Fractions { numbers, over } = moved(kernel, d, &longer);
    Fractions { numbers: numbers[n..2 * n].to_vec(), over }
}

/// A pass over lines of `length` places that lie `along` apart and begin `across` apart.
struct Pass {
    lines: usize,
    across: usize,
    length: usize,
    along: usize,
    shear: i32,
    centre: usize,
}

/// Moves every line of a pass; all lines come to stand over the same whole number.
fn passed(border: Border, kernel: u32, pass: &Pass, picture: &Fractions) -> Fractions {
    let mut result = picture.clone();
    for y in 0..pass.lines {
        let place = |k: usize| y * pass.across + k * pass.along;
        let line = Fractions {
            numbers: (0..pass.length).map(|k| picture.numbers[place(k)].clone()).collect(),
            over: picture.over.clone(),
        };
        let d = i64::from(pass.shear) * (y as i64 - pass.centre as i64);
        let line = moved_in(border, kernel, d, &line);
        for (k, number) in line.numbers.into_iter().enumerate() {
            result.numbers[place(k)] = number;
        }
        result.over = line.over;
    }
    result
}

/// The exact picture of an accepted picture, from its samples and its setting alone.
pub fn picture(width: usize, height: usize, setting: Setting, samples: &[i32]) -> Fractions {
    let rows =
        Pass { lines: height, across: width, length: width, along: 1, shear: setting.a, centre: setting.cy };
    let columns =
        Pass { lines: width, across: 1, length: height, along: width, shear: setting.b, centre: setting.cx };
    let mut exact = Fractions {
        numbers: samples[..width * height].iter().map(|&v| Whole::from(i64::from(v))).collect(),
        over: Whole::from(1),
    };
    for pass in [&rows, &columns, &rows] {
        exact = passed(setting.border, setting.kernel, pass, &exact);
    }
    exact
}

/// Whether every sample lies within `most`/`times` units of its fraction.
fn within(result: &[i32], exact: &Fractions, most: i64, times: i64) -> bool {
    let most = exact.over.times(most);
    result.iter().zip(&exact.numbers).all(|(&v, number)| {
        let off = exact.over.times(i64::from(v)).minus(number).times(times);
        off.magnitude_at_most(&most)
    })
}

/// Demand 3's limit for each kernel, in units, as a whole number over another.
pub const LIMITS: [(i64, i64); 3] = [(3, 2), (2, 1), (10, 1)];

/// Whether every sample lies within demand 3's limit of the exact picture.
pub fn within_limits(kernel: u32, result: &[i32], exact: &Fractions) -> bool {
    let (most, times) = LIMITS[kernel as usize];
    within(result, exact, most, times)
}

/// The largest distance of a sample from its fraction in units, to the digits of a 64-bit float.
pub fn largest_distance(result: &[i32], exact: &Fractions) -> f64 {
    let distance = |(&v, number): (&i32, &Whole)| {
        let off = exact.over.times(i64::from(v)).minus(number);
        (off.to_float() / exact.over.to_float()).abs()
    };
    result.iter().zip(&exact.numbers).map(distance).fold(0.0, f64::max)
}

/// Whether every sample of a moved line is its fraction rounded once, to within 1/2 unit. Kernel 2 adds
/// 1/4: its weights are not negative, and each coefficient is within 4 of 16 times the exact one.
pub fn line_within_limits(kernel: u32, result: &[i32], exact: &Fractions) -> bool {
    let (most, times) = [(1, 2), (1, 2), (3, 4)][kernel as usize];
    within(result, exact, most, times)
}

/// Whether every sample equals the exact picture's fraction.
pub fn equal(result: &[i32], exact: &Fractions) -> bool {
    result.iter().zip(&exact.numbers).all(|(&v, number)| exact.over.times(i64::from(v)) == *number)
}

#[cfg(test)]
mod tests {
    use super::*;

    #[test]
    fn impulses_solve_the_cyclic_system() {
        for n in 1..=LONGEST {
            let &Impulse { ref g, det } = impulse(n);
            assert!(det > 0);
            for k in 0..n {
                let left = g[(k + n - 1) % n] + 4 * g[k] + g[(k + 1) % n];
                assert_eq!(left, if k == 0 { det } else { 0 }, "length {n}, place {k}");
            }
        }
    }

    #[test]
    fn published_kernels_give_the_documents_weights() {
        for kernel in 0..3 {
            for f in 0..D {
                let published = [D + f, f, D - f, 2 * D - f].map(|t| kernel_at(kernel, t));
                assert_eq!(published, crate::second::weights(kernel, f), "kernel {kernel}, f = {f}");
            }
        }
    }

    #[test]
    fn a_wrong_sample_is_found() {
        let setting = Setting::default().with_shears(1_000, -500);
        let exact = picture(2, 2, setting, &[0, 100, 200, 300]);
        let setting_kept = Setting::default();
        assert!(equal(&[5, 6], &picture(2, 1, setting_kept, &[5, 6])));
        assert!(!equal(&[5, 7], &picture(2, 1, setting_kept, &[5, 6])));
        assert!(!within_limits(0, &[0, 100, 200, 300], &exact));
        assert!(largest_distance(&[0, 100, 200, 300], &exact) > 1.5);
        // 2/3 of a unit is more than one rounding, and less than a rounding and a quarter.
        let thirds = Fractions { numbers: vec![Whole::from(5)], over: Whole::from(3) };
        assert!([0, 1].iter().all(|&kernel| line_within_limits(kernel, &[2], &thirds)));
        assert!([0, 1].iter().all(|&kernel| !line_within_limits(kernel, &[1], &thirds)));
        assert!(line_within_limits(2, &[1], &thirds) && !line_within_limits(2, &[0], &thirds));
        assert_eq!(largest_distance(&[1], &thirds), 2.0 / 3.0);
    }

    #[test]
    fn a_line_on_background_by_hand() {
        let line = Fractions { numbers: vec![Whole::from(7), Whole::from(3)], over: Whole::from(2) };
        let on = |value: i32, d: i64| moved_in(Border::Background(value), 0, d, &line);
        // A quarter sample to the right: 1/4 of 5 and 3/4 of 7/2, then 1/4 of 7/2 and 3/4 of 3/2.
        let quarter = on(5, D / 4);
        let expected = [31, 16].map(|eighths| quarter.over.times(eighths));
        assert_eq!(quarter.numbers.iter().map(|number| number.times(8)).collect::<Vec<_>>(), expected);
        assert!(equal(&[5, 5], &on(5, 2 * D)) && equal(&[-5, -5], &on(-5, -2 * D)));
        assert!(!equal(&[5, 5], &on(5, 2 * D - 1)));
    }
}
