//! One line moved, and the spline coefficients.

use super::border::{interpolated, judge_border, moved_in, Border};
use super::{judge_samples, judge_size, refuse_if, Refused, Told};

/// Moves and shears are counted in 4,096ths.
pub const D: i64 = 4_096;

/// The largest move of a line, in 4,096ths of a sample.
pub(super) const LARGEST_MOVE: i32 = 4_194_304;

/// The largest sample of a line, in units of 1/128 grey.
pub(super) const LARGEST_LINE_SAMPLE: i32 = 294_912;

/// The number of the cubic spline kernel.
pub(super) const SPLINE: u32 = 2;

/// For each kernel a row (a, b, c, e) for each of the places k+q-1, k+q, k+q+1, k+q+2.
const ROWS: [[[i64; 4]; 4]; 3] = [
    [[0, 0, 0, 0], [1, -1, 0, 0], [0, 1, 0, 0], [0, 0, 0, 0]],
    [[0, -1, 2, -1], [2, 0, -5, 3], [0, 1, 4, -3], [0, 0, -1, 1]],
    [[1, -3, 3, -1], [4, 0, -6, 3], [1, 3, 3, -3], [0, 0, 0, 1]],
];

/// Each kernel's n: its weights stand over n times D cubed.
pub(super) const OVER: [i64; 3] = [1, 2, 6];

/// The whole number nearest (2 - sqrt 3) times 2 to the 30th.
const P: i64 = 287_708_255;

/// What P stands over.
const P_OVER: i64 = 1 << 30;

/// Places that a recursion runs before the first one that counts.
const RUN_IN: i64 = 24;

/// p/r to the nearest whole number, halves upward.
pub fn rounded(p: i64, r: i64) -> i64 {
    (2 * p + r).div_euclid(2 * r)
}

/// The same for an even r: the spline's sum takes 63 bits, so it is not doubled.
fn rounded_over_even(p: i64, r: i64) -> i64 {
    (p + r / 2).div_euclid(r)
}

/// The fraction f, 0 to 4,095, and the whole part q of a move by d.
pub fn fraction(d: i64) -> (i64, i64) {
    let f = (-d).rem_euclid(D);
    (f, (-d - f) / D)
}

/// The four weights of a kernel at the fraction f, over n times D cubed.
pub fn weights(kernel: u32, f: i64) -> [i64; 4] {
    ROWS[kernel as usize].map(|[a, b, c, e]| a * D * D * D + b * f * D * D + c * f * f * D + e * f * f * f)
}

/// The spline coefficients of a line, each about 16 times the exact one.
pub fn coefficients(line: &[i32]) -> Vec<i64> {
    let n = line.len() as i64;
    let cyclic = |k: i64| k.rem_euclid(n) as usize;
    let mut u = vec![0; line.len()];
    let mut last = 0;
    for k in -RUN_IN..n {
        last = 16 * i64::from(line[cyclic(k)]) - rounded(P * last, P_OVER);
        if k >= 0 {
            u[k as usize] = last;
        }
    }
    let mut c = vec![0; line.len()];
    let mut next = 0;
    for k in (0..n + RUN_IN).rev() {
        next = u[cyclic(k)] - rounded(P * next, P_OVER);
        if k < n {
            c[k as usize] = rounded(6 * P * next, P_OVER);
        }
    }
    c
}

/// The line moved by d/4,096 samples toward higher places, wrapped, for a kernel and a d within their ranges.
pub(super) fn moved(kernel: u32, d: i64, line: &[i32]) -> Vec<i32> {
    let n = line.len() as i64;
    let (f, q) = fraction(d);
    let weights = weights(kernel, f);
    let over = OVER[kernel as usize] * D * D * D;
    let (source, divisor) = if kernel == SPLINE {
        (coefficients(line), 16 * over)
    } else {
        (line.iter().map(|&sample| i64::from(sample)).collect(), over)
    };
    let mut result = vec![0; line.len()];
    for k in 0..n {
        let mut sum = 0;
        for (i, weight) in (-1..).zip(weights) {
            sum += weight * source[(k + q + i).rem_euclid(n) as usize];
        }
        result[k as usize] = rounded_over_even(sum, divisor) as i32;
    }
    result
}

/// The work places of a line of n samples, or 0 where number 1 applies to its length.
pub fn line_work_places(n: usize) -> usize {
    match judge_size(n) {
        Ok(()) => 6 * n,
        Err(_) => 0,
    }
}

/// Moves the first n samples of a line into the first n places of `result`, and sets the first 6n
/// places of `work` to 0; counts 1 if the line was interpolated and 0 if it was not, and tells the smallest
/// and the largest output sample.
pub fn move_line(
    n: usize,
    kernel: u32,
    d: i32,
    border: Border,
    line: &[i32],
    result: &mut [i32],
    work: &mut [i32],
) -> Result<Told, Refused> {
    judge_size(n)?;
    refuse_if(line.len() < n || result.len() < n || work.len() < line_work_places(n), 2)?;
    refuse_if(!(-LARGEST_MOVE..=LARGEST_MOVE).contains(&d), 4)?;
    refuse_if(kernel > SPLINE, 5)?;
    judge_border(border)?;
    judge_samples(n, 1, line, LARGEST_LINE_SAMPLE)?;
    let output = moved_in(border, kernel, i64::from(d), &line[..n]);
    result[..n].copy_from_slice(&output);
    work[..line_work_places(n)].fill(0);
    let count = u32::from(interpolated(border, n, i64::from(d)));
    Ok(Told::over(count, [&output[..]].into_iter()))
}

#[cfg(test)]
mod tests {
    use super::*;

    #[test]
    fn halves_round_upward() {
        let halves = [(-3, -1), (-1, 0), (1, 1), (3, 2)];
        assert!(halves
            .iter()
            .all(|&(p, nearest)| rounded(p, 2) == nearest && rounded_over_even(p, 2) == nearest));
        assert_eq!((rounded(-4, 3), rounded(4, 3), rounded(-5, 3), rounded(5, 3)), (-1, 1, -2, 2));
    }

    #[test]
    fn the_undoubled_rounding_is_the_documents() {
        let r = 16 * 6 * D * D * D;
        for p in
            [0, 1, r / 2 - 1, r / 2, r / 2 + 1, 5_800_000_000_000_000_000].into_iter().flat_map(|p| [p, -p])
        {
            let (p_wide, r_wide) = (i128::from(p), i128::from(r));
            assert_eq!(i128::from(rounded_over_even(p, r)), (2 * p_wide + r_wide).div_euclid(2 * r_wide));
        }
    }

    #[test]
    fn weights_sum_to_their_divisor() {
        for kernel in 0..3 {
            for f in 0..D {
                assert_eq!(weights(kernel, f).iter().sum::<i64>(), OVER[kernel as usize] * D * D * D);
            }
        }
    }
}
