//! What made one sample of a moved line.

use super::line::{
    coefficients, fraction, line_work_places, weights, D, LARGEST_LINE_SAMPLE, LARGEST_MOVE, OVER, SPLINE,
};
use super::{judge_samples, judge_size, refuse_if, Refused};

/// The parts of a sample; all are 0 where the call is refused.
#[derive(Clone, Copy, Debug, Default, PartialEq, Eq)]
pub struct Parts {
    /// The four source places.
    pub places: [usize; 4],
    /// The four weights.
    pub weights: [i64; 4],
    /// The four samples or coefficients weighed.
    pub values: [i32; 4],
    /// The divisor.
    pub divisor: i64,
    /// The rounded quotient.
    pub quotient: i32,
}

/// The parts of place k of a wrapped line of n samples, moved by d/4,096 samples; sets the first 6n places of `work`
/// to 0.
pub fn explain(
    n: usize,
    kernel: u32,
    d: i32,
    k: usize,
    line: &[i32],
    work: &mut [i32],
) -> Result<Parts, Refused> {
    judge_size(n)?;
    refuse_if(line.len() < n || work.len() < line_work_places(n), 2)?;
    refuse_if(!(-LARGEST_MOVE..=LARGEST_MOVE).contains(&d), 4)?;
    refuse_if(kernel > SPLINE, 5)?;
    refuse_if(k >= n, 7)?;
    judge_samples(n, 1, line, LARGEST_LINE_SAMPLE)?;
    work[..line_work_places(n)].fill(0);
    let (f, q) = fraction(i64::from(d));
    let place = |i: i64| (k as i64 + q - 1 + i).rem_euclid(n as i64) as usize;
    let (places, weights) = ([0, 1, 2, 3].map(place), weights(kernel, f));
    let over = OVER[kernel as usize] * D * D * D;
    let (values, divisor) = if kernel == SPLINE {
        let c = coefficients(&line[..n]);
        (places.map(|place| c[place] as i32), 16 * over)
    } else {
        (places.map(|place| line[place]), over)
    };
    // The sum takes up to 63 bits, so its double takes more than 64.
    let sum: i128 = weights.iter().zip(values).map(|(&w, v)| i128::from(w) * i128::from(v)).sum();
    let quotient = (2 * sum + i128::from(divisor)).div_euclid(2 * i128::from(divisor)) as i32;
    Ok(Parts { places, weights, values, divisor, quotient })
}
