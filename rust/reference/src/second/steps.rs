//! Steps and levelling.

use super::line::{rounded, D};
use super::readings::LARGEST_READ_SAMPLE;
use super::{judge_samples, judge_size, refuse_if, Refused, Setting};

/// The largest step: 4,096 times the tangent of half of 45 degrees, rounded.
pub const LARGEST_STEP: i32 = 1_697;

/// The largest coordinate of a levelling point.
const LARGEST_COORDINATE: i32 = 1_023;

/// S(t): the whole number nearest 2 * 4,096^2 * t / (4,096^2 + t^2).
pub fn sine(t: i32) -> Result<i32, Refused> {
    refuse_if(!(-LARGEST_STEP..=LARGEST_STEP).contains(&t), 4)?;
    let t = i64::from(t);
    Ok(rounded(2 * D * D * t, D * D + t * t) as i32)
}

/// The setting with A = -t and B = S(t) and number 0, or the setting as it was and number 4.
pub fn with_step(setting: Setting, t: i32) -> (u32, Setting) {
    match sine(t) {
        Ok(value) => (0, setting.with_shears(-t, value)),
        Err(refused) => (refused.number, setting),
    }
}

/// The step that levels a graticule line through (x1, y1) and (x2, y2), found by trying each one.
pub fn level(x1: i32, y1: i32, x2: i32, y2: i32) -> Result<i32, Refused> {
    let outside = |coordinate: &i32| !(0..=LARGEST_COORDINATE).contains(coordinate);
    refuse_if([x1, y1, x2, y2].iter().any(outside), 7)?;
    let (dx, dy) = (i64::from(x2 - x1), i64::from(y2 - y1));
    refuse_if(dx < 1 || dy.abs() > dx, 8)?;
    let tilt_left = |t: i64| (8_192 * t * dx + (D * D - t * t) * dy).abs();
    let mut best = -LARGEST_STEP;
    for t in -LARGEST_STEP..=LARGEST_STEP {
        if tilt_left(i64::from(t)) < tilt_left(i64::from(best)) {
            best = t;
        }
    }
    Ok(best)
}

/// The step that levels a graticule line through (x1, y1) and (x2, y2), where in each of its columns the sample
/// in the row that document 02 names is not below the threshold.
pub fn level_checked(
    (width, height): (usize, usize),
    [x1, y1, x2, y2]: [i32; 4],
    threshold: i32,
    picture: &[i32],
) -> Result<i32, Refused> {
    judge_size(width)?;
    judge_size(height)?;
    refuse_if(picture.len() < width * height, 2)?;
    judge_samples(width, height, picture, LARGEST_READ_SAMPLE)?;
    let outside = |x: i32, y: i32| x < 0 || x >= width as i32 || y < 0 || y >= height as i32;
    refuse_if(outside(x1, y1) || outside(x2, y2), 7)?;
    let step = level(x1, y1, x2, y2)?;
    let (dx, dy) = (x2 - x1, y2 - y1);
    for x in x1..=x2 {
        let row = (2 * (y1 * dx + dy * (x - x1)) + dx).div_euclid(2 * dx) as usize;
        let column = x as usize;
        if picture[width * row + column] < threshold {
            return Err(Refused { number: 15, depth: 0, row, column });
        }
    }
    Ok(step)
}

#[cfg(test)]
mod tests {
    use super::*;

    #[test]
    fn no_tie_occurs_in_the_table() {
        for t in 0..=i64::from(LARGEST_STEP) {
            let (p, r) = (2 * D * D * t, D * D + t * t);
            assert_ne!((2 * p + r).rem_euclid(2 * r), 0, "a tie at t = {t}");
        }
    }

    #[test]
    fn the_table_is_odd() {
        assert!((0..=LARGEST_STEP).all(|t| sine(-t) == sine(t).map(|value| -value)));
    }
}
