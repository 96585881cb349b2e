//! Size and work beforehand.

use super::border::{interpolated, Border};
use super::picture::{judge_setting, shift, work_places, Setting, LARGEST_SAMPLE};
use super::{judge_size, refuse_if, Refused};

/// What a straightening needs and does, and a bound on the size of any sample of its result.
#[derive(Clone, Copy, Debug, Default, PartialEq, Eq)]
pub struct Forecast {
    /// Work places needed.
    pub work: usize,
    /// Lines that will be interpolated.
    pub count: u32,
    /// No sample of the result is further from 0.
    pub bound: i32,
}

/// The figures, from width, height, setting and the largest sample size.
pub fn forecast(width: usize, height: usize, setting: Setting, largest: u32) -> Result<Forecast, Refused> {
    judge_size(width)?;
    judge_size(height)?;
    judge_setting(width, height, setting)?;
    refuse_if(largest > LARGEST_SAMPLE as u32, 6)?;
    let is_row = |&y: &usize| interpolated(setting.border, width, shift(setting.a, y, setting.cy));
    let is_column = |&x: &usize| interpolated(setting.border, height, shift(setting.b, x, setting.cx));
    let (rows, columns) = ((0..height).filter(is_row).count(), (0..width).filter(is_column).count());
    let size = match setting.border {
        Border::Wrapped => largest as i32,
        Border::Background(value) => value.abs().max(largest as i32),
    };
    let bound = match setting.kernel {
        0 => size,
        1 => (0..3).fold(size, |size, _| (5 * size + 2) / 4),
        _ => 27 * size,
    };
    Ok(Forecast { work: work_places(width, height), count: (2 * rows + columns) as u32, bound })
}
