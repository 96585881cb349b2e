//! The setting, and the three passes over a picture.

use super::border::{interpolated, judge_border, moved_in, Border};
use super::{judge_samples, judge_size, refuse_if, Refused, Told};

/// The largest shear, in 4,096ths.
const LARGEST_SHEAR: i32 = 4_096;

/// The largest sample of a picture that is straightened, in units of 1/128 grey.
pub(super) const LARGEST_SAMPLE: i32 = 32_767;

/// Kernel, centre, shears and border, as a caller fills them in.
#[derive(Clone, Copy, Debug, Default, PartialEq, Eq)]
pub struct Setting {
    /// 0 linear, 1 Keys, 2 cubic spline.
    pub kernel: u32,
    /// Column of the centre, below the width.
    pub cx: usize,
    /// Row of the centre, below the height.
    pub cy: usize,
    /// Shear of the rows, in 4,096ths.
    pub a: i32,
    /// Shear of the columns, in 4,096ths.
    pub b: i32,
    /// What lies beyond the ends of the rows and of the columns.
    pub border: Border,
}

impl Setting {
    /// This setting with another kernel.
    pub fn with_kernel(self, kernel: u32) -> Setting {
        Setting { kernel, ..self }
    }

    /// This setting with another centre.
    pub fn with_centre(self, cx: usize, cy: usize) -> Setting {
        Setting { cx, cy, ..self }
    }

    /// This setting with other shears.
    pub fn with_shears(self, a: i32, b: i32) -> Setting {
        Setting { a, b, ..self }
    }

    /// This setting with another border.
    pub fn with_border(self, border: Border) -> Setting {
        Setting { border, ..self }
    }
}

/// How far the line at `place` moves, in 4,096ths of a sample.
pub(super) fn shift(shear: i32, place: usize, centre: usize) -> i64 {
    i64::from(shear) * (place as i64 - centre as i64)
}

/// Passes 1 and 3: moves every row, and counts those interpolated.
fn rows_moved(width: usize, height: usize, setting: Setting, picture: &mut [i32]) -> u32 {
    let mut count = 0;
    for y in 0..height {
        let d = shift(setting.a, y, setting.cy);
        let row = &mut picture[y * width..(y + 1) * width];
        let result = moved_in(setting.border, setting.kernel, d, row);
        row.copy_from_slice(&result);
        count += u32::from(interpolated(setting.border, width, d));
    }
    count
}

/// Pass 2: moves every column, and counts those interpolated.
fn columns_moved(width: usize, height: usize, setting: Setting, picture: &mut [i32]) -> u32 {
    let mut count = 0;
    for x in 0..width {
        let d = shift(setting.b, x, setting.cx);
        let column: Vec<i32> = (0..height).map(|y| picture[y * width + x]).collect();
        for (y, sample) in moved_in(setting.border, setting.kernel, d, &column).into_iter().enumerate() {
            picture[y * width + x] = sample;
        }
        count += u32::from(interpolated(setting.border, height, d));
    }
    count
}

/// The three passes over a picture and a setting that no refusal number applies to.
pub fn passes(width: usize, height: usize, setting: Setting, picture: &mut [i32]) -> u32 {
    rows_moved(width, height, setting, picture)
        + columns_moved(width, height, setting, picture)
        + rows_moved(width, height, setting, picture)
}

/// The work places of a picture, or 0 where number 1 applies to its size.
pub fn work_places(width: usize, height: usize) -> usize {
    match judge_size(width).and(judge_size(height)) {
        Ok(()) => 12 * width.max(height),
        Err(_) => 0,
    }
}

/// Numbers 1 and 2: the size, and the places lent.
pub(super) fn judge_lent(
    width: usize,
    height: usize,
    picture: &[i32],
    result: &[i32],
    work: &[i32],
) -> Result<(), Refused> {
    judge_size(width)?;
    judge_size(height)?;
    let places = width * height;
    let short = picture.len() < places || result.len() < places || work.len() < work_places(width, height);
    refuse_if(short, 2)
}

/// Numbers 3, 4, 5 and 12: the setting, on a picture of that size.
pub(super) fn judge_setting(width: usize, height: usize, setting: Setting) -> Result<(), Refused> {
    refuse_if(setting.cx >= width || setting.cy >= height, 3)?;
    refuse_if(
        [setting.a, setting.b].iter().any(|shear| !(-LARGEST_SHEAR..=LARGEST_SHEAR).contains(shear)),
        4,
    )?;
    refuse_if(setting.kernel > 2, 5)?;
    judge_border(setting.border)
}

/// Straightens `picture` into the first width times height places of `result`, sets the first
/// 12 times max(width, height) places of `work` to 0, and tells the number of lines interpolated and the
/// smallest and the largest sample over the rows of pass 3.
pub fn straighten(
    width: usize,
    height: usize,
    setting: Setting,
    picture: &[i32],
    result: &mut [i32],
    work: &mut [i32],
) -> Result<Told, Refused> {
    judge_lent(width, height, picture, result, work)?;
    let (places, work_places) = (width * height, work_places(width, height));
    judge_setting(width, height, setting)?;
    judge_samples(width, height, picture, LARGEST_SAMPLE)?;
    result[..places].copy_from_slice(&picture[..places]);
    work[..work_places].fill(0);
    let count = passes(width, height, setting, &mut result[..places]);
    let rows_of_pass_3 = result[..places].chunks(width);
    Ok(Told::over(count, rows_of_pass_3))
}
