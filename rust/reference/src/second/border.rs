//! What lies beyond the ends of a line, from document 02: the line again, or background.

use super::line::{fraction, moved, D};
use super::{refuse_if, Refused};

/// The largest background, in units of 1/128 grey.
const LARGEST_BACKGROUND: i32 = 32_767;

/// The border of a setting: wrapped, or background with its sample value.
#[derive(Clone, Copy, Debug, Default, PartialEq, Eq)]
pub enum Border {
    /// Indices are taken modulo the line's length.
    #[default]
    Wrapped,
    /// Every sample beyond the ends has this value, in units of 1/128 grey.
    Background(i32),
}

/// Number 12: a background beyond plus or minus 32,767.
pub(super) fn judge_border(border: Border) -> Result<(), Refused> {
    match border {
        Border::Wrapped => Ok(()),
        Border::Background(value) => {
            refuse_if(!(-LARGEST_BACKGROUND..=LARGEST_BACKGROUND).contains(&value), 12)
        }
    }
}

/// Whether a line of n samples is moved by n samples or more, either way.
fn is_far(n: usize, d: i64) -> bool {
    d.abs() >= n as i64 * D
}

/// Whether a line of n samples that is moved by d counts as interpolated.
pub fn interpolated(border: Border, n: usize, d: i64) -> bool {
    let all_background = border != Border::Wrapped && is_far(n, d);
    fraction(d).0 != 0 && !all_background
}

/// The line moved by d/4,096 samples with the edges of a border, for a kernel and a d within their ranges.
pub(super) fn moved_in(border: Border, kernel: u32, d: i64, line: &[i32]) -> Vec<i32> {
    let n = line.len();
    match border {
        Border::Wrapped => moved(kernel, d, line),
        Border::Background(value) if is_far(n, d) => vec![value; n],
        Border::Background(value) => {
            let side = vec![value; n];
            let longer = [&side[..], line, &side[..]].concat();
            moved(kernel, d, &longer)[n..2 * n].to_vec()
        }
    }
}
