//! Size and work beforehand: what a straightening takes and can leave, told before there is a picture.

use crate::raw;
use crate::refusal::{accepted, Refusal};
use crate::setting::Setting;

/// What every straightening of one size and setting takes and can leave, as [`forecast`] tells it.
#[derive(Clone, Copy, Debug, PartialEq, Eq, Hash)]
#[non_exhaustive]
pub struct Forecast {
    /// The places of work that it takes; with one place less it is refused with [`Refusal::Buffer`].
    pub work_places: usize,
    /// The number of lines that it interpolates.
    pub count: u32,
    /// Every sample of its result lies from -bound to bound.
    pub bound: i32,
}

/// Tells what [`straighten`](crate::straighten) and [`commit`](crate::commit) take and can leave with this size
/// and setting, before there is a picture: for programs that hand out memory and time.
///
/// `largest` is the largest size of a sample: those of the picture will lie from -`largest` to `largest`, which
/// is at most 32,767. The bound is `largest` with [`Kernel::Linear`](crate::Kernel::Linear), 27 times `largest`
/// with [`Kernel::Spline`](crate::Kernel::Spline), and with [`Kernel::Keys`](crate::Kernel::Keys) three times
/// over (5 times `largest` + 2) / 4, rounded down; where the background is further from 0 than `largest`, its
/// distance stands in the place of `largest`.
///
/// Every such straightening that is accepted answers just that count; of a picture whose samples lie from
/// -`largest` to `largest` it leaves no sample, and tells none, beyond the bound; and with just that work such a
/// picture is straightened, if picture and result have their places, and a ticket that size.
///
/// Refused with [`Refusal::Size`], [`Refusal::Centre`], [`Refusal::Shear`], [`Refusal::Background`] or
/// [`Refusal::Sample`], the first of them that applies; the last, with row and column 0, is of a `largest` over
/// 32,767.
///
/// ```
/// # fn main() -> Result<(), straightener::Refusal> {
/// use straightener::{forecast, Border, Kernel, Refusal, Setting};
///
/// let setting = Setting::new().with_kernel(Kernel::Keys).with_centre(320, 240).with_step(150)?;
/// let told = forecast(640, 480, setting, 32_640)?;
/// assert_eq!((told.work_places, told.count, told.bound), (7_680, 1_597, 63_750));
///
/// // A column that moves by its own length or more becomes all background, and is not interpolated.
/// let columns = Setting::new().with_shears(0, 4_095);
/// assert_eq!(forecast(640, 480, columns, 0)?.count, 639);
/// assert_eq!(forecast(640, 480, columns.with_border(Border::Background(0)), 0)?.count, 480);
///
/// assert_eq!(forecast(640, 480, setting, 32_768), Err(Refusal::Sample { row: 0, column: 0 }));
/// # Ok(())
/// # }
/// ```
pub fn forecast(width: usize, height: usize, setting: Setting, largest: u32) -> Result<Forecast, Refusal> {
    let raw::ForecastAnswer { number, row, column, work, count, bound } =
        raw::forecast(width, height, setting.into(), largest);
    accepted(number, row, column)?;
    Ok(Forecast { work_places: work, count, bound })
}
