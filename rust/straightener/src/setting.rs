//! How a picture is straightened: kernel, centre, shears and border.

use crate::raw;
use crate::refusal::{accepted, Refusal};
use straightener_sys as sys;

/// How samples between places are weighed.
#[derive(Clone, Copy, Debug, Default, PartialEq, Eq, Hash)]
pub enum Kernel {
    /// The two nearest samples by distance: the fastest, the softest picture, and no overshoot.
    #[default]
    Linear,
    /// Keys' cubic convolution with a = -1/2, over four samples.
    Keys,
    /// The cubic spline through all samples of the line: the slowest, and the sharpest picture.
    Spline,
}

impl Kernel {
    /// The kernel's number, as the library takes it.
    pub(crate) fn number(self) -> u32 {
        match self {
            Kernel::Linear => sys::STRAIGHTENER_LINEAR,
            Kernel::Keys => sys::STRAIGHTENER_KEYS,
            Kernel::Spline => sys::STRAIGHTENER_SPLINE,
        }
    }
}

/// What lies beyond the ends of the lines that are moved.
#[derive(Clone, Copy, Debug, Default, PartialEq, Eq, Hash)]
pub enum Border {
    /// The line again: what leaves at one end comes in at the other, in the opposite corner.
    #[default]
    Wrapped,
    /// Background of one sample value, within plus or minus 32,767, 128 units to one grey.
    Background(i32),
}

impl Border {
    /// The border's number and the background's sample value, as the library takes them.
    pub(crate) fn numbers(self) -> (u32, i32) {
        match self {
            Border::Wrapped => (sys::STRAIGHTENER_WRAPPED, 0),
            Border::Background(value) => (sys::STRAIGHTENER_ON_BACKGROUND, value),
        }
    }
}

/// Kernel, centre, shears and border of a straightening.
///
/// Every change hands back a new setting with the rest kept. Values are tested where the setting is
/// used; only a change by step is tested at once.
///
/// ```
/// # fn main() -> Result<(), straightener::Refusal> {
/// use straightener::{Border, Kernel, Refusal, Setting};
///
/// let setting = Setting::new().with_kernel(Kernel::Keys).with_centre(320, 240).with_step(80)?;
/// assert_eq!(setting.shears(), (-80, 160));
/// assert_eq!(setting.centre(), (320, 240));
/// assert_eq!(setting.border(), Border::Wrapped);
/// assert_eq!(setting.with_step(1_698), Err(Refusal::Shear));
/// # Ok(())
/// # }
/// ```
#[derive(Clone, Copy, Debug, Default, PartialEq, Eq, Hash)]
pub struct Setting(raw::Setting);

impl Setting {
    /// The linear kernel, the centre at column 0 and row 0, no shear, and wrapped edges.
    pub fn new() -> Setting {
        Setting::default()
    }

    /// This setting with another kernel.
    #[must_use = "the setting itself stays as it was"]
    pub fn with_kernel(self, kernel: Kernel) -> Setting {
        Setting(raw::with_kernel(self.0, kernel.number()))
    }

    /// This setting with the centre, which stays where it is, at another column and row.
    #[must_use = "the setting itself stays as it was"]
    pub fn with_centre(self, column: usize, row: usize) -> Setting {
        Setting(raw::with_centre(self.0, column, row))
    }

    /// This setting with other shears of the rows and of the columns, in 4,096ths: -4,096 to 4,096.
    #[must_use = "the setting itself stays as it was"]
    pub fn with_shears(self, rows: i32, columns: i32) -> Setting {
        Setting(raw::with_shears(self.0, rows, columns))
    }

    /// This setting with another border, for the rows and for the columns.
    ///
    /// ```
    /// # fn main() -> Result<(), straightener::Refusal> {
    /// use straightener::{straightened, Border, Setting};
    ///
    /// // The lower row moves right by one sample in each of its two passes.
    /// let picture = [10, 20, 30, 90, 10, 20, 30, 90];
    /// let setting = Setting::new().with_shears(4_096, 0);
    ///
    /// // Wrapped, the right end of its trace stands in the left corner.
    /// let (wrapped, _) = straightened(4, 2, setting, &picture)?;
    /// assert_eq!(wrapped, [10, 20, 30, 90, 30, 90, 10, 20]);
    ///
    /// // On background, the corner stays background.
    /// let (result, _) = straightened(4, 2, setting.with_border(Border::Background(0)), &picture)?;
    /// assert_eq!(result, [10, 20, 30, 90, 0, 0, 10, 20]);
    /// # Ok(())
    /// # }
    /// ```
    #[must_use = "the setting itself stays as it was"]
    pub fn with_border(self, border: Border) -> Setting {
        let (border, background) = border.numbers();
        Setting(raw::with_border(self.0, border, background))
    }

    /// This setting with the shears of a step: 4,096 times the tangent of half the angle, from -1,697
    /// to 1,697. A positive step levels a graticule line that rises to the right.
    ///
    /// Refused with [`Refusal::Shear`].
    pub fn with_step(self, step: i32) -> Result<Setting, Refusal> {
        let change = raw::with_step(self.0, step);
        accepted(change.number, 0, 0)?;
        Ok(Setting(change.setting))
    }

    /// The kernel.
    pub fn kernel(self) -> Kernel {
        // Every kernel number in a setting came from a `Kernel`.
        match self.0.kernel {
            sys::STRAIGHTENER_LINEAR => Kernel::Linear,
            sys::STRAIGHTENER_KEYS => Kernel::Keys,
            _ => Kernel::Spline,
        }
    }

    /// Column and row of the centre.
    pub fn centre(self) -> (usize, usize) {
        (self.0.cx, self.0.cy)
    }

    /// The shears of the rows and of the columns, in 4,096ths.
    pub fn shears(self) -> (i32, i32) {
        (self.0.a, self.0.b)
    }

    /// The border.
    pub fn border(self) -> Border {
        match self.0.border {
            sys::STRAIGHTENER_WRAPPED => Border::Wrapped,
            _ => Border::Background(self.0.background),
        }
    }
}

impl From<Setting> for raw::Setting {
    fn from(setting: Setting) -> raw::Setting {
        setting.0
    }
}
