//! Straightens pictures of analyser screens by three shears in whole numbers.
//!
//! The work is done by a library that is proved: for every input a call is either accepted, and its
//! result is the one that the written rules define, or refused under a number, as a [`Refusal`], with
//! no buffer touched. Every sample of a straightened picture lies within 3/2 units (linear), 2 units
//! (Keys) or 10 units (cubic spline) of the same three shears computed in exact fractions, with wrapped
//! edges and on background; 128 units are one grey. A block of pictures is straightened slice by slice, each as a
//! picture of its own. Quarter turns and mirrors are exact.
//!
//! # A picture straightened
//!
//! ```
//! # fn main() -> Result<(), straightener::Refusal> {
//! use straightener::{level, straightened, Kernel, Setting};
//!
//! // A screen of 64 by 64 samples on which a graticule line runs from (4, 30) to (60, 33).
//! let (width, height) = (64, 64);
//! let picture: Vec<i32> = (0..64 * 64).map(|place| 128 * (place % 256)).collect();
//!
//! let step = level(4, 30, 60, 33)?;
//! let setting = Setting::new().with_kernel(Kernel::Spline).with_centre(32, 32).with_step(step)?;
//! let (result, told) = straightened(width, height, setting, &picture)?;
//!
//! assert_eq!(step, -110);
//! assert_eq!(result.len(), 64 * 64);
//! // Every line was interpolated in each pass but the one through the centre.
//! assert_eq!(told.count, 63 + 63 + 63);
//! # Ok(())
//! # }
//! ```
//!
//! # Parts
//!
//! [`straighten`], [`ask`], [`commit`], [`forecast`], [`straighten_block`], [`move_line`], [`explain`], [`quarter_move`],
//! [`Quarter::then`], [`Quarter::inverse`], every change of a [`Setting`], [`level`], [`level_checked`], [`sine`], the
//! readings and [`answer_line`] call the proved library, which is x86-64 Linux code. [`raw`] is its C interface with
//! slices. The package's own thin layer over the calls is tested and not proved, and so is [`level_any`], which finds the
//! quarter turn and the step for a camera that is mounted sideways.

mod block;
mod calls;
mod explanation;
mod forecast;
mod quarter;
pub mod raw;
mod readings;
mod refusal;
mod setting;
mod tickets;

pub use block::{block_work_places, straighten_block, straightened_block, Plane};
pub use calls::{
    answer_line, level, level_checked, line_work_places, move_line, sine, straighten, straightened,
    work_places, Moved, Straightened,
};
pub use explanation::{explain, Explanation, Term};
pub use forecast::{forecast, Forecast};
pub use quarter::{level_any, quarter_move, quarter_moved, Quarter};
pub use readings::{floats_out, greys_out, reading, summary, Reading, Summary, BLACK, WHITE};
pub use refusal::Refusal;
pub use setting::{Border, Kernel, Setting};
pub use tickets::{ask, commit, Ticket};
