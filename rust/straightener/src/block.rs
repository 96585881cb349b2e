//! A block of pictures straightened in one of its planes.

use crate::calls::Straightened;
use crate::raw;
use crate::refusal::Refusal;
use crate::setting::Setting;
use straightener_sys as sys;

/// The plane in which a block is cut into slices: the side that is named first has the columns of a slice, the other
/// its rows, and there is one slice for each step along the third.
#[derive(Clone, Copy, Debug, PartialEq, Eq, Hash)]
pub enum Plane {
    /// A slice for each depth, of width columns and height rows: the block's pictures.
    AcrossAndDown,
    /// A slice for each row of the pictures, of width columns and depth rows: that row over time.
    AcrossAndDepth,
    /// A slice for each column of the pictures, of height columns and depth rows: that column over time.
    DownAndDepth,
}

impl Plane {
    /// The plane's number, as the library takes it.
    fn number(self) -> u32 {
        match self {
            Plane::AcrossAndDown => sys::STRAIGHTENER_ACROSS_AND_DOWN,
            Plane::AcrossAndDepth => sys::STRAIGHTENER_ACROSS_AND_DEPTH,
            Plane::DownAndDepth => sys::STRAIGHTENER_DOWN_AND_DEPTH,
        }
    }
}

/// The places of work that [`straighten_block`] takes: 12 for each sample of the longer of the plane's two sides, or 0
/// for a width, height or depth that it refuses.
///
/// ```
/// use straightener::{block_work_places, Plane};
///
/// assert_eq!(block_work_places(128, 96, 40, Plane::AcrossAndDown), 12 * 128);
/// assert_eq!(block_work_places(128, 96, 40, Plane::DownAndDepth), 12 * 96);
/// assert_eq!(block_work_places(129, 96, 40, Plane::DownAndDepth), 0);
/// ```
pub fn block_work_places(width: usize, height: usize, depth: usize, plane: Plane) -> usize {
    raw::block_work_places(width, height, depth, plane.number())
}

/// Straightens every slice of a block in one plane, each as [`straighten`](crate::straighten) does a picture, into
/// buffers of the caller's.
///
/// A block is pictures over time, one after the other by depth, each row by row: the sample at a depth, row and column
/// is at place (depth times height + row) times width + column. Width, height and depth are 1 to 128 each. `block` and
/// `result` take width times height times depth places and `work` takes [`block_work_places`]; samples of the block lie
/// within plus or minus 32,767, 128 to one grey. What `result` and `work` hold before does not matter; afterwards
/// those places of `work` are 0. Longer buffers are fine: their later places stay as they are.
///
/// The setting is the same for all slices: its centre is a column and a row of a slice, and its shears are of a slice's
/// rows and columns. Every slice of the result is what the single call makes of that slice of the block, the count is
/// the sum of theirs, and the smallest and the largest sample are those of the whole result.
///
/// Refused with [`Refusal::Size`], [`Refusal::Buffer`], [`Refusal::Centre`], [`Refusal::Shear`],
/// [`Refusal::Background`] or [`Refusal::BlockSample`], the first of them that applies; then no buffer is touched.
/// All samples are judged before anything is written.
///
/// ```
/// # fn main() -> Result<(), straightener::Refusal> {
/// use straightener::{block_work_places, straighten_block, Plane, Setting};
///
/// // Two pictures of 3 by 2 samples. In this plane a slice is one row of both, the earlier above the later.
/// let (block, plane) = ([1, 2, 3, 4, 5, 6, 10, 20, 30, 40, 50, 60], Plane::AcrossAndDepth);
/// let (mut result, mut work) = ([0; 12], vec![0; block_work_places(3, 2, 2, plane)]);
///
/// // The rows of depth 1 move by one sample to the right, twice.
/// let setting = Setting::new().with_shears(4_096, 0);
/// let told = straighten_block(3, 2, 2, plane, setting, &block, &mut result, &mut work)?;
/// assert_eq!(result, [1, 2, 3, 4, 5, 6, 20, 30, 10, 50, 60, 40]);
/// assert_eq!((told.count, told.smallest, told.largest), (0, 1, 60));
/// # Ok(())
/// # }
/// ```
#[allow(clippy::too_many_arguments)]
pub fn straighten_block(
    width: usize,
    height: usize,
    depth: usize,
    plane: Plane,
    setting: Setting,
    block: &[i32],
    result: &mut [i32],
    work: &mut [i32],
) -> Result<Straightened, Refusal> {
    let answer =
        raw::straighten_block(width, height, depth, plane.number(), setting.into(), block, result, work);
    let raw::BlockAnswer { number, depth, row, column, count, smallest, largest } = answer;
    match Refusal::from_block_number(number, depth, row, column) {
        None => Ok(Straightened { count, smallest, largest }),
        Some(refusal) => Err(refusal),
    }
}

/// Straightens every slice of a block in one plane into a new block; refused as [`straighten_block`] is.
///
/// ```
/// # fn main() -> Result<(), straightener::Refusal> {
/// use straightener::{straightened_block, Plane, Refusal, Setting};
///
/// // Three pictures of 5 by 1 samples, in which a carrier drifts by two columns from each to the next.
/// let mut block = [9, 0, 0, 0, 0, 0, 0, 9, 0, 0, 0, 0, 0, 0, 9];
/// // Each of the two passes over rows moves the picture at depth z by z columns to the left.
/// let setting = Setting::new().with_shears(-4_096, 0);
/// let (result, _) = straightened_block(5, 1, 3, Plane::AcrossAndDepth, setting, &block)?;
/// assert_eq!(result, [9, 0, 0, 0, 0].repeat(3));
///
/// block[12] = 32_768;
/// let too_light = straightened_block(5, 1, 3, Plane::AcrossAndDepth, setting, &block);
/// assert_eq!(too_light, Err(Refusal::BlockSample { depth: 2, row: 0, column: 2 }));
/// # Ok(())
/// # }
/// ```
pub fn straightened_block(
    width: usize,
    height: usize,
    depth: usize,
    plane: Plane,
    setting: Setting,
    block: &[i32],
) -> Result<(Vec<i32>, Straightened), Refusal> {
    // A block that is too short is refused before its result would be of use.
    let places = block.len().min(width.saturating_mul(height).saturating_mul(depth));
    let (mut result, mut work) = (vec![0; places], vec![0; block_work_places(width, height, depth, plane)]);
    let told = straighten_block(width, height, depth, plane, setting, block, &mut result, &mut work)?;
    Ok((result, told))
}
