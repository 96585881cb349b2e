//! The waterfall block: pictures over time, straightened slice by slice in one plane.

use super::picture::{judge_setting, straighten, work_places, Setting, LARGEST_SAMPLE};
use super::{judge_samples, refuse_if, Refused, Told};

/// The largest width, height and depth of a block.
const LARGEST_SIDE: usize = 128;

/// The planes by number; every other number is refused under 17.
const ACROSS_AND_DOWN: u32 = 0;
const ACROSS_AND_DEPTH: u32 = 1;
const DOWN_AND_DEPTH: u32 = 2;

/// A block's width, height and depth, and one of its planes.
#[derive(Clone, Copy)]
struct Cut {
    sides: [usize; 3],
    plane: u32,
}

impl Cut {
    /// Numbers 1 and 17: a side of 0 or over 128, then a plane other than the three.
    fn judged(sides: [usize; 3], plane: u32) -> Result<Cut, Refused> {
        refuse_if(sides.iter().any(|&side| side == 0 || side > LARGEST_SIDE), 1)?;
        refuse_if(![ACROSS_AND_DOWN, ACROSS_AND_DEPTH, DOWN_AND_DEPTH].contains(&plane), 17)?;
        Ok(Cut { sides, plane })
    }

    /// The columns and rows of a slice, and how many slices there are.
    fn shape(self) -> (usize, usize, usize) {
        let [width, height, depth] = self.sides;
        match self.plane {
            ACROSS_AND_DOWN => (width, height, depth),
            ACROSS_AND_DEPTH => (width, depth, height),
            _ => (height, depth, width),
        }
    }

    /// The places in the block of a slice's samples, row by row.
    fn places(self, slice: usize) -> Vec<usize> {
        let ([width, height, _], (columns, rows, _)) = (self.sides, self.shape());
        let place = |row: usize, column: usize| {
            let (depth, y, x) = match self.plane {
                ACROSS_AND_DOWN => (slice, row, column),
                ACROSS_AND_DEPTH => (row, slice, column),
                _ => (row, column, slice),
            };
            depth * width * height + y * width + x
        };
        (0..rows).flat_map(|row| (0..columns).map(move |column| place(row, column))).collect()
    }
}

/// The work places of a block: those of a picture of the plane's two sides, or 0 where number 1 or 17 applies.
pub fn block_work_places(sides: [usize; 3], plane: u32) -> usize {
    match Cut::judged(sides, plane).map(Cut::shape) {
        Ok((columns, rows, _)) => work_places(columns, rows),
        Err(_) => 0,
    }
}

/// Number 6: the first sample beyond plus or minus 32,767, picture after picture by depth.
fn judge_block([width, height, _]: [usize; 3], block: &[i32]) -> Result<(), Refused> {
    for (depth, picture) in block.chunks(width * height).enumerate() {
        judge_samples(width, height, picture, LARGEST_SAMPLE)
            .map_err(|refused| Refused { depth, ..refused })?;
    }
    Ok(())
}

/// Straightens every slice of `block`, of a width, height and depth, into the same places of `result`, each cut out
/// and straightened as a picture; tells the sum of the slices' counts, and the smallest and the largest sample over
/// all of them.
pub fn straighten_block(
    sides: [usize; 3],
    plane: u32,
    setting: Setting,
    block: &[i32],
    result: &mut [i32],
    work: &mut [i32],
) -> Result<Told, Refused> {
    let cut = Cut::judged(sides, plane)?;
    let (columns, rows, slices) = cut.shape();
    let places = columns * rows * slices;
    let short = block.len() < places || result.len() < places || work.len() < work_places(columns, rows);
    refuse_if(short, 2)?;
    judge_setting(columns, rows, setting)?;
    judge_block(sides, &block[..places])?;
    let mut count = 0;
    for slice in 0..slices {
        let places = cut.places(slice);
        let picture: Vec<i32> = places.iter().map(|&place| block[place]).collect();
        let mut straightened = vec![0; picture.len()];
        count += straighten(columns, rows, setting, &picture, &mut straightened, work)?.count;
        for (place, sample) in places.into_iter().zip(straightened) {
            result[place] = sample;
        }
    }
    let rows_of_the_block = result[..places].chunks(sides[0]);
    Ok(Told::over(count, rows_of_the_block))
}
