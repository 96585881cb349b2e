//! Calls that straighten blocks, with what they were lent and what they left, and their slices as pictures.

use super::calls::{buffer, Outcome, PictureCall, BAD_BACKGROUNDS};
use super::numbers::Numbers;
use super::Implementation;
use reference::second::{Border, Setting};

/// A block handed in for straightening.
#[derive(Clone)]
pub struct BlockCall {
    /// Width, height and depth.
    pub sides: [usize; 3],
    pub plane: u32,
    pub setting: Setting,
    pub block: Vec<i32>,
    pub result_length: usize,
    pub work_length: usize,
}

impl BlockCall {
    /// A call with buffers of just the lengths that it takes.
    pub fn fitting(sides: [usize; 3], plane: u32, setting: Setting, block: Vec<i32>) -> BlockCall {
        let mut call = BlockCall { sides, plane, setting, block, result_length: 0, work_length: 0 };
        (call.result_length, call.work_length) = call.takes();
        call
    }

    /// A call in which nothing is wrong.
    pub fn good(numbers: &mut Numbers, sides: [usize; 3], plane: u32, kernel: u32) -> BlockCall {
        let block = numbers.samples(sides.iter().product(), 32_767);
        let call = BlockCall::fitting(sides, plane, Setting::default(), block);
        let (columns, rows) = call.size();
        BlockCall { setting: numbers.setting(kernel, columns, rows), ..call }
    }

    /// How many columns, rows and slices there are in the plane, each with the places from one to the next in the
    /// block. A call in a plane that is refused has those of plane 2, so that it can be refused for the plane alone.
    fn shape(&self) -> [(usize, usize); 3] {
        let [width, height, depth] = self.sides;
        let (across, down, deep) = ((width, 1), (height, width), (depth, width.wrapping_mul(height)));
        match self.plane {
            0 => [across, down, deep],
            1 => [across, deep, down],
            _ => [down, deep, across],
        }
    }

    /// The columns and rows of a slice.
    pub fn size(&self) -> (usize, usize) {
        let [(columns, _), (rows, _), _] = self.shape();
        (columns, rows)
    }

    /// How many slices there are.
    pub fn slices(&self) -> usize {
        self.shape()[2].0
    }

    /// The places of the block and of its result, and of work, that the call takes.
    pub fn takes(&self) -> (usize, usize) {
        let (columns, rows) = self.size();
        let places = self.sides.iter().fold(1, |places: usize, &side| places.wrapping_mul(side));
        (places, columns.max(rows).wrapping_mul(12))
    }

    /// Where the samples of a slice stand in the block, row by row.
    pub fn places(&self, slice: usize) -> Vec<usize> {
        let [(columns, right), (rows, down), (_, on)] = self.shape();
        let row = |y: usize| (0..columns).map(move |x| slice * on + y * down + x * right);
        (0..rows).flat_map(row).collect()
    }

    /// A slice of the block or of its result, row by row.
    pub fn cut(&self, block: &[i32], slice: usize) -> Vec<i32> {
        self.places(slice).into_iter().map(|place| block[place]).collect()
    }

    /// A slice of the block, handed in as a picture.
    pub fn slice(&self, slice: usize) -> PictureCall {
        PictureCall::fitting(self.size(), self.setting, self.cut(&self.block, slice))
    }

    /// Makes the call.
    pub fn run(&self, implementation: &dyn Implementation) -> Outcome {
        let (mut result, mut work) = (buffer(self.result_length), buffer(self.work_length));
        let (answer, extremes) = implementation.straighten_block(self, &mut result, &mut work);
        let (places, work_places) = self.takes();
        Outcome { answer, extremes, result, work }.held_to_the_documents(places, work_places)
    }

    /// A call on a small block in which anything may be wrong.
    pub fn hostile(numbers: &mut Numbers) -> BlockCall {
        let sides = [(); 3].map(|()| 1 + numbers.below(5));
        let (plane, kernel) = (numbers.below(3) as u32, numbers.below(3) as u32);
        let mut call = BlockCall::good(numbers, sides, plane, kernel);
        for _ in 0..numbers.below(3) {
            call.spoil(numbers);
        }
        call
    }

    /// Makes one thing about the call wrong, or a buffer longer.
    fn spoil(&mut self, numbers: &mut Numbers) {
        let beyond = numbers.one_of(&[4_097, -4_097, i32::MAX, i32::MIN]);
        let (side, place) = (numbers.below(3), numbers.below(self.block.len().max(1)));
        let (columns, rows) = self.size();
        match numbers.below(14) {
            0 => self.sides[side] = numbers.one_of(&[0, 129, 1 << 32, usize::MAX]),
            1 => self.plane = numbers.one_of(&[3, 4, 256, u32::MAX]),
            2 => drop(self.block.pop()),
            3 => self.result_length = self.result_length.saturating_sub(1),
            4 => self.work_length -= 1,
            5 => self.setting.cx = numbers.one_of(&[columns, usize::MAX]),
            6 => self.setting.cy = numbers.one_of(&[rows, usize::MAX]),
            7 => self.setting.a = beyond,
            8 => self.setting.b = beyond,
            9 => self.setting.kernel = numbers.one_of(&[3, 4, 256, u32::MAX]),
            10 => (self.result_length, self.work_length) = (self.result_length + 3, self.work_length + 5),
            11 => self.setting.border = Border::Background(numbers.one_of(&BAD_BACKGROUNDS)),
            _ if self.block.is_empty() => self.block.push(0),
            _ => self.block[place] = numbers.one_of(&[32_768, -32_768, i32::MAX, i32::MIN]),
        }
    }
}

/// Its block is printed only if it is small.
impl std::fmt::Debug for BlockCall {
    fn fmt(&self, f: &mut std::fmt::Formatter<'_>) -> std::fmt::Result {
        let BlockCall { sides, plane, setting, block, result_length, work_length } = self;
        write!(f, "sides {sides:?}, plane {plane}, {setting:?}, ")?;
        write!(f, "{} samples, result {result_length}, work {work_length}", block.len())?;
        if block.len() <= 150 {
            write!(f, ": {block:?}")?;
        }
        Ok(())
    }
}
