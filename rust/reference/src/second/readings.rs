//! Greys out, floats out, readings and the summary.

use super::{judge_samples, judge_size, refuse_if, Refused};

/// The largest sample of a picture that is read, in units of 1/128 grey.
pub(super) const LARGEST_READ_SAMPLE: i32 = 1_048_576;

/// Black of the video range, grey 16, as a sample.
const BLACK: i32 = 16 * 128;

/// White of the video range, grey 235, as a sample.
const WHITE: i32 = 235 * 128;

/// A reading at a point: from black to white, below black or above white, each with its greys.
#[derive(Clone, Copy, Debug, PartialEq)]
pub enum Reading {
    /// The sample's greys.
    Level(f32),
    /// By how many greys the sample lies below black.
    Under(f32),
    /// By how many greys the sample lies above white.
    Over(f32),
}

/// The darkest and the lightest grey of a picture, held to no range.
#[derive(Clone, Copy, Debug, PartialEq)]
pub struct Summary {
    /// The smallest sample over 128.
    pub darkest: f32,
    /// The largest sample over 128.
    pub lightest: f32,
}

/// A sample's greys: v/128, which a 32-bit float holds exactly.
fn greys(v: i32) -> f32 {
    v as f32 / 128.0
}

/// A sample to the nearest grey, halves upward, held to 0 to 255.
pub fn grey(v: i32) -> u8 {
    (v + 64).div_euclid(128).clamp(0, 255) as u8
}

/// Numbers 1, 2 and 6 of a call that takes a whole picture and, for those that fill one, an output.
fn judge(width: usize, height: usize, picture: &[i32], output: Option<usize>) -> Result<(), Refused> {
    judge_size(width)?;
    judge_size(height)?;
    let places = width * height;
    refuse_if(picture.len() < places || output.is_some_and(|length| length < places), 2)?;
    judge_samples(width, height, picture, LARGEST_READ_SAMPLE)
}

/// Fills the first width times height places of `output` with the greys of the picture.
pub fn greys_out(width: usize, height: usize, picture: &[i32], output: &mut [u8]) -> Result<(), Refused> {
    judge(width, height, picture, Some(output.len()))?;
    for place in 0..width * height {
        output[place] = grey(picture[place]);
    }
    Ok(())
}

/// Fills the first width times height places of `output` with the samples over 128.
pub fn floats_out(width: usize, height: usize, picture: &[i32], output: &mut [f32]) -> Result<(), Refused> {
    judge(width, height, picture, Some(output.len()))?;
    for place in 0..width * height {
        output[place] = greys(picture[place]);
    }
    Ok(())
}

/// The reading at a column and a row of the picture.
pub fn reading(
    width: usize,
    height: usize,
    column: usize,
    row: usize,
    picture: &[i32],
) -> Result<Reading, Refused> {
    judge(width, height, picture, None)?;
    refuse_if(column >= width || row >= height, 7)?;
    let v = picture[row * width + column];
    Ok(if (BLACK..=WHITE).contains(&v) {
        Reading::Level(greys(v))
    } else if v < BLACK {
        Reading::Under(greys(BLACK - v))
    } else {
        Reading::Over(greys(v - WHITE))
    })
}

/// The darkest and the lightest grey of the picture.
pub fn summary(width: usize, height: usize, picture: &[i32]) -> Result<Summary, Refused> {
    judge(width, height, picture, None)?;
    let samples = &picture[..width * height];
    let darkest = samples.iter().fold(samples[0], |least, &v| least.min(v));
    let lightest = samples.iter().fold(samples[0], |most, &v| most.max(v));
    Ok(Summary { darkest: greys(darkest), lightest: greys(lightest) })
}
