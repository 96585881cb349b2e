//! Pictures in and out: PGM and PNG files, the line format, a test picture, and a picture straightened in
//! one go. The libraries that users link have none of it.

pub mod hexline;
pub mod pgm;
pub mod png;
pub mod screen;

use pgm::Picture;
use std::error::Error;
use straightener::{greys_out, quarter_moved, straightened, Border, Kernel, Quarter, Setting};

/// What a tool does, or what went wrong, in words for the person at the keyboard.
pub type Outcome<T> = Result<T, Box<dyn Error>>;

/// The samples of a picture in greys.
pub fn picture_of(width: usize, height: usize, samples: &[i32]) -> Outcome<Picture> {
    let mut greys = vec![0; width.saturating_mul(height).min(samples.len())];
    greys_out(width, height, samples, &mut greys)?;
    Ok(Picture { width, height, greys })
}

/// The samples of a picture's greys.
fn samples_of(picture: &Picture) -> Vec<i32> {
    picture.greys.iter().map(|&grey| 128 * i32::from(grey)).collect()
}

/// A picture turned and mirrored.
pub fn turn(picture: &Picture, quarter: Quarter) -> Outcome<Picture> {
    let (moved, width, height) = quarter_moved(picture.width, picture.height, quarter, &samples_of(picture))?;
    picture_of(width, height, &moved)
}

/// A picture straightened about its middle.
pub fn straighten(picture: &Picture, kernel: Kernel, step: i32, border: Border) -> Outcome<Picture> {
    let &Picture { width, height, .. } = picture;
    let about_the_middle = Setting::new().with_kernel(kernel).with_centre(width / 2, height / 2);
    let setting = about_the_middle.with_border(border).with_step(step)?;
    let (result, _) = straightened(width, height, setting, &samples_of(picture))?;
    picture_of(width, height, &result)
}
