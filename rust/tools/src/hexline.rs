//! The line format: a picture as the line program reads it, and its answer as a picture.

use crate::pgm::Picture;
use crate::{picture_of, Outcome};
use straightener::{Kernel, Refusal};

/// The most samples that a line may hold.
const MOST_SAMPLES: usize = 4_096;

/// The line of a picture, with the centre in its middle and a line feed at its end.
pub fn from_picture(picture: &Picture, kernel: Kernel, step: i32) -> Outcome<Vec<u8>> {
    let &Picture { width, height, .. } = picture;
    if width * height > MOST_SAMPLES {
        return Err(
            format!("a line holds {MOST_SAMPLES} samples; this picture has {}", width * height).into()
        );
    }
    let step = i16::try_from(step).map_err(|_| Refusal::Shear)? as u16;
    let (cx, cy) = (width / 2, height / 2);
    let mut line = format!("{:02X}{step:04X}{width:04X}{height:04X}{cx:04X}{cy:04X}", kernel as u32);
    for grey in &picture.greys {
        line += &format!("{grey:02X}");
    }
    line.push('\n');
    Ok(line.into_bytes())
}

/// The number that the digits at a place of an answer stand for.
fn figure(answer: &str, at: usize, digits: usize) -> Outcome<u32> {
    let text = answer.get(at..at + digits).ok_or("the answer is too short")?;
    u32::from_str_radix(text, 16).map_err(|_| "the answer has a character that is no digit".into())
}

/// The picture of an answer; the reason if it is a refusal.
pub fn to_picture(answer: &[u8]) -> Outcome<Picture> {
    let answer = std::str::from_utf8(answer).map_err(|_| "the answer has a character that is no digit")?;
    let answer = answer.trim_end();
    let (number, row, column) = (figure(answer, 0, 2)?, figure(answer, 2, 4)?, figure(answer, 6, 4)?);
    if let Some(refusal) = Refusal::from_number(number, row as usize, column as usize) {
        return Err(format!("refused under number {number}: {refusal}").into());
    }
    let (width, height) = (figure(answer, 6, 4)? as usize, figure(answer, 10, 4)? as usize);
    let samples = (0..width * height).map(|place| Ok(figure(answer, 14 + 8 * place, 8)? as i32));
    picture_of(width, height, &samples.collect::<Outcome<Vec<i32>>>()?)
}

#[cfg(test)]
mod tests {
    use super::*;

    #[test]
    fn an_unturned_picture_comes_back() {
        let picture = Picture { width: 5, height: 2, greys: vec![0, 1, 2, 3, 4, 251, 252, 253, 254, 255] };
        let line = from_picture(&picture, Kernel::Keys, 0).expect("a small picture");
        let answer = straightener::answer_line(line.strip_suffix(b"\n").expect("a line feed"));
        let answer = answer.expect("the longest answer has room");
        assert_eq!(to_picture(&answer).expect("an accepted line"), picture);
    }

    #[test]
    fn refusals_are_told_in_words() {
        let error = to_picture(b"0400000000\n").expect_err("a refusal").to_string();
        assert!(error.contains("number 4") && error.contains("1,697"), "{error}");
        assert!(to_picture(b"00").is_err() && to_picture(b"").is_err() && to_picture(b"FF00000000").is_err());
    }
}
