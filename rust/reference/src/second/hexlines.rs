//! The line program: what it prints for one line, and for a whole input.

use super::steps::{with_step, LARGEST_STEP};
use super::{judge_size, refuse_if, straighten, work_places, Refused, Setting};

/// Digits before the first grey.
const HEADER: usize = 22;

/// The most samples that a line may hold.
const MOST_SAMPLES: usize = 4_096;

/// A line whose digits are well-formed; its figures are not judged yet.
struct Request {
    kernel: u32,
    step: i32,
    width: usize,
    height: usize,
    cx: usize,
    cy: usize,
    picture: Vec<i32>,
}

/// The value of an upper-case hexadecimal digit.
fn digit(byte: u8) -> Option<u32> {
    match byte {
        b'0'..=b'9' => Some(u32::from(byte - b'0')),
        b'A'..=b'F' => Some(u32::from(byte - b'A') + 10),
        _ => None,
    }
}

/// The number that a run of digits stands for.
fn number(digits: &[u32]) -> u32 {
    digits.iter().fold(0, |value, digit| 16 * value + digit)
}

/// Takes a line apart, or answers nothing where number 9 applies.
fn request(line: &[u8]) -> Option<Request> {
    let digits: Vec<u32> = line.iter().map(|&byte| digit(byte)).collect::<Option<_>>()?;
    if digits.len() < HEADER {
        return None;
    }
    let four = |at: usize| number(&digits[at..at + 4]) as usize;
    let (width, height) = (four(6), four(10));
    if width * height > MOST_SAMPLES || digits.len() != HEADER + 2 * width * height {
        return None;
    }
    Some(Request {
        kernel: number(&digits[..2]),
        step: i32::from(number(&digits[2..6]) as u16 as i16),
        width,
        height,
        cx: four(14),
        cy: four(18),
        picture: digits[HEADER..].chunks(2).map(|grey| 128 * number(grey) as i32).collect(),
    })
}

/// Straightens the picture of a line, or refuses it under 1, 3, 4 or 5; greys are never beyond range.
fn straightened(request: &Request) -> Result<(u32, Vec<i32>), Refused> {
    let &Request { width, height, .. } = request;
    judge_size(width)?;
    judge_size(height)?;
    refuse_if(request.cx >= width || request.cy >= height, 3)?;
    refuse_if(!(-LARGEST_STEP..=LARGEST_STEP).contains(&request.step), 4)?;
    let setting = Setting::default().with_kernel(request.kernel).with_centre(request.cx, request.cy);
    let (_, setting) = with_step(setting, request.step);
    let mut result = vec![0; width * height];
    let mut work = vec![0; work_places(width, height)];
    let told = straighten(width, height, setting, &request.picture, &mut result, &mut work)?;
    Ok((told.count, result))
}

/// The answer to one line, given without its line feed; the answer ends in one.
pub fn answer_line(line: &[u8]) -> Vec<u8> {
    let answer = match request(line) {
        None => Err(Refused::under(9)),
        Some(request) => straightened(&request).map(|(count, samples)| (count, request, samples)),
    };
    let mut text = match answer {
        Ok((count, request, samples)) => {
            let mut text = format!("00{count:04X}{:04X}{:04X}", request.width, request.height);
            for sample in samples {
                text += &format!("{:08X}", sample as u32);
            }
            text
        }
        Err(refused) => format!("{:02X}{:04X}{:04X}", refused.number, refused.row, refused.column),
    };
    text.push('\n');
    text.into_bytes()
}

/// What the line program prints for its whole standard input.
pub fn answer_input(input: &[u8]) -> Vec<u8> {
    let mut lines: Vec<&[u8]> = input.split(|&byte| byte == b'\n').collect();
    // What follows the last line feed is a line only if it has bytes.
    if lines.last().is_some_and(|rest| rest.is_empty()) {
        lines.pop();
    }
    lines.into_iter().flat_map(answer_line).collect()
}
