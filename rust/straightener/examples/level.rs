//! `level X1 Y1 X2 Y2 < tilted.pgm > level.pgm`: makes the graticule line through two points level.

use std::error::Error;
use std::io::{self, Read, Write};
use std::process::ExitCode;
use straightener::{greys_out, level, straightened, Kernel, Setting};

fn main() -> ExitCode {
    match run() {
        Ok(()) => ExitCode::SUCCESS,
        Err(error) => {
            eprintln!("level: {error}");
            ExitCode::FAILURE
        }
    }
}

fn run() -> Result<(), Box<dyn Error>> {
    let points: Result<Vec<i32>, _> = std::env::args().skip(1).map(|word| word.parse()).collect();
    let points = points.map_err(|_| "a column or row is not a whole number")?;
    let [x1, y1, x2, y2] = points[..] else {
        return Err("which line? Its left point's column and row, then its right point's".into());
    };
    let step = level(x1, y1, x2, y2)?;

    let mut file = Vec::new();
    io::stdin().read_to_end(&mut file)?;
    let (width, height, greys) = pgm(&file).ok_or("the input is not a whole raw PGM picture of 256 greys")?;
    // 128 units to one grey.
    let picture: Vec<i32> = greys.iter().map(|&grey| 128 * i32::from(grey)).collect();

    let about_the_middle = Setting::new().with_kernel(Kernel::Spline).with_centre(width / 2, height / 2);
    let (result, _) = straightened(width, height, about_the_middle.with_step(step)?, &picture)?;
    let mut greys = vec![0; result.len()];
    greys_out(width, height, &result, &mut greys)?;
    let mut output = io::stdout().lock();
    write!(output, "P5\n{width} {height}\n255\n")?;
    output.write_all(&greys)?;
    Ok(output.flush()?)
}

/// Width, height and greys of a raw PGM file.
fn pgm(file: &[u8]) -> Option<(usize, usize, &[u8])> {
    let mut rest = file.strip_prefix(b"P5")?;
    let mut numbers = [0; 3];
    for number in &mut numbers {
        rest = rest.trim_ascii_start();
        while rest.starts_with(b"#") {
            rest = rest[rest.iter().position(|&byte| byte == b'\n')?..].trim_ascii_start();
        }
        let digits = rest.iter().position(|byte| !byte.is_ascii_digit())?;
        *number = std::str::from_utf8(&rest[..digits]).ok()?.parse().ok()?;
        rest = &rest[digits..];
    }
    let [width, height, 255] = numbers else { return None };
    let raw = rest.split_first().filter(|(space, _)| space.is_ascii_whitespace())?.1;
    Some((width, height, raw.get(..width.checked_mul(height)?)?))
}
