//! Pictures in and out: PGM files, the line format, and straightening a picture in one go.
//!
//! Every command reads standard input and writes standard output; run it without a command for the list.

use std::env;
use std::io::{self, Read, Write};
use std::process::ExitCode;
use straightener::{level, level_any, Border, Kernel, Quarter, Refusal};
use tools::pgm::Picture;
use tools::{hexline, png, screen, straighten, turn, Outcome};

/// What the tool can do.
const USAGE: &str = "\
pgm screen STEP                a test picture: an analyser screen of 64 by 64, tilted so that STEP levels it
pgm crop COLUMN ROW WIDTH HEIGHT
                               cuts a part out of a PGM picture, from a column and a row on
pgm level X1 Y1 X2 Y2          the step that levels a graticule line through two points, columns and rows
pgm level any X1 Y1 X2 Y2      the same for a line in any direction: for one steeper than 45 degrees, or one that runs to
                               the left, the turn to make first, too
pgm turn QUARTER               turns a PGM picture: 0 to 3 are so many clockwise quarter turns, 4 to 7 a left-right
                               mirror and then 0 to 3 turns
pgm straighten KERNEL STEP     straightens a PGM picture of up to 1,024 by 1,024 about its middle, with wrapped edges
pgm straighten KERNEL STEP background GREY
                               the same with corners of one grey
pgm line KERNEL STEP           writes a PGM picture of up to 4,096 samples as a line for the line program
pgm picture                    writes the line program's answer as a PGM picture
pgm png                        writes a PGM picture as PNG

KERNEL is linear, keys or spline; STEP is 4,096 times the tangent of half the angle, -1697 to 1697;
GREY is 0 to 255; cameras with the video range write black as 16 and white as 235.
Pictures and lines come in on standard input and go out on standard output.
";

fn main() -> ExitCode {
    let words: Vec<String> = env::args().skip(1).collect();
    match run(&words).and_then(|output| written(&output)) {
        Ok(()) => ExitCode::SUCCESS,
        Err(error) => {
            eprintln!("pgm: {error}");
            ExitCode::FAILURE
        }
    }
}

/// Writes all of the output, and says so if any of it could not be written.
fn written(output: &[u8]) -> Outcome<()> {
    let mut standard = io::stdout().lock();
    standard.write_all(output)?;
    Ok(standard.flush()?)
}

/// What a command writes.
fn run(words: &[String]) -> Outcome<Vec<u8>> {
    let words: Vec<&str> = words.iter().map(String::as_str).collect();
    match words[..] {
        ["screen", step] => Ok(screen::tilted(whole(step)?).to_pgm()),
        ["crop", column, row, width, height] => {
            let [column, row, width, height] = [place(column)?, place(row)?, place(width)?, place(height)?];
            Ok(pgm_input()?.part(column, row, width, height)?.to_pgm())
        }
        ["level", x1, y1, x2, y2] => {
            Ok(format!("{}\n", level(whole(x1)?, whole(y1)?, whole(x2)?, whole(y2)?)?).into_bytes())
        }
        ["level", "any", x1, y1, x2, y2] => {
            let answer = level_any(whole(x1)?, whole(y1)?, whole(x2)?, whole(y2)?)?;
            Ok(levelling(answer).into_bytes())
        }
        ["turn", number] => {
            let quarter = quarter(number)?;
            Ok(turn(&pgm_input()?, quarter)?.to_pgm())
        }
        ["straighten", kernel, step, ref edges @ ..] => {
            let (kernel, step, border) = (named(kernel)?, whole(step)?, border(edges)?);
            Ok(straighten(&pgm_input()?, kernel, step, border)?.to_pgm())
        }
        ["line", kernel, step] => hexline::from_picture(&pgm_input()?, named(kernel)?, whole(step)?),
        ["picture"] => Ok(hexline::to_picture(&input()?)?.to_pgm()),
        ["png"] => Ok(png::encoded(&pgm_input()?)),
        ["help" | "--help" | "-h"] => Ok(USAGE.into()),
        _ => Err(format!("which command?\n\n{USAGE}").into()),
    }
}

/// Everything on standard input.
fn input() -> Outcome<Vec<u8>> {
    let mut bytes = Vec::new();
    io::stdin().read_to_end(&mut bytes)?;
    Ok(bytes)
}

/// The picture on standard input.
fn pgm_input() -> Outcome<Picture> {
    Picture::from_pgm(&input()?)
}

/// A whole number of the command line.
fn whole(word: &str) -> Outcome<i32> {
    word.parse().map_err(|_| format!("{word} is not a whole number").into())
}

/// A column, a row or a side of the command line.
fn place(word: &str) -> Outcome<usize> {
    word.parse().map_err(|_| format!("{word} is not a whole number from 0 on").into())
}

/// A quarter move by its number.
fn quarter(word: &str) -> Outcome<Quarter> {
    Ok(word.parse().ok().and_then(Quarter::from_number).ok_or(Refusal::Move)?)
}

/// What levels a line: the step, after the turn if there is one to make.
fn levelling((quarter, step): (Quarter, i32)) -> String {
    match quarter {
        Quarter::Stay => format!("{step}\n"),
        _ => format!("turn {}, then step {step}\n", quarter.number()),
    }
}

/// A kernel by its name.
fn named(word: &str) -> Outcome<Kernel> {
    match word {
        "linear" => Ok(Kernel::Linear),
        "keys" => Ok(Kernel::Keys),
        "spline" => Ok(Kernel::Spline),
        _ => Err(format!("there is no kernel {word}; take linear, keys or spline").into()),
    }
}

/// The border that the words after the step choose: none is wrapped, `background` comes with its grey.
fn border(words: &[&str]) -> Outcome<Border> {
    match words {
        [] => Ok(Border::Wrapped),
        ["background"] => Err("background needs a grey from 0 to 255".into()),
        ["background", grey] => match grey.parse::<u8>() {
            Ok(grey) => Ok(Border::Background(128 * i32::from(grey))),
            Err(_) => Err(format!("the background {grey} is not a grey from 0 to 255").into()),
        },
        _ => Err(format!("after the step comes nothing, or background GREY; not {}", words.join(" ")).into()),
    }
}
