//! How fast the proved library is, measured in one interleaved run and printed as the tables of
//! `docs/PERFORMANCE.md`.
//!
//! In every round each call is timed once with wrapped edges, once on background, once by the second
//! implementation with wrapped edges, and once as three plain copies of the same picture, the least that
//! three passes can do; a block is timed beside single calls on its slices, a quarter move beside a plain
//! copy, and the line program beside `cat`. Each time is the median over the rounds, to three digits, and
//! each ratio that of the two medians as they are printed, to two digits.
//!
//! `cargo run --release --bin bench [ROUNDS]`, after `make`.

mod blocks;
mod quarters;

use reference::second;
use std::error::Error;
use std::fs::File;
use std::hint::black_box;
use std::io::{self, Read, Write};
use std::path::{Path, PathBuf};
use std::process::{Command, Stdio};
use std::time::Instant;
use straightener::raw;

/// The step at which pictures are straightened: a tilt of 2.2 degrees.
const STEP: i32 = 80;

/// Kernels by number, with the most that a ratio at 1,024 by 1,024 is to be.
const KERNELS: [(&str, f64); 3] = [("linear", 0.15), ("Keys", 0.25), ("cubic spline", 0.28)];

/// Sizes of pictures, and how many calls are timed at once so that the clock resolves them.
const SIZES: [(usize, usize, u32); 3] = [(1_024, 1_024, 1), (640, 480, 3), (64, 64, 200)];

/// Inputs of the line program.
const INPUTS: [Input; 3] = [
    Input { width: 64, height: 64, lines: 600, refused: false },
    Input { width: 8, height: 8, lines: 20_000, refused: false },
    Input { width: 64, height: 64, lines: 6_000, refused: true },
];

/// Calls for one line that are timed at once.
const LINE_CALLS: u32 = 2_000;

/// What the line program is fed: lines of pictures of one size, each refused at its last digit or not at all.
#[derive(Clone, Copy)]
struct Input {
    width: usize,
    height: usize,
    lines: usize,
    refused: bool,
}

/// The background that pictures are straightened on: a grey of 70, in units of 1/128 grey.
const BACKGROUND: i32 = 8_960;

/// Rounds, if the command line names no number.
const ROUNDS: usize = 9;

/// Seconds of one call in one round: the library wrapped, the library on background, the second
/// implementation, three copies.
type Times = [f64; 4];

/// A picture to straighten, with buffers, and what the rounds measured.
struct Case {
    size: (usize, usize),
    calls: u32,
    setting: second::Setting,
    picture: Vec<i32>,
    result: Vec<i32>,
    work: Vec<i32>,
    rounds: Vec<Times>,
}

/// A picture of `places` greys that look like noise.
fn noise(places: usize) -> Vec<u8> {
    let mut state = 1_u32;
    let mut next = || {
        state = state.wrapping_mul(1_664_525).wrapping_add(1_013_904_223);
        (state >> 24) as u8
    };
    (0..places).map(|_| next()).collect()
}

impl Case {
    /// A case at the step, about the middle of the picture.
    fn new((width, height, calls): (usize, usize, u32), kernel: u32) -> Case {
        let setting = second::Setting::default().with_kernel(kernel).with_centre(width / 2, height / 2);
        Case {
            size: (width, height),
            calls,
            setting: second::with_step(setting, STEP).1,
            picture: noise(width * height).into_iter().map(|grey| 128 * i32::from(grey)).collect(),
            result: vec![0; width * height],
            work: vec![0; raw::work_places(width, height)],
            rounds: Vec::new(),
        }
    }

    /// Times each contestant once.
    fn round(&mut self) {
        let Case { size: (width, height), calls, setting, ref picture, .. } = *self;
        let (result, work) = (&mut self.result, &mut self.work);
        let second::Setting { kernel, cx, cy, a, b, .. } = setting;
        let wrapped = raw::Setting { kernel, cx, cy, a, b, border: 0, background: 0 };
        let on_background = raw::Setting { border: 1, background: BACKGROUND, ..wrapped };
        let mut straighten = |setting| {
            let answer = raw::straighten(width, height, setting, black_box(picture), result, work);
            assert_eq!(black_box(answer).number, 0);
        };
        // Untimed, so that the first call that is timed finds the picture as near as the others do.
        straighten(wrapped);
        let [library, background] =
            [wrapped, on_background].map(|setting| seconds(calls, || straighten(setting)));
        let plain = seconds(calls, || {
            let answer = second::straighten(width, height, setting, black_box(picture), result, work);
            assert!(black_box(answer).is_ok());
        });
        let copies = seconds(calls, || {
            for _ in 0..3 {
                result.copy_from_slice(black_box(picture));
                black_box(&mut *result);
            }
        });
        self.rounds.push([library, background, plain, copies]);
    }

    /// The median milliseconds of one contestant, as they are printed.
    fn milliseconds(&self, contestant: usize) -> f64 {
        to_digits(3, 1e3 * median(self.rounds.iter().map(|times| times[contestant]).collect()))
    }

    /// The picture's size and kernel, as the tables name them.
    fn names(&self) -> [String; 2] {
        let size = format!("{} by {}", grouped(self.size.0 as f64), grouped(self.size.1 as f64));
        [size, KERNELS[self.setting.kernel as usize].0.to_string()]
    }

    /// The row of the table of three passes with wrapped edges.
    fn row(&self) -> String {
        let target = KERNELS[self.setting.kernel as usize].1;
        let [library, plain, copies] = [0, 2, 3].map(|contestant| self.milliseconds(contestant));
        let target = if self.size.0 == 1_024 { format!("{target:.2}") } else { String::new() };
        let times = [library, plain, copies].map(|time| format!("{} ms", figure(3, time)));
        let ratios = [figure(2, library / plain), target, figure(2, library / copies)];
        table_row(&[&self.names()[..], &times[..], &ratios[..]].concat())
    }

    /// The row of the table of both borders.
    fn border_row(&self) -> String {
        let [wrapped, background] = [0, 1].map(|contestant| self.milliseconds(contestant));
        let times = [wrapped, background].map(|time| format!("{} ms", figure(3, time)));
        table_row(&[&self.names()[..], &times[..], &[figure(2, background / wrapped)]].concat())
    }
}

/// A figure rounded to so many digits that count.
fn to_digits(digits: i32, figure: f64) -> f64 {
    let unit = 10_f64.powi(figure.log10().floor() as i32 + 1 - digits);
    (figure / unit).round() * unit
}

/// A figure as it is printed, to so many digits that count.
fn figure(digits: i32, figure: f64) -> String {
    let rounded = to_digits(digits, figure);
    let places = (digits - 1 - rounded.log10().floor() as i32).max(0) as usize;
    if places == 0 {
        grouped(rounded)
    } else {
        format!("{rounded:.places$}")
    }
}

/// A whole number with a comma before every three digits.
fn grouped(number: f64) -> String {
    let digits = format!("{number:.0}");
    let mut text = String::new();
    for (place, digit) in digits.chars().enumerate() {
        if place > 0 && (digits.len() - place) % 3 == 0 {
            text.push(',');
        }
        text.push(digit);
    }
    text
}

/// A row of a table, in the form of the document.
fn table_row(cells: &[String]) -> String {
    let text: String =
        cells.iter().map(|cell| if cell.is_empty() { " |".into() } else { format!(" {cell} |") }).collect();
    format!("|{text}")
}

/// The head of a table, in the form of the document.
fn table_head(names: &[&str]) -> String {
    let names: Vec<String> = names.iter().map(|name| name.to_string()).collect();
    format!("{}\n|{}", table_row(&names), "---|".repeat(names.len()))
}

/// Seconds of one of several calls made in a row.
fn seconds(calls: u32, mut call: impl FnMut()) -> f64 {
    let begun = Instant::now();
    for _ in 0..calls {
        call();
    }
    begun.elapsed().as_secs_f64() / f64::from(calls)
}

/// The median of some figures.
fn median(mut figures: Vec<f64>) -> f64 {
    figures.sort_by(f64::total_cmp);
    figures[figures.len() / 2]
}

impl Input {
    /// A line of the input, without its line feed; a refused one has a last digit that is none.
    fn line(self, kernel: usize) -> String {
        let Input { width, height, refused, .. } = self;
        let greys: String = noise(width * height).iter().map(|grey| format!("{grey:02X}")).collect();
        let (cx, cy) = (width / 2, height / 2);
        let mut line = format!("{kernel:02X}{STEP:04X}{width:04X}{height:04X}{cx:04X}{cy:04X}{greys}");
        if refused {
            line.pop();
            line.push('G');
        }
        line
    }

    /// Writes the input, its kernels by turns, to a file.
    fn write(self, path: &Path) -> io::Result<()> {
        let lines = [0, 1, 2].map(|kernel| self.line(kernel) + "\n");
        let text: String = lines.iter().map(String::as_str).cycle().take(self.lines).collect();
        File::create(path)?.write_all(text.as_bytes())
    }

    /// Bytes of all answers.
    fn answers(self) -> u64 {
        let answer = if self.refused { 11 } else { 15 + 8 * self.width * self.height };
        (self.lines * answer) as u64
    }

    /// What the table calls it.
    fn name(self) -> String {
        let refused = if self.refused { ", refused at the last digit" } else { "" };
        format!("{} by {}{refused}", self.width, self.height)
    }
}

/// Seconds that a program takes to read a file and to have all its output read, and the bytes of that.
fn run_over(program: &Path, input: &Path) -> io::Result<(f64, u64)> {
    let begun = Instant::now();
    let mut running = Command::new(program).stdin(File::open(input)?).stdout(Stdio::piped()).spawn()?;
    let mut output = running.stdout.take().ok_or(io::ErrorKind::BrokenPipe)?;
    let (mut block, mut bytes) = (vec![0; 1 << 16], 0);
    loop {
        match output.read(&mut block)? {
            0 => break,
            read => bytes += read as u64,
        }
    }
    running.wait()?;
    Ok((begun.elapsed().as_secs_f64(), bytes))
}

/// Measures the line program against `cat` on one input, and answers the row of the table.
fn line_program(program: &Path, input: Input, rounds: usize) -> io::Result<String> {
    let path = std::env::temp_dir().join(format!("straightener-bench-{}.txt", std::process::id()));
    input.write(&path)?;
    let (mut ours, mut cats) = (Vec::new(), Vec::new());
    for _ in 0..rounds {
        let (time, bytes) = run_over(program, &path)?;
        let (cat_time, _) = run_over(Path::new("cat"), &path)?;
        assert_eq!(bytes, input.answers(), "every line is answered with a picture, or refused");
        ours.push(time);
        cats.push(cat_time);
    }
    std::fs::remove_file(&path)?;
    let rate = |times: Vec<f64>| to_digits(3, input.lines as f64 / median(times));
    let (ours, cats) = (rate(ours), rate(cats));
    Ok(table_row(&[input.name(), figure(3, ours), figure(3, cats), figure(2, cats / ours)]))
}

/// Seconds that a contestant takes to test the digits of a long line: those of a line that is refused at its last
/// digit, less those of an empty line, in the median.
fn digit_test(long: &[u8], rounds: usize, mut answer: impl FnMut(&[u8]) -> usize) -> f64 {
    let mut time = |line: &[u8]| seconds(LINE_CALLS, || assert_eq!(black_box(answer(black_box(line))), 11));
    median((0..rounds).map(|_| time(long) - time(b"")).collect())
}

/// Measures the test of digits by itself, and answers the row of the table: gigabytes a second.
fn digit_tests(rounds: usize) -> String {
    let long = Input { width: 64, height: 64, lines: 1, refused: true }.line(0).into_bytes();
    let mut answer = vec![0; 32_783];
    let library = digit_test(&long, rounds, |line| raw::answer_line(line, &mut answer).written);
    let plain = digit_test(&long, rounds, |line| second::answer_line(line).len());
    let rate = |time: f64| long.len() as f64 / 1e9 / time;
    table_row(&[grouped(long.len() as f64), figure(2, rate(library)), figure(2, rate(plain))])
}

/// Measures pictures of every size with every kernel, and prints the tables of wrapped edges and of both borders.
fn pictures(rounds: usize) {
    let kernels = 0..KERNELS.len() as u32;
    let mut cases: Vec<Case> =
        SIZES.iter().flat_map(|&size| kernels.clone().map(move |kernel| Case::new(size, kernel))).collect();
    for _ in 0..rounds {
        cases.iter_mut().for_each(Case::round);
    }
    println!("Three passes at step {STEP}: medians of {rounds} interleaved rounds, and the ratios of these medians.\n");
    println!(
        "{}",
        table_head(&[
            "Picture",
            "Kernel",
            "Library",
            "Second implementation",
            "Three copies",
            "Of second",
            "Target",
            "Times three copies"
        ])
    );
    cases.iter().for_each(|case| println!("{}", case.row()));
    println!("\nThe same passes with wrapped edges and on background, in the same rounds.\n");
    println!("{}", table_head(&["Picture", "Kernel", "Wrapped", "Background", "Times wrapped"]));
    cases.iter().for_each(|case| println!("{}", case.border_row()));
}

/// Measures the line program and its test of digits, and prints their tables.
fn lines(rounds: usize) -> Result<(), Box<dyn Error>> {
    let program = PathBuf::from(env!("CARGO_MANIFEST_DIR")).join("../../target/bin/straightener");
    if !program.is_file() {
        return Err("the line program is not there; make it by: make program".into());
    }
    println!(
        "\nThe line program, kernels by turns: lines a second beside `cat`, and how many times its time.\n"
    );
    println!("{}", table_head(&["Picture", "Line program", "`cat`", "Times `cat`"]));
    for input in INPUTS {
        println!("{}", line_program(&program, input, rounds)?);
    }
    println!("\nThe test of a line's digits by itself: gigabytes a second.\n");
    println!("{}", table_head(&["Digits", "Library", "Second implementation"]));
    println!("{}", digit_tests(rounds));
    Ok(())
}

fn main() -> Result<(), Box<dyn Error>> {
    let rounds: usize = std::env::args().nth(1).map_or(Ok(ROUNDS), |word| word.parse())?;
    let rounds = rounds.max(1);
    pictures(rounds);
    blocks::measure(rounds);
    quarters::measure(rounds);
    lines(rounds)
}
