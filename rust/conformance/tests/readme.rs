//! The programs that README shows, made and run as it says, and the readings and extremes that it lists.
#![cfg(feature = "library")]

use conformance::c::{done, WARNINGS};
use conformance::files::{in_repository, read, Temporary};
use conformance::install::{flags, make};
use conformance::tables::{order, table};
use std::fs;
use std::process::Command;
use straightener::{
    ask, commit, explain, forecast, move_line, quarter_moved, raw, straightened_block, Border, Kernel, Plane,
    Quarter, Reading, Refusal, Setting, BLACK, WHITE,
};

/// The programs in a language that a text shows.
fn programs<'a>(text: &'a str, language: &str) -> Vec<&'a str> {
    let opening = format!("```{language}\n");
    text.split(opening.as_str()).skip(1).map(|rest| rest.split("```").next().expect("its end")).collect()
}

/// The line of a text that begins like this, without its indentation.
fn line<'a>(text: &'a str, begin: &str) -> &'a str {
    text.lines().map(str::trim).find(|line| line.starts_with(begin)).expect("a line of README")
}

#[test]
fn the_c_programs_by_their_link_lines() {
    let (readme, folder) = (read("README.md"), Temporary::new("readme-c"));
    done(&mut make("install", &folder.path("")));
    let names = ["program", "points", "ask", "forecast", "block", "sideways", "explain"];
    let shown = programs(&readme, "c");
    assert_eq!(shown.len(), names.len(), "a program of README has no name here");
    for (name, program) in names.into_iter().zip(shown) {
        fs::write(folder.path(&format!("{name}.c")), program).expect("the program can be written");
        let link = line(&readme, &format!("cc -o {name} {name}.c $(pkg-config"));
        let (compiler, _) = link.split_once(" $").expect("pkg-config");
        let mut words = compiler.split_whitespace();
        // The link line with its flags put in, and every warning an error.
        let mut compiler = Command::new(words.next().expect("a compiler"));
        done(compiler.args(words).args(WARNINGS).args(flags(&folder.path(""))).current_dir(folder.path("")));
        let printed = done(&mut Command::new(folder.path(name)));
        let (_, expected) = line(&readme, &format!("./{name}")).split_once("# ").expect("what it prints");
        assert_eq!(printed.trim_end(), expected);
    }
}

#[test]
fn the_rust_program_as_a_package() {
    let (readme, folder) = (read("README.md"), Temporary::new("readme-rust"));
    let clone = in_repository(".").canonicalize().expect("the repository's folder");
    let dependency = line(&readme, "straightener = ").replace("feverfewnook", &clone.display().to_string());
    let package = "[package]\nname = \"program\"\nversion = \"0.1.0\"\nedition = \"2021\"\n";
    let manifest = format!("{package}\n[dependencies]\n{dependency}\n\n[workspace]\n");
    fs::create_dir(folder.path("src")).expect("a folder can be made");
    fs::write(folder.path("Cargo.toml"), manifest).expect("the manifest can be written");
    fs::write(folder.path("src/main.rs"), programs(&readme, "rust")[0]).expect("the program can be written");
    let mut cargo = Command::new(env!("CARGO"));
    cargo.args(["run", "--quiet", "--offline", "--target-dir", "target"]).current_dir(folder.path(""));
    let (_, expected) = line(&readme, "cargo run  ").split_once("# ").expect("what it prints");
    assert_eq!(done(&mut cargo).trim_end(), expected);
}

#[test]
fn the_readings_of_samples() {
    for row in table("README.md", "Sample") {
        let sample = row[0].replace(',', "").parse().expect("a sample");
        let (case, greys) = match straightener::reading(1, 1, 0, 0, &[sample]).expect("a reading") {
            Reading::Level(greys) => ("Level", greys),
            Reading::Under(greys) => ("Under", greys),
            Reading::Over(greys) => ("Over", greys),
        };
        // As 64 bits, which are printed with every digit.
        assert_eq!(row[2], format!("{case} {}", f64::from(greys)), "sample {sample}");
        let grey = row[1].split(',').next().expect("a grey");
        assert_eq!(grey.parse(), Ok(f64::from(sample) / 128.0), "sample {sample}");
    }
}

/// A sample as README writes it.
fn row_sample(sample: i32) -> String {
    format!("{},{:03}", sample / 1_000, sample % 1_000)
}

/// README's times of the kernels are those of docs/PERFORMANCE.md, to one digit after the point.
#[test]
fn the_times_of_the_kernels() {
    let readme = table("README.md", "Kernel");
    let measured = |head, column: usize| -> Vec<_> {
        let rows = table("docs/PERFORMANCE.md", head).into_iter().take(readme.len());
        rows.map(|row| {
            assert_eq!(row[0], "1,024 by 1,024");
            let time = row[column].strip_suffix(" ms").expect("a time").parse::<f64>().expect("a number");
            (row[1].clone(), format!("{time:.1} ms"))
        })
        .collect()
    };
    let said =
        |column: usize| readme.iter().map(|row| (row[0].clone(), row[column].clone())).collect::<Vec<_>>();
    assert_eq!(said(2), measured("Picture | Kernel | Library", 2));
    assert_eq!(said(3), measured("Picture | Kernel | Wrapped", 3));
}

#[test]
fn the_overshoot_of_each_kernel() {
    let edge = [[BLACK; 6], [WHITE; 6]].concat();
    let rows = table("README.md", "Edge moved by");
    let kernels = [("linear", Kernel::Linear), ("Keys", Kernel::Keys), ("cubic spline", Kernel::Spline)];
    assert_eq!(rows.len(), kernels.len());
    let said = format!("six samples of {} and six of {}, wrapped", row_sample(BLACK), row_sample(WHITE));
    assert!(read("README.md").contains(&said), "the edge that README names");
    for (row, (name, kernel)) in rows.iter().zip(kernels) {
        let (mut result, mut work) = ([0; 12], [0; 72]);
        let told = move_line(kernel, 2_048, Border::Wrapped, &edge, &mut result, &mut work).expect("a move");
        let extremes = [told.smallest, told.largest];
        assert_eq!(row[0], name);
        assert_eq!([&row[1], &row[2]].map(|cell| cell.replace(',', "").parse()), extremes.map(Ok), "{name}");
        let [darkest, lightest] = extremes.map(|sample| f64::from(sample) / 128.0);
        assert_eq!(row[3], format!("{darkest:.1} to {lightest:.1}"), "{name}");
    }
}

/// README's board is what the explanation that it names prints.
#[test]
fn what_made_a_sample() {
    let readme = read("README.md");
    let (_, rest) = readme.split_once("println!(\"{}\", explain(").expect("the explanation");
    let (said, rest) = rest.split_once(")?)").expect("its end");
    assert_eq!(said, "Kernel::Keys, -2_048, 3, &[0, 0, 16, 0]");
    let made = explain(Kernel::Keys, -2_048, 3, &[0, 0, 16, 0]).expect("an explanation");
    let board: Vec<_> = rest.lines().skip(2).map_while(|line| line.strip_prefix("    ")).collect();
    assert_eq!(board, made.to_string().lines().collect::<Vec<_>>());
    let (mut result, mut work) = ([0; 4], [0; 24]);
    move_line(Kernel::Keys, -2_048, Border::Wrapped, &[0, 0, 16, 0], &mut result, &mut work).expect("a move");
    assert!(readme.contains("0 0 16 0 by half a sample to -1 9 9 -1") && result == [-1, 9, 9, -1]);
}

/// README's lines, each moved toward lower places by every kernel.
#[test]
fn a_number_added_to_all_samples() {
    let rows = table("README.md", "Moved by half a sample");
    assert_eq!(rows.len(), 4);
    let samples = |cell: &str| -> Vec<i32> {
        cell.split(' ').map(|sample| sample.parse().expect("a sample")).collect()
    };
    for row in &rows {
        let line = samples(&row[0]);
        for (kernel, cell) in [Kernel::Linear, Kernel::Keys, Kernel::Spline].into_iter().zip(&row[1..]) {
            let (mut result, mut work) = (vec![0; line.len()], vec![0; 6 * line.len()]);
            move_line(kernel, -2_048, Border::Wrapped, &line, &mut result, &mut work).expect("a move");
            assert_eq!(result, samples(cell), "{kernel:?} of {line:?}");
        }
    }
}

/// README's bounds of forecasts, by the largest size of a sample.
#[test]
fn the_bounds_of_forecasts() {
    let rows = table("README.md", "Samples up to");
    assert_eq!(rows.len(), 2);
    let number = |cell: &str| -> u32 {
        cell.split(", ").next().expect("a number").replace(',', "").parse().expect("digits")
    };
    for row in &rows {
        for (kernel, cell) in [Kernel::Linear, Kernel::Keys, Kernel::Spline].into_iter().zip(&row[1..]) {
            let told =
                forecast(3, 2, Setting::new().with_kernel(kernel), number(&row[0])).expect("a forecast");
            assert_eq!(told.bound as u32, number(cell), "{kernel:?} of {}", row[0]);
        }
    }
}

/// README's columns and rows of each plane are those that the centre is judged against, by the plane's number.
#[test]
fn the_planes_of_a_block() {
    let (rows, sides) = (table("README.md", "Plane"), [("width", 2), ("height", 3), ("depth", 5)]);
    let planes = [Plane::AcrossAndDown, Plane::AcrossAndDepth, Plane::DownAndDepth];
    assert_eq!(rows.len(), planes.len());
    let side = |cell: &str| sides.iter().find(|(name, _)| *name == cell).expect("a side of the block").1;
    for (number, (row, plane)) in (0..).zip(rows.iter().zip(planes)) {
        let (columns, rows) = (side(&row[1]), side(&row[2]));
        let centred = |cx, cy| {
            let setting = Setting::new().with_centre(cx, cy);
            straightened_block(2, 3, 5, plane, setting, &[0; 30]).map(|(result, _)| result.len())
        };
        assert_eq!(centred(columns - 1, rows - 1), Ok(30), "{plane:?}");
        assert_eq!(centred(columns, 0), Err(Refusal::Centre), "{plane:?}");
        assert_eq!(centred(0, rows), Err(Refusal::Centre), "{plane:?}");
        assert!(row[0].starts_with(&format!("{number}, ")), "{plane:?}");
        assert_eq!(raw::block_work_places(2, 3, 5, number), 12 * columns.max(rows), "{plane:?}");
    }
}

/// What a difference such as `height - 1 - y` comes to.
fn difference(text: &str, values: [(&str, usize); 4]) -> usize {
    let value = |word: &str| match values.iter().find(|(name, _)| *name == word) {
        Some((_, value)) => *value,
        None => word.parse().expect("a number"),
    };
    let mut words = text.split(" - ").map(value);
    let first = words.next().expect("a word");
    words.fold(first, |left, taken| left - taken)
}

/// README says of every quarter move where each sample goes, and whether width and height trade places.
#[test]
fn where_a_quarter_move_takes_each_sample() {
    let (rows, (width, height)) = (table("README.md", "Move"), (5, 3));
    assert_eq!(rows.len(), Quarter::ALL.len());
    let picture: Vec<i32> = (0..15).collect();
    for (row, quarter) in rows.iter().zip(Quarter::ALL) {
        let (moved, new_width, new_height) =
            quarter_moved(width, height, quarter, &picture).expect("a picture");
        assert_eq!(row[0], quarter.number().to_string());
        let size = if row[3] == "stay" { (width, height) } else { (height, width) };
        assert_eq!((new_width, new_height), size, "{quarter:?}");
        let (column, line) = row[2].trim_matches(['(', ')']).split_once(", ").expect("a column and a row");
        for (place, &sample) in picture.iter().enumerate() {
            let values = [("width", width), ("height", height), ("x", place % width), ("y", place / width)];
            let (column, line) = (difference(column, values), difference(line, values));
            assert_eq!(moved[line * new_width + column], sample, "{quarter:?}, place {place}");
        }
    }
}

/// README's numbers of a commit after which something has changed are those that it is refused under.
#[test]
fn what_happens_between_asking_and_committing() {
    let (picture, work) = ([5, 6, 7, 32_768], [0; 48]);
    let ticket = ask(2, 2, Setting::new(), &[5; 4], &[0; 4], &work[..24]).expect("a ticket");
    let committed = |ticket, width: usize, height: usize, picture: &[i32]| {
        commit(ticket, width, height, picture, &mut [0; 4], &mut work.clone())
            .map_or_else(Refusal::number, |told| told.count)
    };
    let empty = straightener::Ticket { width: 0, height: 0, ..ticket };
    let (good, long) = (&picture[..3], &[5; 4]);
    let rows = [
        (
            "the picture has another size",
            vec![(ticket, 4, 1, &long[..]), (ticket, 0, 1, long), (ticket, 3, 2, long)],
        ),
        (
            "a buffer is shorter, a sample is beyond the range",
            vec![(ticket, 2, 2, good), (ticket, 2, 2, &picture)],
        ),
        ("the asking was refused", vec![(empty, 2, 2, long), (empty, 0, 0, long), (empty, 3, 2, long)]),
    ];
    let shown = table("README.md", "Between the two calls");
    for (between, calls) in rows {
        let row = shown.iter().find(|row| row[0] == between).expect("a row of README");
        let said = row[1].split(':').next().expect("what happens");
        let numbers = calls
            .into_iter()
            .map(|(ticket, width, height, picture)| committed(ticket, width, height, picture));
        assert_eq!(order(said), numbers.collect::<Vec<_>>(), "{between}");
    }
    assert_eq!(shown.iter().filter(|row| row[1].contains("refused")).count(), 3, "rows with a number");
}
