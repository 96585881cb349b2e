//! The tool for pictures, over the files of `examples/` that it made.

use std::fs;
use std::io::Write;
use std::path::PathBuf;
use std::process::{Command, Stdio};

/// A file of the examples.
fn example(name: &str) -> Vec<u8> {
    let path = PathBuf::from(env!("CARGO_MANIFEST_DIR")).join("../../examples").join(name);
    fs::read(&path).unwrap_or_else(|error| panic!("{}: {error}", path.display()))
}

/// What the tool writes for some words and some standard input, or its complaint.
fn pgm(words: &str, input: &[u8]) -> Result<Vec<u8>, String> {
    let mut tool = Command::new(env!("CARGO_BIN_EXE_pgm"))
        .args(words.split_whitespace())
        .stdin(Stdio::piped())
        .stdout(Stdio::piped())
        .stderr(Stdio::piped())
        .spawn()
        .expect("the tool starts");
    // A command that takes no input may end before it is handed over.
    let _ = tool.stdin.take().expect("a pipe").write_all(input);
    let ended = tool.wait_with_output().expect("the tool ends");
    if ended.status.success() {
        Ok(ended.stdout)
    } else {
        Err(String::from_utf8_lossy(&ended.stderr).into_owned())
    }
}

#[test]
fn the_picture_is_the_last_line() {
    let line = pgm("line spline 150", &example("screen.pgm")).expect("a line");
    assert!(example("lines.txt").ends_with(&line));
}

#[test]
fn the_level_picture_comes_by_both_ways() {
    let answers = example("answers.txt");
    let answer = answers.split(|&byte| byte == b'\n').rev().nth(1).expect("a last answer");
    assert!(pgm("picture", answer).expect("a picture") == example("level.pgm"));
    assert!(pgm("straighten spline 150", &example("screen.pgm")).expect("a picture") == example("level.pgm"));
}

#[test]
fn the_close_picture_comes_under_both_borders() {
    let close = pgm("crop 10 14 44 36", &example("screen.pgm")).expect("a part");
    assert!(close == example("close.pgm"));
    assert!(pgm("straighten spline 150", &close).expect("a picture") == example("wrapped.pgm"));
    let on_background = pgm("straighten spline 150 background 70", &close).expect("a picture");
    assert!(on_background == example("corners.pgm"));
}

#[test]
fn corners_on_background_have_its_grey() {
    let screen = example("screen.pgm");
    // A step of 1,000 is 27.4 degrees: each corner comes from beyond the picture.
    let straightened = |words: &str| pgm(words, &screen).expect("a picture");
    let corners = |file: &[u8]| {
        let greys = &file[file.len() - 64 * 64..];
        [greys[0], greys[63], greys[63 * 64], greys[63 * 64 + 63]]
    };
    for grey in [0, 128, 255] {
        let words = format!("straighten linear 1000 background {grey}");
        assert_eq!(corners(&straightened(&words)), [grey; 4]);
    }
    assert_ne!(straightened("straighten linear 1000"), straightened("straighten linear 1000 background 70"));
}

#[test]
fn the_png_pictures_are_those_of_the_pgm_files() {
    for name in ["screen", "level", "close", "wrapped", "corners"] {
        let png = pgm("png", &example(&format!("{name}.pgm"))).expect("a picture");
        assert!(png == example(&format!("{name}.png")));
    }
}

#[test]
fn two_points_on_the_middle_line_give_the_step() {
    assert_eq!(pgm("level 11 34 52 31", b"").expect("a step"), b"150\n");
}

/// The example screen as a camera photographs it that is mounted sideways: its middle line runs up, down or to the left.
#[test]
fn a_picture_on_its_side_is_turned_and_straightened() {
    let screen = example("screen.pgm");
    // Before the turn that is told, the point (x, y) of the screen's 64 by 64 lay elsewhere.
    for (mounted, points, told) in [
        (0, "11 34 52 31", "150\n"),
        (3, "34 52 31 11", "turn 1, then step 150\n"),
        (2, "52 29 11 32", "turn 2, then step 150\n"),
        (1, "29 11 32 52", "turn 3, then step 150\n"),
    ] {
        let photographed = pgm(&format!("turn {mounted}"), &screen).expect("a picture");
        let said = pgm(&format!("level any {points}"), b"").expect("what is to be done");
        assert_eq!(String::from_utf8_lossy(&said), told);
        let turn = told.strip_prefix("turn ").map_or("0", |rest| &rest[..1]);
        let turned = pgm(&format!("turn {turn}"), &photographed).expect("a picture");
        assert!(pgm("straighten spline 150", &turned).expect("a picture") == example("level.pgm"), "{told}");
    }
}

#[test]
fn the_eight_moves_of_a_picture() {
    let picture = |size: &str, greys: &[u8]| [format!("P5\n{size}\n255\n").as_bytes(), greys].concat();
    let moved = [
        ("3 2", b"abcdef"),
        ("2 3", b"daebfc"),
        ("3 2", b"fedcba"),
        ("2 3", b"cfbead"),
        ("3 2", b"cbafed"),
        ("2 3", b"fcebda"),
        ("3 2", b"defabc"),
        ("2 3", b"adbecf"),
    ];
    for (number, (size, greys)) in moved.into_iter().enumerate() {
        let written = pgm(&format!("turn {number}"), &picture("3 2", b"abcdef")).expect("a picture");
        assert_eq!(String::from_utf8_lossy(&written), String::from_utf8_lossy(&picture(size, greys)));
    }
}

#[test]
fn complaints_say_what_is_wrong() {
    let complaint = |words: &str, input: &[u8]| pgm(words, input).expect_err("a complaint");
    assert!(complaint("", b"").contains("pgm straighten KERNEL STEP"));
    assert!(complaint("straighten cubic 80", &example("screen.pgm")).contains("linear, keys or spline"));
    assert!(complaint("straighten keys 1698", &example("screen.pgm")).contains("-1,697 to 1,697"));
    for other in [&b"P3"[..], b"P564 64", b"\x89PNG\r\n\x1A\n", b"\xFF\xFE"] {
        assert!(complaint("straighten keys 80", other).ends_with("it begins with neither P2 nor P5\n"));
    }
    assert!(complaint("picture", b"\xFF").contains("no digit"));
    for part in ["crop 64 0 1 1", "crop 60 0 5 1", "crop 0 0 64 0", "crop 0 1 64 64"] {
        assert!(complaint(part, &example("screen.pgm")).contains("64 by 64"));
    }
    assert!(complaint("crop 0 -1 2 2", &example("screen.pgm")).contains("from 0 on"));
    assert!(complaint("straighten keys 80 background", b"").contains("needs a grey from 0 to 255"));
    assert!(complaint("straighten keys 80 black", b"").contains("background GREY"));
    assert!(complaint("straighten keys 80 background 7 7", b"").contains("background GREY"));
    assert!(complaint("straighten keys 80 background 256", b"").contains("256 is not a grey from 0 to 255"));
    assert!(complaint("straighten keys 80 background -1", b"").contains("-1 is not a grey from 0 to 255"));
    assert!(complaint("picture", b"0900000000\n").contains("number 9"));
    assert!(complaint("level 0 0 5 50", b"").contains("45 degrees"));
    assert!(complaint("level any 5 50 5 50", b"").contains("45 degrees"));
    assert!(complaint("level any 0 0 1024 0", b"").contains("from 0 to 1,023"));
    for number in ["8", "-1", "clockwise"] {
        let words = format!("turn {number}");
        assert!(complaint(&words, &example("screen.pgm")).contains("the quarter move must be 0 to 3"));
    }
    assert!(complaint("turn 1", &[&b"P5 1025 1 255 "[..], &[0; 1_025]].concat()).contains("1 to 1,024"));
    assert!(complaint("line keys 80", b"P2 65 64 255").contains("PGM file ends too early"));
}

#[test]
fn help_is_no_complaint() {
    for word in ["help", "--help", "-h"] {
        assert!(pgm(word, b"").expect("the list of commands").starts_with(b"pgm screen STEP"));
    }
}
