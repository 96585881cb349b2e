//! The example `level`, in C and in Rust, held to the same cases.

use crate::files::bytes_of;
use std::fs::OpenOptions;
use std::io::Write;
use std::process::{Command, Output, Stdio};

/// What an example answers to some words and some standard input, its output going to some place.
fn answered(mut example: Command, output: Stdio, words: &str, input: &[u8]) -> Output {
    example.args(words.split_whitespace()).stdin(Stdio::piped()).stdout(output).stderr(Stdio::piped());
    let mut running = example.spawn().expect("the example starts");
    // A call that is refused at once does not wait for its input.
    let _ = running.stdin.take().expect("a pipe").write_all(input);
    running.wait_with_output().expect("the example ends")
}

/// Holds an example to the pictures that it is to write, and to what it is to say where it cannot.
pub fn held_to_its_cases(level: &dyn Fn() -> Command) {
    let written = |words: &str, input: &[u8]| {
        let ended = answered(level(), Stdio::piped(), words, input);
        assert!(ended.status.success(), "{}", String::from_utf8_lossy(&ended.stderr));
        ended.stdout
    };
    let screen = bytes_of("examples/screen.pgm");
    assert!(written("11 34 52 31", &screen) == bytes_of("examples/level.pgm"));
    assert_eq!(written("0 0 5 0", b"P5 # a comment\n#\n3 0002# more\n255\n123456"), b"P5\n3 2\n255\n123456");

    let told = |words: &str, input: &[u8], part: &str| {
        let ended = answered(level(), Stdio::piped(), words, input);
        let said = String::from_utf8(ended.stderr).expect("text");
        assert!(!ended.status.success() && ended.stdout.is_empty() && said.contains(part), "{words}: {said}");
    };
    told("11 34 52", &screen, "left point's column and row");
    told("11 34 52 x", &screen, "not a whole number");
    told("11 34 52 4294967296", &screen, "not a whole number");
    told("0 0 5 50", &screen, "45 degrees");
    told("0 0 1024 0", &screen, "from 0 to 1,023");
    let damaged = [
        &b""[..],
        b"P2 1 1 255 0",
        b"P5 2 2 255 123",
        b"P5 2 2 255# 1234",
        b"P5 2 2 65535 12345678",
        b"P5 2 x 255 1234",
    ];
    for damaged in damaged {
        told("0 0 5 0", damaged, "not a whole raw PGM picture of 256 greys");
    }
    told("0 0 5 0", &[&b"P5 1025 1 255 "[..], &[0; 1_025]].concat(), "from 1 to 1,024");

    let full = OpenOptions::new().write(true).open("/dev/full").expect("a device that is always full");
    let ended = answered(level(), full.into(), "11 34 52 31", &screen);
    assert!(!ended.status.success() && !ended.stderr.is_empty(), "an output that cannot be written is told");
}
