//! The lines of `examples/` and their answers, and the example for Rust.

use conformance::files::bytes_of;
use conformance::{for_both_implementations, Implementation};

for_both_implementations!(lines_have_their_answers);

fn lines_have_their_answers(implementation: &dyn Implementation) {
    let (lines, answers) = (bytes_of("examples/lines.txt"), bytes_of("examples/answers.txt"));
    let lines: Vec<&[u8]> = lines.split_inclusive(|&byte| byte == b'\n').collect();
    let answered = lines.iter().map(|line| implementation.answer_line(&line[..line.len() - 1]));
    let answered: Vec<Vec<u8>> = answered.collect();
    assert!(answered.concat() == answers, "answers.txt is not what lines.txt is answered");
    let numbers: Vec<&[u8]> = answered.iter().map(|answer| &answer[..2]).collect();
    assert_eq!(numbers.concat(), b"000000010304050900", "each number that a line can be refused under");
}

/// The example for C is held to the same cases in `install.rs`.
#[cfg(feature = "library")]
#[test]
fn the_example_for_rust() {
    conformance::level::held_to_its_cases(&|| {
        let mut cargo = std::process::Command::new(env!("CARGO"));
        cargo.args(["run", "--quiet", "--offline", "--package", "straightener", "--example", "level", "--"]);
        cargo.current_dir(conformance::files::in_repository("rust"));
        cargo
    });
}
