//! The line program itself, as it is built: over the vectors, over input that arrives in pieces, and where
//! its input or its output fails.
#![cfg(feature = "library")]

use conformance::files::{built, cases, Temporary};
use conformance::numbers::Numbers;
use reference::second;
use std::fs::{self, File};
use std::io::{Read, Write};
use std::os::fd::OwnedFd;
use std::os::unix::net::UnixStream;
use std::process::{Child, ChildStdin, Command, Output, Stdio};
use std::thread;

/// The line program, with nothing said yet of its input and its output.
fn program() -> Command {
    Command::new(built("bin/straightener", "make program"))
}

/// The line program with pipes for its input, its output and its complaints.
fn running() -> Child {
    program()
        .stdin(Stdio::piped())
        .stdout(Stdio::piped())
        .stderr(Stdio::piped())
        .spawn()
        .expect("the line program starts")
}

fn hand_over(input: &mut ChildStdin, piece: &[u8]) {
    input.write_all(piece).expect("the program reads its input");
    input.flush().expect("the program reads its input");
}

/// What the program prints for an input that is handed to it in pieces.
fn printed(pieces: Vec<Vec<u8>>) -> Vec<u8> {
    let mut running = running();
    let mut input = running.stdin.take().expect("a pipe");
    let writer = thread::spawn(move || pieces.iter().for_each(|piece| hand_over(&mut input, piece)));
    let output = running.wait_with_output().expect("the program ends");
    writer.join().expect("the writer ends");
    assert!(output.status.success());
    assert!(output.stderr.is_empty(), "{}", String::from_utf8_lossy(&output.stderr));
    output.stdout
}

#[test]
fn the_vectors() {
    for case in cases() {
        let output = printed(vec![case.input]);
        assert!(output == case.output, "the output of {} differs", case.name);
    }
}

#[test]
fn all_vectors_in_one_input() {
    let (mut input, mut output) = (Vec::new(), Vec::new());
    for case in cases().iter().filter(|case| case.input.ends_with(b"\n")) {
        input.extend_from_slice(&case.input);
        output.extend_from_slice(&case.output);
    }
    assert!(input.len() > 150_000, "{} bytes are too few to fill every buffer", input.len());
    assert!(printed(vec![input.repeat(3)]) == output.repeat(3));
}

#[test]
fn input_in_pieces_gives_the_same_output() {
    let mut numbers = Numbers::seeded(41);
    let cases = cases();
    for name in ["big2", "crlf", "no_last_lf_two", "trailing_empty", "long_junk", "prec_3_4_5"] {
        let case = cases.iter().find(|case| case.name == name).expect("a case of that name");
        let (mut pieces, mut rest) = (Vec::new(), &case.input[..]);
        while !rest.is_empty() {
            let (piece, later) = rest.split_at((1 + numbers.below(1 + case.input.len() / 3)).min(rest.len()));
            pieces.push(piece.to_vec());
            rest = later;
        }
        assert!(printed(pieces) == case.output, "{name} in pieces");
    }
}

#[test]
fn lines_of_every_length_about_the_longest() {
    let line = |digits: usize| [vec![b'0'; digits], b"\n".to_vec()].concat();
    let input: Vec<u8> = (0..40).chain(8_190..8_230).flat_map(line).collect();
    assert!(printed(vec![input.clone()]) == second::answer_input(&input));
}

#[test]
fn hostile_bytes() {
    let mut numbers = Numbers::seeded(42);
    let input: Vec<u8> =
        (0..200_000).map(|_| if numbers.once_in(30) { b'\n' } else { numbers.bits() as u8 }).collect();
    assert!(printed(vec![input.clone()]) == second::answer_input(&input));
}

/// A line of `length` bytes, none of them a digit, with one other byte at a place of it.
fn line_with(byte: u8, place: usize, length: usize) -> Vec<u8> {
    [&vec![b'G'; place], &[byte][..], &vec![b'G'; length - 1 - place]].concat()
}

/// Each byte in turn stands at each place of three words: a line feed there ends the line, and no other byte does.
#[test]
fn a_line_feed_alone_ends_a_line() {
    for byte in 0..=255 {
        let input: Vec<u8> =
            (0..24).flat_map(|place| [line_with(byte, place, 24), vec![b'\n']].concat()).collect();
        let answers = if byte == b'\n' { 48 } else { 24 };
        assert!(printed(vec![input]) == b"0900000000\n".repeat(answers), "byte {byte}");
    }
}

/// The same for the last byte of a word and the seven behind it, where the input ends.
#[test]
fn a_line_feed_behind_the_last_word() {
    for place in 15..23 {
        for byte in [9, 10, 11, 13, 138] {
            let answers = if byte == b'\n' && place < 22 { 2 } else { 1 };
            let output = printed(vec![line_with(byte, place, 23)]);
            assert!(output == b"0900000000\n".repeat(answers), "byte {byte} at {place}");
        }
    }
}

/// A well-formed line of 8 by 6 greys, without its line feed.
fn small_line(numbers: &mut Numbers) -> Vec<u8> {
    let greys: String = (0..48).map(|_| format!("{:02X}", numbers.below(256))).collect();
    format!("0200960008000600030005{greys}").into_bytes()
}

/// The first piece ends inside a line. It is known to be read before the second is sent, since the line that
/// ended in it is answered first.
#[test]
fn a_line_goes_on_after_a_pause() {
    let mut numbers = Numbers::seeded(43);
    let (first, second) = (small_line(&mut numbers), small_line(&mut numbers));
    let (first_answer, second_answer) = (second::answer_line(&first), second::answer_line(&second));
    for cut in (0..=second.len()).step_by(7) {
        let mut running = running();
        let mut input = running.stdin.take().expect("a pipe");
        let mut output = running.stdout.take().expect("a pipe");
        hand_over(&mut input, &[&first[..], b"\n", &second[..cut]].concat());
        let mut answered = vec![0; first_answer.len()];
        output.read_exact(&mut answered).expect("the first line is answered while the input is open");
        assert!(answered == first_answer);
        hand_over(&mut input, &[&second[cut..], b"\n"].concat());
        drop(input);
        let mut rest = Vec::new();
        output.read_to_end(&mut rest).expect("output");
        assert!(rest == second_answer, "cut after {cut} bytes");
        assert!(running.wait().expect("the program ends").success());
    }
}

/// A line feed as the last byte of a block, as the first of the next, and a line across both.
#[test]
fn lines_about_the_ends_of_blocks() {
    let mut numbers = Numbers::seeded(44);
    let line = small_line(&mut numbers);
    for before_end in [0, 1, 2, 22, line.len() - 1, line.len(), line.len() + 1] {
        for blocks in 1..3 {
            let mut input = vec![b'F'; 65_536 * blocks - before_end - 1];
            input.push(b'\n');
            for _ in 0..3 {
                input.extend_from_slice(&line);
                input.push(b'\n');
            }
            assert!(
                printed(vec![input.clone()]) == second::answer_input(&input),
                "{before_end} before block {blocks}"
            );
        }
    }
}

/// Far more blocks than any count could be meant to bound.
#[test]
fn a_long_input_is_read_to_its_end() {
    let mut numbers = Numbers::seeded(45);
    let line = small_line(&mut numbers);
    let mut pieces = vec![vec![b'0'; 65_536]; 2_000];
    pieces.push([b"\n", &line[..], b"\n"].concat());
    assert!(printed(pieces) == [b"0900000000\n".to_vec(), second::answer_line(&line)].concat());
}

/// Runs the program on an input and an output of its own, and answers what it wrote elsewhere.
fn run_on(input: impl Into<Stdio>, output: impl Into<Stdio>) -> Output {
    let child = program().stdin(input).stdout(output).stderr(Stdio::piped()).spawn();
    child.expect("the line program starts").wait_with_output().expect("the program ends")
}

/// The one line that the program writes to standard error where its input or its output failed. It ends with
/// status 0 all the same.
fn complaint(output: &Output) -> String {
    assert!(output.status.success());
    let text = String::from_utf8(output.stderr.clone()).expect("text");
    assert!(text.starts_with("straightener: answers are missing, standard "), "{text:?}");
    assert_eq!(text.matches('\n').count(), 1, "{text:?}");
    text
}

/// A file that holds some lines. Its name goes with the folder that it is made in; what is open stays.
fn file_of(name: &str, lines: &[u8]) -> File {
    let folder = Temporary::new(name);
    fs::write(folder.path("lines.txt"), lines).expect("a file can be written");
    File::open(folder.path("lines.txt")).expect("the file is there")
}

#[test]
fn a_full_device_is_told() {
    let full = File::options().write(true).open("/dev/full").expect("a full device");
    let text = complaint(&run_on(file_of("full", b"000000000100010000000080\n"), full));
    assert!(text.contains("standard output could not be written"), "{text}");
}

#[test]
fn closed_descriptors_are_told() {
    let shell = |redirected: &str| {
        let script = format!("exec \"$0\" {redirected}");
        let path = built("bin/straightener", "make program");
        Command::new("sh").arg("-c").arg(script).arg(path).output().expect("a shell")
    };
    assert!(complaint(&shell("<&-")).contains("standard input could not be read"));
    assert!(
        complaint(&shell("</dev/null >&- <<end\n0\nend")).contains("standard output could not be written")
    );
}

#[test]
fn a_directory_as_input_is_told() {
    let directory = File::open(env!("CARGO_MANIFEST_DIR")).expect("a directory");
    let output = run_on(directory, Stdio::piped());
    assert!(complaint(&output).contains("standard input could not be read"));
    assert!(output.stdout.is_empty());
}

/// An input that has no more bytes for now is one that cannot be read. What had come is answered.
#[test]
fn an_input_that_does_not_wait_is_told() {
    let (mut ours, theirs) = UnixStream::pair().expect("two sockets");
    theirs.set_nonblocking(true).expect("no waiting");
    ours.write_all(b"000000000100010000000080\n0000").expect("a line and a half");
    let output = run_on(OwnedFd::from(theirs), Stdio::piped());
    assert!(complaint(&output).contains("standard input could not be read"));
    assert_eq!(output.stdout, b"0000000001000100004000\n", "the half line is not answered");
}

/// An output that takes no more bytes for now cannot be written. What it took is the beginning of the answers.
#[test]
fn an_output_that_does_not_wait_is_told() {
    let (mut ours, theirs) = UnixStream::pair().expect("two sockets");
    theirs.set_nonblocking(true).expect("no waiting");
    let input: Vec<u8> = cases().into_iter().find(|case| case.name == "big2").expect("a large case").input;
    let input = [&input[..], b"\n"].concat().repeat(40);
    let output = run_on(file_of("unwaiting", &input), OwnedFd::from(theirs));
    assert!(complaint(&output).contains("standard output could not be written"));
    let mut taken = Vec::new();
    ours.read_to_end(&mut taken).expect("what was written");
    let answers = second::answer_input(&input);
    assert!(taken.len() < answers.len() && answers.starts_with(&taken));
}

/// Nobody reads the answers: the program ends, and tells it like every output that cannot be written. The kit keeps
/// the system's signal for such a pipe from its programs.
#[test]
fn an_output_that_nobody_reads_ends_the_program() {
    let mut running = running();
    drop(running.stdout.take());
    let mut input = running.stdin.take().expect("a pipe");
    // A program that another test is just starting has the pipe open too, for a moment: so lines are handed
    // over until this one takes no more, which a million lines outlast by far.
    let _ = (0..1_000_000).try_for_each(|_| input.write_all(b"000000000100010000000080\n"));
    drop(input);
    let output = running.wait_with_output().expect("the program ends");
    assert!(complaint(&output).contains("standard output could not be written"));
}
