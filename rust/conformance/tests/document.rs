//! The examples that document 01 itself gives, for both implementations.

use conformance::calls::{LineCall, PictureCall};
use conformance::{for_both_implementations, Answer, Implementation};
use reference::second::{Border, Setting};

for_both_implementations!(lines, pictures, steps, levelling, line_format, ranges);

/// The line examples: kernel, d, input, output.
const LINES: [(u32, i32, &[i32], &[i32]); 14] = [
    (0, 2_048, &[0, 10], &[5, 5]),
    (0, 2_048, &[0, 1], &[1, 1]),
    (0, 2_048, &[0, -1], &[0, 0]),
    (0, 1_024, &[0, 0, 16, 0], &[0, 0, 12, 4]),
    (0, -1, &[0, 4_096, 0], &[1, 4_095, 0]),
    (0, 1, &[0, 4_096, 0], &[0, 4_095, 1]),
    (1, -2_048, &[0, 0, 16, 0], &[-1, 9, 9, -1]),
    (2, 2_048, &[0, 6], &[3, 3]),
    (0, 4_096, &[1, 2, 3, 4], &[4, 1, 2, 3]),
    (1, 4_096, &[1, 2, 3, 4], &[4, 1, 2, 3]),
    (2, 4_096, &[1, 2, 3, 4], &[4, 1, 2, 3]),
    (0, 1, &[7], &[7]),
    (1, 1, &[7], &[7]),
    (2, 1, &[7], &[7]),
];

fn lines(implementation: &dyn Implementation) {
    for (kernel, d, line, moved) in LINES {
        let outcome = LineCall::fitting(kernel, d, line.to_vec()).run(implementation);
        assert_eq!(outcome.result, moved, "kernel {kernel}, d = {d}, line {line:?}");
        assert_eq!(outcome.answer, Answer::accepted(u32::from(d % 4_096 != 0)));
    }
}

fn pictures(implementation: &dyn Implementation) {
    let turned = Setting { kernel: 1, cx: 1, cy: 1, a: -4_096, b: 4_096, ..Setting::default() };
    let outcome = PictureCall::fitting((3, 3), turned, (1..10).collect()).run(implementation);
    assert_eq!((outcome.answer, outcome.result), (Answer::accepted(0), vec![7, 4, 1, 8, 5, 2, 9, 6, 3]));

    let sheared = Setting { a: 2_048, ..Setting::default() };
    let outcome = PictureCall::fitting((2, 2), sheared, vec![0, 10, 0, 10]).run(implementation);
    assert_eq!((outcome.answer, outcome.result), (Answer::accepted(2), vec![0, 10, 5, 5]));
}

fn steps(implementation: &dyn Implementation) {
    let table = [(0, 0), (1, 2), (1_000, 1_887), (1_697, 2_897), (-1, -2), (-1_697, -2_897)];
    assert!(table.iter().all(|&(t, value)| implementation.sine(t) == (0, value)));
    assert!([1_698, -1_698, i32::MAX, i32::MIN].iter().all(|&t| implementation.sine(t) == (4, 0)));
    let setting = Setting { kernel: 9, cx: 8, cy: 7, a: 6, b: 5, border: Border::Background(-4) };
    assert_eq!(implementation.with_step(setting, 1_000), (0, Setting { a: -1_000, b: 1_887, ..setting }));
    assert_eq!(implementation.with_step(setting, 1_698), (4, setting));
}

fn levelling(implementation: &dyn Implementation) {
    assert_eq!(implementation.level(0, 0, 100, 1), (0, -20));
    assert_eq!(implementation.level(0, 0, 1_000, 1_000), (0, -1_697));
    assert_eq!(implementation.level(0, 1_000, 1_000, 0), (0, 1_697));
    assert_eq!(implementation.level(5, 9, 1_000, 9), (0, 0));
    assert_eq!(implementation.level(0, 0, 1_024, 0), (7, 0));
    assert_eq!(implementation.level(0, -1, 0, 0), (7, 0), "7 comes before 8");
    assert_eq!(implementation.level(3, 3, 3, 3), (8, 0));
    assert_eq!(implementation.level(0, 0, 10, 11), (8, 0));
}

fn line_format(implementation: &dyn Implementation) {
    assert_eq!(implementation.answer_line(b"000000000100010000000080"), b"0000000001000100004000\n");
    assert_eq!(implementation.answer_line(b""), b"0900000000\n");
    assert_eq!(implementation.answer_line(b"000000000100010000000080\n"), b"0900000000\n");
}

fn ranges(implementation: &dyn Implementation) {
    let of_picture =
        |v: i32| PictureCall::fitting((2, 1), Setting::default(), vec![0, v]).run(implementation).answer;
    let of_line = |v: i32| LineCall::fitting(0, 0, vec![0, v]).run(implementation).answer;
    let of_summary = |v: i32| implementation.summary((2, 1), &[0, v]).0;
    let beyond = Answer::of(6, 0, 1, 0);
    for sign in [1, -1] {
        assert_eq!((of_picture(sign * 32_767), of_picture(sign * 32_768)), (Answer::accepted(0), beyond));
        assert_eq!((of_line(sign * 294_912), of_line(sign * 294_913)), (Answer::accepted(0), beyond));
        assert_eq!(
            (of_summary(sign * 1_048_576), of_summary(sign * 1_048_577)),
            (Answer::accepted(0), beyond)
        );
    }
}
