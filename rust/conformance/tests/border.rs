//! The border of a setting: wrapped, or background with its sample value, and number 12.

use conformance::calls::{LineCall, PictureCall, BAD_BACKGROUNDS};
use conformance::numbers::Numbers;
use conformance::{for_both_implementations, Answer, Implementation};
use reference::second::{Border, Setting};

for_both_implementations!(
    lines_by_hand,
    a_line_moved_by_its_length_or_more_becomes_background,
    a_line_moved_by_a_4096th_less_is_interpolated,
    the_length_of_a_row_is_the_width,
    the_length_of_a_column_is_the_height,
    a_wrapped_line_has_no_end,
    backgrounds_at_the_edges_of_their_range,
    number_12_on_a_picture_with_each_other_number,
    number_12_on_a_line_with_each_other_number,
    the_line_format_stays_wrapped,
);

/// A line on background: kernel, d, background, input, output.
type Example = (u32, i32, i32, &'static [i32], &'static [i32]);

/// Lines worked out by hand.
const LINES: [Example; 11] = [
    (0, 4_096, 9, &[1, 2, 3], &[9, 1, 2]),
    (1, -4_096, 9, &[1, 2, 3], &[2, 3, 9]),
    (2, 8_192, -9, &[1, 2, 3], &[-9, -9, 1]),
    (2, 0, -9, &[1, 2, 3], &[1, 2, 3]),
    (0, 2_048, 100, &[0, 10], &[50, 5]),
    (0, -2_048, 100, &[0, 10], &[5, 55]),
    (0, 6_144, 100, &[0, 10], &[100, 50]),
    (0, 8_191, 0, &[4_096, 0], &[0, 1]),
    (1, -2_048, 100, &[0, 0, 16, 0], &[-7, 9, 3, 49]),
    (0, 2_048, 7, &[7], &[7]),
    (0, 1_024, 0, &[8], &[6]),
];

fn lines_by_hand(implementation: &dyn Implementation) {
    for (kernel, d, background, line, moved) in LINES {
        let call = LineCall::fitting(kernel, d, line.to_vec()).with_border(Border::Background(background));
        let outcome = call.run(implementation);
        assert_eq!(outcome.result, moved, "{call:?}");
        assert_eq!(outcome.answer, Answer::accepted(u32::from(d % 4_096 != 0)), "{call:?}");
    }
}

/// Lengths of lines, up to the longest.
const LENGTHS: [usize; 9] = [1, 2, 3, 4, 5, 16, 63, 1_023, 1_024];

fn a_line_moved_by_its_length_or_more_becomes_background(implementation: &dyn Implementation) {
    let mut numbers = Numbers::seeded(51);
    for n in LENGTHS {
        let length = 4_096 * n as i32;
        let moves = [length, length + 1, length + 2_048, 3 * length, 4_194_304];
        for d in moves.into_iter().filter(|&d| d <= 4_194_304).flat_map(|d| [d, -d]) {
            for kernel in 0..3 {
                let background = numbers.edgy(32_767);
                let call = LineCall::fitting(kernel, d, numbers.samples(n, 294_912))
                    .with_border(Border::Background(background));
                let outcome = call.run(implementation);
                assert_eq!(outcome.answer, Answer::accepted(0), "{call:?}");
                assert_eq!(outcome.result, vec![background; n], "{call:?}");
            }
        }
    }
}

fn a_line_moved_by_a_4096th_less_is_interpolated(implementation: &dyn Implementation) {
    for n in LENGTHS {
        for kernel in 0..3 {
            let line_at = |d: i32| {
                let call = LineCall::fitting(kernel, d, vec![100_000; n]).with_border(Border::Background(0));
                let outcome = call.run(implementation);
                assert_eq!(outcome.answer, Answer::accepted(1), "{call:?}");
                outcome.result
            };
            // The line's nearest sample shows by its 4,096th part.
            let (right, left) = (line_at(4_096 * n as i32 - 1), line_at(1 - 4_096 * n as i32));
            assert!(right[n - 1] > 0 && left[0] > 0, "kernel {kernel}: {right:?} {left:?}");
        }
    }
}

/// The picture and the count of a straightening that is accepted.
fn straightened(
    implementation: &dyn Implementation,
    size: (usize, usize),
    setting: Setting,
    picture: Vec<i32>,
) -> (Vec<i32>, u32) {
    let outcome = PictureCall::fitting(size, setting, picture).run(implementation);
    assert_eq!(outcome.answer.number, 0, "{size:?} {setting:?}");
    (outcome.result, outcome.answer.count)
}

fn the_length_of_a_row_is_the_width(implementation: &dyn Implementation) {
    // Rows of 2 samples, 9 of them: those at 1 or 2 from the centre move by less than 2 samples.
    let setting = Setting { cy: 4, a: -4_095, border: Border::Background(-3), ..Setting::default() };
    let (result, count) = straightened(implementation, (2, 9), setting, vec![1_000; 18]);
    assert_eq!(count, 2 * 4);
    for y in [0, 1, 7, 8] {
        assert_eq!(result[2 * y..2 * y + 2], [-3, -3], "row {y}");
    }
    assert_eq!(result[8..10], [1_000, 1_000], "the row of the centre");
    // By whole samples, the rows at 2 from the centre leave the picture too.
    let setting = Setting { a: 4_096, ..setting };
    let (result, count) = straightened(implementation, (2, 9), setting, vec![1_000; 18]);
    let expected = [vec![-3; 8], vec![1_000; 2], vec![-3; 8]].concat();
    assert_eq!((result, count), (expected, 0));
}

fn the_length_of_a_column_is_the_height(implementation: &dyn Implementation) {
    // Columns of 2 samples, 9 of them: those at 1 or 2 from the centre move by less than 2 samples.
    let setting = Setting { cx: 4, b: 4_095, border: Border::Background(-3), ..Setting::default() };
    let result = straightened(implementation, (9, 2), setting, vec![4_096; 18]);
    let upper = [-3, -3, -1, 4_096, 4_096, -2, -3, -3, -3];
    let lower = [-3, -3, -3, -2, 4_096, 4_096, -1, -3, -3];
    assert_eq!(result, ([upper, lower].concat(), 4));
    // By whole samples, the columns at 2 from the centre leave the picture too.
    let setting = Setting { b: 4_096, ..setting };
    let result = straightened(implementation, (9, 2), setting, vec![4_096; 18]);
    let upper = [-3, -3, -3, 4_096, 4_096, -3, -3, -3, -3];
    let lower = [-3, -3, -3, -3, 4_096, 4_096, -3, -3, -3];
    assert_eq!(result, ([upper, lower].concat(), 0));
}

fn a_wrapped_line_has_no_end(implementation: &dyn Implementation) {
    for d in [8_193, -8_193, 12_289, 4_194_303] {
        let outcome = LineCall::fitting(0, d, vec![0, 4_096]).run(implementation);
        assert_eq!(outcome.answer, Answer::accepted(1), "d = {d}");
        assert_eq!(outcome.result.iter().sum::<i32>(), 4_096, "d = {d}");
    }
}

fn backgrounds_at_the_edges_of_their_range(implementation: &dyn Implementation) {
    let of_line = |value: i32| {
        LineCall::fitting(0, 0, vec![5, 6]).with_border(Border::Background(value)).run(implementation).answer
    };
    let of_picture = |value: i32| {
        let setting = Setting::default().with_border(Border::Background(value));
        PictureCall::fitting((2, 1), setting, vec![5, 6]).run(implementation).answer
    };
    for value in [0, 1, -1, 32_767, -32_767] {
        assert_eq!([of_line(value), of_picture(value)], [Answer::accepted(0); 2], "{value}");
    }
    for value in BAD_BACKGROUNDS {
        assert_eq!([of_line(value), of_picture(value)], [Answer::refused(12); 2], "{value}");
    }
}

/// Makes one thing about a call wrong.
type Spoil<Call> = fn(&mut Call);

fn number_12_on_a_picture_with_each_other_number(implementation: &dyn Implementation) {
    let earlier: [(u32, Spoil<PictureCall>); 12] = [
        (1, |call| call.size.0 = 0),
        (1, |call| call.size.1 = 1_025),
        (2, |call| call.picture.truncate(5)),
        (2, |call| call.result_length -= 1),
        (2, |call| call.work_length -= 1),
        (3, |call| call.setting.cx = 3),
        (3, |call| call.setting.cy = 2),
        (4, |call| call.setting.a = 4_097),
        (4, |call| call.setting.b = -4_097),
        (5, |call| call.setting.kernel = 3),
        (12, |_| {}),
        (12, |call| call.picture[0] = 32_768),
    ];
    for (number, spoil) in earlier {
        for value in BAD_BACKGROUNDS {
            let setting = Setting::default().with_border(Border::Background(value));
            let mut call = PictureCall::fitting((3, 2), setting, vec![0; 6]);
            spoil(&mut call);
            assert_eq!(call.run(implementation).answer, Answer::refused(number), "{call:?}");
        }
    }
}

fn number_12_on_a_line_with_each_other_number(implementation: &dyn Implementation) {
    let earlier: [(u32, Spoil<LineCall>); 9] = [
        (1, |call| call.n = 0),
        (1, |call| call.n = 1_025),
        (2, |call| call.line.truncate(2)),
        (2, |call| call.result_length -= 1),
        (2, |call| call.work_length -= 1),
        (4, |call| call.d = -4_194_305),
        (5, |call| call.kernel = 3),
        (12, |_| {}),
        (12, |call| call.line[0] = 294_913),
    ];
    for (number, spoil) in earlier {
        for value in BAD_BACKGROUNDS {
            let mut call = LineCall::fitting(1, 99, vec![0; 3]).with_border(Border::Background(value));
            spoil(&mut call);
            assert_eq!(call.run(implementation).answer, Answer::refused(number), "{call:?}");
        }
    }
}

// Kernel 0, step 1,000, 2 by 2, centre (0, 0): the lower row would lose its end on background.
fn the_line_format_stays_wrapped(implementation: &dyn Implementation) {
    let line = b"0003E800020002000000000000FFFF";
    let (_, setting) = implementation.with_step(Setting::default(), 1_000);
    let picture = vec![0, 0, 32_640, 32_640];
    let (wrapped, count) = straightened(implementation, (2, 2), setting, picture.clone());
    let on_background = setting.with_border(Border::Background(0));
    assert_ne!(straightened(implementation, (2, 2), on_background, picture).0, wrapped);
    let samples: String = wrapped.iter().map(|sample| format!("{sample:08X}")).collect();
    let expected = format!("00{count:04X}00020002{samples}\n");
    assert_eq!(implementation.answer_line(line), expected.as_bytes());
}

/// The fields of the C interface, which hold more than a [`Border`] can say.
#[cfg(feature = "library")]
mod fields {
    use conformance::calls::BAD_BACKGROUNDS;
    use conformance::numbers::Numbers;
    use conformance::raw_setting;
    use straightener::raw;

    /// What a picture of 4 by 3 becomes.
    fn straightened(setting: raw::Setting, picture: &[i32]) -> (raw::Answer, Vec<i32>) {
        let (mut result, mut work) = (vec![7; 12], vec![7; 48]);
        (raw::straighten(4, 3, setting, picture, &mut result, &mut work), result)
    }

    /// What a line becomes.
    fn moved(kernel: u32, border: u32, background: i32, line: &[i32]) -> (raw::Answer, Vec<i32>) {
        let (mut result, mut work) = (vec![7; line.len()], vec![7; 6 * line.len()]);
        let answer =
            raw::move_line(line.len(), kernel, 5_000, border, background, line, &mut result, &mut work);
        (answer, result)
    }

    #[test]
    fn a_wrapped_border_ignores_the_background() {
        let mut numbers = Numbers::seeded(52);
        for kernel in 0..3 {
            let setting = raw::Setting { border: 0, ..raw_setting(numbers.setting(kernel, 4, 3)) };
            let picture = numbers.samples(12, 32_767);
            let (expected, line) = (straightened(setting, &picture), moved(kernel, 0, 0, &picture));
            assert_eq!((expected.0.number, line.0.number), (0, 0));
            for background in BAD_BACKGROUNDS.into_iter().chain([-1, 32_767]) {
                assert_eq!(straightened(raw::Setting { background, ..setting }, &picture), expected);
                assert_eq!(moved(kernel, 0, background, &picture), line);
            }
        }
    }

    #[test]
    fn every_border_but_0_is_background() {
        let mut numbers = Numbers::seeded(53);
        for kernel in 0..3 {
            let background = numbers.edgy(32_767);
            let sheared = raw::Setting { kernel, cx: 2, a: 3_000, b: -2_000, ..Default::default() };
            let setting = raw::Setting { border: 1, background, ..sheared };
            let picture: Vec<i32> = (0..12).map(|_| numbers.within(32_767)).collect();
            let (expected, line) = (straightened(setting, &picture), moved(kernel, 1, background, &picture));
            assert_eq!((expected.0.number, line.0.number), (0, 0));
            assert_ne!(expected, straightened(sheared, &picture));
            for border in [2, 3, 256, 65_536, 1 << 31, u32::MAX] {
                assert_eq!(straightened(raw::Setting { border, ..setting }, &picture), expected);
                assert_eq!(moved(kernel, border, background, &picture), line);
                for background in BAD_BACKGROUNDS {
                    let bad = raw::Setting { border, background, ..setting };
                    assert_eq!(straightened(bad, &picture).0.number, 12);
                    assert_eq!(moved(kernel, border, background, &picture).0.number, 12);
                }
            }
        }
    }

    /// Fields of a border as a C program may fill them in.
    const FIELDS: [(u32, i32); 6] =
        [(0, 0), (0, i32::MIN), (0, 5), (1, 32_768), (7, -32_767), (u32::MAX, i32::MAX)];

    #[test]
    fn every_change_keeps_the_fields_as_they_are() {
        for (border, background) in FIELDS {
            let setting = raw::Setting { kernel: 9, cx: 8, cy: 7, a: 6, b: 5, border, background };
            assert_eq!(raw::with_kernel(setting, 1), raw::Setting { kernel: 1, ..setting });
            assert_eq!(raw::with_centre(setting, 2, 3), raw::Setting { cx: 2, cy: 3, ..setting });
            assert_eq!(raw::with_shears(setting, -2, -3), raw::Setting { a: -2, b: -3, ..setting });
            let stepped = raw::with_step(setting, 1_000);
            let expected = raw::Setting { a: -1_000, b: 1_887, ..setting };
            assert_eq!((stepped.number, stepped.setting), (0, expected));
            let refused = raw::with_step(setting, -1_698);
            assert_eq!((refused.number, refused.setting), (4, setting));
        }
    }

    #[test]
    fn another_border_sets_both_fields_and_no_other() {
        for (border, background) in FIELDS {
            for (before, value) in FIELDS {
                let setting =
                    raw::Setting { kernel: 9, cx: 8, cy: 7, a: 6, b: 5, border: before, background: value };
                let expected = raw::Setting { border, background, ..setting };
                assert_eq!(raw::with_border(setting, border, background), expected);
            }
        }
    }
}
