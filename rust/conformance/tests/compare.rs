//! The proved library against the second implementation, call by call.
#![cfg(feature = "library")]

use conformance::blocks::BlockCall;
use conformance::calls::{ExplainCall, LineCall, Outcome, PictureCall, BAD_BACKGROUNDS};
use conformance::numbers::Numbers;
use conformance::quarters::{QuarterCall, MOVES, NO_MOVES};
use conformance::{Answer, Implementation, Library, Second};
use reference::second::{Border, Setting};

/// Runs a picture call on both, and answers the outcome that they share.
fn agreed_picture(call: &PictureCall) -> Outcome {
    let outcome = call.run(&Library);
    let second = call.run(&Second);
    if outcome != second {
        let place = outcome.result.iter().zip(&second.result).position(|(a, b)| a != b);
        panic!(
            "{:?} against {:?}, first differing place {place:?}: {:?}",
            outcome.answer,
            second.answer,
            Head(call)
        );
    }
    outcome
}

/// A picture call that prints its picture only if it is small.
struct Head<'a>(&'a PictureCall);

impl std::fmt::Debug for Head<'_> {
    fn fmt(&self, f: &mut std::fmt::Formatter<'_>) -> std::fmt::Result {
        if self.0.picture.len() <= 100 {
            return self.0.fmt(f);
        }
        write!(f, "size {:?}, {:?}", self.0.size, self.0.setting)
    }
}

#[test]
fn every_size_from_1_by_1_to_9_by_9() {
    let mut numbers = Numbers::seeded(21);
    for (width, height) in (1..=9).flat_map(|width| (1..=9).map(move |height| (width, height))) {
        for turn in 0..24 {
            let setting = numbers.setting(turn % 3, width, height);
            let samples = numbers.samples(width * height, 32_767);
            let outcome = agreed_picture(&PictureCall::fitting((width, height), setting, samples));
            assert_eq!(outcome.answer.number, 0);
        }
    }
}

#[test]
fn sizes_about_blocks_of_lines_and_long_sides() {
    let mut numbers = Numbers::seeded(22);
    let sizes =
        [(1, 1_024), (1_024, 1), (2, 1_023), (1_023, 3), (5, 257), (31, 33), (64, 64), (63, 65), (130, 17)];
    for (width, height) in sizes {
        for turn in 0..6 {
            let setting = numbers.setting(turn % 3, width, height);
            let samples = numbers.samples(width * height, 32_767);
            let outcome = agreed_picture(&PictureCall::fitting((width, height), setting, samples));
            assert_eq!(outcome.answer.number, 0);
        }
    }
}

#[test]
fn pictures_of_640_by_480_and_1024_by_1024() {
    let mut numbers = Numbers::seeded(23);
    for (width, height) in [(640, 480), (1_024, 1_024)] {
        let samples: Vec<i32> = (0..width * height).map(|_| numbers.within(32_767)).collect();
        for (kernel, step) in [(0, 80), (1, -1_697), (2, 333)] {
            let centred = Setting::default().with_kernel(kernel).with_centre(width / 2, height / 2);
            let (_, setting) = reference::second::with_step(centred, step);
            for border in [Border::Wrapped, Border::Background(numbers.edgy(32_767))] {
                let setting = setting.with_border(border);
                let outcome =
                    agreed_picture(&PictureCall::fitting((width, height), setting, samples.clone()));
                assert!(outcome.answer.count > 1_500, "{:?}", outcome.answer);
            }
        }
    }
}

#[test]
fn the_last_of_a_million_samples_is_judged() {
    let mut call = PictureCall::fitting((1_024, 1_024), Setting::default(), vec![32_767; 1 << 20]);
    assert_eq!(agreed_picture(&call).answer.number, 0);
    call.picture[(1 << 20) - 1] = 32_768;
    let answer = agreed_picture(&call).answer;
    assert_eq!((answer.number, answer.row, answer.column), (6, 1_023, 1_023));
}

#[test]
fn hostile_picture_calls() {
    let (mut numbers, mut seen) = (Numbers::seeded(24), [0; 13]);
    for _ in 0..12_000 {
        seen[agreed_picture(&PictureCall::hostile(&mut numbers)).answer.number as usize] += 1;
    }
    assert!(
        [0, 1, 2, 3, 4, 5, 6, 12].iter().all(|&number| seen[number] > 150),
        "each number is to come up: {seen:?}"
    );
}

/// Runs a block call on both, and answers the outcome that they share.
fn agreed_block(call: &BlockCall) -> Outcome {
    let (outcome, second) = (call.run(&Library), call.run(&Second));
    assert_eq!(outcome.answer, second.answer, "{call:?}");
    assert!(outcome == second, "the answers agree, and what is left does not: {call:?}");
    outcome
}

#[test]
fn hostile_block_calls() {
    let (mut numbers, mut seen) = (Numbers::seeded(34), [0; 18]);
    for _ in 0..12_000 {
        seen[agreed_block(&BlockCall::hostile(&mut numbers)).answer.number as usize] += 1;
    }
    let judged = [0, 1, 2, 3, 4, 5, 6, 12, 17];
    assert!(judged.iter().all(|&number| seen[number] > 150), "each number is to come up: {seen:?}");
}

#[test]
fn blocks_of_every_size_from_1_to_4_and_of_long_sides() {
    let mut numbers = Numbers::seeded(35);
    let small = (0..64).map(|i| [1 + i % 4, 1 + i / 4 % 4, 1 + i / 16]);
    let long = [[128, 3, 2], [2, 128, 3], [3, 2, 128], [127, 9, 128], [33, 31, 17]];
    for sides in small.chain(long) {
        for (plane, kernel) in (0..9).map(|turn| (turn % 3, turn / 3)) {
            let call = BlockCall::good(&mut numbers, sides, plane, kernel);
            assert_eq!(agreed_block(&call).answer.number, 0, "{call:?}");
        }
    }
    for plane in 0..3 {
        let call = BlockCall::good(&mut numbers, [128; 3], plane, plane);
        assert_eq!(agreed_block(&call).answer.number, 0, "{call:?}");
    }
}

#[test]
fn the_last_sample_of_the_largest_block_is_judged() {
    for plane in 0..3 {
        let mut call = BlockCall::fitting([128; 3], plane, Setting::default(), vec![-32_767; 1 << 21]);
        assert_eq!(call.run(&Library).answer, Answer::accepted(0));
        call.block[(1 << 21) - 1] = -32_768;
        assert_eq!(call.run(&Library).answer, Answer::bad_sample(127, 127, 127));
    }
}

/// Runs a quarter move on both, and answers the number that they share.
fn agreed_move(call: &QuarterCall) -> u32 {
    let (outcome, second) = (call.run(&Library), call.run(&Second));
    assert_eq!((outcome.answer, outcome.size), (second.answer, second.size), "{call:?}");
    assert!(outcome.result == second.result, "the answers agree, and what is left does not: {call:?}");
    outcome.answer.number
}

#[test]
fn hostile_quarter_moves() {
    let (mut numbers, mut seen) = (Numbers::seeded(36), [0; 18]);
    for _ in 0..20_000 {
        seen[agreed_move(&QuarterCall::hostile(&mut numbers)) as usize] += 1;
    }
    assert!([0, 1, 2, 6, 16].iter().all(|&number| seen[number] > 300), "{seen:?}");
    assert_eq!(
        seen.iter().sum::<u32>(),
        [0, 1, 2, 6, 16].map(|number| seen[number]).iter().sum(),
        "{seen:?}"
    );
}

/// Every size up to 12 by 12, sides about 64 and 128 and the longest ones.
#[test]
fn quarter_moves_of_small_and_of_long_sides() {
    let (mut numbers, about) = (Numbers::seeded(37), [63, 64, 65, 127, 128, 129]);
    let small = (0..144).map(|i| (1 + i % 12, 1 + i / 12));
    let long = (0..36).map(|i| (about[i % 6], about[i / 6]));
    let longest = [(1, 1_024), (1_024, 1), (640, 480), (1_000, 1_000), (1_023, 1_024), (1_024, 1_024)];
    for size in small.chain(long).chain(longest) {
        for quarter in MOVES {
            let call = QuarterCall::good(&mut numbers, size, quarter);
            assert_eq!(agreed_move(&call), 0, "{call:?}");
        }
    }
}

#[test]
fn joined_moves_and_inverses() {
    let all = [&MOVES[..], &NO_MOVES].concat();
    for &first in &all {
        assert_eq!(Library.inverse_move(first), Second.inverse_move(first), "{first}");
        for &second in &all {
            let joined = Library.joined_moves(first, second);
            assert_eq!(joined, Second.joined_moves(first, second), "{first} and then {second}");
        }
    }
}

#[test]
fn the_last_of_a_million_samples_is_judged_before_a_move() {
    for quarter in MOVES {
        let mut call = QuarterCall::fitting((1_024, 1_024), quarter, vec![-1_048_576; 1 << 20]);
        assert_eq!(agreed_move(&call), 0, "move {quarter}");
        call.picture[(1 << 20) - 1] = -1_048_577;
        assert_eq!(call.run(&Library).answer, Answer::of(6, 1_023, 1_023, 0), "move {quarter}");
    }
}

#[test]
fn hostile_line_calls() {
    let (mut numbers, mut seen) = (Numbers::seeded(25), [0; 13]);
    for _ in 0..20_000 {
        let call = LineCall::hostile(&mut numbers);
        let outcome = call.run(&Library);
        assert_eq!(outcome, call.run(&Second), "{call:?}");
        seen[outcome.answer.number as usize] += 1;
    }
    assert!([0, 1, 2, 4, 5, 6, 12].iter().all(|&number| seen[number] > 300), "{seen:?}");
    assert_eq!(seen[3], 0, "a line has no centre");
}

#[test]
fn hostile_explanations() {
    let (mut numbers, mut seen) = (Numbers::seeded(29), [0; 13]);
    for _ in 0..20_000 {
        let call = ExplainCall::hostile(&mut numbers);
        let told = call.run(&Library);
        assert_eq!(told, call.run(&Second), "{call:?}");
        seen[told.0.number as usize] += 1;
    }
    assert!([0, 1, 2, 4, 5, 6, 7].iter().all(|&number| seen[number] > 300), "{seen:?}");
    assert_eq!([seen[3], seen[12]], [0, 0], "a wrapped line has no centre and no background");
}

#[test]
fn lines_of_every_length() {
    let mut numbers = Numbers::seeded(26);
    for n in 1..=1_024 {
        for kernel in 0..3 {
            for border in [Border::Wrapped, Border::Background(numbers.edgy(32_767))] {
                let range = numbers.one_of(&[4_194_304, 4_096 * n as i32]);
                let (d, line) = (numbers.edgy(range), numbers.samples(n, 294_912));
                let call = LineCall::fitting(kernel, d, line).with_border(border);
                assert_eq!(call.run(&Library), call.run(&Second), "{call:?}");
            }
        }
    }
}

#[test]
fn lines_at_every_fraction() {
    let mut numbers = Numbers::seeded(27);
    for d in -4_096_i32..=4_096 {
        let (line, border) = (numbers.samples(7, 294_912), numbers.border());
        let call = LineCall::fitting(d.unsigned_abs() % 3, d, line).with_border(border);
        assert_eq!(call.run(&Library), call.run(&Second), "{call:?}");
    }
}

/// A size of up to 1,026 by 1,026, a setting for it and a largest sample size; in nearly half of them nothing is wrong.
fn hostile_forecast(numbers: &mut Numbers) -> ((usize, usize), Setting, u32) {
    let mut size = (1 + numbers.below(1_024), 1 + numbers.below(1_024));
    let (kernel, any) = (numbers.below(3) as u32, numbers.bits() % 32_768);
    let mut setting = numbers.setting(kernel, size.0, size.1);
    let mut largest = numbers.one_of(&[0, 1, 2, 32_766, 32_767, any]);
    match numbers.below(12) {
        0 => size.0 = numbers.one_of(&[0, 1_025, 1_026, usize::MAX]),
        1 => size.1 = numbers.one_of(&[0, 1_025, 1_026, usize::MAX]),
        2 => setting.cy = numbers.one_of(&[size.1, size.1 + 1, usize::MAX]),
        3 => setting.b = numbers.one_of(&[4_097, -4_097, i32::MAX, i32::MIN]),
        4 => setting.kernel = numbers.one_of(&[3, 4, u32::MAX]),
        5 => setting.border = Border::Background(numbers.one_of(&BAD_BACKGROUNDS)),
        _ => {}
    }
    if numbers.once_in(12) {
        largest = numbers.one_of(&[32_768, 65_535, 1 << 31, u32::MAX]);
    }
    (size, setting, largest)
}

#[test]
fn hostile_forecasts() {
    let (mut numbers, mut seen) = (Numbers::seeded(32), [0; 13]);
    for _ in 0..20_000 {
        let (size, setting, largest) = hostile_forecast(&mut numbers);
        let told = Library.forecast(size, setting, largest);
        assert_eq!(told, Second.forecast(size, setting, largest), "{size:?} {setting:?} {largest}");
        seen[told.0.number as usize] += 1;
    }
    assert!([0, 1, 3, 4, 5, 6, 12].iter().all(|&number| seen[number] > 300), "{seen:?}");
    assert_eq!(seen[2], 0, "a forecast has no buffers");
}

#[test]
fn steps_and_changes_of_setting() {
    let mut numbers = Numbers::seeded(28);
    for t in (-1_800..=1_800).chain([i32::MIN, i32::MAX, 4_096, -4_096, 65_536]) {
        assert_eq!(Library.sine(t), Second.sine(t), "S({t})");
        let setting = Setting {
            kernel: numbers.bits(),
            cx: numbers.bits() as usize,
            cy: usize::MAX - numbers.bits() as usize,
            a: numbers.bits() as i32,
            b: numbers.bits() as i32,
            border: numbers.one_of(&[Border::Wrapped, Border::Background(t.wrapping_mul(40_503))]),
        };
        assert_eq!(Library.with_step(setting, t), Second.with_step(setting, t), "{setting:?} at {t}");
    }
}

#[test]
fn levelling_points() {
    let (mut numbers, mut seen) = (Numbers::seeded(29), [0; 9]);
    let hostile = [-1, 1_024, i32::MIN, i32::MAX, 0, 1_023];
    for _ in 0..8_000 {
        let mut coordinate = || {
            if numbers.once_in(20) {
                numbers.one_of(&hostile)
            } else {
                numbers.below(1_024) as i32
            }
        };
        let (x1, y1, x2, mut y2) = (coordinate(), coordinate(), coordinate(), coordinate());
        if numbers.once_in(2) {
            y2 = y1.wrapping_add(numbers.within(40));
        }
        let levelled = Library.level(x1, y1, x2, y2);
        assert_eq!(levelled, Second.level(x1, y1, x2, y2), "({x1}, {y1}) to ({x2}, {y2})");
        seen[levelled.0 as usize] += 1;
    }
    assert!([0, 7, 8].iter().all(|&number| seen[number] > 500), "{seen:?}");
}

#[test]
fn every_slope_of_a_short_graticule_line() {
    for dx in 1..=60 {
        for dy in -dx..=dx {
            let (y1, y2) = (500, 500 + dy);
            assert_eq!(Library.level(3, y1, 3 + dx, y2), Second.level(3, y1, 3 + dx, y2), "{dx}, {dy}");
        }
    }
}

/// A picture, two points and a threshold, of which anything may be wrong.
fn hostile_levelling(numbers: &mut Numbers) -> ((usize, usize), [i32; 4], i32, Vec<i32>) {
    let (size, picture) = hostile_reading(numbers);
    // Points in the picture as it was made, or nearly so, the second mostly to the right of the first and no steeper
    // than 45 degrees.
    let mut point = [2, 4, 2, 4].map(|side| numbers.below(side) as i32);
    if !numbers.once_in(4) {
        point[2] = point[0] + 1 + numbers.below(2) as i32;
        point[3] = point[1] + numbers.within(point[2] - point[0]);
    }
    if numbers.once_in(12) {
        let place = numbers.below(4);
        point[place] = numbers.one_of(&[-1, 6, 1_023, 1_024, i32::MIN, i32::MAX]);
    }
    let any = picture.get(numbers.below(36)).copied().unwrap_or(0);
    let threshold = numbers.one_of(&[i32::MIN, -1_048_576, -300, 0, any, any.saturating_add(1), i32::MAX]);
    (size, point, threshold, picture)
}

#[test]
fn hostile_levellings() {
    let (mut numbers, mut seen) = (Numbers::seeded(33), [0; 16]);
    for _ in 0..20_000 {
        let (size, points, threshold, picture) = hostile_levelling(&mut numbers);
        let told = Library.level_checked((size, points, threshold), &picture);
        let second = Second.level_checked((size, points, threshold), &picture);
        assert_eq!(told, second, "{size:?} {points:?} {threshold} {picture:?}");
        seen[told.0.number as usize] += 1;
    }
    assert!([0, 1, 2, 6, 7, 8, 15].iter().all(|&number| seen[number] > 300), "{seen:?}");
    assert!([3, 4, 5, 9, 12, 14].iter().all(|&number| seen[number] == 0), "{seen:?}");
}

/// A picture for the readings, of which anything may be wrong.
fn hostile_reading(numbers: &mut Numbers) -> ((usize, usize), Vec<i32>) {
    let mut size = (1 + numbers.below(6), 1 + numbers.below(6));
    let range = numbers.one_of(&[1_048_576, 40_000, 300]);
    let mut picture = numbers.samples(size.0 * size.1, range);
    match numbers.below(8) {
        0 => size.0 = numbers.one_of(&[0, 1_025, usize::MAX]),
        1 => size.1 = numbers.one_of(&[0, 1_025, 1 << 63]),
        2 => drop(picture.pop()),
        3 => picture.push(i32::MIN),
        4 => {
            let place = numbers.below(picture.len());
            picture[place] = numbers.one_of(&[1_048_577, -1_048_577, i32::MIN, i32::MAX]);
        }
        _ => {}
    }
    (size, picture)
}

#[test]
fn readings_greys_and_floats() {
    let (mut numbers, mut seen) = (Numbers::seeded(30), [0; 8]);
    for _ in 0..8_000 {
        let (size, picture) = hostile_reading(&mut numbers);
        let (column, row) = (numbers.below(7), numbers.below(7));
        let read = Library.reading(size, column, row, &picture);
        assert_eq!(read, Second.reading(size, column, row, &picture), "{size:?} {column} {row} {picture:?}");
        assert_eq!(Library.summary(size, &picture), Second.summary(size, &picture), "{size:?} {picture:?}");
        let length = (picture.len() + numbers.below(3)).saturating_sub(1);
        let (mut greys, mut other_greys) = (vec![77; length], vec![77; length]);
        let answer = Library.greys_out(size, &picture, &mut greys);
        assert_eq!(answer, Second.greys_out(size, &picture, &mut other_greys), "{size:?} {picture:?}");
        assert_eq!(greys, other_greys, "{size:?} {picture:?}");
        let (mut floats, mut other_floats) = (vec![7.5; length], vec![7.5; length]);
        let answer = Library.floats_out(size, &picture, &mut floats);
        assert_eq!(answer, Second.floats_out(size, &picture, &mut other_floats), "{size:?} {picture:?}");
        assert!(floats.iter().zip(&other_floats).all(|(a, b)| a.to_bits() == b.to_bits()), "{picture:?}");
        seen[read.0.number as usize] += 1;
    }
    assert!([0, 1, 2, 6, 7].iter().all(|&number| seen[number] > 300), "{seen:?}");
}

#[test]
fn greys_and_floats_of_every_sample_in_range() {
    let samples: Vec<i32> = (-1_048_576..=1_048_576).collect();
    let (mut greys, mut floats) = (vec![0; 1 << 20], vec![0.0; 1 << 20]);
    let mut tried = 0;
    // Two pictures of 1,024 by 1,024, and one of the last sample alone.
    for picture in samples.chunks(1 << 20) {
        let size = if picture.len() == 1 { (1, 1) } else { (1_024, 1_024) };
        assert_eq!(Library.greys_out(size, picture, &mut greys).number, 0);
        assert_eq!(Library.floats_out(size, picture, &mut floats).number, 0);
        tried += size.0 * size.1;
        for (place, &v) in picture.iter().enumerate() {
            assert_eq!(greys[place], reference::second::grey(v), "sample {v}");
            assert_eq!(floats[place].to_bits(), exact_float_bits(v), "sample {v}");
        }
    }
    assert_eq!(tried, 2 * 1_048_576 + 1);
}

/// The bits of v/128, divided in 64 bits, as a 32-bit float that holds it exactly.
fn exact_float_bits(v: i32) -> u32 {
    let (wide, narrow) = (f64::from(v) / 128.0, (f64::from(v) / 128.0) as f32);
    assert_eq!(f64::from(narrow), wide);
    narrow.to_bits()
}

/// A line of the line format, well-formed or nearly so.
fn hostile_hexline(numbers: &mut Numbers) -> Vec<u8> {
    let (width, height) =
        numbers.one_of(&[(1, 1), (2, 3), (5, 4), (16, 1), (0, 3), (1_025, 1), (64, 64), (64, 65)]);
    let kernel = numbers.one_of(&[0, 1, 2, 2, 3, 255]);
    let step = numbers.one_of(&[0, 80, -80, 1_697, -1_697, 1_698, -1_698, -32_768]) as u16;
    let (cx, cy) = (numbers.below(width + 1), numbers.below(height + 1));
    let mut line = format!("{kernel:02X}{step:04X}{width:04X}{height:04X}{cx:04X}{cy:04X}").into_bytes();
    for _ in 0..width * height {
        line.extend(format!("{:02X}", numbers.below(256)).bytes());
    }
    let place = numbers.below(line.len());
    match numbers.below(14) {
        0 => line[place] = numbers.bits() as u8,
        1 => line[place] = line[place].to_ascii_lowercase(),
        2 => drop(line.pop()),
        3 => line.truncate(place),
        4 => line.push(b'0'),
        5 => line.extend(b"00"),
        _ => {}
    }
    line
}

#[test]
fn hostile_lines_of_the_line_format() {
    let (mut numbers, mut seen) = (Numbers::seeded(31), [0; 10]);
    for _ in 0..6_000 {
        let line = hostile_hexline(&mut numbers);
        let answer = Library.answer_line(&line);
        assert!(answer == Second.answer_line(&line), "{}", String::from_utf8_lossy(&line));
        seen[usize::from(answer[1] - b'0')] += 1;
    }
    assert!([0, 1, 3, 4, 5, 9].iter().all(|&number| seen[number] > 100), "{seen:?}");
    assert!([2, 6, 7, 8].iter().all(|&number| seen[number] == 0), "{seen:?}");
}

#[test]
fn an_answer_that_does_not_fit_is_not_written() {
    let line = b"000000000200010000000080FF";
    let answer = Second.answer_line(line);
    for length in 0..40 {
        let mut lent = vec![7; length];
        let answered = straightener::raw::answer_line(line, &mut lent);
        if length < answer.len() {
            assert_eq!((answered.number, answered.written, lent), (2, 0, vec![7; length]));
        } else {
            assert_eq!((answered.number, answered.written), (0, answer.len()));
            assert_eq!(&lent[..answer.len()], &answer[..]);
            assert!(lent[answer.len()..].iter().all(|&byte| byte == 7));
        }
    }
}
