//! Refusals and buffers: what is written, what is left, and which number comes first.
//!
//! Every call here also holds its buffers to the document: untouched where it is refused; where it is
//! accepted, work left at 0 and no place written beyond those that the call takes.

use conformance::calls::{LineCall, PictureCall};
use conformance::numbers::Numbers;
use conformance::{for_both_implementations, Answer, Implementation};
use reference::second::{Border, Setting};

for_both_implementations!(
    work_places_at_their_edges,
    picture_buffers_one_place_too_short,
    line_buffers_one_place_too_short,
    output_buffers_one_place_too_short,
    longer_buffers_keep_their_later_places,
    samples_beyond_the_picture_are_not_judged,
    the_number_that_comes_first_on_a_picture,
    the_number_that_comes_first_on_a_line,
    reading_judges_samples_before_the_point,
    first_bad_sample_in_row_order,
    one_bad_sample_in_a_wide_picture,
    sizes_at_their_edges,
    counts_are_by_definition,
);

/// Makes one thing about a call wrong.
type Spoil<Call> = fn(&mut Call);

/// A picture call in which nothing is wrong.
fn good_picture() -> PictureCall {
    let setting = Setting { kernel: 2, cx: 1, cy: 1, a: 700, b: -900, border: Border::Background(-50) };
    PictureCall::fitting((3, 2), setting, vec![1, 2, 3, 4, 5, 6])
}

/// A line call in which nothing is wrong.
fn good_line() -> LineCall {
    LineCall::fitting(2, 700, vec![1, 2, 3]).with_border(Border::Background(-50))
}

fn picture_buffers_one_place_too_short(implementation: &dyn Implementation) {
    let mut numbers = Numbers::seeded(1);
    for width in 1..=9 {
        for height in 1..=9 {
            let setting = numbers.setting(width as u32 % 3, width, height);
            let good =
                PictureCall::fitting((width, height), setting, numbers.samples(width * height, 32_767));
            assert_eq!(good.run(implementation).answer.number, 0);
            let short_picture = PictureCall { picture: good.picture[1..].to_vec(), ..good.clone() };
            let short_result = PictureCall { result_length: good.result_length - 1, ..good.clone() };
            let short_work = PictureCall { work_length: good.work_length - 1, ..good.clone() };
            for call in [short_picture, short_result, short_work] {
                assert_eq!(call.run(implementation).answer, Answer::refused(2), "{call:?}");
            }
        }
    }
}

fn line_buffers_one_place_too_short(implementation: &dyn Implementation) {
    let mut numbers = Numbers::seeded(2);
    for n in (1..=70).chain([1_023, 1_024]) {
        let good = LineCall::fitting(n as u32 % 3, numbers.edgy(4_194_304), numbers.samples(n, 294_912))
            .with_border(numbers.border());
        assert_eq!(good.run(implementation).answer.number, 0);
        let short_line = LineCall { line: good.line[1..].to_vec(), ..good.clone() };
        let short_result = LineCall { result_length: n - 1, ..good.clone() };
        let short_work = LineCall { work_length: 6 * n - 1, ..good.clone() };
        for call in [short_line, short_result, short_work] {
            assert_eq!(call.run(implementation).answer, Answer::refused(2), "{call:?}");
        }
    }
}

fn output_buffers_one_place_too_short(implementation: &dyn Implementation) {
    let picture = [5_000; 12];
    let (mut greys, mut floats) = ([77; 12], [7.5; 12]);
    assert_eq!(implementation.greys_out((4, 3), &picture[..11], &mut greys), Answer::refused(2));
    assert_eq!(implementation.greys_out((4, 3), &picture, &mut greys[..11]), Answer::refused(2));
    assert_eq!(implementation.floats_out((4, 3), &picture[..11], &mut floats), Answer::refused(2));
    assert_eq!(implementation.floats_out((4, 3), &picture, &mut floats[..11]), Answer::refused(2));
    assert_eq!(implementation.reading((4, 3), 0, 0, &picture[..11]), (Answer::refused(2), 0, 0));
    assert_eq!(implementation.summary((4, 3), &picture[..11]), (Answer::refused(2), 0, 0));
    assert_eq!((greys, floats), ([77; 12], [7.5; 12]));
    assert_eq!(implementation.greys_out((4, 3), &picture, &mut greys), Answer::accepted(0));
    assert_eq!(implementation.floats_out((4, 3), &picture, &mut floats), Answer::accepted(0));
    assert_eq!((greys, floats), ([39; 12], [39.0625; 12]));
}

fn longer_buffers_keep_their_later_places(implementation: &dyn Implementation) {
    for border in [Border::Wrapped, Border::Background(-50)] {
        let mut exact = good_picture();
        exact.setting.border = border;
        let longer = PictureCall {
            picture: [&exact.picture[..], &[9, 9]].concat(),
            result_length: exact.result_length + 7,
            work_length: exact.work_length + 11,
            ..exact.clone()
        };
        let (exact, longer) = (exact.run(implementation), longer.run(implementation));
        assert_eq!((exact.answer.number, exact.answer), (0, longer.answer));
        assert_eq!(exact.result[..6], longer.result[..6]);
    }

    let (mut greys, mut floats) = ([77; 6], [7.5; 6]);
    assert_eq!(implementation.greys_out((2, 2), &[128; 5], &mut greys), Answer::accepted(0));
    assert_eq!(implementation.floats_out((2, 2), &[128; 5], &mut floats), Answer::accepted(0));
    assert_eq!((greys, floats), ([1, 1, 1, 1, 77, 77], [1.0, 1.0, 1.0, 1.0, 7.5, 7.5]));
}

fn samples_beyond_the_picture_are_not_judged(implementation: &dyn Implementation) {
    let mut picture = good_picture();
    picture.picture.extend([i32::MIN, i32::MAX]);
    assert_eq!(picture.run(implementation).answer.number, 0);
    let mut line = good_line();
    line.line.push(i32::MIN);
    assert_eq!(line.run(implementation).answer.number, 0);
    assert_eq!(implementation.summary((1, 1), &[0, i32::MAX]).0, Answer::accepted(0));
}

// The numbers in the order 1, 2, 3, 4, 5, 12, 6, each with all that come after it.
fn the_number_that_comes_first_on_a_picture(implementation: &dyn Implementation) {
    let spoils: [(u32, Spoil<PictureCall>); 7] = [
        (6, |call| call.picture[4] = 32_768),
        (12, |call| call.setting.border = Border::Background(-32_768)),
        (5, |call| call.setting.kernel = 3),
        (4, |call| call.setting.b = -4_097),
        (3, |call| call.setting.cy = 2),
        (2, |call| call.work_length = 35),
        (1, |call| call.size.1 = 1_025),
    ];
    let mut call = good_picture();
    for (number, spoil) in spoils {
        spoil(&mut call);
        let place = if number == 6 { (1, 1) } else { (0, 0) };
        assert_eq!(call.run(implementation).answer, Answer::of(number, place.0, place.1, 0));
    }
}

// The numbers in the order 1, 2, 4, 5, 12, 6, each with all that come after it.
fn the_number_that_comes_first_on_a_line(implementation: &dyn Implementation) {
    let spoils: [(u32, Spoil<LineCall>); 6] = [
        (6, |call| call.line[2] = 294_913),
        (12, |call| call.border = Border::Background(32_768)),
        (5, |call| call.kernel = 3),
        (4, |call| call.d = 4_194_305),
        (2, |call| call.work_length = 17),
        (1, |call| call.n = 0),
    ];
    let mut call = good_line();
    for (number, spoil) in spoils {
        spoil(&mut call);
        let column = if number == 6 { 2 } else { 0 };
        assert_eq!(call.run(implementation).answer, Answer::of(number, 0, column, 0));
    }
}

fn work_places_at_their_edges(implementation: &dyn Implementation) {
    let sides = [0, 1, 2, 639, 1_023, 1_024, 1_025, 1 << 32, usize::MAX / 12 + 1, usize::MAX];
    let good = |side: usize| (1..=1_024).contains(&side);
    for width in sides {
        for height in sides {
            let expected = if good(width) && good(height) { 12 * width.max(height) } else { 0 };
            assert_eq!(implementation.work_places((width, height)), expected, "{width} by {height}");
        }
        let expected = if good(width) { 6 * width } else { 0 };
        assert_eq!(implementation.line_work_places(width), expected, "a line of {width}");
    }
}

fn reading_judges_samples_before_the_point(implementation: &dyn Implementation) {
    let picture = [0, 0, 0, 1_048_577];
    assert_eq!(implementation.reading((2, 2), 2, 0, &picture), (Answer::of(6, 1, 1, 0), 0, 0));
    assert_eq!(implementation.reading((2, 2), 2, 0, &[0; 4]), (Answer::refused(7), 0, 0));
    assert_eq!(implementation.reading((2, 2), 0, 2, &[0; 4]), (Answer::refused(7), 0, 0));
    assert_eq!(implementation.reading((2, 2), usize::MAX, 0, &[0; 4]), (Answer::refused(7), 0, 0));
}

/// At every place of pictures narrower and wider than the 8 samples from which on a row is judged at once.
fn first_bad_sample_in_row_order(implementation: &dyn Implementation) {
    for (width, height) in [(1, 5), (7, 5), (8, 4), (9, 4), (37, 3)] {
        for place in 0..width * height {
            let mut picture = vec![0; width * height];
            picture[place..].fill(i32::MIN);
            let expected = Answer::of(6, place / width, place % width, 0);
            assert_refused_everywhere(implementation, (width, height), &picture, expected);
        }
    }
}

/// A sample just past the range is found wherever it stands alone, and one at its end nowhere.
fn one_bad_sample_in_a_wide_picture(implementation: &dyn Implementation) {
    let (width, height) = (33, 2);
    for (place, bad) in (0..66).flat_map(|place| [(place, 32_768), (place, -32_768)]) {
        let mut picture = vec![0; 66];
        picture[place] = bad;
        let refused = PictureCall::fitting((width, height), Setting::default(), picture.clone());
        let expected = Answer::of(6, place / width, place % width, 0);
        assert_eq!(refused.run(implementation).answer, expected, "{bad} at {place}");
        picture[place] -= bad.signum();
        let accepted = PictureCall { picture: picture.clone(), ..refused };
        assert_eq!(accepted.run(implementation).answer, Answer::accepted(0));
        picture[place] = bad.signum() * 1_048_577;
        assert_eq!(implementation.summary((width, height), &picture).0, expected, "{bad} at {place}");
    }
}

/// Holds every call that takes a picture to one refusal.
fn assert_refused_everywhere(
    implementation: &dyn Implementation,
    size: (usize, usize),
    picture: &[i32],
    expected: Answer,
) {
    let call = PictureCall::fitting(size, Setting::default(), picture.to_vec());
    assert_eq!(call.run(implementation).answer, expected);
    assert_eq!(implementation.greys_out(size, picture, &mut vec![0; picture.len()]), expected);
    assert_eq!(implementation.floats_out(size, picture, &mut vec![0.0; picture.len()]), expected);
    assert_eq!(implementation.reading(size, 0, 0, picture), (expected, 0, 0));
    assert_eq!(implementation.summary(size, picture), (expected, 0, 0));
}

fn sizes_at_their_edges(implementation: &dyn Implementation) {
    let sizes =
        [(0, 1), (1, 0), (0, 0), (1_025, 1), (1, 1_025), (usize::MAX, usize::MAX), (1 << 32, 1 << 32)];
    for size in sizes {
        let call = PictureCall { size, ..good_picture() };
        assert_eq!(call.run(implementation).answer, Answer::refused(1), "{size:?}");
        assert_eq!(implementation.greys_out(size, &[], &mut []), Answer::refused(1));
        assert_eq!(implementation.floats_out(size, &[], &mut []), Answer::refused(1));
        assert_eq!(implementation.reading(size, 0, 0, &[]), (Answer::refused(1), 0, 0));
        assert_eq!(implementation.summary(size, &[]), (Answer::refused(1), 0, 0));
    }
    for n in [0, 1_025, usize::MAX, 1 << 63] {
        assert_eq!(LineCall { n, ..good_line() }.run(implementation).answer, Answer::refused(1));
    }
    for size in [(1_024, 1), (1, 1_024)] {
        let call = PictureCall::fitting(size, Setting { a: 1, b: 1, ..Setting::default() }, vec![7; 1_024]);
        let outcome = call.run(implementation);
        let count = if size.0 == 1 { 2 * 1_023 } else { 1_023 };
        assert_eq!((outcome.answer, outcome.result), (Answer::accepted(count), vec![7; 1_024]));
    }
}

fn counts_are_by_definition(implementation: &dyn Implementation) {
    let mut numbers = Numbers::seeded(3);
    for _ in 0..500 {
        let size = (1 + numbers.below(9), 1 + numbers.below(9));
        let kernel = numbers.below(3) as u32;
        let mut setting = numbers.setting(kernel, size.0, size.1);
        setting.a = numbers.one_of(&[setting.a, 1_024, 2_048, -512]);
        let lies_between = |length: usize, shear: i32, place: usize, centre: usize| {
            let d = shear * (place as i32 - centre as i32);
            d % 4_096 != 0 && (setting.border == Border::Wrapped || d.abs() < 4_096 * length as i32)
        };
        let rows = (0..size.1).filter(|&y| lies_between(size.0, setting.a, y, setting.cy)).count();
        let columns = (0..size.0).filter(|&x| lies_between(size.1, setting.b, x, setting.cx)).count();
        let call = PictureCall::fitting(size, setting, numbers.samples(size.0 * size.1, 32_767));
        assert_eq!(
            call.run(implementation).answer,
            Answer::accepted((2 * rows + columns) as u32),
            "{call:?}"
        );
    }
}
