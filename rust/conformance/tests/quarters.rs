//! Quarter turns and mirrors: where every sample goes, two moves as one, inverses, what is judged, written and
//! left, which number comes first, and a straightening of the moved picture.
//!
//! Every call here is also held to this: refused, it tells the size 0 by 0 and leaves its result as it was; accepted, it
//! touches no later place.

use conformance::calls::PictureCall;
use conformance::numbers::Numbers;
use conformance::quarters::{moved, size_after, QuarterCall, MOVES, NO_MOVES};
use conformance::{for_both_implementations, Answer, Implementation};
use reference::exact;
use reference::second::{with_step, Border, Setting};

for_both_implementations!(
    moves_by_hand,
    every_sample_of_small_pictures,
    every_sample_about_powers_of_two_and_of_long_sides,
    every_sample_goes_to_a_place_of_its_own,
    two_moves_are_the_one_of_the_table,
    the_table_by_its_rule,
    inverses_on_both_sides,
    numbers_that_are_no_move,
    sizes_at_their_edges,
    buffers_one_place_too_short,
    longer_buffers_keep_their_later_places,
    the_number_of_two_that_comes_first,
    the_number_of_all_that_comes_first,
    the_first_bad_sample_in_the_pictures_own_rows,
    one_bad_sample_wherever_it_stands,
    a_straightening_of_the_moved_picture_within_its_limit,
    a_quarter_turn_by_shears_and_by_a_move,
);

/// Sizes whose sides lie about powers of two, among them the longest.
fn long_sizes() -> Vec<(usize, usize)> {
    let about = [63, 64, 65, 127, 128, 129];
    let mut sizes: Vec<_> = (0..36).map(|i| (about[i % 6], about[i / 6])).collect();
    sizes.extend([(1, 1_024), (1_024, 1), (2, 1_023), (1_023, 3), (640, 480), (1_000, 1_000)]);
    sizes.extend([(1_023, 1_024), (1_024, 1_023), (1_024, 1_024)]);
    sizes
}

/// Every size from 1 by 1 to 12 by 12.
fn small_sizes() -> impl Iterator<Item = (usize, usize)> + Clone {
    (0..144).map(|i| (1 + i % 12, 1 + i / 12))
}

/// Each of some cases with each of the eight moves.
fn with_each_move<Case>(cases: impl Iterator<Item = Case> + Clone) -> impl Iterator<Item = (u32, Case)> {
    MOVES.into_iter().flat_map(move |quarter| cases.clone().map(move |case| (quarter, case)))
}

/// The picture in which every sample is the number of its place.
fn numbered((width, height): (usize, usize)) -> Vec<i32> {
    (0..(width * height) as i32).collect()
}

/// The eight moves of two pictures, read off by hand: width, height and samples of each.
fn moves_by_hand(implementation: &dyn Implementation) {
    let nine = [
        [1, 2, 3, 4, 5, 6, 7, 8, 9],
        [7, 4, 1, 8, 5, 2, 9, 6, 3],
        [9, 8, 7, 6, 5, 4, 3, 2, 1],
        [3, 6, 9, 2, 5, 8, 1, 4, 7],
        [3, 2, 1, 6, 5, 4, 9, 8, 7],
        [9, 6, 3, 8, 5, 2, 7, 4, 1],
        [7, 8, 9, 4, 5, 6, 1, 2, 3],
        [1, 4, 7, 2, 5, 8, 3, 6, 9],
    ];
    let six = [
        ((3, 2), [1, 2, 3, 4, 5, 6]),
        ((2, 3), [4, 1, 5, 2, 6, 3]),
        ((3, 2), [6, 5, 4, 3, 2, 1]),
        ((2, 3), [3, 6, 2, 5, 1, 4]),
        ((3, 2), [3, 2, 1, 6, 5, 4]),
        ((2, 3), [6, 3, 5, 2, 4, 1]),
        ((3, 2), [4, 5, 6, 1, 2, 3]),
        ((2, 3), [1, 4, 2, 5, 3, 6]),
    ];
    for (quarter, (nine, (size, six))) in MOVES.into_iter().zip(nine.into_iter().zip(six)) {
        let outcome = QuarterCall::fitting((3, 3), quarter, (1..10).collect()).run(implementation);
        assert_eq!((outcome.answer, outcome.size), (Answer::accepted(0), (3, 3)), "move {quarter}");
        assert_eq!(outcome.result, nine, "move {quarter}");
        let outcome = QuarterCall::fitting((3, 2), quarter, (1..7).collect()).run(implementation);
        assert_eq!((outcome.answer, outcome.size), (Answer::accepted(0), size), "move {quarter}");
        assert_eq!(outcome.result, six, "move {quarter}");
    }
}

/// Holds every move of a picture of random samples to the place of each sample.
fn assert_moved(numbers: &mut Numbers, implementation: &dyn Implementation, size: (usize, usize)) {
    for quarter in MOVES {
        let call = QuarterCall::good(numbers, size, quarter);
        let outcome = call.run(implementation);
        assert_eq!(outcome.answer, Answer::accepted(0), "{call:?}");
        assert_eq!(outcome.size, size_after(quarter, size), "{call:?}");
        assert!(outcome.result == moved(quarter, size, &call.picture), "{call:?}");
    }
}

fn every_sample_of_small_pictures(implementation: &dyn Implementation) {
    let mut numbers = Numbers::seeded(101);
    small_sizes().for_each(|size| assert_moved(&mut numbers, implementation, size));
}

fn every_sample_about_powers_of_two_and_of_long_sides(implementation: &dyn Implementation) {
    let mut numbers = Numbers::seeded(102);
    long_sizes().into_iter().for_each(|size| assert_moved(&mut numbers, implementation, size));
}

fn every_sample_goes_to_a_place_of_its_own(implementation: &dyn Implementation) {
    for size in small_sizes().chain(long_sizes()) {
        for quarter in MOVES {
            let mut result = QuarterCall::fitting(size, quarter, numbered(size)).run(implementation).result;
            result.sort_unstable();
            assert!(result == numbered(size), "move {quarter} of {size:?}");
        }
    }
}

/// All 64 entries, by two calls and by the one that the table names.
fn two_moves_are_the_one_of_the_table(implementation: &dyn Implementation) {
    let mut numbers = Numbers::seeded(103);
    for size in [(1, 1), (1, 2), (2, 2), (3, 2), (2, 3), (5, 5), (7, 4), (65, 64), (64, 129), (1_024, 3)] {
        let picture = QuarterCall::good(&mut numbers, size, 0).picture;
        for (first, second) in pairs() {
            let call = QuarterCall::fitting(size, first, picture.clone());
            let twice = call.run(implementation).moved_on(second).run(implementation);
            let (number, joined) = implementation.joined_moves(first, second);
            assert_eq!(number, 0, "{first} and then {second}");
            let once = QuarterCall { quarter: joined, ..call }.run(implementation);
            assert!(twice == once, "{first} and then {second} of {size:?} against {joined}");
        }
    }
}

/// Every two moves, the first and the second.
fn pairs() -> impl Iterator<Item = (u32, u32)> {
    (0..64).map(|i| (i / 8, i % 8))
}

/// Turns before a mirror are turns the other way after it; so two moves mirror where one of them does, and turn by the
/// sum of their turns, the first's taken the other way where the second mirrors.
fn the_table_by_its_rule(implementation: &dyn Implementation) {
    for (first, second) in pairs() {
        let turns = if second < 4 { first + second } else { 4 - first % 4 + second };
        let mirror = if (first < 4) == (second < 4) { 0 } else { 4 };
        let expected = mirror + turns % 4;
        assert_eq!(implementation.joined_moves(first, second), (0, expected), "{first} and then {second}");
    }
}

fn inverses_on_both_sides(implementation: &dyn Implementation) {
    let mut numbers = Numbers::seeded(104);
    for (quarter, size) in with_each_move(small_sizes()) {
        let (number, inverse) = implementation.inverse_move(quarter);
        assert_eq!(number, 0, "move {quarter}");
        let picture = QuarterCall::good(&mut numbers, size, 0).picture;
        for (first, second) in [(quarter, inverse), (inverse, quarter)] {
            let outcome = QuarterCall::fitting(size, first, picture.clone()).run(implementation);
            let back = outcome.moved_on(second).run(implementation);
            assert_eq!((back.answer, back.size), (Answer::accepted(0), size), "{first} and then {second}");
            assert!(back.result == picture, "{first} and then {second} of {size:?}");
        }
    }
}

fn numbers_that_are_no_move(implementation: &dyn Implementation) {
    for quarter in MOVES {
        let answer = QuarterCall::fitting((2, 1), quarter, vec![5, 6]).run(implementation).answer;
        assert_eq!(answer, Answer::accepted(0), "move {quarter}");
    }
    for bad in NO_MOVES {
        let answer = QuarterCall::fitting((2, 1), bad, vec![5, 6]).run(implementation).answer;
        assert_eq!(answer, Answer::refused(16), "move {bad}");
        assert_eq!(implementation.inverse_move(bad), (16, 0), "inverse of {bad}");
        for other in MOVES.into_iter().chain(NO_MOVES) {
            assert_eq!(implementation.joined_moves(bad, other), (16, 0), "{bad} and then {other}");
            assert_eq!(implementation.joined_moves(other, bad), (16, 0), "{other} and then {bad}");
        }
    }
}

fn sizes_at_their_edges(implementation: &dyn Implementation) {
    for quarter in MOVES {
        for (side, expected) in [(0, 1), (1, 0), (2, 0), (1_023, 0), (1_024, 0), (1_025, 1)] {
            for size in [(side, 3), (3, side)] {
                let call = QuarterCall::fitting(size, quarter, vec![7; 3 * side]);
                assert_eq!(call.run(implementation).answer, Answer::refused(expected), "{call:?}");
            }
        }
        for side in [1 << 16, 1 << 32, 1 << 63, usize::MAX] {
            for size in [(side, 3), (3, side), (side, side)] {
                let call = QuarterCall { size, quarter, picture: vec![7; 9], result_length: 9 };
                assert_eq!(call.run(implementation).answer, Answer::refused(1), "{call:?}");
            }
        }
    }
}

fn buffers_one_place_too_short(implementation: &dyn Implementation) {
    let mut numbers = Numbers::seeded(105);
    for (quarter, size) in with_each_move(small_sizes()) {
        let good = QuarterCall::good(&mut numbers, size, quarter);
        assert_eq!(good.run(implementation).answer, Answer::accepted(0), "{good:?}");
        let short_picture = QuarterCall { picture: good.picture[1..].to_vec(), ..good.clone() };
        let short_result = QuarterCall { result_length: good.result_length - 1, ..good };
        for call in [short_picture, short_result] {
            assert_eq!(call.run(implementation).answer, Answer::refused(2), "{call:?}");
        }
    }
}

/// What stands past the picture is neither judged nor moved.
fn longer_buffers_keep_their_later_places(implementation: &dyn Implementation) {
    let mut numbers = Numbers::seeded(106);
    for (quarter, size) in with_each_move(small_sizes()) {
        let exact = QuarterCall::good(&mut numbers, size, quarter);
        let longer = QuarterCall {
            picture: [&exact.picture[..], &[i32::MIN, 9, i32::MAX]].concat(),
            result_length: exact.result_length + 7,
            ..exact.clone()
        };
        let (exact, longer) = (exact.run(implementation), longer.run(implementation));
        assert_eq!(
            (exact.answer, exact.size),
            (Answer::accepted(0), longer.size),
            "move {quarter}, {size:?}"
        );
        assert_eq!(longer.answer, Answer::accepted(0), "move {quarter}, {size:?}");
        assert_eq!(exact.result, longer.result[..exact.result.len()], "move {quarter}, {size:?}");
    }
}

/// Makes one thing about a call wrong.
type Spoil = fn(&mut QuarterCall);

/// The numbers in the order in which they are judged, each with what it is refused for.
const SPOILS: [(u32, Spoil); 4] = [
    (1, |call| call.size.1 = 1_025),
    (2, |call| call.result_length = 5),
    (16, |call| call.quarter += 8),
    (6, |call| call.picture[4] = -1_048_577),
];

/// A call on a picture of 3 by 2 in which nothing is wrong.
fn good(quarter: u32) -> QuarterCall {
    QuarterCall::fitting((3, 2), quarter, vec![1, 2, 3, 4, 5, 6])
}

/// The answer of the good call under a number: place 4 is row 1, column 1.
fn answer(number: u32) -> Answer {
    if number == 6 {
        Answer::of(6, 1, 1, 0)
    } else {
        Answer::refused(number)
    }
}

/// Each number alone, and with each other one.
fn the_number_of_two_that_comes_first(implementation: &dyn Implementation) {
    for quarter in MOVES {
        assert_eq!(good(quarter).run(implementation).answer, Answer::accepted(0), "move {quarter}");
        for (place, (first, spoil)) in SPOILS.into_iter().enumerate() {
            for (second, other) in &SPOILS[place..] {
                let mut call = good(quarter);
                other(&mut call);
                spoil(&mut call);
                assert_eq!(call.run(implementation).answer, answer(first), "{first} and {second}, {quarter}");
            }
        }
    }
}

/// Each number with all that come after it.
fn the_number_of_all_that_comes_first(implementation: &dyn Implementation) {
    for quarter in MOVES {
        let mut call = good(quarter);
        for (number, spoil) in SPOILS.into_iter().rev() {
            spoil(&mut call);
            assert_eq!(call.run(implementation).answer, answer(number), "{number}, move {quarter}");
        }
    }
}

/// At every place of pictures narrower and wider than 8 samples, with every later sample bad as well: the first in the
/// rows of the picture that is handed in, and not of the moved one.
fn the_first_bad_sample_in_the_pictures_own_rows(implementation: &dyn Implementation) {
    for (width, height) in [(1, 5), (7, 5), (8, 4), (9, 4), (4, 9), (37, 3)] {
        for (quarter, place) in with_each_move(0..width * height) {
            let mut picture = vec![0; width * height];
            picture[place..].fill(i32::MIN);
            let call = QuarterCall::fitting((width, height), quarter, picture);
            let expected = Answer::of(6, place / width, place % width, 0);
            assert_eq!(call.run(implementation).answer, expected, "{call:?}");
        }
    }
}

/// A sample just past the range is found wherever it stands alone, and one at its end nowhere.
fn one_bad_sample_wherever_it_stands(implementation: &dyn Implementation) {
    let (width, height) = (11, 6);
    for (quarter, place) in with_each_move(0..width * height) {
        for bad in [1_048_577, -1_048_577] {
            let mut picture = vec![0; width * height];
            picture[place] = bad;
            let mut call = QuarterCall::fitting((width, height), quarter, picture);
            let expected = Answer::of(6, place / width, place % width, 0);
            assert_eq!(call.run(implementation).answer, expected, "{bad} at {place}, move {quarter}");
            call.picture[place] -= bad.signum();
            let outcome = call.run(implementation);
            assert_eq!(outcome.answer, Answer::accepted(0), "{} at {place}", call.picture[place]);
            assert!(outcome.result.contains(&call.picture[place]), "{} at {place}", call.picture[place]);
        }
    }
}

/// Demand 3 after a move, for every kernel and both borders, from the exact picture of the moved picture. That one is
/// worked out from the picture as it was handed in, and from nothing that a call wrote.
fn a_straightening_of_the_moved_picture_within_its_limit(implementation: &dyn Implementation) {
    let mut numbers = Numbers::seeded(107);
    for (quarter, turn) in with_each_move(0..60) {
        let (kernel, size) = (turn % 3, (1 + numbers.below(9), 1 + numbers.below(9)));
        let value = numbers.edgy(32_767);
        let border = if turn % 2 == 0 { Border::Wrapped } else { Border::Background(value) };
        let picture = numbers.samples(size.0 * size.1, 32_767);
        let outcome = QuarterCall::fitting(size, quarter, picture.clone()).run(implementation);
        let (width, height) = outcome.size;
        let setting = numbers.setting(kernel, width, height).with_border(border);
        let (_, stepped) = with_step(setting, numbers.within(1_697));
        for setting in [setting, stepped] {
            let call = PictureCall::fitting(outcome.size, setting, outcome.result.clone());
            let straightened = call.run(implementation);
            assert_eq!(straightened.answer.number, 0, "move {quarter} of {size:?}, {call:?}");
            let exact = exact::picture(width, height, setting, &moved(quarter, size, &picture));
            let is_near = exact::within_limits(kernel, &straightened.result, &exact);
            assert!(is_near, "move {quarter} of {size:?}, {call:?}");
        }
    }
}

/// Document 01's example: shears by whole samples turn a picture of 3 by 3 as the quarter turn does.
fn a_quarter_turn_by_shears_and_by_a_move(implementation: &dyn Implementation) {
    let shears = Setting { kernel: 1, cx: 1, cy: 1, a: -4_096, b: 4_096, ..Setting::default() };
    let sheared = PictureCall::fitting((3, 3), shears, (1..10).collect()).run(implementation);
    let turned = QuarterCall::fitting((3, 3), 1, (1..10).collect()).run(implementation);
    assert_eq!(sheared.result, turned.result);
}

/// If two moves left these pictures alike, the tests here would tell them apart too little.
#[test]
fn no_two_moves_of_a_numbered_picture_are_alike() {
    for (first, second) in pairs().filter(|(first, second)| first < second) {
        for size in [(3, 3), (3, 2), (64, 65)] {
            let alike = |quarter| (size_after(quarter, size), moved(quarter, size, &numbered(size)));
            assert_ne!(alike(first), alike(second), "{first} and {second} of {size:?}");
        }
    }
}
