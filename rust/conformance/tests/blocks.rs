//! A block of pictures straightened in one plane: every slice against the single call, what is judged, written
//! and left, and which number comes first.
//!
//! Every call here is also held to this: refused, it tells no extremes and leaves its buffers as they were; accepted,
//! its extremes are those of all samples written, its work is 0, and no later place is touched.

use conformance::blocks::BlockCall;
use conformance::numbers::Numbers;
use conformance::{for_both_implementations, Answer, Implementation};
use reference::exact;
use reference::second::{Border, Setting};

for_both_implementations!(
    planes_by_hand,
    every_slice_is_the_single_call,
    blocks_of_the_longest_sides,
    every_slice_within_its_limit,
    work_places_of_every_plane,
    sides_at_their_edges,
    planes_at_their_edges,
    centres_at_the_sides_of_the_plane,
    settings_at_their_edges,
    buffers_one_place_too_short,
    longer_buffers_keep_their_later_places,
    the_number_of_two_that_comes_first,
    the_number_of_all_that_comes_first,
    the_first_bad_sample_as_the_block_is_stored,
    one_bad_sample_wherever_it_stands,
);

/// The planes by number.
const PLANES: [u32; 3] = [0, 1, 2];

/// A call in which nothing is wrong, on a block of 2 by 3 by 5.
fn good(plane: u32) -> BlockCall {
    let setting = Setting { kernel: 2, cx: 1, cy: 1, a: 700, b: -900, border: Border::Background(-50) };
    BlockCall::fitting([2, 3, 5], plane, setting, (0..30).map(|place| 100 * place).collect())
}

/// The number that a call is refused under, where it names no sample; 0 if it is accepted.
fn number(call: &BlockCall, implementation: &dyn Implementation) -> u32 {
    let answer = call.run(implementation).answer;
    if answer.number != 0 {
        assert_eq!(answer, Answer::refused(answer.number), "{call:?}");
    }
    answer.number
}

/// The sample at depth z, row y and column x of a block of 3 by 3 by 2 is zyx; lines move by whole samples.
fn planes_by_hand(implementation: &dyn Implementation) {
    let digits = |place: i32| 100 * (place / 9) + 10 * (place / 3 % 3) + place % 3;
    let setting = |a, b| Setting { a, b, ..Setting::default() };
    // Column 1 of each slice moves by one sample, column 2 by two.
    let columns = [
        [0, 21, 12, 10, 1, 22, 20, 11, 2, 100, 121, 112, 110, 101, 122, 120, 111, 102],
        [0, 101, 2, 10, 111, 12, 20, 121, 22, 100, 1, 102, 110, 11, 112, 120, 21, 122],
        [0, 1, 2, 110, 111, 112, 20, 21, 22, 100, 101, 102, 10, 11, 12, 120, 121, 122],
    ];
    // Row 1 of each slice moves by one sample in each of its two passes, row 2 by two.
    let rows = [
        [0, 1, 2, 11, 12, 10, 22, 20, 21, 100, 101, 102, 111, 112, 110, 122, 120, 121],
        [0, 1, 2, 10, 11, 12, 20, 21, 22, 101, 102, 100, 111, 112, 110, 121, 122, 120],
        [0, 1, 2, 10, 11, 12, 20, 21, 22, 110, 111, 112, 120, 121, 122, 100, 101, 102],
    ];
    for (setting, results) in [(setting(0, 4_096), columns), (setting(4_096, 0), rows)] {
        for (plane, expected) in PLANES.into_iter().zip(results) {
            let call = BlockCall::fitting([3, 3, 2], plane, setting, (0..18).map(digits).collect());
            let outcome = call.run(implementation);
            assert_eq!(
                (outcome.answer, &outcome.result[..]),
                (Answer::accepted(0), &expected[..]),
                "{call:?}"
            );
        }
    }
}

/// Holds every slice of an accepted block to the single call on it, and the count to the sum of theirs.
fn assert_slices(call: &BlockCall, implementation: &dyn Implementation) {
    let (outcome, mut count) = (call.run(implementation), 0);
    for slice in 0..call.slices() {
        let single = call.slice(slice).run(implementation);
        assert_eq!(single.answer.number, 0, "slice {slice} of {call:?}");
        assert!(call.cut(&outcome.result, slice) == single.result, "slice {slice} of {call:?}");
        count += single.answer.count;
    }
    assert_eq!(outcome.answer, Answer::accepted(count), "{call:?}");
}

fn every_slice_is_the_single_call(implementation: &dyn Implementation) {
    let (mut numbers, short) = (Numbers::seeded(131), [1, 2, 3, 5]);
    let small = (0..64).map(|i| [short[i % 4], short[i / 4 % 4], short[i / 16]]);
    let long = [[128, 2, 3], [3, 128, 2], [2, 3, 128], [128, 128, 1], [128, 1, 128], [1, 128, 128]];
    for sides in small.chain(long) {
        for (plane, kernel) in (0..9).map(|turn| (turn % 3, turn / 3)) {
            for border in [Border::Wrapped, Border::Background(numbers.edgy(32_767))] {
                let mut call = BlockCall::good(&mut numbers, sides, plane, kernel);
                call.setting.border = border;
                assert_slices(&call, implementation);
            }
        }
    }
}

fn blocks_of_the_longest_sides(implementation: &dyn Implementation) {
    let mut numbers = Numbers::seeded(132);
    for plane in PLANES {
        let kernel = (plane + 1) % 3;
        let call = BlockCall::good(&mut numbers, [128; 3], plane, kernel);
        assert_slices(&call, implementation);
    }
}

/// If the slices of a plane overlapped, or left a sample out, the tests here would hold too little.
#[test]
fn the_slices_of_a_plane_have_every_sample_once() {
    for (plane, sides) in
        PLANES.into_iter().flat_map(|plane| [[2, 3, 5], [7, 1, 4]].map(|sides| (plane, sides)))
    {
        let call = BlockCall::fitting(sides, plane, Setting::default(), Vec::new());
        let mut places: Vec<usize> = (0..call.slices()).flat_map(|slice| call.places(slice)).collect();
        places.sort();
        assert_eq!(places, (0..sides.iter().product()).collect::<Vec<_>>(), "{call:?}");
    }
}

/// Demand 3 for every slice, from the exact picture of that slice.
fn every_slice_within_its_limit(implementation: &dyn Implementation) {
    let mut numbers = Numbers::seeded(133);
    for turn in 0..180 {
        let sides = [(); 3].map(|()| 1 + numbers.below(6));
        let call = BlockCall::good(&mut numbers, sides, turn % 3, turn / 3 % 3);
        let outcome = call.run(implementation);
        assert_eq!(outcome.answer.number, 0, "{call:?}");
        for slice in 0..call.slices() {
            let (picture, kernel) = (call.slice(slice), call.setting.kernel);
            let exact = exact::picture(picture.size.0, picture.size.1, call.setting, &picture.picture);
            let written = call.cut(&outcome.result, slice);
            assert!(exact::within_limits(kernel, &written, &exact), "slice {slice} of {call:?}");
        }
    }
}

fn work_places_of_every_plane(implementation: &dyn Implementation) {
    let sides = [0, 1, 2, 64, 127, 128, 129, 1_024, 1 << 32, usize::MAX / 12 + 1, usize::MAX];
    let is_good = |side: &usize| (1..=128).contains(side);
    for i in 0..sides.len().pow(3) {
        let sides = [i, i / sides.len(), i / sides.len().pow(2)].map(|i| sides[i % sides.len()]);
        let [width, height, depth] = sides;
        let longer = [width.max(height), width.max(depth), height.max(depth)];
        for (plane, longer) in PLANES.into_iter().zip(longer) {
            let expected = if sides.iter().all(is_good) { 12 * longer } else { 0 };
            assert_eq!(implementation.block_work_places(sides, plane), expected, "{sides:?} in {plane}");
        }
        for plane in [3, 4, 256, 1 << 31, u32::MAX] {
            assert_eq!(implementation.block_work_places(sides, plane), 0, "{sides:?} in {plane}");
        }
    }
}

fn sides_at_their_edges(implementation: &dyn Implementation) {
    for plane in PLANES {
        for axis in 0..3 {
            let with_side = |side: usize| {
                let mut sides = [2, 3, 2];
                sides[axis] = side;
                BlockCall::fitting(sides, plane, Setting::default(), vec![7; sides.iter().product()])
            };
            for (side, expected) in [(0, 1), (1, 0), (128, 0), (129, 1), (1_024, 1)] {
                let call = with_side(side);
                assert_eq!(number(&call, implementation), expected, "{call:?}");
            }
            for side in [256, 1 << 32, (1 << 63) + 1, usize::MAX] {
                let mut call = good(plane);
                call.sides[axis] = side;
                assert_eq!(number(&call, implementation), 1, "{call:?}");
            }
        }
    }
}

fn planes_at_their_edges(implementation: &dyn Implementation) {
    for plane in [0, 1, 2, 3, 4, 255, 256, 257, 1 << 16, 1 << 31, u32::MAX] {
        let expected = if plane <= 2 { 0 } else { 17 };
        assert_eq!(number(&good(plane), implementation), expected, "plane {plane}");
    }
}

/// The centre is judged against the columns and rows of the plane, which are 2 by 3, 2 by 5 and 3 by 5 here.
fn centres_at_the_sides_of_the_plane(implementation: &dyn Implementation) {
    for (plane, (columns, rows)) in PLANES.into_iter().zip([(2, 3), (2, 5), (3, 5)]) {
        for cx in [0, columns - 1, columns, usize::MAX] {
            for cy in [0, rows - 1, rows, usize::MAX] {
                let call = BlockCall { setting: good(plane).setting.with_centre(cx, cy), ..good(plane) };
                let expected = if cx < columns && cy < rows { 0 } else { 3 };
                assert_eq!(number(&call, implementation), expected, "{call:?}");
            }
        }
    }
}

fn settings_at_their_edges(implementation: &dyn Implementation) {
    for plane in PLANES {
        let set = |change: &dyn Fn(Setting) -> Setting| {
            let call = BlockCall { setting: change(good(plane).setting), ..good(plane) };
            number(&call, implementation)
        };
        for (shear, expected) in [(4_096, 0), (-4_096, 0), (4_097, 4), (-4_097, 4), (i32::MIN, 4)] {
            assert_eq!(set(&|setting| setting.with_shears(shear, 1)), expected, "A = {shear}");
            assert_eq!(set(&|setting| setting.with_shears(1, shear)), expected, "B = {shear}");
        }
        for (kernel, expected) in [(0, 0), (1, 0), (2, 0), (3, 5), (u32::MAX, 5)] {
            assert_eq!(set(&|setting| setting.with_kernel(kernel)), expected, "kernel {kernel}");
        }
        for (value, expected) in [(32_767, 0), (-32_767, 0), (32_768, 12), (-32_768, 12), (i32::MIN, 12)] {
            let border = Border::Background(value);
            assert_eq!(set(&|setting| setting.with_border(border)), expected, "background {value}");
        }
    }
}

fn buffers_one_place_too_short(implementation: &dyn Implementation) {
    let mut numbers = Numbers::seeded(134);
    for i in 0..64 {
        let sides = [1 + i % 4, 1 + i / 4 % 4, 1 + i / 16];
        for plane in PLANES {
            let good = BlockCall::good(&mut numbers, sides, plane, i as u32 % 3);
            assert_eq!(number(&good, implementation), 0, "{good:?}");
            let short_block = BlockCall { block: good.block[1..].to_vec(), ..good.clone() };
            let short_result = BlockCall { result_length: good.result_length - 1, ..good.clone() };
            let short_work = BlockCall { work_length: good.work_length - 1, ..good.clone() };
            for call in [short_block, short_result, short_work] {
                assert_eq!(number(&call, implementation), 2, "{call:?}");
            }
        }
    }
}

/// What stands past the block is neither judged nor straightened.
fn longer_buffers_keep_their_later_places(implementation: &dyn Implementation) {
    for plane in PLANES {
        let exact = good(plane);
        let longer = BlockCall {
            block: [&exact.block[..], &[i32::MIN, 9, i32::MAX]].concat(),
            result_length: exact.result_length + 7,
            work_length: exact.work_length + 11,
            ..exact.clone()
        };
        let (exact, longer) = (exact.run(implementation), longer.run(implementation));
        assert_eq!((exact.answer.number, exact.answer), (0, longer.answer), "plane {plane}");
        assert_eq!(exact.result[..], longer.result[..30], "plane {plane}");
    }
}

/// Makes one thing about a call on the good block wrong.
type Spoil = fn(&mut BlockCall);

/// The numbers in the order in which they are judged, each with what it is refused for.
const SPOILS: [(u32, Spoil); 8] = [
    (1, |call| call.sides[1] = 129),
    (17, |call| call.plane = 3),
    (2, |call| call.work_length = 0),
    (3, |call| call.setting.cx = 3),
    (4, |call| call.setting.b = -4_097),
    (5, |call| call.setting.kernel = 3),
    (12, |call| call.setting.border = Border::Background(-32_768)),
    (6, |call| call.block[16] = 32_768),
];

/// The answer of the good block under a number: place 16 is depth 2, row 2, column 0.
fn answer(number: u32) -> Answer {
    if number == 6 {
        Answer::bad_sample(2, 2, 0)
    } else {
        Answer::refused(number)
    }
}

/// Each number alone, and with each other one.
fn the_number_of_two_that_comes_first(implementation: &dyn Implementation) {
    for plane in PLANES {
        assert_eq!(number(&good(plane), implementation), 0);
        for (place, (first, spoil)) in SPOILS.into_iter().enumerate() {
            for (second, other) in &SPOILS[place..] {
                let mut call = good(plane);
                other(&mut call);
                spoil(&mut call);
                assert_eq!(call.run(implementation).answer, answer(first), "{first} and {second}, {plane}");
            }
        }
    }
}

/// Each number with all that come after it.
fn the_number_of_all_that_comes_first(implementation: &dyn Implementation) {
    for plane in PLANES {
        let mut call = good(plane);
        for (number, spoil) in SPOILS.into_iter().rev() {
            spoil(&mut call);
            assert_eq!(call.run(implementation).answer, answer(number), "{number} in plane {plane}");
        }
    }
}

/// At every place of blocks whose rows are narrower and wider than 8 samples, with every later sample bad as well.
fn the_first_bad_sample_as_the_block_is_stored(implementation: &dyn Implementation) {
    for [width, height, depth] in [[3, 2, 4], [1, 5, 3], [8, 2, 3], [9, 3, 2], [37, 1, 2]] {
        for plane in PLANES {
            for place in 0..width * height * depth {
                let mut block = vec![0; width * height * depth];
                block[place..].fill(i32::MIN);
                let call = BlockCall::fitting([width, height, depth], plane, Setting::default(), block);
                let picture = width * height;
                let expected = Answer::bad_sample(place / picture, place % picture / width, place % width);
                assert_eq!(call.run(implementation).answer, expected, "{call:?}");
            }
        }
    }
}

/// A sample just past the range is found wherever it stands alone, and one at its end nowhere.
fn one_bad_sample_wherever_it_stands(implementation: &dyn Implementation) {
    let [width, height, depth] = [11, 3, 4];
    for place in 0..width * height * depth {
        let (plane, bad) = (PLANES[place % 3], if place % 2 == 0 { 32_768 } else { -32_768 });
        let mut block = vec![0; width * height * depth];
        block[place] = bad;
        let mut call = BlockCall::fitting([width, height, depth], plane, Setting::default(), block);
        let expected = Answer::bad_sample(place / 33, place % 33 / 11, place % 11);
        assert_eq!(call.run(implementation).answer, expected, "{bad} at {place}");
        call.block[place] -= bad.signum();
        assert_eq!(call.run(implementation).answer, Answer::accepted(0), "{} at {place}", call.block[place]);
    }
}
