//! Line under the two points: which samples levelling with a picture looks at, and what it answers by them.

use conformance::numbers::Numbers;
use conformance::{for_both_implementations, Answer, Implementation};

for_both_implementations!(
    the_row_nearest_to_the_line,
    a_light_line_on_a_dark_screen,
    the_leftmost_of_two_gaps,
    no_other_sample_is_compared,
    the_ends_of_the_threshold,
    at_the_threshold_and_one_below,
    points_in_the_corners_and_one_step_outside,
    the_number_that_comes_first,
    the_longest_line,
);

const LIGHT: i32 = 30_080;
const DARK: i32 = 2_048;

/// Two points as x1, y1, x2, y2.
type Points = [i32; 4];

/// The row that lies nearest to the line through two points in column x, of two as near the lower on the screen,
/// found by trying each.
fn nearest([x1, y1, x2, y2]: Points, x: i32) -> i32 {
    // By how much a row misses the line, in parts of a row that dx makes.
    let miss = |row: i32| ((row - y1) * (x2 - x1) - (y2 - y1) * (x - x1)).abs();
    (y1.min(y2)..=y1.max(y2)).rev().min_by_key(|&row| miss(row)).expect("a row")
}

/// The place of a column's sample on the line, in a picture stored row by row.
fn on_the_line(width: usize, points: Points, x: i32) -> usize {
    width * nearest(points, x) as usize + x as usize
}

/// A dark picture with a light line through two points.
fn screen((width, height): (usize, usize), points: Points) -> Vec<i32> {
    let mut picture = vec![DARK; width * height];
    for x in points[0]..=points[2] {
        picture[on_the_line(width, points, x)] = LIGHT;
    }
    picture
}

/// A size, and two points in it that levelling takes.
fn any_line(numbers: &mut Numbers) -> ((usize, usize), Points) {
    loop {
        let size = (2 + numbers.below(40), 1 + numbers.below(40));
        let mut coordinate = |side: usize| numbers.below(side) as i32;
        let points = [coordinate(size.0), coordinate(size.1), coordinate(size.0), coordinate(size.1)];
        let (dx, dy) = (points[2] - points[0], points[3] - points[1]);
        if dx >= 1 && dy.abs() <= dx {
            return (size, points);
        }
    }
}

/// The answer of a refusal under 15 at a row and a column.
fn below(row: usize, column: usize) -> (Answer, i32) {
    (Answer::of(15, row, column, 0), 0)
}

/// The answer of an accepted call: the plain call's step.
fn level(implementation: &dyn Implementation, [x1, y1, x2, y2]: Points) -> (Answer, i32) {
    let (number, step) = implementation.level(x1, y1, x2, y2);
    assert_eq!(number, 0, "a line that the plain call refuses");
    (Answer::accepted(0), step)
}

/// Every line of up to 12 columns: with its samples light it passes, and each of them darkened is named.
fn the_row_nearest_to_the_line(implementation: &dyn Implementation) {
    let size = (13, 13);
    let mut tried = 0;
    for (y1, y2, dx) in (0..13).flat_map(|y1| (0..13).flat_map(move |y2| (1..13).map(move |dx| (y1, y2, dx))))
    {
        if i32::abs(y2 - y1) > dx {
            continue;
        }
        let points = [0, y1, dx, y2];
        let mut picture = screen(size, points);
        let told = implementation.level_checked((size, points, LIGHT), &picture);
        assert_eq!(told, level(implementation, points), "{points:?}");
        for x in 0..=dx {
            let place = on_the_line(13, points, x);
            picture[place] = LIGHT - 1;
            let told = implementation.level_checked((size, points, LIGHT), &picture);
            assert_eq!(told, below(place / 13, x as usize), "{points:?} in column {x}");
            picture[place] = LIGHT;
            tried += 1;
        }
    }
    assert_eq!(tried, 12_636, "every column of every such line");
}

fn a_light_line_on_a_dark_screen(implementation: &dyn Implementation) {
    let mut numbers = Numbers::seeded(61);
    for _ in 0..2_000 {
        let (size, points) = any_line(&mut numbers);
        let told = implementation.level_checked((size, points, LIGHT), &screen(size, points));
        assert_eq!(told, level(implementation, points), "{size:?} {points:?}");
    }
}

fn the_leftmost_of_two_gaps(implementation: &dyn Implementation) {
    let mut numbers = Numbers::seeded(62);
    for _ in 0..2_000 {
        let (size, points) = any_line(&mut numbers);
        let mut picture = screen(size, points);
        let columns = [0, 1].map(|_| points[0] + numbers.below((points[2] - points[0] + 1) as usize) as i32);
        for x in columns {
            picture[on_the_line(size.0, points, x)] = numbers.one_of(&[DARK, LIGHT - 1, -1_048_576]);
        }
        let first = columns[0].min(columns[1]);
        let told = implementation.level_checked((size, points, LIGHT), &picture);
        let expected = below(on_the_line(size.0, points, first) / size.0, first as usize);
        assert_eq!(told, expected, "{size:?} {points:?} {columns:?}");
    }
}

/// Samples beside the line, above and below it or past its ends, may hold anything in range; places past the
/// picture may hold anything.
fn no_other_sample_is_compared(implementation: &dyn Implementation) {
    let mut numbers = Numbers::seeded(63);
    for _ in 0..2_000 {
        let (size, points) = any_line(&mut numbers);
        let mut picture = numbers.samples(size.0 * size.1, 1_048_576);
        for x in points[0]..=points[2] {
            picture[on_the_line(size.0, points, x)] = numbers.one_of(&[LIGHT, 1_048_576]);
        }
        picture.extend([i32::MIN, i32::MAX]);
        let told = implementation.level_checked((size, points, LIGHT), &picture);
        assert_eq!(told, level(implementation, points), "{size:?} {points:?}");
    }
}

fn the_ends_of_the_threshold(implementation: &dyn Implementation) {
    let (size, points) = ((5, 3), [1, 2, 4, 0]);
    for sample in [-1_048_576, -1, 0, 1, 1_048_576] {
        let told = |threshold| implementation.level_checked((size, points, threshold), &[sample; 15]);
        assert_eq!(told(i32::MIN), level(implementation, points), "{sample}");
        assert_eq!(told(-1_048_576), level(implementation, points), "{sample}");
        assert_eq!(told(1_048_577), below(2, 1), "{sample}");
        assert_eq!(told(i32::MAX), below(2, 1), "{sample}");
    }
}

fn at_the_threshold_and_one_below(implementation: &dyn Implementation) {
    let (size, points) = ((3, 1), [0, 0, 2, 0]);
    for threshold in [-1_048_576, -1, 0, 1, 2_048, 1_048_576] {
        let told = |sample| implementation.level_checked((size, points, threshold), &[sample; 3]);
        assert_eq!(told(threshold), (Answer::accepted(0), 0), "{threshold}");
        let under = if threshold == -1_048_576 { Answer::of(6, 0, 0, 0) } else { Answer::of(15, 0, 0, 0) };
        assert_eq!(told(threshold - 1), (under, 0), "{threshold}");
    }
}

fn points_in_the_corners_and_one_step_outside(implementation: &dyn Implementation) {
    let picture = [LIGHT; 7 * 5];
    let number = |points| implementation.level_checked(((7, 5), points, LIGHT), &picture).0.number;
    for inside in [[0, 0, 6, 4], [0, 4, 6, 0], [0, 0, 6, 0], [5, 4, 6, 4]] {
        assert_eq!(number(inside), 0, "{inside:?}");
    }
    // Each coordinate in turn: just outside, where the plain call takes it or not, and far outside.
    for outside in [-1, 7, 1_023, 1_024, i32::MIN, i32::MAX] {
        assert_eq!([number([outside, 0, 6, 4]), number([0, 0, outside, 4])], [7, 7], "{outside}");
    }
    for outside in [-1, 5, 6, 1_023, 1_024, i32::MIN, i32::MAX] {
        assert_eq!([number([0, outside, 6, 4]), number([0, 0, 6, outside])], [7, 7], "{outside}");
    }
    for steep in [[0, 0, 3, 4], [0, 4, 3, 0], [3, 0, 3, 0], [6, 0, 0, 4]] {
        assert_eq!(number(steep), 8, "{steep:?}");
    }
}

/// A line that passes, and then one thing after the other spoilt: each number is told ahead of those before it.
fn the_number_that_comes_first(implementation: &dyn Implementation) {
    let (mut size, mut points, mut threshold, mut picture) = ((4, 3), [0, 0, 3, 2], LIGHT, vec![LIGHT; 12]);
    let told = |size, points, threshold, picture: &[i32]| {
        implementation.level_checked((size, points, threshold), picture)
    };
    assert_eq!(told(size, points, threshold, &picture), level(implementation, points));
    threshold += 1;
    assert_eq!(told(size, points, threshold, &picture), below(0, 0));
    points[2] = 1;
    assert_eq!(told(size, points, threshold, &picture), (Answer::refused(8), 0));
    points[3] = 3;
    assert_eq!(told(size, points, threshold, &picture), (Answer::refused(7), 0));
    picture[9] = -1_048_577;
    assert_eq!(told(size, points, threshold, &picture), (Answer::of(6, 2, 1, 0), 0));
    picture.pop();
    assert_eq!(told(size, points, threshold, &picture), (Answer::refused(2), 0));
    size.1 = 1_025;
    assert_eq!(told(size, points, threshold, &picture), (Answer::refused(1), 0));
}

fn the_longest_line(implementation: &dyn Implementation) {
    let size = (1_024, 1_024);
    for points in [[0, 0, 1_023, 1_023], [0, 1_023, 1_023, 0], [0, 1_023, 1_023, 511]] {
        let mut picture = screen(size, points);
        let told = implementation.level_checked((size, points, LIGHT), &picture);
        assert_eq!(told, level(implementation, points), "{points:?}");
        let last = on_the_line(1_024, points, 1_023);
        picture[last] = DARK;
        let told = implementation.level_checked((size, points, LIGHT), &picture);
        assert_eq!(told, below(points[3] as usize, 1_023), "{points:?}");
    }
}
