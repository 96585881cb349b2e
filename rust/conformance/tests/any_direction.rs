//! A graticule line in any direction: the quarter turn and the step that level it, as `level_any` finds them.
#![cfg(feature = "library")]

use conformance::numbers::Numbers;
use conformance::quarters::place_after;
use std::collections::HashMap;
use straightener::{
    level, level_any, quarter_moved, straightened, Border, Kernel, Quarter, Refusal, Setting,
};

/// Two points, each a column and a row.
type Points = [(i32, i32); 2];

/// The largest step.
const LARGEST_STEP: i64 = 1_697;

/// What `level_any` answers for two points.
fn levelled([(x1, y1), (x2, y2)]: Points) -> Result<(Quarter, i32), Refusal> {
    level_any(x1, y1, x2, y2)
}

/// The way from the first point to the second after so many clockwise quarter turns of a picture of 1,024 by 1,024.
fn turned(turns: u32, points: Points) -> (i64, i64) {
    let place = |(x, y): (i32, i32)| place_after(turns, (1_024, 1_024), (x as usize, y as usize));
    let [(x1, y1), (x2, y2)] = points.map(place);
    (x2 as i64 - x1 as i64, y2 as i64 - y1 as i64)
}

/// The turns and the step that level the way between two points best: of all four turns and all steps that leave it
/// running from left to right, the first with the smallest miss of document 01.
fn searched(points: Points) -> (u32, i64) {
    let mut best = (0, 0, i64::MAX);
    for turns in 0..4 {
        let (dx, dy) = turned(turns, points);
        for t in -LARGEST_STEP..=LARGEST_STEP {
            let (sine, cosine) = (8_192 * t, 4_096 * 4_096 - t * t);
            let (right, miss) = (cosine * dx - sine * dy, (sine * dx + cosine * dy).abs());
            if right > 0 && miss < best.2 {
                best = (turns, t, miss);
            }
        }
    }
    (best.0, best.1)
}

/// Holds the answer for two points to what a search found.
fn assert_best(points: Points, found: (u32, i64)) {
    let (quarter, step) = levelled(points).expect("two points that differ");
    assert_eq!((quarter.number(), i64::from(step)), found, "{points:?}");
}

/// Holds the answer for two points to a picture in which they are marked, and which is moved: the points then lie as
/// `level` takes them, and have the step.
fn assert_moved((width, height): (usize, usize), points: Points) {
    let mut picture = vec![0; width * height];
    for ((x, y), mark) in points.into_iter().zip(1..) {
        picture[y as usize * width + x as usize] = mark;
    }
    let (quarter, step) = levelled(points).expect("two points that differ");
    let (moved, width, height) = quarter_moved(width, height, quarter, &picture).expect("a picture");
    assert_eq!(moved.len(), width * height);
    let found = [1, 2].map(|mark| {
        let place = moved.iter().position(|&sample| sample == mark).expect("the mark");
        ((place % width) as i32, (place / width) as i32)
    });
    let [(x1, y1), (x2, y2)] = found;
    assert!(x2 > x1 && (y2 - y1).abs() <= x2 - x1, "{points:?} become {found:?}");
    assert_eq!(level(x1, y1, x2, y2), Ok(step), "{points:?} become {found:?}");
}

/// Every two points of a square that differ.
fn pairs(side: i32) -> impl Iterator<Item = Points> {
    let point = move |place: i32| (place % side, place / side);
    let all = (0..side * side).flat_map(move |first| (0..side * side).map(move |second| (first, second)));
    all.filter(|(first, second)| first != second).map(move |(first, second)| [point(first), point(second)])
}

#[test]
fn every_two_points_of_a_small_square() {
    // The search goes by the way between the points alone, so that each way is searched once.
    let mut found = HashMap::new();
    for points in pairs(10) {
        let [(x1, y1), (x2, y2)] = points;
        let best = *found.entry((x2 - x1, y2 - y1)).or_insert_with(|| searched(points));
        for far in [0, 507, 1_014] {
            assert_best(points.map(|(x, y)| (x + far, y + 1_014 - far)), best);
        }
        assert_moved((10, 13), points);
    }
    assert_eq!(found.len(), 19 * 19 - 1, "every way");
}

#[test]
fn points_of_the_whole_range() {
    let (mut numbers, mut seen) = (Numbers::seeded(111), [0; 4]);
    for turn in 0..1_500 {
        let mut coordinate = || numbers.below(1_024) as i32;
        let points = [(coordinate(), coordinate()), (coordinate(), coordinate())];
        if points[0] == points[1] {
            continue;
        }
        assert_best(points, searched(points));
        if turn % 50 == 0 {
            assert_moved((1_024, 1_024), points);
        }
        seen[levelled(points).expect("two points that differ").0.number() as usize] += 1;
    }
    assert!(seen.iter().all(|&times| times > 200), "each turn is to come up: {seen:?}");
}

/// Near 45 degrees two turns come nearest to each other, and at 45 degrees the first of them is taken.
#[test]
fn about_45_degrees() {
    let far =
        [(1_023, 1_022), (1_022, 1_023), (1_023, 1_023), (512, 511), (511, 512), (2, 1), (1, 2), (1, 1)];
    for (dx, dy) in far {
        let corners = [(0, 0), (0, dy), (dx, 0), (dx, dy)];
        for points in [[0, 3], [3, 0], [1, 2], [2, 1]].map(|ends| ends.map(|corner| corners[corner])) {
            assert_best(points, searched(points));
        }
    }
    assert_eq!(level_any(0, 0, 1_000, 1_000), Ok((Quarter::Stay, -1_697)));
    assert_eq!(level_any(0, 1_000, 1_000, 0), Ok((Quarter::Stay, 1_697)));
    assert_eq!(level_any(1_000, 1_000, 0, 0), Ok((Quarter::Clockwise, 1_697)));
    assert_eq!(level_any(1_000, 0, 0, 1_000), Ok((Quarter::HalfTurn, 1_697)));
}

#[test]
fn along_the_sides() {
    assert_eq!(level_any(3, 5, 9, 5), Ok((Quarter::Stay, 0)));
    assert_eq!(level_any(3, 9, 3, 5), Ok((Quarter::Clockwise, 0)));
    assert_eq!(level_any(9, 5, 3, 5), Ok((Quarter::HalfTurn, 0)));
    assert_eq!(level_any(3, 5, 3, 9), Ok((Quarter::CounterClockwise, 0)));
}

#[test]
fn a_line_that_levelling_takes_stays() {
    for [(x1, y1), (x2, y2)] in pairs(12) {
        match level(x1, y1, x2, y2) {
            Ok(step) => assert_eq!(level_any(x1, y1, x2, y2), Ok((Quarter::Stay, step))),
            Err(refusal) => {
                assert_eq!(refusal, Refusal::Slope);
                let (quarter, _) = level_any(x1, y1, x2, y2).expect("two points that differ");
                assert_ne!(quarter, Quarter::Stay, "({x1}, {y1}) to ({x2}, {y2})");
            }
        }
    }
}

#[test]
fn points_the_other_way_round_turn_the_picture_upside_down() {
    let is_diagonal = |[(x1, y1), (x2, y2)]: &Points| (x2 - x1).abs() == (y2 - y1).abs();
    for points in pairs(9).filter(|points| !is_diagonal(points)) {
        let (quarter, step) = levelled(points).expect("two points that differ");
        let the_other_way = levelled([points[1], points[0]]);
        assert_eq!(the_other_way, Ok((quarter.then(Quarter::HalfTurn), step)), "{points:?}");
    }
}

#[test]
fn coordinates_beyond_the_range_and_points_in_one_place() {
    for beyond in [-1, 1_024, i32::MIN, i32::MAX] {
        for at in 0..4 {
            for mut points in [[3, 4, 9, 8], [3, 9, 3, 5], [7, 7, 7, 7]] {
                points[at] = beyond;
                let [x1, y1, x2, y2] = points;
                assert_eq!(level_any(x1, y1, x2, y2), Err(Refusal::Point), "{points:?}");
            }
        }
        assert_eq!(level_any(beyond, beyond, beyond, beyond), Err(Refusal::Point), "{beyond}");
    }
    for (x, y) in [(0, 0), (1_023, 0), (0, 1_023), (1_023, 1_023), (500, 7)] {
        assert_eq!(level_any(x, y, x, y), Err(Refusal::Slope), "({x}, {y})");
    }
    assert!(level_any(0, 1_023, 1_023, 0).is_ok() && level_any(1_023, 0, 0, 1_023).is_ok());
}

/// A picture of 101 by 91 with a line three samples across between two points, the lighter the nearer to the second.
fn drawn([(x1, y1), (x2, y2)]: Points) -> Vec<i32> {
    let (dx, dy) = (x2 - x1, y2 - y1);
    let square = dx * dx + dy * dy;
    let sample = |place: i32| {
        let (x, y) = (place % 101 - x1, place / 101 - y1);
        let (beside, along) = (dx * y - dy * x, dx * x + dy * y);
        let is_near = 4 * i64::from(beside).pow(2) <= 9 * i64::from(square) && (0..=square).contains(&along);
        if is_near {
            10_000 + (20_000 * i64::from(along) / i64::from(square)) as i32
        } else {
            0
        }
    };
    (0..101 * 91).map(sample).collect()
}

/// The lightest sample of a column, and its row.
fn lightest(width: usize, picture: &[i32], column: usize) -> (i32, usize) {
    let rows = picture.chunks(width).map(|row| row[column]).zip(0..);
    rows.max().expect("a picture has rows")
}

/// A line about the middle of a picture in every direction, moved and straightened: it runs level through the middle, and
/// becomes lighter from left to right.
#[test]
fn a_drawn_line_is_level_afterwards() {
    for angle in (0..360).step_by(5) {
        let (sine, cosine) = f64::from(angle).to_radians().sin_cos();
        let (across, down) = ((40.0 * cosine).round() as i32, (40.0 * sine).round() as i32);
        let points = [(50 - across, 45 - down), (50 + across, 45 + down)];
        let (quarter, step) = levelled(points).expect("two points that differ");
        let (moved, width, height) = quarter_moved(101, 91, quarter, &drawn(points)).expect("a picture");
        let setting = Setting::new().with_kernel(Kernel::Linear).with_border(Border::Background(0));
        let setting = setting.with_centre(width / 2, height / 2).with_step(step).expect("a step");
        let (result, _) = straightened(width, height, setting, &moved).expect("a picture");
        let columns = [-30, -15, 0, 15, 30].map(|right| (width as i32 / 2 + right) as usize);
        let found = columns.map(|column| lightest(width, &result, column));
        assert!(found.windows(2).all(|pair| pair[0].0 < pair[1].0), "{angle} degrees: {found:?}");
        assert!(found.iter().all(|(_, row)| row.abs_diff(height / 2) <= 1), "{angle} degrees: {found:?}");
    }
}
