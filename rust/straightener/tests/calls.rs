//! The safe calls: their settings, their refusals and their messages.

use std::collections::HashSet;
use straightener::{
    answer_line, ask, block_work_places, commit, explain, floats_out, forecast, greys_out, level, level_any,
    level_checked, line_work_places, move_line, quarter_move, quarter_moved, raw, reading, sine, straighten,
    straighten_block, straightened, straightened_block, summary, work_places, Border, Kernel, Plane, Quarter,
    Refusal, Setting, Ticket,
};

/// The planes in the order of their numbers.
const PLANES: [Plane; 3] = [Plane::AcrossAndDown, Plane::AcrossAndDepth, Plane::DownAndDepth];

#[test]
fn a_change_keeps_the_rest_of_the_setting() {
    let setting = Setting::new().with_kernel(Kernel::Spline).with_centre(3, 4).with_shears(5, 6);
    assert_eq!((setting.kernel(), setting.centre(), setting.shears()), (Kernel::Spline, (3, 4), (5, 6)));
    assert_eq!(setting.border(), Border::Wrapped);
    let keys = setting.with_kernel(Kernel::Keys);
    assert_eq!((keys.kernel(), keys.centre(), keys.shears()), (Kernel::Keys, (3, 4), (5, 6)));
    let linear = keys.with_kernel(Kernel::Linear);
    assert_eq!((linear.kernel(), linear.centre(), linear.shears()), (Kernel::Linear, (3, 4), (5, 6)));
    let far = setting.with_centre(usize::MAX, 7).with_shears(i32::MIN, i32::MAX);
    assert_eq!(
        (far.kernel(), far.centre(), far.shears()),
        (Kernel::Spline, (usize::MAX, 7), (i32::MIN, i32::MAX))
    );
    let stepped = setting.with_step(-1_697).expect("a step within its range");
    assert_eq!(
        (stepped.kernel(), stepped.centre(), stepped.shears()),
        (Kernel::Spline, (3, 4), (1_697, -2_897))
    );
    assert_eq!(setting.with_step(-1_698), Err(Refusal::Shear));
    assert_eq!(Setting::new(), Setting::default());
}

#[test]
fn every_change_keeps_the_border() {
    let plain = Setting::new().with_kernel(Kernel::Keys).with_centre(3, 4).with_shears(5, 6);
    for border in
        [Border::Wrapped, Border::Background(0), Border::Background(-7), Border::Background(i32::MIN)]
    {
        let setting = plain.with_border(border);
        assert_eq!((setting.kernel(), setting.centre(), setting.shears()), (Kernel::Keys, (3, 4), (5, 6)));
        let stepped = setting.with_step(80).expect("a step within its range");
        for changed in [
            setting,
            setting.with_kernel(Kernel::Spline),
            setting.with_centre(9, 8),
            setting.with_shears(-1, -2),
            stepped,
        ] {
            assert_eq!(changed.border(), border);
        }
        assert_eq!(setting.with_border(Border::Wrapped), plain);
    }
    assert_eq!(Border::default(), Border::Wrapped);
}

#[test]
fn a_forecast_and_a_straightening_that_keeps_to_it() {
    let setting = Setting::new().with_kernel(Kernel::Keys).with_centre(1, 1).with_shears(700, -900);
    let told = forecast(3, 2, setting, 100).expect("a forecast");
    assert_eq!((told.work_places, told.count, told.bound), (work_places(3, 2), 4, 195));
    let (picture, mut result) = ([100, -100, 0, 100, -100, 0], [7; 6]);
    let mut work = vec![7; told.work_places];
    let less = straighten(3, 2, setting, &picture, &mut result, &mut work[1..]);
    assert_eq!((less, result), (Err(Refusal::Buffer), [7; 6]));
    let done = straighten(3, 2, setting, &picture, &mut result, &mut work).expect("a straightening");
    assert_eq!(done.count, told.count);
    assert!(result.iter().all(|sample| (-told.bound..=told.bound).contains(sample)));
}

#[test]
fn a_refused_forecast() {
    let setting = Setting::new().with_centre(1, 1);
    let refusal = |width, setting, largest| forecast(width, 2, setting, largest).expect_err("a refusal");
    assert_eq!(refusal(0, setting, 0), Refusal::Size);
    assert_eq!(refusal(usize::MAX, setting, 0), Refusal::Size);
    assert_eq!(refusal(1, setting, 0), Refusal::Centre);
    assert_eq!(refusal(2, setting.with_shears(0, 4_097), 0), Refusal::Shear);
    let border = Border::Background(i32::MIN);
    assert_eq!(refusal(2, setting.with_border(border), u32::MAX), Refusal::Background);
    let too_large = refusal(2, setting, 32_768);
    assert_eq!(too_large, Refusal::Sample { row: 0, column: 0 });
    assert!(too_large.to_string().contains("the largest sample size given for a forecast"), "{too_large}");
}

#[test]
fn a_block_in_each_plane() {
    let block: Vec<i32> = (0..24).map(|place| if place % 5 == 0 { -2_000 } else { 100 * place }).collect();
    let grey = Setting::new().with_kernel(Kernel::Spline).with_border(Border::Background(-50));
    let setting = grey.with_centre(1, 1).with_shears(700, -900);
    for (plane, (number, places)) in PLANES.into_iter().zip([(0, 36), (1, 48), (2, 48)]) {
        assert_eq!(block_work_places(3, 2, 4, plane), places, "{plane:?}");
        assert_eq!(raw::block_work_places(3, 2, 4, number), places, "{plane:?}");
        let (mut result, mut work) = (vec![7; 24], vec![7; places]);
        let told = straighten_block(3, 2, 4, plane, setting, &block, &mut result, &mut work);
        let told = told.expect("nothing is wrong");
        assert_eq!(straightened_block(3, 2, 4, plane, setting, &block), Ok((result.clone(), told)));
        let mut again = vec![0; 24];
        let answer = raw::straighten_block(3, 2, 4, number, setting.into(), &block, &mut again, &mut work);
        assert_eq!((answer.number, &again), (0, &result), "{plane:?}");
        assert_eq!((answer.count, answer.smallest), (told.count, told.smallest), "{plane:?}");
        assert_eq!((answer.largest, &work), (told.largest, &vec![0; places]), "{plane:?}");
        let extremes = result.iter().min().zip(result.iter().max());
        assert_eq!(extremes, Some((&told.smallest, &told.largest)), "{plane:?}");
    }
}

#[test]
fn the_slices_across_and_down_are_the_pictures() {
    let block: Vec<i32> = (0..24).map(|place| 37 * place % 101).collect();
    let setting = Setting::new().with_kernel(Kernel::Keys).with_centre(1, 1).with_shears(-300, 600);
    let (result, told) =
        straightened_block(3, 2, 4, Plane::AcrossAndDown, setting, &block).expect("nothing is wrong");
    let pictures = block.chunks(6).map(|picture| straightened(3, 2, setting, picture).expect("a picture"));
    let (pictures, tellings): (Vec<_>, Vec<_>) = pictures.unzip();
    assert_eq!(result, pictures.concat());
    assert_eq!(told.count, tellings.iter().map(|told| told.count).sum::<u32>());
}

#[test]
fn a_refused_block() {
    let (mut block, setting) = (vec![0; 24], Setting::new().with_centre(2, 3));
    let refusal = |sides: [usize; 3], plane, setting, block: &[i32]| {
        straightened_block(sides[0], sides[1], sides[2], plane, setting, block).expect_err("a refusal")
    };
    let [down, deep, _] = PLANES;
    assert_eq!(refusal([0, 2, 4], down, setting, &block), Refusal::Size);
    assert_eq!(refusal([3, 129, 4], down, setting, &block), Refusal::Size);
    assert_eq!(refusal([3, 2, 4], down, setting, &block[1..]), Refusal::Buffer);
    assert_eq!(refusal([3, 2, 4], down, setting, &block), Refusal::Centre);
    assert_eq!(refusal([3, 2, 4], deep, setting.with_shears(0, 4_097), &block), Refusal::Shear);
    block[23] = -32_768;
    let bright = setting.with_border(Border::Background(32_768));
    assert_eq!(refusal([3, 2, 4], deep, bright, &block), Refusal::Background);
    let sample = refusal([3, 2, 4], deep, setting, &block);
    assert_eq!(sample, Refusal::BlockSample { depth: 3, row: 1, column: 2 });
    assert_eq!(sample.number(), Refusal::Sample { row: 1, column: 2 }.number());
    assert!(sample.to_string().ends_with("; depth 3, row 1, column 2"), "{sample}");
    let (mut result, mut work) = (vec![7; 24], vec![7; 48]);
    let answer = raw::straighten_block(3, 2, 4, 3, setting.into(), &block, &mut result, &mut work);
    assert_eq!(Refusal::from_block_number(answer.number, 0, 0, 0), Some(Refusal::Plane));
    assert_eq!((result, work), (vec![7; 24], vec![7; 48]));
}

#[test]
fn the_moves_and_their_numbers() {
    for (quarter, number) in Quarter::ALL.into_iter().zip(0..) {
        assert_eq!((quarter.number(), Quarter::from_number(number)), (number, Some(quarter)));
    }
    assert_eq!(Quarter::ALL.iter().collect::<HashSet<_>>().len(), 8);
    assert!([8, 9, 256, u32::MAX].into_iter().all(|number| Quarter::from_number(number).is_none()));
    assert_eq!(
        [Quarter::CounterClockwise, Quarter::Mirror, Quarter::MirrorCounterClockwise].map(Quarter::number),
        [3, 4, 7]
    );
}

#[test]
fn each_move_of_a_picture() {
    let picture = [1, 2, 3, 4, 5, 6];
    for quarter in Quarter::ALL {
        let mut result = [7; 8];
        let size = quarter_move(3, 2, quarter, &picture, &mut result).expect("nothing is wrong");
        assert_eq!((size, &result[6..]), (quarter.moved_size(3, 2), &[7, 7][..]), "{quarter:?}");
        let moved = quarter_moved(3, 2, quarter, &picture).expect("nothing is wrong");
        assert_eq!(moved, (result[..6].to_vec(), size.0, size.1), "{quarter:?}");
        let mut again = [0; 6];
        let answer = raw::quarter_move(3, 2, quarter.number(), &picture, &mut again);
        assert_eq!((answer.number, answer.row, answer.column), (0, 0, 0), "{quarter:?}");
        assert_eq!(((answer.width, answer.height), &again[..]), (size, &result[..6]), "{quarter:?}");
    }
}

/// Of every two, as of the library's numbers, and by two calls.
#[test]
fn moves_in_a_row() {
    let picture = [1, 2, 3, 4, 5, 6];
    for first in Quarter::ALL {
        for second in Quarter::ALL {
            let both = first.then(second);
            assert_eq!(raw::joined_moves(first.number(), second.number()).value, both.number());
            let (moved, width, height) = quarter_moved(3, 2, first, &picture).expect("a move");
            let twice = quarter_moved(width, height, second, &moved);
            assert_eq!(twice, quarter_moved(3, 2, both, &picture), "{first:?} and then {second:?}");
        }
        let back = first.inverse();
        assert_eq!(raw::inverse_move(first.number()).value, back.number(), "{first:?}");
        assert_eq!((first.then(back), back.then(first)), (Quarter::Stay, Quarter::Stay), "{first:?}");
    }
}

#[test]
fn a_refused_move() {
    let mut picture = vec![7; 6];
    let refusal = |width, height, picture: &[i32]| {
        quarter_moved(width, height, Quarter::Clockwise, picture).expect_err("a refusal")
    };
    assert_eq!(refusal(0, 2, &picture), Refusal::Size);
    assert_eq!(refusal(3, 1_025, &picture), Refusal::Size);
    assert_eq!(refusal(3, 2, &picture[..5]), Refusal::Buffer);
    let short = quarter_move(3, 2, Quarter::Stay, &picture, &mut [0; 5]);
    assert_eq!(short, Err(Refusal::Buffer));
    picture[4] = 1_048_577;
    let sample = refusal(3, 2, &picture);
    assert_eq!(sample, Refusal::Sample { row: 1, column: 1 });
    assert!(sample.to_string().contains("; row 1, column 1"), "{sample}");
    let mut result = [7; 6];
    let answer = raw::quarter_move(3, 2, 8, &picture, &mut result);
    assert_eq!(Refusal::from_number(answer.number, answer.row, answer.column), Some(Refusal::Move));
    assert_eq!((answer.width, answer.height, result), (0, 0, [7; 6]));
    for answer in [raw::joined_moves(0, 8), raw::joined_moves(8, 0), raw::inverse_move(8)] {
        assert_eq!((answer.number, answer.value), (Refusal::Move.number(), 0));
    }
}

#[test]
fn a_line_in_any_direction() {
    let step = level(4, 30, 60, 27).expect("a line that is not steep");
    // The same line as it lies in the picture before each of the four turns.
    assert_eq!(level_any(4, 30, 60, 27), Ok((Quarter::Stay, step)));
    assert_eq!(level_any(30, 60, 27, 4), Ok((Quarter::Clockwise, step)));
    assert_eq!(level_any(60, 27, 4, 30), Ok((Quarter::HalfTurn, step)));
    assert_eq!(level_any(27, 4, 30, 60), Ok((Quarter::CounterClockwise, step)));
    assert_eq!(level_any(4, 30, 4, 30), Err(Refusal::Slope));
    assert_eq!(level_any(4, 30, 4, 1_024), Err(Refusal::Point));
    assert!(Refusal::Slope.to_string().contains("no steeper than 45 degrees"));
}

/// Whether all lines of a board end at the same column.
fn is_flush(board: &str) -> bool {
    let mut widths = board.lines().map(str::len);
    let first = widths.next();
    widths.all(|width| Some(width) == first)
}

#[test]
fn what_made_a_sample() {
    let line = [[1_000; 3], [9_000; 3]].concat();
    for kernel in [Kernel::Linear, Kernel::Keys, Kernel::Spline] {
        let (mut result, mut work) = ([0; 6], vec![0; line_work_places(6)]);
        move_line(kernel, 700, Border::Wrapped, &line, &mut result, &mut work).expect("nothing is wrong");
        for (k, &sample) in result.iter().enumerate() {
            let made = explain(kernel, 700, k, &line).expect("a place of the line");
            assert_eq!(made.quotient, sample, "place {k} with {kernel:?}");
            assert!(made.terms.iter().all(|term| term.product == term.weight * i64::from(term.value)));
            assert_eq!(made.sum, made.terms.iter().map(|term| term.product).sum::<i64>());
            let board = made.to_string().replace(',', "");
            let cells: Vec<Vec<_>> = board.lines().map(|line| line.split_whitespace().collect()).collect();
            assert_eq!(cells[0], ["place", "weight", "value", "product"]);
            for (cells, term) in cells[1..5].iter().zip(&made.terms) {
                let figures = [term.place as i64, term.weight, term.value.into(), term.product];
                assert_eq!(*cells, figures.map(|figure| figure.to_string()), "{made}");
            }
            let figures = [made.sum, made.divisor, sample.into()].map(|figure| figure.to_string());
            let [sum, divisor, quotient] = &figures;
            assert_eq!(cells[5..], [["sum", sum], ["divisor", divisor], ["quotient", quotient]], "{made}");
            assert!(is_flush(&made.to_string()), "{made}");
        }
    }
}

#[test]
fn a_board_has_room_for_the_largest_figures() {
    let line = [294_912, -294_912].repeat(20);
    for made in [explain(Kernel::Spline, 0, 20, &line), explain(Kernel::Spline, -1, 0, &[-294_912])] {
        let board = made.expect("nothing is wrong").to_string();
        assert!(board.lines().count() == 8 && is_flush(&board), "{board}");
    }
}

#[test]
fn a_refused_explanation() {
    let refusal = |d, k, line: &[i32]| explain(Kernel::Spline, d, k, line).expect_err("a refusal");
    assert_eq!(refusal(0, 0, &[]), Refusal::Size);
    assert_eq!(refusal(0, 0, &[0; 1_025]), Refusal::Size);
    assert_eq!(refusal(4_194_305, 9, &[0, 0, 294_913]), Refusal::Shear);
    assert_eq!(refusal(-4_194_304, 3, &[0, 0, 294_913]), Refusal::Point);
    assert_eq!(refusal(-4_194_304, usize::MAX, &[0, 0, 294_913]), Refusal::Point);
    assert_eq!(refusal(-4_194_304, 2, &[0, 0, 294_913]), Refusal::Sample { row: 0, column: 2 });
    assert!(Refusal::Point.to_string().contains("a place beyond its line"));
}

#[test]
fn a_line_under_two_points() {
    let mut picture = vec![100; 5 * 4];
    let told = |picture: &[i32], threshold| level_checked(5, 4, (0, 3), (4, 1), threshold, picture);
    assert_eq!(told(&picture, 100), level(0, 3, 4, 1));
    assert_eq!(told(&picture, i32::MIN), level(0, 3, 4, 1));
    // Column 1 lies halfway between rows 2 and 3, which is row 3.
    picture[3 * 5 + 1] = 99;
    let refusal = told(&picture, 100).expect_err("a sample below the threshold");
    assert_eq!(refusal, Refusal::Threshold { row: 3, column: 1 });
    assert_eq!(refusal.number(), 15);
    assert!(refusal.to_string().contains("row 3, column 1"), "{refusal}");
    assert_eq!(told(&picture, 99), level(0, 3, 4, 1));
}

#[test]
fn a_refused_line_under_two_points() {
    let picture = [7, 7, 7, 1_048_577, 7, 7];
    let refusal = |width, left, right, picture: &[i32]| {
        level_checked(width, 2, left, right, i32::MAX, picture).expect_err("a refusal")
    };
    assert_eq!(refusal(0, (0, 0), (1, 0), &picture), Refusal::Size);
    assert_eq!(refusal(usize::MAX, (0, 0), (1, 0), &picture), Refusal::Size);
    assert_eq!(refusal(3, (0, 0), (1, 0), &picture[..5]), Refusal::Buffer);
    assert_eq!(refusal(3, (0, 0), (9, 0), &picture), Refusal::Sample { row: 1, column: 0 });
    assert_eq!(refusal(3, (0, 0), (3, 0), &[7; 6]), Refusal::Point);
    assert_eq!(refusal(3, (0, -1), (2, 0), &[7; 6]), Refusal::Point);
    assert_eq!(refusal(3, (1, 0), (1, 1), &[7; 6]), Refusal::Slope);
    assert_eq!(refusal(3, (1, 1), (2, 0), &[7; 6]), Refusal::Threshold { row: 1, column: 1 });
}

#[test]
fn an_asking_and_a_commit_on_its_ticket() {
    let picture = [10, 20, 30, 40, 50, 60];
    let (mut result, mut work) = (vec![7; 6], vec![7; work_places(3, 2)]);
    let grey = Setting::new().with_kernel(Kernel::Spline).with_border(Border::Background(-50));
    let setting = grey.with_centre(1, 1).with_shears(700, -900);
    let ticket = ask(3, 2, setting, &picture, &result, &work).expect("nothing is wrong");
    assert_eq!(ticket, Ticket { width: 3, height: 2, setting, count: 4 });
    assert_eq!((&result, &work), (&vec![7; 6], &vec![7; 36]));
    assert_eq!(raw::Ticket::from(ticket), raw::ask(3, 2, setting.into(), &picture, &result, &work).ticket);
    let told = commit(ticket, 3, 2, &picture, &mut result, &mut work).expect("nothing is wrong");
    assert_eq!(straightened(3, 2, setting, &picture), Ok((result.clone(), told)));
    assert_eq!((told.count, &work), (4, &vec![0; 36]));

    let asked = |setting, picture: &[i32], work: &[i32]| ask(3, 2, setting, picture, &[0; 6], work);
    assert_eq!(asked(setting, &picture, &[0; 35]), Err(Refusal::Buffer));
    assert_eq!(asked(setting.with_centre(3, 0), &picture, &[0; 36]), Err(Refusal::Centre));
    let spoilt = [10, 20, 30, -32_768, 50, 60];
    assert_eq!(asked(setting, &spoilt, &[0; 36]), Err(Refusal::Sample { row: 1, column: 0 }));

    let mut committed = |ticket, picture: &[i32]| commit(ticket, 3, 2, picture, &mut result, &mut work);
    assert_eq!(committed(Ticket { width: 2, ..ticket }, &picture), Err(Refusal::Ticket));
    assert_eq!(
        committed(Ticket { setting: setting.with_shears(0, 4_097), ..ticket }, &picture),
        Err(Refusal::Shear)
    );
    assert_eq!(committed(ticket, &spoilt), Err(Refusal::Sample { row: 1, column: 0 }));
    assert_eq!(committed(Ticket { count: 99, ..ticket }, &picture), Ok(told));
}

#[test]
fn every_call_tells_its_refusals() {
    let (mut result, mut work) = ([0; 4], vec![0; work_places(2, 2)]);
    let setting = Setting::new();
    let mut call = |size: (usize, usize), setting, picture: &[i32]| {
        straighten(size.0, size.1, setting, picture, &mut result, &mut work).map(|told| told.count)
    };
    assert_eq!(call((2, 2), setting, &[1, 2, 3, 4]), Ok(0));
    assert_eq!(call((0, 2), setting, &[1, 2, 3, 4]), Err(Refusal::Size));
    assert_eq!(call((2, 2), setting, &[1, 2, 3]), Err(Refusal::Buffer));
    assert_eq!(call((2, 2), setting.with_centre(2, 0), &[1, 2, 3, 4]), Err(Refusal::Centre));
    assert_eq!(call((2, 2), setting.with_shears(0, 4_097), &[1, 2, 3, 4]), Err(Refusal::Shear));
    let bright = setting.with_border(Border::Background(32_768));
    assert_eq!(call((2, 2), bright, &[1, 2, 3, 32_768]), Err(Refusal::Background));
    assert_eq!(call((2, 2), setting, &[1, 2, 3, 32_768]), Err(Refusal::Sample { row: 1, column: 1 }));
    let moved = |d: i32, border: Border, line: &[i32]| {
        let (mut result, mut work) = (vec![0; line.len()], vec![0; line_work_places(line.len())]);
        move_line(Kernel::Keys, d, border, line, &mut result, &mut work).map(|told| told.interpolated)
    };
    let bad = Err(Refusal::Sample { row: 0, column: 2 });
    assert_eq!(moved(1, Border::Wrapped, &[0, 0, 300_000]), bad);
    assert_eq!(moved(1, Border::Background(-32_768), &[0, 0, 300_000]), Err(Refusal::Background));
    assert_eq!(moved(4_194_305, Border::Background(-32_768), &[0, 0, 300_000]), Err(Refusal::Shear));
    assert_eq!(moved(1, Border::Wrapped, &[]), Err(Refusal::Size));
    assert_eq!(moved(4_096, Border::Wrapped, &[1, 2]), Ok(false));
    assert_eq!(moved(8_191, Border::Background(5), &[1, 2]), Ok(true));
    assert_eq!(moved(8_193, Border::Background(5), &[1, 2]), Ok(false));
    assert_eq!(
        (sine(1_698), level(-1, 0, 5, 0), level(5, 0, 5, 0)),
        (Err(Refusal::Shear), Err(Refusal::Point), Err(Refusal::Slope))
    );
    assert_eq!(reading(2, 1, 2, 0, &[1, 2]), Err(Refusal::Point));
    assert_eq!(summary(2, 1, &[1]), Err(Refusal::Buffer));
    assert_eq!(greys_out(1, 1, &[2_000_000], &mut [0]), Err(Refusal::Sample { row: 0, column: 0 }));
    assert_eq!(floats_out(1, 1_025, &[0], &mut [0.0]), Err(Refusal::Size));
}

#[test]
fn convenience_takes_any_size_without_allocating_it() {
    for size in [(usize::MAX, usize::MAX), (usize::MAX, 2), (0, 0), (0, usize::MAX)] {
        assert_eq!(straightened(size.0, size.1, Setting::new(), &[1, 2]), Err(Refusal::Size));
    }
    assert_eq!(straightened(1_024, 1_024, Setting::new(), &[1, 2]), Err(Refusal::Buffer));
    let (result, told) = straightened(2, 1, Setting::new(), &[1, 2, 3]).expect("a longer picture");
    assert_eq!((result, told.count), (vec![1, 2], 0));
    assert_eq!((work_places(3, 5), line_work_places(7)), (60, 42));
    assert_eq!((work_places(3, 1_025), line_work_places(usize::MAX)), (0, 0));
    let block = |sides: [usize; 3], block: &[i32]| {
        straightened_block(sides[0], sides[1], sides[2], Plane::DownAndDepth, Setting::new(), block)
    };
    for sides in [[usize::MAX; 3], [usize::MAX, 2, 1], [0, usize::MAX, 2], [2, 0, 0]] {
        assert_eq!(block(sides, &[1, 2]), Err(Refusal::Size));
    }
    assert_eq!(block([128; 3], &[1, 2]), Err(Refusal::Buffer));
    for size in [(usize::MAX, usize::MAX), (usize::MAX, 2), (0, 0), (0, usize::MAX)] {
        assert_eq!(quarter_moved(size.0, size.1, Quarter::Clockwise, &[1, 2]), Err(Refusal::Size));
    }
    assert_eq!(quarter_moved(1_024, 1_024, Quarter::Clockwise, &[1, 2]), Err(Refusal::Buffer));
    assert_eq!(quarter_moved(2, 1, Quarter::Clockwise, &[1, 2, 3]), Ok((vec![1, 2], 1, 2)));
    assert_eq!(block([2, 1, 1], &[1, 2, 3]).map(|(result, _)| result), Ok(vec![1, 2]));
}

#[test]
fn no_two_refusals_say_the_same() {
    let refusals: Vec<_> = (1..20).filter_map(|number| Refusal::from_number(number, 3, 5)).collect();
    assert!(refusals.iter().zip(1..).all(|(refusal, number)| refusal.number() == number));
    let messages: HashSet<String> = refusals.iter().map(Refusal::to_string).collect();
    assert_eq!(messages.len(), 19, "{messages:?}");
    assert!(messages.iter().all(|message| message.len() > 40 && !message.contains("  ")), "{messages:?}");
    let sample = Refusal::Sample { row: 3, column: 5 }.to_string();
    assert!(sample.contains("row 3, column 5") && sample.contains("32,767"), "{sample}");
}

#[test]
fn a_number_without_a_name_is_carried() {
    let number = u32::MAX;
    let refusal = Refusal::from_number(number, 7, 9).expect("a refusal");
    assert_eq!(refusal.number(), number);
    assert!(matches!(refusal, Refusal::Unknown { row: 7, column: 9, .. }));
    let message = refusal.to_string();
    assert!(message.contains("number 4294967295") && message.contains("row 7, column 9"), "{message}");
}

#[test]
fn the_longest_answer_fits() {
    let line = [&b"0000000040004000000000"[..], &[b'8'; 8_192]].concat();
    assert_eq!(answer_line(&line).map(|answer| answer.len()), Ok(32_783));
}

#[test]
fn the_extremes_are_those_of_the_result() {
    let (line, mut result, mut work) = ([[1_000; 3], [9_000; 3]].concat(), [0; 9], [0; 36]);
    let told = move_line(Kernel::Keys, 2_048, Border::Wrapped, &line, &mut result, &mut work);
    let told = told.expect("a line that is moved");
    assert_eq!(result, [5_000, 500, 500, 5_000, 9_500, 9_500, 0, 0, 0]);
    assert_eq!((told.smallest, told.largest, told.interpolated), (500, 9_500, true));
    let setting = Setting::new().with_border(Border::Background(-7)).with_shears(4_096, 0);
    let (result, told) = straightened(2, 2, setting, &[5, 6, 8, 9]).expect("a picture that is straightened");
    assert_eq!(result, [5, 6, -7, -7]);
    assert_eq!((told.smallest, told.largest, told.count), (-7, 6, 0));
}
