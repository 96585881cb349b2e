//! Both implementations held to the vectors of an independent model.

use conformance::blocks::BlockCall;
use conformance::calls::{untouched_from, ExplainCall, LineCall, Outcome, PictureCall};
use conformance::files::{
    border, cases, few, float_bits, fnv, list, number, numbers, rows_and_vectors, value, vectors,
};
use conformance::quarters::{QuarterCall, MOVES};
use conformance::{for_both_implementations, Answer, Extremes, Implementation};
use reference::exact::{self, Whole};
use reference::second::{self, Forecast, Parts, Setting, Ticket};

for_both_implementations!(
    lines,
    lines_on_background,
    line_refusals,
    lines_in_both_borders,
    explanations,
    parts_of_samples,
    pictures,
    pictures_on_background,
    picture_refusals,
    pictures_in_both_borders,
    blocks,
    waterfalls,
    eight_moves,
    quarter_moves,
    tickets,
    asked_and_committed,
    forecasts,
    figures_beforehand,
    extremes,
    numbers_added,
    exact_pictures_in_both_borders,
    steps,
    settings,
    levels,
    levels_with_a_picture,
    lines_under_two_points,
    readings,
    reading_calls,
    video_readings,
    greys_and_floats,
    line_program,
    words,
);

/// The setting of five words: kernel, cx, cy, A, B.
fn setting(words: &[String]) -> Setting {
    Setting {
        kernel: number(&words[0]),
        cx: number(&words[1]),
        cy: number(&words[2]),
        a: number(&words[3]),
        b: number(&words[4]),
        ..Setting::default()
    }
}

/// The setting of `key=value` words: kernel, cx, cy, A, B, border.
fn named_setting(words: &[String]) -> Setting {
    Setting {
        kernel: number(value(words, "kernel")),
        cx: number(value(words, "cx")),
        cy: number(value(words, "cy")),
        a: number(value(words, "A")),
        b: number(value(words, "B")),
        border: border(value(words, "border")),
    }
}

/// The size of `key=value` words: W, H.
fn named_size(words: &[String]) -> (usize, usize) {
    (number(value(words, "W")), number(value(words, "H")))
}

/// Samples that are all 0 but for the entries `place:value;..`.
fn spoilt(length: usize, bad: &str) -> Vec<i32> {
    let mut samples = vec![0; length];
    for (place, sample) in bad.split(';').filter_map(|entry| entry.split_once(':')) {
        if let Some(place) = samples.get_mut(number::<usize>(place)) {
            *place = number(sample);
        }
    }
    samples
}

fn lines(implementation: &dyn Implementation) {
    for (input, moved) in [vectors("lines.txt", 1_423), vectors("lines_runin.txt", 16)].concat() {
        let (kernel, d) = (number(&input[0]), number::<i32>(&input[1]));
        let line: Vec<i32> = numbers(&input[3..]);
        assert_eq!(line.len(), number::<usize>(&input[2]));
        let outcome = LineCall::fitting(kernel, d, line.clone()).run(implementation);
        assert_eq!(outcome.answer, Answer::accepted(u32::from(d % 4_096 != 0)));
        assert_eq!(outcome.result, numbers::<i32>(&moved), "kernel {kernel}, d = {d}, line {line:?}");
    }
}

fn lines_on_background(implementation: &dyn Implementation) {
    for (input, moved) in vectors("lines_background.txt", 500) {
        let (kernel, d) = (number(&input[0]), number::<i32>(&input[1]));
        let line: Vec<i32> = numbers(&input[4..]);
        assert_eq!(line.len(), number::<usize>(&input[3]));
        let is_near = d.unsigned_abs() < 4_096 * line.len() as u32;
        let outcome = LineCall::fitting(kernel, d, line).with_border(border(&input[2])).run(implementation);
        assert_eq!(outcome.answer, Answer::accepted(u32::from(d % 4_096 != 0 && is_near)), "{input:?}");
        assert_eq!(outcome.result, numbers::<i32>(&moved), "{input:?}");
    }
}

#[test]
fn coefficients_of_the_second_implementation() {
    for (input, coefficients) in vectors("coefficients.txt", 250) {
        let line: Vec<i32> = numbers(&input[1..]);
        assert_eq!(second::coefficients(&line), numbers::<i64>(&coefficients), "line {line:?}");
    }
}

fn line_refusals(implementation: &dyn Implementation) {
    for (input, answer) in vectors("line_refusals.txt", 207) {
        let call = LineCall {
            n: number(value(&input, "N")),
            kernel: number(value(&input, "kernel")),
            d: number(value(&input, "d")),
            border: border(value(&input, "border")),
            line: spoilt(number(value(&input, "line")), value(&input, "bad")),
            result_length: number(value(&input, "result")),
            work_length: number(value(&input, "work")),
        };
        let answered = call.run(implementation).answer;
        let counted =
            u32::from(answered.number == 0 && second::interpolated(call.border, call.n, call.d.into()));
        let expected = Answer::of(number(&answer[0]), number(&answer[1]), number(&answer[2]), counted);
        assert_eq!(answered, expected, "{input:?}");
    }
}

/// Holds an outcome to `number= row= column= count= smallest= largest= result= work_zero=`, where -7 is a place
/// left untouched and a long result stands as its hash; an accepted call writes so many places of the result.
fn assert_recorded(outcome: &Outcome, places: usize, words: &[String]) {
    let figure = |key: &str| number::<usize>(value(words, key));
    let answer = (figure("number") as u32, figure("row"), figure("column"), figure("count") as u32);
    assert_eq!(outcome.answer, Answer::of(answer.0, answer.1, answer.2, answer.3));
    let extreme = |key: &str| number(value(words, key));
    assert_eq!(outcome.extremes, Extremes { smallest: extreme("smallest"), largest: extreme("largest") });
    assert_recorded_buffers(outcome, places, words);
}

/// Holds a result, of which an accepted call writes so many places, to `result=`, as [`assert_recorded`] does.
fn assert_recorded_result(answer: Answer, places: usize, result: &[i32], words: &[String]) {
    let written = if answer.number == 0 { places } else { 0 };
    assert!(untouched_from(written, result));
    let mut result = result.to_vec();
    result[written..].fill(-7);
    match value(words, "result").strip_prefix("fnv:") {
        Some(hash) => assert_eq!(format!("{:016X}", fnv(&result)), hash),
        None => assert_eq!(result, list(value(words, "result"))),
    }
}

/// Holds the buffers of an outcome to `result= work_zero=`, as [`assert_recorded`] does.
fn assert_recorded_buffers(outcome: &Outcome, places: usize, words: &[String]) {
    assert_recorded_result(outcome.answer, places, &outcome.result, words);
    let zeros = outcome.work.iter().take_while(|&&place| place == 0).count();
    assert_eq!(zeros, number::<usize>(value(words, "work_zero")));
}

/// The line call of `key=value` words.
fn named_line(words: &[String]) -> LineCall {
    LineCall {
        n: number(value(words, "N")),
        kernel: number(value(words, "kernel")),
        d: number(value(words, "d")),
        border: border(value(words, "border")),
        line: list(value(words, "line")),
        result_length: number(value(words, "result_len")),
        work_length: number(value(words, "work_len")),
    }
}

/// The picture call of `key=value` words.
fn named_picture(words: &[String]) -> PictureCall {
    PictureCall {
        size: named_size(words),
        setting: named_setting(words),
        picture: list(value(words, "picture")),
        result_length: number(value(words, "result_len")),
        work_length: number(value(words, "work_len")),
    }
}

fn lines_in_both_borders(implementation: &dyn Implementation) {
    for (input, answer) in vectors("border_lines.txt", 259) {
        let call = named_line(&input);
        assert_recorded(&call.run(implementation), call.n, &answer);
    }
}

/// Four numbers.
fn four<T: std::str::FromStr + std::fmt::Debug>(numbers: Vec<T>) -> [T; 4] {
    numbers.try_into().expect("four numbers")
}

fn explanations(implementation: &dyn Implementation) {
    for (input, answer) in vectors("explain.txt", 250) {
        let line: Vec<i32> = numbers(&input[4..]);
        assert_eq!(line.len(), number::<usize>(&input[3]));
        let call = ExplainCall::fitting(number(&input[0]), number(&input[1]), number(&input[2]), line);
        assert_eq!(
            [3, 8, 13, 18, 20].map(|at| &answer[at][..]),
            ["places", "weights", "values", "divisor", "quotient"]
        );
        let parts = Parts {
            places: four(numbers(&answer[4..8])),
            weights: four(numbers(&answer[9..13])),
            values: four(numbers(&answer[14..18])),
            divisor: number(&answer[19]),
            quotient: number(&answer[21]),
        };
        let expected = Answer::of(number(&answer[0]), number(&answer[1]), number(&answer[2]), 0);
        assert_eq!(call.run(implementation), (expected, parts), "{input:?}");
    }
}

fn parts_of_samples(implementation: &dyn Implementation) {
    for (input, answer) in vectors("sample_parts.txt", 222) {
        let call = ExplainCall {
            n: number(value(&input, "N")),
            kernel: number(value(&input, "kernel")),
            d: number(value(&input, "d")),
            k: number(value(&input, "k")),
            line: list(value(&input, "line")),
            work_length: number(value(&input, "work_len")),
        };
        let figure = |key: &str| number::<usize>(value(&answer, key));
        let parts = Parts {
            places: four(few(value(&answer, "places"))),
            weights: four(few(value(&answer, "weights"))),
            values: four(few(value(&answer, "values"))),
            divisor: number(value(&answer, "divisor")),
            quotient: number(value(&answer, "quotient")),
        };
        let expected = Answer::of(figure("number") as u32, figure("row"), figure("column"), 0);
        assert_eq!(call.run(implementation), (expected, parts), "{input:?}");
        assert_eq!(figure("work_zero"), if expected.number == 0 { 6 * call.n } else { 0 }, "{input:?}");
    }
}

fn extremes(implementation: &dyn Implementation) {
    for (input, answer) in vectors("extremes.txt", 133) {
        let (outcome, places) = if input[0] == "move_line" {
            let call = named_line(&input);
            (call.run(implementation), call.n)
        } else {
            let call = named_picture(&input);
            (call.run(implementation), call.size.0.wrapping_mul(call.size.1))
        };
        assert_recorded(&outcome, places, &answer);
    }
}

/// Holds an accepted call to its count, its smallest and its largest sample, and all its samples.
fn assert_straightened(call: &PictureCall, implementation: &dyn Implementation, words: &[String]) {
    let outcome = call.run(implementation);
    assert_eq!(outcome.answer, Answer::accepted(number(&words[0])), "{call:?}");
    let extremes = Extremes { smallest: number(&words[1]), largest: number(&words[2]) };
    assert_eq!(outcome.extremes, extremes, "{call:?}");
    assert_eq!(outcome.result, numbers::<i32>(&words[3..]), "{call:?}");
}

fn pictures(implementation: &dyn Implementation) {
    for (input, answer) in vectors("pictures.txt", 210) {
        let size = (number(&input[5]), number(&input[6]));
        let call = PictureCall::fitting(size, setting(&input), numbers(&input[7..]));
        assert_straightened(&call, implementation, &answer);
    }
}

fn pictures_on_background(implementation: &dyn Implementation) {
    for (input, answer) in vectors("pictures_background.txt", 210) {
        let size = (number(&input[6]), number(&input[7]));
        let setting = setting(&input).with_border(border(&input[5]));
        let call = PictureCall::fitting(size, setting, numbers(&input[8..]));
        assert_straightened(&call, implementation, &answer);
    }
}

fn picture_refusals(implementation: &dyn Implementation) {
    for (input, answer) in vectors("picture_refusals.txt", 300) {
        let call = PictureCall {
            size: named_size(&input),
            setting: named_setting(&input),
            picture: spoilt(number(value(&input, "pic")), value(&input, "bad")),
            result_length: number(value(&input, "result")),
            work_length: number(value(&input, "work")),
        };
        let [number_, row, column, count]: [usize; 4] = numbers(&answer).try_into().expect("four figures");
        let expected = Answer::of(number_ as u32, row, column, count as u32);
        assert_eq!(call.run(implementation).answer, expected, "{input:?}");
    }
}

fn pictures_in_both_borders(implementation: &dyn Implementation) {
    for (input, answer) in vectors("border_pictures.txt", 262) {
        let call = named_picture(&input);
        assert_recorded(&call.run(implementation), call.size.0.wrapping_mul(call.size.1), &answer);
    }
}

fn blocks(implementation: &dyn Implementation) {
    for (input, answer) in vectors("block.txt", 90) {
        let sides = [0, 1, 2].map(|k| number(&input[k]));
        let setting = setting(&input[4..9]).with_border(border(&input[9]));
        let call = BlockCall::fitting(sides, number(&input[3]), setting, numbers(&input[10..]));
        let outcome = call.run(implementation);
        let [code, depth, row, column, count] = [0, 1, 2, 3, 4].map(|k| number::<usize>(&answer[k]));
        let expected = Answer { depth, ..Answer::of(code as u32, row, column, count as u32) };
        assert_eq!(outcome.answer, expected, "{input:?}");
        if code == 0 {
            assert_eq!(outcome.result, numbers::<i32>(&answer[5..]), "{input:?}");
        }
    }
}

fn waterfalls(implementation: &dyn Implementation) {
    for (input, answer) in vectors("waterfall.txt", 235) {
        let call = BlockCall {
            sides: ["W", "H", "depth"].map(|key| number(value(&input, key))),
            plane: number(value(&input, "plane")),
            setting: named_setting(&input),
            block: list(value(&input, "block")),
            result_length: number(value(&input, "result_len")),
            work_length: number(value(&input, "work_len")),
        };
        let outcome = call.run(implementation);
        let figure = |key: &str| number::<usize>(value(&answer, key));
        let place =
            Answer::of(figure("number") as u32, figure("row"), figure("column"), figure("count") as u32);
        assert_eq!(outcome.answer, Answer { depth: figure("depth"), ..place }, "{input:?}");
        assert_recorded_buffers(&outcome, call.takes().0, &answer);
    }
}

/// Holds a row of the table of moves, that of the first one, and its inverse to what an implementation answers.
fn assert_joined(implementation: &dyn Implementation, first: u32, row: &[u32], inverse: u32) {
    let joined = MOVES.map(|second| implementation.joined_moves(first, second));
    assert_eq!(joined.to_vec(), row.iter().map(|&quarter| (0, quarter)).collect::<Vec<_>>(), "row {first}");
    assert_eq!(implementation.inverse_move(first), (0, inverse), "inverse of {first}");
}

fn eight_moves(implementation: &dyn Implementation) {
    let (rows, vectors) = rows_and_vectors("moves8.txt", (9, 80));
    let (table, inverses) = rows.split_at(8);
    let inverses: Vec<u32> = numbers(&inverses[0][1..]);
    assert_eq!((rows[8][0].as_str(), inverses.len()), ("inverse", 8));
    for ((first, row), inverse) in MOVES.into_iter().zip(table).zip(inverses) {
        assert_eq!(row[0], "table");
        assert_joined(implementation, first, &numbers(&row[1..]), inverse);
    }
    for (input, answer) in vectors {
        let size = (number(&input[1]), number(&input[2]));
        let outcome = QuarterCall::fitting(size, number(&input[0]), numbers(&input[3..])).run(implementation);
        let [code, row, column, width, height] = [0, 1, 2, 3, 4].map(|k| number::<usize>(&answer[k]));
        assert_eq!(outcome.answer, Answer::of(code as u32, row, column, 0), "{input:?}");
        assert_eq!(outcome.size, (width, height), "{input:?}");
        if code == 0 {
            assert_eq!(outcome.result, numbers::<i32>(&answer[5..]), "{input:?}");
        } else {
            assert_eq!(answer[5..], ["-"], "{input:?}");
        }
    }
}

fn quarter_moves(implementation: &dyn Implementation) {
    let (mut tables, mut calls) = (0, 0);
    for (input, answer) in vectors("quarters.txt", 172) {
        if input[0] == "table" {
            let (first, row) = (number(value(&input, "first")), few(value(&answer, "then")));
            assert_joined(implementation, first, &row, number(value(&answer, "inverse")));
            tables += 1;
            continue;
        }
        let call = QuarterCall {
            size: named_size(&input),
            quarter: number(value(&input, "move")),
            picture: list(value(&input, "picture")),
            result_length: number(value(&input, "result_len")),
        };
        let outcome = call.run(implementation);
        let figure = |key: &str| number::<usize>(value(&answer, key));
        let expected = Answer::of(figure("number") as u32, figure("row"), figure("column"), 0);
        assert_eq!((outcome.answer, outcome.size), (expected, named_size(&answer)), "{input:?}");
        let places = call.size.0.wrapping_mul(call.size.1);
        assert_recorded_result(outcome.answer, places, &outcome.result, &answer);
        calls += 1;
    }
    assert_eq!((tables, calls), (8, 164));
}

fn tickets(implementation: &dyn Implementation) {
    for (input, answer) in vectors("tickets.txt", 250) {
        let size = |at: usize| (number(&input[at]), number(&input[at + 1]));
        let ((width, height), setting) = (size(0), setting(&input[2..7]).with_border(border(&input[7])));
        let ticket = Ticket { width, height, setting, count: number(&input[8]) };
        let call = PictureCall {
            size: size(10),
            setting: Setting::default(),
            picture: numbers(&input[14..]),
            result_length: number(value(&input, "result")),
            work_length: number(value(&input, "work")),
        };
        let outcome = call.commit(ticket, implementation);
        let expected =
            Answer::of(number(&answer[0]), number(&answer[1]), number(&answer[2]), number(&answer[3]));
        assert_eq!(outcome.answer, expected, "{input:?}");
        let extremes = Extremes { smallest: number(&answer[4]), largest: number(&answer[5]) };
        assert_eq!(outcome.extremes, extremes, "{input:?}");
        if expected.number == 0 {
            let places = call.size.0 * call.size.1;
            assert_eq!(outcome.result[..places], numbers::<i32>(&answer[6..]), "{input:?}");
        }
    }
}

fn asked_and_committed(implementation: &dyn Implementation) {
    for (input, answer) in vectors("asked.txt", 307) {
        let call = named_picture(&input);
        let ticket = |words: &[String]| Ticket {
            width: number(value(words, "ticket_W")),
            height: number(value(words, "ticket_H")),
            setting: call.setting,
            count: number(value(words, "ticket_count")),
        };
        if input[0] == "commit" {
            let places = call.size.0.wrapping_mul(call.size.1);
            assert_recorded(&call.commit(ticket(&input), implementation), places, &answer);
            continue;
        }
        let figure = |key: &str| number::<usize>(value(&answer, key));
        let expected = Answer::of(figure("number") as u32, figure("row"), figure("column"), 0);
        assert_eq!(call.ask(implementation), (expected, ticket(&answer)), "{input:?}");
    }
}

fn forecasts(implementation: &dyn Implementation) {
    for (input, answer) in vectors("forecast.txt", 300) {
        let size = (number(&input[0]), number(&input[1]));
        let setting = setting(&input[2..7]).with_border(border(&input[7]));
        let told = implementation.forecast(size, setting, number(&input[8]));
        let figures =
            Forecast { work: number(&answer[1]), count: number(&answer[2]), bound: number(&answer[3]) };
        assert_eq!(told, (Answer::refused(number(&answer[0])), figures), "{input:?}");
    }
}

fn figures_beforehand(implementation: &dyn Implementation) {
    for (input, answer) in vectors("beforehand.txt", 190) {
        let told =
            implementation.forecast(named_size(&input), named_setting(&input), number(value(&input, "M")));
        let figure = |key: &str| number::<usize>(value(&answer, key));
        let expected = Answer::of(figure("number") as u32, figure("row"), figure("column"), 0);
        let (work, count, bound) = (figure("work"), figure("count") as u32, figure("bound") as i32);
        assert_eq!(told, (expected, Forecast { work, count, bound }), "{input:?}");
    }
}

fn numbers_added(implementation: &dyn Implementation) {
    for (input, answer) in vectors("added.txt", 60) {
        let picture = list(value(&input, "picture"));
        let call = PictureCall::fitting(named_size(&input), named_setting(&input), picture);
        let raised = call.raised(number(value(&input, "K")));
        for (call, samples) in [(call, "result"), (raised, "lifted")] {
            let outcome = call.run(implementation);
            assert_eq!(outcome.answer.number, 0, "{input:?}");
            assert_eq!(outcome.result, list(value(&answer, samples)), "{samples} of {input:?}");
        }
    }
}

fn exact_pictures_in_both_borders(implementation: &dyn Implementation) {
    for (input, answer) in vectors("border_exact.txt", 24) {
        let (size, setting) = (named_size(&input), named_setting(&input));
        let call = PictureCall::fitting(size, setting, list(value(&input, "picture")));
        assert_eq!(call.run(implementation).result, list(value(&answer, "result")), "{input:?}");
        let exact = exact::picture(size.0, size.1, setting, &call.picture);
        let recorded: Vec<&str> = value(&answer, "exact").split(',').collect();
        assert_eq!(recorded.len(), exact.numbers.len());
        for (fraction, ours) in recorded.into_iter().zip(&exact.numbers) {
            let (p, q) = fraction.split_once('/').unwrap_or((fraction, "1"));
            let (p, q): (Whole, Whole) = (number(p), number(q));
            assert_eq!(ours.product(&q), exact.over.product(&p), "{fraction} of {input:?}");
        }
    }
}

fn steps(implementation: &dyn Implementation) {
    let mut tried = 0;
    for (input, answer) in vectors("steps.txt", 46) {
        let first: i32 = number(&input[0]);
        if answer[0] == "refused" {
            assert_eq!(implementation.sine(first), (number(&answer[1]), number(&answer[2])), "S({first})");
            continue;
        }
        for (t, value) in (first..).zip(numbers(&answer)) {
            assert_eq!(implementation.sine(t), (0, value), "S({t})");
            tried += 1;
        }
    }
    assert_eq!(tried, 3_395);
}

fn settings(implementation: &dyn Implementation) {
    for (input, answer) in vectors("settings.txt", 200) {
        let changed = implementation.with_step(setting(&input), number(&input[5]));
        assert_eq!(changed, (number(&answer[0]), setting(&answer[1..])), "{input:?}");
    }
}

fn levels(implementation: &dyn Implementation) {
    for (input, answer) in vectors("level.txt", 500) {
        let [x1, y1, x2, y2]: [i32; 4] = numbers(&input).try_into().expect("four coordinates");
        let levelled = implementation.level(x1, y1, x2, y2);
        assert_eq!(levelled, (number(&answer[0]), number(&answer[1])), "({x1}, {y1}) to ({x2}, {y2})");
    }
}

fn levels_with_a_picture(implementation: &dyn Implementation) {
    for (input, answer) in vectors("level_checked.txt", 250) {
        let [x1, y1, x2, y2, threshold]: [i32; 5] = numbers(&input[2..7]).try_into().expect("five numbers");
        let size = (number(&input[0]), number(&input[1]));
        let told = implementation.level_checked((size, [x1, y1, x2, y2], threshold), &numbers(&input[7..]));
        let [code, row, column] = [0, 1, 2].map(|k| number::<usize>(&answer[k]));
        assert_eq!(told, (Answer::of(code as u32, row, column, 0), number(&answer[3])), "{input:?}");
    }
}

fn lines_under_two_points(implementation: &dyn Implementation) {
    for (input, answer) in vectors("under_points.txt", 298) {
        let points = ["x1", "y1", "x2", "y2"].map(|key| number(value(&input, key)));
        let (threshold, picture) = (number(value(&input, "threshold")), list(value(&input, "picture")));
        let told = implementation.level_checked((named_size(&input), points, threshold), &picture);
        let figure = |key: &str| number::<usize>(value(&answer, key));
        let expected = Answer::of(figure("number") as u32, figure("row"), figure("column"), 0);
        assert_eq!(told, (expected, number(value(&answer, "step"))), "{input:?}");
    }
}

fn readings(implementation: &dyn Implementation) {
    for (input, answer) in vectors("readings.txt", 635) {
        let picture = [number(&input[0])];
        let (mut grey, mut float) = ([0], [0.0]);
        assert_eq!(implementation.greys_out((1, 1), &picture, &mut grey), Answer::accepted(0));
        assert_eq!(implementation.floats_out((1, 1), &picture, &mut float), Answer::accepted(0));
        assert_eq!(grey, [number(&answer[0])], "grey of {picture:?}");
        assert_eq!(float[0].to_bits(), float_bits(&answer[1]), "float of {picture:?}");
        let expected = (Answer::accepted(0), number(&answer[2]), float_bits(&answer[3]));
        assert_eq!(implementation.reading((1, 1), 0, 0, &picture), expected, "reading of {picture:?}");
    }
}

fn reading_calls(implementation: &dyn Implementation) {
    for (input, answer) in vectors("reading_calls.txt", 300) {
        let size = (number(&input[0]), number(&input[1]));
        let picture: Vec<i32> = numbers(&input[5..]);
        assert_eq!((picture.len(), answer[5].as_str()), (number(&input[4]), "summary"));
        let place = |words: &[String]| Answer::of(number(&words[0]), number(&words[1]), number(&words[2]), 0);
        let read = implementation.reading(size, number(&input[2]), number(&input[3]), &picture);
        assert_eq!(read, (place(&answer), number(&answer[3]), float_bits(&answer[4])), "{input:?}");
        let summary = implementation.summary(size, &picture);
        let expected = (place(&answer[6..]), float_bits(&answer[9]), float_bits(&answer[10]));
        assert_eq!(summary, expected, "summary of {input:?}");
    }
}

fn video_readings(implementation: &dyn Implementation) {
    for (input, answer) in vectors("video_readings.txt", 199) {
        let greys = float_bits(value(&answer, "greys"));
        let expected = |place: Answer| (place, number(value(&answer, "case")), greys);
        if input[0] == "value" {
            let read = implementation.reading((1, 1), 0, 0, &[number(value(&input, "v"))]);
            assert_eq!(read, expected(Answer::accepted(0)), "{input:?}");
            continue;
        }
        let picture = list(value(&input, "picture"));
        let (column, row) = (number(value(&input, "column")), number(value(&input, "row")));
        let figure = |name| number(value(&answer, name));
        let place = Answer::of(figure("number") as u32, figure("row"), figure("column"), 0);
        assert_eq!(
            implementation.reading(named_size(&input), column, row, &picture),
            expected(place),
            "{input:?}"
        );
    }
}

fn greys_and_floats(implementation: &dyn Implementation) {
    // What the vectors write as -7: a place left untouched.
    const UNTOUCHED: (u8, f32) = (77, -7.0);
    for (input, answer) in vectors("greys_floats.txt", 150) {
        let size = (number(&input[0]), number(&input[1]));
        let picture: Vec<i32> = numbers(&input[4..]);
        let (mut greys, mut floats) =
            (vec![UNTOUCHED.0; number(&input[3])], vec![UNTOUCHED.1; number(&input[3])]);
        let expected = Answer::of(number(&answer[0]), number(&answer[1]), number(&answer[2]), 0);
        assert_eq!(implementation.greys_out(size, &picture, &mut greys), expected, "{input:?}");
        assert_eq!(implementation.floats_out(size, &picture, &mut floats), expected, "{input:?}");
        if answer[4] == "-" {
            assert!(
                greys.iter().all(|&grey| grey == UNTOUCHED.0)
                    && floats.iter().all(|&float| float == UNTOUCHED.1)
            );
            continue;
        }
        let middle = 4 + greys.len();
        let grey = |word: &String| if word == "-7" { UNTOUCHED.0 } else { number(word) };
        let float = |word: &String| {
            if word == "-7" {
                UNTOUCHED.1.to_bits()
            } else {
                float_bits(word)
            }
        };
        assert_eq!((answer[3].as_str(), answer[middle].as_str()), ("greys", "floats"));
        assert_eq!(greys, answer[4..middle].iter().map(grey).collect::<Vec<_>>(), "{input:?}");
        let bits: Vec<u32> = floats.iter().map(|float| float.to_bits()).collect();
        assert_eq!(bits, answer[middle + 1..].iter().map(float).collect::<Vec<_>>(), "{input:?}");
    }
}

fn line_program(implementation: &dyn Implementation) {
    for case in cases() {
        let lines = case.input.split_inclusive(|&byte| byte == b'\n');
        let line = |line: &[u8]| line.strip_suffix(b"\n").unwrap_or(line).to_vec();
        let output: Vec<u8> = lines.flat_map(|text| implementation.answer_line(&line(text))).collect();
        assert!(output == case.output, "the answers to {} differ", case.name);
    }
}

#[test]
fn line_program_of_the_second_implementation() {
    for case in cases() {
        assert!(second::answer_input(&case.input) == case.output, "the output of {} differs", case.name);
    }
}

/// A line whose greys hold the word is refused with 9 exactly where the word does not pass, at whichever of
/// eight places in a row it begins.
fn words(implementation: &dyn Implementation) {
    for (input, answer) in vectors("words.txt", 2_548) {
        let word = u64::from_str_radix(&input[0], 16).expect("16 hexadecimal digits").to_be_bytes();
        let number: &[u8] = if answer[0] == "1" { b"00" } else { b"09" };
        for before in 2..10 {
            let after = before % 2;
            let head = format!("000000{:04X}000100000000", (before + 8 + after) / 2);
            let line = [head.as_bytes(), &vec![b'7'; before], &word, &vec![b'7'; after]].concat();
            assert_eq!(&implementation.answer_line(&line)[..2], number, "{} at {}", input[0], 22 + before);
        }
    }
}
