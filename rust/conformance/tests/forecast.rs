//! Size and work beforehand: what a forecast tells, that every straightening keeps to it, and how near its
//! bound pictures come.

use conformance::calls::{PictureCall, BAD_BACKGROUNDS};
use conformance::files::read;
use conformance::numbers::Numbers;
use conformance::{for_both_implementations, Answer, Implementation};
use reference::second::{Border, Forecast, Setting};

for_both_implementations!(
    every_straightening_keeps_to_its_forecast,
    as_much_work_as_was_forecast_and_one_place_less,
    refused_with_the_picture_and_without_one,
    the_number_that_comes_first,
    the_largest_sample_size,
    a_background_that_is_larger,
    lines_that_become_all_background,
    the_pictures_that_come_nearest_to_the_bound,
);

/// The largest sample size that is accepted.
const LARGEST: i32 = 32_767;

/// Calls on pictures, with the size of their largest sample.
fn calls(seed: u64, hostile: bool) -> impl Iterator<Item = (PictureCall, u32)> {
    let mut numbers = Numbers::seeded(seed);
    (0..4_000).map(move |turn| {
        let call = if hostile { PictureCall::hostile(&mut numbers) } else { good(&mut numbers, turn % 3) };
        let largest = call.picture.iter().map(|sample| sample.unsigned_abs()).max().unwrap_or(0);
        (call, largest)
    })
}

/// A call in which nothing is wrong, some of them of long sides.
fn good(numbers: &mut Numbers, kernel: u32) -> PictureCall {
    let most = if numbers.once_in(50) { 120 } else { 10 };
    let (width, height) = (1 + numbers.below(most), 1 + numbers.below(most));
    let (range, setting) = (numbers.one_of(&[1, 50, LARGEST]), numbers.setting(kernel, width, height));
    PictureCall::fitting((width, height), setting, numbers.samples(width * height, range))
}

/// The figures of a forecast that is accepted.
fn figures(call: &PictureCall, largest: u32, implementation: &dyn Implementation) -> Forecast {
    let (answer, figures) = implementation.forecast(call.size, call.setting, largest);
    assert_eq!(answer, Answer::accepted(0), "{call:?}");
    figures
}

fn every_straightening_keeps_to_its_forecast(implementation: &dyn Implementation) {
    for (call, largest) in calls(91, false) {
        let (told, outcome) = (figures(&call, largest, implementation), call.run(implementation));
        assert_eq!(outcome.answer, Answer::accepted(told.count), "{call:?}");
        assert!(outcome.result.iter().all(|sample| (-told.bound..=told.bound).contains(sample)), "{call:?}");
        let committed = call.commit(call.ask(implementation).1, implementation);
        assert_eq!(committed, outcome, "{call:?}");
    }
}

fn as_much_work_as_was_forecast_and_one_place_less(implementation: &dyn Implementation) {
    for (call, largest) in calls(92, false) {
        let work_length = figures(&call, largest, implementation).work;
        let with =
            |work_length| PictureCall { work_length, ..call.clone() }.run(implementation).answer.number;
        assert_eq!([with(work_length), with(work_length - 1)], [0, 2], "{call:?}");
    }
}

/// A straightening that is accepted has a forecast; one that is refused under another number than 2 is refused
/// by its forecast alike, whose 6 names no place.
fn refused_with_the_picture_and_without_one(implementation: &dyn Implementation) {
    let mut seen = [0; 13];
    for (call, largest) in calls(93, true) {
        let (answer, told) = implementation.forecast(call.size, call.setting, largest);
        let single = call.run(implementation).answer;
        // The samples past the picture are not judged.
        let number = if single.number == 0 || single.number == 2 { answer.number } else { single.number };
        assert_eq!(answer, Answer::refused(number), "{call:?}");
        assert!(single.number != 0 || number == 0 || largest > LARGEST as u32, "{call:?}");
        assert!(number == 0 || told == Forecast::default(), "{call:?}");
        seen[number as usize] += 1;
    }
    assert!([0, 1, 3, 4, 5, 6, 12].iter().all(|&number| seen[number] > 50), "{seen:?}");
    assert_eq!(seen[2], 0, "a forecast has no buffers");
}

// The numbers in the order 1, 3, 4, 5, 12, 6, each with all that come after it.
fn the_number_that_comes_first(implementation: &dyn Implementation) {
    type Spoil = fn(&mut (usize, usize), &mut Setting, &mut u32);
    let spoils: [(u32, Spoil); 6] = [
        (6, |_, _, largest| *largest = 32_768),
        (12, |_, setting, _| setting.border = Border::Background(-32_768)),
        (5, |_, setting, _| setting.kernel = 3),
        (4, |_, setting, _| setting.b = -4_097),
        (3, |_, setting, _| setting.cy = 2),
        (1, |size, _, _| size.1 = 1_025),
    ];
    let (mut size, mut setting, mut largest) = ((3, 2), Setting::default(), 100);
    for (number, spoil) in spoils {
        spoil(&mut size, &mut setting, &mut largest);
        let told = implementation.forecast(size, setting, largest);
        assert_eq!(told, (Answer::refused(number), Forecast::default()), "{number}");
    }
}

fn the_largest_sample_size(implementation: &dyn Implementation) {
    let bounds = |largest: u32| {
        let told = |kernel| implementation.forecast((2, 2), Setting::default().with_kernel(kernel), largest);
        [0, 1, 2].map(|kernel| (told(kernel).0.number, told(kernel).1.bound))
    };
    assert_eq!(bounds(0), [(0, 0), (0, 0), (0, 0)]);
    assert_eq!(bounds(1), [(0, 1), (0, 1), (0, 27)]);
    assert_eq!(bounds(2), [(0, 2), (0, 5), (0, 54)]);
    assert_eq!(bounds(32_640), [(0, 32_640), (0, 63_750), (0, 881_280)]);
    assert_eq!(bounds(32_767), [(0, 32_767), (0, 63_999), (0, 884_709)]);
    for largest in [32_768, 65_535, 1 << 31, u32::MAX] {
        assert_eq!(bounds(largest), [(6, 0); 3], "{largest}");
    }
}

fn a_background_that_is_larger(implementation: &dyn Implementation) {
    let bound = |border, largest| {
        implementation.forecast((2, 2), Setting::default().with_border(border), largest).1.bound
    };
    assert_eq!(bound(Border::Wrapped, 100), 100);
    let backgrounds =
        [(0, 100), (100, 100), (101, 101), (-101, 101), (LARGEST, LARGEST), (-LARGEST, LARGEST)];
    for (background, expected) in backgrounds {
        assert_eq!(bound(Border::Background(background), 100), expected, "{background}");
    }
    for background in BAD_BACKGROUNDS {
        let setting = Setting::default().with_border(Border::Background(background));
        let told = implementation.forecast((2, 2), setting, 100);
        assert_eq!(told, (Answer::refused(12), Forecast::default()), "{background}");
    }
}

/// Of five rows of two samples that move by 2,049 a row, the last moves by more than two samples.
fn lines_that_become_all_background(implementation: &dyn Implementation) {
    let setting = Setting::default().with_shears(2_049, 0);
    let count = |border| implementation.forecast((2, 5), setting.with_border(border), 0).1.count;
    assert_eq!([count(Border::Wrapped), count(Border::Background(0))], [8, 6]);
}

/// The samples of a picture alone, one after the other, and on background the background alone: what each of them
/// is to every sample of the result.
fn responses(size: (usize, usize), setting: Setting, implementation: &dyn Implementation) -> Vec<Vec<i32>> {
    let places = size.0 * size.1;
    let alone = |setting: Setting, place: usize| {
        let picture = (0..places).map(|k| if k == place { LARGEST } else { 0 }).collect();
        PictureCall::fitting(size, setting, picture).run(implementation).result
    };
    let dark = match setting.border {
        Border::Wrapped => setting,
        Border::Background(_) => setting.with_border(Border::Background(0)),
    };
    (0..places).map(|place| alone(dark, place)).chain([alone(setting, places)]).collect()
}

/// The picture of samples ±32,767 whose result comes nearest to the bound, but for rounding: a straightening is
/// linear but for rounding, so each sample takes the sign of what it is to the sample of the result on which
/// all of them together weigh most.
fn worst_picture(size: (usize, usize), setting: Setting, implementation: &dyn Implementation) -> Vec<i32> {
    let responses = responses(size, setting, implementation);
    let (background, samples) = responses.split_last().expect("the background is the last");
    let weight = |place: &usize| -> i64 { responses.iter().map(|all| i64::from(all[*place].abs())).sum() };
    let heaviest = (0..samples.len()).max_by_key(weight).expect("a place");
    let side = if background[heaviest] < 0 { -1 } else { 1 };
    samples.iter().map(|all| if all[heaviest] * side < 0 { -LARGEST } else { LARGEST }).collect()
}

/// How far from 0 the farthest sample lies of the worst picture under each of some settings, which a search over
/// settings of up to 18 by 18 samples found.
const FARTHEST: [((usize, usize), Setting, i32); 5] = [
    ((1, 1), Setting { kernel: 0, cx: 0, cy: 0, a: 0, b: 0, border: Border::Wrapped }, 32_767),
    ((13, 16), Setting { kernel: 1, cx: 6, cy: 4, a: -3_406, b: 3_746, border: Border::Wrapped }, 60_236),
    (
        (17, 17),
        Setting { kernel: 1, cx: 14, cy: 9, a: 324, b: -3_934, border: Border::Background(LARGEST) },
        55_451,
    ),
    ((16, 18), Setting { kernel: 2, cx: 7, cy: 12, a: 3_539, b: -3_809, border: Border::Wrapped }, 101_544),
    (
        (18, 18),
        Setting { kernel: 2, cx: 0, cy: 12, a: -410, b: 3_905, border: Border::Background(LARGEST) },
        85_261,
    ),
];

fn the_pictures_that_come_nearest_to_the_bound(implementation: &dyn Implementation) {
    for (size, setting, farthest) in FARTHEST {
        let call = PictureCall::fitting(size, setting, worst_picture(size, setting, implementation));
        let (told, outcome) = (figures(&call, LARGEST as u32, implementation), call.run(implementation));
        let reached = outcome.extremes.largest.max(-outcome.extremes.smallest);
        assert_eq!(reached, farthest, "{size:?} {setting:?}");
        assert!(reached <= told.bound, "{size:?} {setting:?}");
    }
}

#[test]
fn readme_tells_how_near_they_come() {
    let farthest = |kernel| {
        let reached = FARTHEST.iter().filter(|(_, setting, _)| setting.kernel == kernel).map(|found| found.2);
        let reached = reached.max().expect("a picture of each kernel");
        format!("{},{:03}", reached / 1_000, reached % 1_000)
    };
    let [linear, keys, spline] = [0, 1, 2].map(farthest);
    let said = format!("reached {linear} with linear, {keys} with Keys and {spline} with the spline");
    assert!(read("README.md").contains(&said), "{said}");
}
