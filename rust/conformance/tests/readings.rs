//! Readings in the video range: black is grey 16 and white grey 235. Greys out and the line format keep 0 to 255.

use conformance::{for_both_implementations, Answer, Implementation};

for_both_implementations!(
    samples_by_hand,
    every_sample_in_range,
    a_refused_reading_is_level_0,
    greys_out_keep_0_to_255,
    the_line_format_keeps_0_to_255,
);

const LEVEL: u32 = 0;
const UNDER: u32 = 1;
const OVER: u32 = 2;

/// Samples with the case and the greys of their readings, worked out by hand.
const SAMPLES: [(i32, u32, f32); 10] = [
    (-1_048_576, UNDER, 8_208.0),
    (-128, UNDER, 17.0),
    (0, UNDER, 16.0),
    (2_047, UNDER, 0.0078125),
    (2_048, LEVEL, 16.0),
    (12_864, LEVEL, 100.5),
    (30_080, LEVEL, 235.0),
    (30_081, OVER, 0.0078125),
    (32_000, OVER, 15.0),
    (1_048_576, OVER, 7_957.0),
];

fn samples_by_hand(implementation: &dyn Implementation) {
    let picture = SAMPLES.map(|(sample, _, _)| sample);
    for (column, (sample, case, greys)) in SAMPLES.into_iter().enumerate() {
        let read = implementation.reading((10, 1), column, 0, &picture);
        assert_eq!(read, (Answer::accepted(0), case, greys.to_bits()), "sample {sample}");
    }
}

/// The case of a sample's reading and its greys in units: document 02's sentences.
fn in_the_video_range(v: i32) -> (u32, i32) {
    match v {
        i32::MIN..=2_047 => (UNDER, 2_048 - v),
        2_048..=30_080 => (LEVEL, v),
        30_081.. => (OVER, v - 30_080),
    }
}

fn every_sample_in_range(implementation: &dyn Implementation) {
    for v in -1_048_576..=1_048_576 {
        let (answer, case, bits) = implementation.reading((1, 1), 0, 0, &[v]);
        let (expected_case, units) = in_the_video_range(v);
        assert_eq!((answer, case), (Answer::accepted(0), expected_case), "sample {v}");
        // 64 bits hold both sides exactly, and neither is 0, which has two signs.
        assert_eq!(128.0 * f64::from(f32::from_bits(bits)), f64::from(units), "greys of sample {v}");
    }
}

fn a_refused_reading_is_level_0(implementation: &dyn Implementation) {
    let refused = |number| (Answer::refused(number), LEVEL, 0.0_f32.to_bits());
    assert_eq!(implementation.reading((0, 1), 0, 0, &[0]), refused(1));
    assert_eq!(implementation.reading((2, 1), 0, 0, &[0]), refused(2));
    assert_eq!(implementation.reading((1, 1), 0, 0, &[1_048_577]), refused(6));
    assert_eq!(implementation.reading((1, 1), 1, 0, &[0]), refused(7));
    assert_eq!(implementation.reading((1, 1), 0, 0, &[0]), (Answer::accepted(0), UNDER, 16.0_f32.to_bits()));
}

fn greys_out_keep_0_to_255(implementation: &dyn Implementation) {
    let all_greys: Vec<u8> = (0..=255).collect();
    let picture: Vec<i32> = all_greys.iter().map(|&grey| 128 * i32::from(grey)).collect();
    let mut greys = vec![7; 256];
    assert_eq!(implementation.greys_out((16, 16), &picture, &mut greys), Answer::accepted(0));
    assert_eq!(greys, all_greys);
}

fn the_line_format_keeps_0_to_255(implementation: &dyn Implementation) {
    // Linear, step 0, 4 by 1, centre 0, 0: the greys 0, 15, 236 and 255 come back as samples.
    let answer = implementation.answer_line(b"0000000004000100000000000FECFF");
    assert_eq!(answer, b"0000000004000100000000000007800000760000007F80\n");
}
