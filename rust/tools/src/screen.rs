//! A test picture: the screen of a spectrum analyser with a graticule and one carrier.

use crate::pgm::Picture;

/// Width and height of the picture, in samples.
const SIDE: usize = 64;

/// The sample about which the screen is tilted.
const CENTRE: f64 = 32.0;

/// One division of the graticule, in samples; there are 10 across and 8 down.
const DIVISION: f64 = 5.0;

/// Points per sample, each way, that are averaged.
const POINTS: usize = 8;

/// The greys of the case, the glass, the graticule and the trace.
const GREYS: [f64; 4] = [70.0, 16.0, 96.0, 240.0];

/// The row of the trace at a column, both from the middle of the screen: a Gaussian resolution
/// filter is a parabola in decibels, above a floor of noise.
fn trace(column: f64) -> f64 {
    let top = -3.0 * DIVISION;
    let noise = 3.0 * DIVISION + 0.5 * (1.9 * column).sin();
    (top + 0.22 * column * column).min(noise)
}

/// The grey of the level screen at a point, from its middle.
fn grey(x: f64, y: f64) -> f64 {
    let [case, glass, graticule, carrier] = GREYS;
    let (half_width, half_height) = (5.0 * DIVISION, 4.0 * DIVISION);
    if x.abs() > half_width + 0.5 || y.abs() > half_height + 0.5 {
        return case;
    }
    let slope = trace(x + 0.5) - trace(x - 0.5);
    if (y - trace(x)).abs() < 0.8 * slope.hypot(1.0) {
        return carrier;
    }
    let from_line = |place: f64| (place - DIVISION * (place / DIVISION).round()).abs();
    if from_line(x) < 0.4 || from_line(y) < 0.4 {
        return graticule;
    }
    glass
}

/// The screen tilted so that a step levels it.
pub fn tilted(step: i32) -> Picture {
    let (sine, cosine) = (2.0 * (f64::from(step) / 4_096.0).atan()).sin_cos();
    let sample = |place: usize| {
        let mut sum = 0.0;
        for point in 0..POINTS * POINTS {
            let within = |point: usize| (point as f64 + 0.5) / POINTS as f64 - 0.5;
            let dx = (place % SIDE) as f64 - CENTRE + within(point % POINTS);
            let dy = (place / SIDE) as f64 - CENTRE + within(point / POINTS);
            sum += grey(dx * cosine - dy * sine, dx * sine + dy * cosine);
        }
        (sum / (POINTS * POINTS) as f64).round() as u8
    };
    Picture { width: SIDE, height: SIDE, greys: (0..SIDE * SIDE).map(sample).collect() }
}

#[cfg(test)]
mod tests {
    use super::*;
    use straightener::{Border, Kernel};

    /// Places that lie inside a margin of 8 samples.
    fn inner() -> impl Iterator<Item = usize> {
        let inside = |place: usize| (8..SIDE - 8).contains(&place);
        (0..SIDE * SIDE).filter(move |place| inside(place % SIDE) && inside(place / SIDE))
    }

    /// The mean distance in greys between two pictures, inside the margin.
    fn distance(a: &Picture, b: &Picture) -> f64 {
        let distances = inner().map(|place| f64::from(a.greys[place].abs_diff(b.greys[place])));
        distances.sum::<f64>() / inner().count() as f64
    }

    #[test]
    fn straightening_levels_the_tilted_screen() {
        let (level, tilted) = (tilted(0), tilted(150));
        for border in [Border::Wrapped, Border::Background(128 * GREYS[0] as i32)] {
            let turned = crate::straighten(&tilted, Kernel::Spline, 150, border).expect("a good picture");
            let (before, after) = (distance(&tilted, &level), distance(&turned, &level));
            assert!(after < before / 2.0, "{before} greys apart before, {after} after");
        }
    }

    /// What README says of the kernels.
    #[test]
    fn kernels_on_the_example_screen() {
        let (level, tilted) = (tilted(0), tilted(150));
        assert_eq!(format!("{:.1}", distance(&tilted, &level)), "28.9");
        for (kernel, apart, lightest) in
            [(Kernel::Linear, "13.9", 236), (Kernel::Keys, "11.2", 248), (Kernel::Spline, "9.5", 250)]
        {
            let turned = crate::straighten(&tilted, kernel, 150, Border::Wrapped).expect("a good picture");
            assert_eq!(format!("{:.1}", distance(&turned, &level)), apart, "{kernel:?}");
            assert_eq!(inner().map(|place| turned.greys[place]).max(), Some(lightest), "{kernel:?}");
        }
    }
}
