//! What made one sample of a moved line.

use crate::calls::line_work_places;
use crate::raw;
use crate::refusal::{accepted, Refusal};
use crate::setting::Kernel;
use std::fmt;

/// One term of the weighted sum that makes a sample.
#[derive(Clone, Copy, Debug, PartialEq, Eq, Hash)]
#[non_exhaustive]
pub struct Term {
    /// The source place in the line, counted from 0.
    pub place: usize,
    /// Its weight; [`explain`] says what the four sum to.
    pub weight: i64,
    /// With linear and Keys the sample that stands there, in units of 1/128 grey; with the spline its
    /// coefficient, in sixteenths of such a unit.
    pub value: i32,
    /// Weight times value.
    pub product: i64,
}

/// What made one sample of a moved line, as [`explain`] tells it.
///
/// Printed, it is the sum as one writes it on a board: the four places, each with its weight, its value and their
/// product; below the products their sum, the divisor and the rounded quotient.
#[derive(Clone, Copy, Debug, PartialEq, Eq, Hash)]
#[non_exhaustive]
pub struct Explanation {
    /// The four terms, in the order of the places that [`explain`] names.
    pub terms: [Term; 4],
    /// The sum of the four products.
    pub sum: i64,
    /// What the sum is divided by.
    pub divisor: i64,
    /// The sum over the divisor, to the nearest whole number, halves upward: the sample, in units of 1/128 grey.
    pub quotient: i32,
}

/// Shows what made the sample at place `k` of a line that is moved by d/4,096 samples with wrapped edges: the sample
/// that [`move_line`](crate::move_line) writes there for the same kernel, d and line under
/// [`Border::Wrapped`](crate::Border::Wrapped).
///
/// The line has 1 to 1,024 samples within plus or minus 294,912, d lies within plus or minus 4,194,304, and k,
/// counted from 0, is below the line's length. With f for -d modulo 4,096 and q for (-d - f)/4,096 the places are k + q - 1 to k + q + 2, each
/// modulo the line's length, so that one can come up more than once. The weights are the kernel's at f; they sum to
/// 4,096³ times 1 with linear, 2 with Keys and 6 with the spline. The divisor is that sum, and with the spline sixteen
/// times it.
///
/// Refused with [`Refusal::Size`], [`Refusal::Shear`], [`Refusal::Point`] for a place beyond the line, or
/// [`Refusal::Sample`], the first of them that applies.
///
/// ```
/// # fn main() -> Result<(), straightener::Refusal> {
/// use straightener::{explain, Kernel, Refusal};
///
/// // Keys moves 0 0 16 0 by half a sample to -1 9 9 -1. Where does the last -1 come from?
/// let line = [0, 0, 16, 0];
/// let made = explain(Kernel::Keys, -2_048, 3, &line)?;
/// assert_eq!(made.quotient, -1);
/// assert_eq!(made.terms.map(|term| term.place), [2, 3, 0, 1]);
/// let board = "\
/// place          weight     value           product
///     2  -8,589,934,592        16  -137,438,953,472
///     3  77,309,411,328         0                 0
///     0  77,309,411,328         0                 0
///     1  -8,589,934,592         0                 0
///                             sum  -137,438,953,472
///                         divisor   137,438,953,472
///                        quotient                -1";
/// assert_eq!(made.to_string(), board);
///
/// assert_eq!(explain(Kernel::Keys, -2_048, 4, &line), Err(Refusal::Point));
/// # Ok(())
/// # }
/// ```
pub fn explain(kernel: Kernel, d: i32, k: usize, line: &[i32]) -> Result<Explanation, Refusal> {
    let mut work = vec![0; line_work_places(line.len())];
    let raw::ExplanationAnswer { number, row, column, terms, sum, divisor, quotient } =
        raw::explain(line.len(), kernel.number(), d, k, line, &mut work);
    accepted(number, row, column)?;
    let term = |raw::Term { place, weight, value, product }| Term { place, weight, value, product };
    Ok(Explanation { terms: terms.map(term), sum, divisor, quotient })
}

/// A number with commas between its groups of three digits.
fn with_commas(number: i64) -> String {
    let digits = number.unsigned_abs().to_string();
    let mut text = String::from(if number < 0 { "-" } else { "" });
    for (at, digit) in digits.chars().enumerate() {
        if at > 0 && (digits.len() - at) % 3 == 0 {
            text.push(',');
        }
        text.push(digit);
    }
    text
}

impl fmt::Display for Explanation {
    fn fmt(&self, f: &mut fmt::Formatter<'_>) -> fmt::Result {
        let row = |Term { place, weight, value, product }| {
            [place.to_string(), with_commas(weight), with_commas(value.into()), with_commas(product)]
        };
        let under_the_products =
            |label: &str, number| [String::new(), String::new(), label.to_string(), with_commas(number)];
        let [a, b, c, e] = self.terms.map(row);
        let heads = ["place", "weight", "value", "product"].map(str::to_string);
        let sum = under_the_products("sum", self.sum);
        let divisor = under_the_products("divisor", self.divisor);
        let quotient = under_the_products("quotient", self.quotient.into());
        let rows = [heads, a, b, c, e, sum, divisor, quotient];
        let widest = |column: usize| rows.iter().map(|row| row[column].len()).max().unwrap_or_default();
        let [p, w, v, x] = [0, 1, 2, 3].map(widest);
        let lines = rows.each_ref().map(|[place, weight, value, product]| {
            format!("{place:>p$}  {weight:>w$}  {value:>v$}  {product:>x$}")
        });
        f.write_str(&lines.join("\n"))
    }
}
