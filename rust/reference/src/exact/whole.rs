//! Whole numbers of any size, with the few operations that the exact picture needs.

use std::cmp::Ordering;
use std::str::FromStr;

/// A whole number as a sign and 32-bit limbs, lowest first, the highest not 0.
#[derive(Clone, Debug, PartialEq, Eq)]
pub struct Whole {
    negative: bool,
    limbs: Vec<u32>,
}

impl From<i64> for Whole {
    fn from(value: i64) -> Whole {
        let size = value.unsigned_abs();
        Whole::of(value < 0, vec![size as u32, (size >> 32) as u32])
    }
}

impl FromStr for Whole {
    type Err = &'static str;

    /// Reads decimal digits, with a minus before them where the number is negative.
    fn from_str(text: &str) -> Result<Whole, &'static str> {
        let digits = text.strip_prefix('-').unwrap_or(text);
        if digits.is_empty() || !digits.bytes().all(|byte| byte.is_ascii_digit()) {
            return Err("a whole number is decimal digits");
        }
        let digit = |byte: u8| Whole::from(i64::from(byte - b'0'));
        let size = digits.bytes().fold(Whole::zero(), |size, byte| size.times(10).plus(&digit(byte)));
        Ok(Whole::of(digits.len() < text.len(), size.limbs))
    }
}

impl Whole {
    /// The number 0.
    pub fn zero() -> Whole {
        Whole::from(0)
    }

    /// A number in its one form: no leading limb of 0, and no sign on 0.
    fn of(negative: bool, mut limbs: Vec<u32>) -> Whole {
        while limbs.last() == Some(&0) {
            limbs.pop();
        }
        Whole { negative: negative && !limbs.is_empty(), limbs }
    }

    /// The sum.
    pub fn plus(&self, other: &Whole) -> Whole {
        if self.negative == other.negative {
            return Whole::of(self.negative, sum(&self.limbs, &other.limbs));
        }
        match compare(&self.limbs, &other.limbs) {
            Ordering::Less => Whole::of(other.negative, difference(&other.limbs, &self.limbs)),
            _ => Whole::of(self.negative, difference(&self.limbs, &other.limbs)),
        }
    }

    /// The difference.
    pub fn minus(&self, other: &Whole) -> Whole {
        self.plus(&Whole::of(!other.negative, other.limbs.clone()))
    }

    /// The product with a number of 64 bits.
    pub fn times(&self, factor: i64) -> Whole {
        let size = u128::from(factor.unsigned_abs());
        let mut limbs = Vec::with_capacity(self.limbs.len() + 2);
        let mut carry = 0_u128;
        for &limb in &self.limbs {
            carry += u128::from(limb) * size;
            limbs.push(carry as u32);
            carry >>= 32;
        }
        limbs.extend([carry as u32, (carry >> 32) as u32]);
        Whole::of(self.negative != (factor < 0), limbs)
    }

    /// The product with a number of any size.
    pub fn product(&self, other: &Whole) -> Whole {
        let limbs = other.limbs.iter().rev();
        let size =
            limbs.fold(Whole::zero(), |sum, &limb| sum.times(1 << 32).plus(&self.times(i64::from(limb))));
        if other.negative {
            size.times(-1)
        } else {
            size
        }
    }

    /// The nearest 64-bit float, or one beside it.
    pub fn to_float(&self) -> f64 {
        let size = self.limbs.iter().rev().fold(0.0, |size, &limb| 4_294_967_296.0 * size + f64::from(limb));
        if self.negative {
            -size
        } else {
            size
        }
    }

    /// Whether the number lies within plus or minus `limit`, which is not negative.
    pub fn magnitude_at_most(&self, limit: &Whole) -> bool {
        compare(&self.limbs, &limit.limbs) != Ordering::Greater
    }
}

/// How two sizes compare; neither has a leading limb of 0.
fn compare(a: &[u32], b: &[u32]) -> Ordering {
    a.len().cmp(&b.len()).then_with(|| a.iter().rev().cmp(b.iter().rev()))
}

/// The sum of two sizes.
fn sum(a: &[u32], b: &[u32]) -> Vec<u32> {
    let mut carry = 0_u64;
    let mut limbs = Vec::new();
    for i in 0..=a.len().max(b.len()) {
        carry += u64::from(*a.get(i).unwrap_or(&0)) + u64::from(*b.get(i).unwrap_or(&0));
        limbs.push(carry as u32);
        carry >>= 32;
    }
    limbs
}

/// The difference of two sizes, the first not below the second.
fn difference(a: &[u32], b: &[u32]) -> Vec<u32> {
    let mut borrow = 0_i64;
    let mut limbs = Vec::new();
    for (i, &limb) in a.iter().enumerate() {
        let digit = i64::from(limb) - i64::from(*b.get(i).unwrap_or(&0)) + borrow;
        limbs.push(digit as u32);
        borrow = digit >> 32;
    }
    limbs
}

#[cfg(test)]
mod tests {
    use super::*;

    /// Numbers about the edges of limbs, of both signs.
    fn edges() -> Vec<i64> {
        let sizes = [0, 1, 2, (1 << 31) - 1, 1 << 31, (1 << 32) - 1, 1 << 32, (1 << 60) + 12_345];
        sizes.into_iter().flat_map(|size| [size, -size]).collect()
    }

    /// A number of 128 bits from two products and a sum.
    fn wide(value: i128) -> Whole {
        let (high, low) = ((value >> 62) as i64, (value & ((1 << 62) - 1)) as i64);
        Whole::from(high).times(1 << 62).plus(&Whole::from(low))
    }

    #[test]
    fn sums_and_products_are_those_of_128_bits() {
        for a in edges() {
            for b in edges() {
                let (x, y) = (Whole::from(a), Whole::from(b));
                assert_eq!(x.plus(&y), wide(i128::from(a) + i128::from(b)), "{a} + {b}");
                assert_eq!(x.minus(&y), wide(i128::from(a) - i128::from(b)), "{a} - {b}");
                assert_eq!(x.times(b), wide(i128::from(a) * i128::from(b)), "{a} * {b}");
                assert_eq!(x.product(&y), x.times(b), "{a} * {b}");
                assert_eq!(x.magnitude_at_most(&y), a.abs() <= b.abs(), "{a} within {b}");
            }
        }
    }

    #[test]
    fn products_beyond_128_bits_come_apart_again() {
        let big = Whole::from(i64::MAX).times(i64::MAX).times(i64::MIN).times(3);
        assert_eq!(big.plus(&big).plus(&big), big.times(3));
        assert_eq!(big.times(7).minus(&big.times(6)), big);
        assert_eq!(big.minus(&big), Whole::zero());
        assert!(big.magnitude_at_most(&big) && !big.times(2).magnitude_at_most(&big));
        assert_eq!(big.product(&big).minus(&big.product(&big.times(-2))), big.product(&big.times(3)));
    }

    #[test]
    fn digits_and_floats_are_read_alike() {
        for number in edges() {
            assert_eq!(number.to_string().parse(), Ok(Whole::from(number)));
            assert_eq!(Whole::from(number).to_float(), number as f64);
        }
        let digits = "-1".to_string() + &"0".repeat(40);
        let ten_to_the_20th = Whole::from(10_000_000_000).times(10_000_000_000);
        assert_eq!(digits.parse(), Ok(ten_to_the_20th.product(&ten_to_the_20th).times(-1)));
        assert!(["", "-", "+1", "1.5", "--1"].iter().all(|text| text.parse::<Whole>().is_err()));
    }
}
