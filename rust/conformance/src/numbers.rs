//! Numbers, lines, pictures and settings from a fixed seed.

use reference::second::{Border, Setting};

/// Marsaglia's xorshift generator of 64 bits.
pub struct Numbers(u64);

impl Numbers {
    /// A generator that always makes the same numbers of one seed.
    pub fn seeded(seed: u64) -> Numbers {
        Numbers(seed.wrapping_mul(0x9E37_79B9_7F4A_7C15) | 1)
    }

    /// The next 32 bits.
    pub fn bits(&mut self) -> u32 {
        self.0 ^= self.0 << 13;
        self.0 ^= self.0 >> 7;
        self.0 ^= self.0 << 17;
        (self.0.wrapping_mul(0x2545_F491_4F6C_DD1D) >> 32) as u32
    }

    /// A number from 0 to `n` - 1.
    pub fn below(&mut self, n: usize) -> usize {
        ((u64::from(self.bits()) * n as u64) >> 32) as usize
    }

    /// A number from -`range` to `range`.
    pub fn within(&mut self, range: i32) -> i32 {
        (self.below(2 * range as usize + 1) as i64 - i64::from(range)) as i32
    }

    /// One of a list.
    pub fn one_of<T: Copy>(&mut self, list: &[T]) -> T {
        list[self.below(list.len())]
    }

    /// True once in `n` times.
    pub fn once_in(&mut self, n: usize) -> bool {
        self.below(n) == 0
    }

    /// A number within `range`, often at its edges and near 0.
    pub fn edgy(&mut self, range: i32) -> i32 {
        let edges = [0, 1, -1, range, -range, range - 1, 1 - range, range / 2, -range / 2];
        if self.once_in(3) {
            self.one_of(&edges)
        } else {
            self.within(range)
        }
    }

    /// Samples within `range`, in one of eight manners.
    pub fn samples(&mut self, length: usize, range: i32) -> Vec<i32> {
        let manner = self.below(8);
        let (grey, place) = (self.edgy(range), self.below(length.max(1)));
        let mut samples: Vec<i32> = (0..length)
            .map(|k| match manner {
                0 | 1 => self.within(range),
                2 => self.one_of(&[range, -range]),
                3 => {
                    if k % 2 == 0 {
                        range
                    } else {
                        -range
                    }
                }
                4 => self.within(3),
                5 => 128 * self.below(256) as i32 % range,
                6 => grey,
                _ => 0,
            })
            .collect();
        if manner == 7 && length > 0 {
            samples[place] = grey;
        }
        samples
    }

    /// A setting that a picture of this size is straightened with.
    pub fn setting(&mut self, kernel: u32, width: usize, height: usize) -> Setting {
        Setting {
            kernel,
            cx: self.below(width),
            cy: self.below(height),
            a: self.edgy(4_096),
            b: self.edgy(4_096),
            border: self.border(),
        }
    }

    /// A border: each of the two as often as the other.
    pub fn border(&mut self) -> Border {
        if self.once_in(2) {
            Border::Wrapped
        } else {
            Border::Background(self.edgy(32_767))
        }
    }
}
