//! Numbers that follow from a seed alone.

use std::time::{SystemTime, UNIX_EPOCH};

/// An xorshift generator. Each item or run has its own, from the seed and its
/// number, so that it can be made again alone.
pub struct Random(u64);

impl Random {
    pub fn new(seed: u64, number: u64) -> Random {
        let mixed = scatter(scatter(seed) ^ number.wrapping_mul(0x9E37_79B9_7F4A_7C15));
        Random(mixed | 1)
    }

    pub fn draw(&mut self) -> u64 {
        self.0 ^= self.0 >> 12;
        self.0 ^= self.0 << 25;
        self.0 ^= self.0 >> 27;
        self.0.wrapping_mul(0x2545_F491_4F6C_DD1D)
    }

    pub fn byte(&mut self) -> u8 {
        (self.draw() >> 56) as u8
    }

    pub fn word(&mut self) -> u32 {
        (self.draw() >> 32) as u32
    }

    pub fn flag(&mut self) -> bool {
        self.byte() & 1 == 1
    }

    /// Below a number that is not 0.
    pub fn below(&mut self, number: usize) -> usize {
        ((self.draw() >> 16) % number as u64) as usize
    }

    /// From one number to another, both included.
    pub fn between(&mut self, least: usize, most: usize) -> usize {
        least + self.below(most - least + 1)
    }

    pub fn chance(&mut self, percent: usize) -> bool {
        self.below(100) < percent
    }

    pub fn pick<T: Copy>(&mut self, among: &[T]) -> T {
        among[self.below(among.len())]
    }

    pub fn shuffle<T>(&mut self, list: &mut [T]) {
        for last in (1..list.len()).rev() {
            list.swap(last, self.below(last + 1));
        }
    }
}

/// Spreads neighbouring numbers over all bits.
fn scatter(number: u64) -> u64 {
    let mut z = number.wrapping_add(0x9E37_79B9_7F4A_7C15);
    z = (z ^ (z >> 30)).wrapping_mul(0xBF58_476D_1CE4_E5B9);
    z = (z ^ (z >> 27)).wrapping_mul(0x94D0_49BB_1331_11EB);
    z ^ (z >> 31)
}

/// A seed as an option gives it: a number, or `fresh` for one from the clock.
/// Whoever takes it prints it, so that the run can be repeated.
pub fn seed(text: &str) -> Result<u64, String> {
    if text != "fresh" {
        return text.parse().map_err(|_| format!("the seed is a number or fresh, not {text}"));
    }
    let since = SystemTime::now().duration_since(UNIX_EPOCH);
    Ok(since.map_or(1, |since| since.as_nanos() as u64 % 1_000_000_000_000))
}
