//! The places of `take shuffled SEED`. They don't depend on what is in flight, so
//! that one run of the proved program settles many of them: a place at which there
//! is no copy is refused, changes nothing, and is left out.

/// A place has 1 to 9 bits: 512 copies can be in flight.
const BITS: u64 = 9;

/// Marsaglia's xorshift generator of 64 bits (13, 7, 17).
pub struct Shuffle {
    state: u64,
}

impl Shuffle {
    /// The multiplier spreads small seeds; the generator's state must not be 0.
    pub fn new(seed: u64) -> Self {
        let state = seed.wrapping_add(1).wrapping_mul(0x9E37_79B9_7F4A_7C15);
        Shuffle { state: state.max(1) }
    }

    fn draw(&mut self) -> u64 {
        self.state ^= self.state << 13;
        self.state ^= self.state >> 7;
        self.state ^= self.state << 17;
        self.state
    }
}

impl Iterator for Shuffle {
    type Item = u16;

    /// First how many bits the place has, then the bits: most lists are short.
    fn next(&mut self) -> Option<u16> {
        let bits = 1 + (self.draw() >> 32) % BITS;
        Some(((self.draw() >> 32) & ((1 << bits) - 1)) as u16)
    }
}

#[cfg(test)]
mod tests {
    use super::*;

    #[test]
    fn every_place_comes_up_and_none_beyond() {
        let mut seen = [0u32; 512];
        for place in Shuffle::new(1).take(400_000) {
            seen[usize::from(place)] += 1;
        }
        assert!(seen.iter().all(|&times| times > 0));
        assert!(seen[0].abs_diff(seen[1]) < seen[0] / 20, "{} {}", seen[0], seen[1]);
        assert!(seen[1] > seen[2] && seen[3] > seen[511]);
    }

    #[test]
    fn a_seed_gives_the_same_places_and_another_seed_others() {
        let places = |seed| Shuffle::new(seed).take(64).collect::<Vec<_>>();
        assert_eq!(places(7), places(7));
        assert_ne!(places(7), places(8));
        assert_ne!(places(0), places(u64::MAX));
    }
}
