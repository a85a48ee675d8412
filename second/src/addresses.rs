//! Addresses: few, so that they meet again, and some at the edges.

use crate::random::Random;

pub const GROUP: u64 = 1 << 40;
pub const BEYOND: u64 = 1 << 48;

/// Hosts that are numbered through begin here.
pub const FIRST_HOST: u64 = 0x0200_0000_0001;

/// An address that no host has.
pub const UNKNOWN: u64 = 0x0200_0000_FFFF;
pub const EVERYBODY: u64 = 0xFFFF_FFFF_FFFF;

pub const POOL: [u64; 8] = [
    FIRST_HOST,
    0x0200_0000_0002,
    0x0200_0000_0003,
    0x0200_0000_0101,
    0x0000_0000_0001,
    0xFEFF_FFFF_FFFF,
    0x00FF_0000_0000,
    0x0200_0100_0001,
];

/// An address that may stand as a source.
pub fn source(r: &mut Random) -> u64 {
    if r.chance(85) {
        r.pick(&POOL)
    } else {
        any_source(r)
    }
}

/// A source that hardly stands anywhere else.
pub fn any_source(r: &mut Random) -> u64 {
    (r.draw() & (BEYOND - 1) & !GROUP) | 4
}

pub fn destination(r: &mut Random) -> u64 {
    match r.below(20) {
        0 => 0,
        1 => EVERYBODY,
        2 => r.pick(&POOL) | GROUP,
        3 => any_source(r),
        _ => r.pick(&POOL),
    }
}

/// Not a source: zero, group, or beyond 48 bits where a number can be.
pub fn bad_source(r: &mut Random, wide: bool) -> u64 {
    match r.below(if wide { 6 } else { 3 }) {
        0 => 0,
        1 => r.pick(&POOL) | GROUP,
        2 => 0x0100_0000_0000,
        3 => r.pick(&POOL) | BEYOND,
        4 => BEYOND,
        _ => r.draw() | BEYOND,
    }
}
