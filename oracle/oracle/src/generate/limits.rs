//! Numbers at and near the limits that document 01 names, by width.
//! Most draws fall there, because that is where a wrong bound shows.

use super::random::Random;

const U64_LIMITS: [u64; 10] = [
    0,
    1,
    2,
    65_535,
    65_536,
    1 << 32,
    1 << 47,
    1 << 48,
    1 << 63,
    u64::MAX,
];

const U16_LIMITS: [u16; 10] = [0, 1, 9, 255, 256, 2048, 8192, 32_768, 65_534, 65_535];

const U8_LIMITS: [u8; 12] = [0, 1, 2, 3, 4, 6, 7, 9, 10, 127, 128, 255];

/// Mostly a limit or a neighbour of one; else any number, of any size.
pub fn u64_near_limits(random: &mut Random) -> u64 {
    match random.below(10) {
        0 => random.next(),
        1 => random.next() >> random.below(64),
        _ => random
            .pick(&U64_LIMITS)
            .wrapping_add(random.below(5) as u64)
            .wrapping_sub(2),
    }
}

pub fn u16_near_limits(random: &mut Random) -> u16 {
    match random.below(8) {
        0 => random.next() as u16,
        _ => random
            .pick(&U16_LIMITS)
            .wrapping_add(random.below(3) as u16)
            .wrapping_sub(1),
    }
}

pub fn u8_near_limits(random: &mut Random) -> u8 {
    match random.below(8) {
        0 => random.byte(),
        _ => random.pick(&U8_LIMITS),
    }
}

/// One lower, one higher, or a limit.
pub fn near(random: &mut Random, value: u64) -> u64 {
    match random.below(4) {
        0 => value.wrapping_sub(1),
        1 | 2 => value.wrapping_add(1),
        _ => u64_near_limits(random),
    }
}
