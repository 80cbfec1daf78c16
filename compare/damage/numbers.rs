//! Numbers about the borders of words, tables and texts, and bytes.

use crate::random::Random;

/// A number of 64 bits, most often a small one, one near `near` or one near a power of 2.
pub fn hostile(random: &mut Random, near: usize) -> u64 {
    let near = near as u64;
    let small = random.below(5) as u64;
    match random.below(8) {
        0..=1 => small,
        2 => (near + small).wrapping_sub(2),
        3 => (4 * near + small).wrapping_sub(2),
        4 => (1 << random.pick(&[8, 16, 24, 30, 31, 32, 62, 63])) + small - 2,
        5 => u64::MAX - small,
        6 => random.below(near as usize) as u64,
        _ => u64::from_le_bytes(std::array::from_fn(|_| random.byte())),
    }
}

pub fn bytes(random: &mut Random, len: usize) -> Vec<u8> {
    (0..len).map(|_| random.byte()).collect()
}

/// A length, most often a small one.
pub fn len(random: &mut Random) -> usize {
    let limit = if random.percent(1) {
        100_000
    } else {
        random.pick(&[10, 40, 400, 4_000])
    };
    random.below(limit)
}

/// A threshold for breaking lines.
pub fn threshold(random: &mut Random) -> u64 {
    match random.below(4) {
        0 => 0,
        1 => random.below(100) as u64,
        2 => u64::MAX,
        _ => hostile(random, 80),
    }
}
