//! The words of records: sound ones, ones that are nearly so, and words of no meaning.

use crate::numbers::hostile;
use crate::random::Random;

/// The phase in which lists are open, of a reader and of a writer.
const INSIDE: u64 = 1;

/// A reader's record over a text of so many bytes.
pub fn reader(random: &mut Random, len: usize) -> [u64; 3] {
    let (position, phase) = (random.below(len + 1) as u64, random.below(3) as u64);
    let words = [position, phase, lists(random, position, phase)];
    near(random, words, len)
}

/// A writer's record over a buffer of so many bytes.
pub fn writer(random: &mut Random, len: usize) -> [u64; 9] {
    let (position, phase) = (random.below(len + 1) as u64, random.below(4) as u64);
    let lists = lists(random, position, phase);
    let broken = match random.below(3) {
        0 => 0,
        1 => lists,
        _ => random.below(lists as usize + 1) as u64,
    };
    let beginning = random.below(2) as u64;
    let [line, spaces, breaks] = std::array::from_fn(|_| upto(random, position));
    let indents = upto(random, position * (position + 1));
    let words = [
        position, phase, lists, broken, beginning, line, spaces, breaks, indents,
    ];
    near(random, words, len)
}

/// How many lists a sound record has open, most often few; of a record at position 0 it cannot be sound inside.
fn lists(random: &mut Random, position: u64, phase: u64) -> u64 {
    let most = random.pick(&[3, 9, position as usize]);
    if phase == INSIDE {
        1 + random.below(most.min(position as usize)) as u64
    } else {
        0
    }
}

/// A number up to `most`, sometimes that itself or one more.
fn upto(random: &mut Random, most: u64) -> u64 {
    match random.below(20) {
        0 => most,
        1 => most + 1,
        _ => random.below(most.min(1 << 31) as usize + 1) as u64,
    }
}

/// The words as they are, with some of them replaced, or all.
fn near<const N: usize>(random: &mut Random, mut words: [u64; N], len: usize) -> [u64; N] {
    let replaced = match random.below(10) {
        0..=5 => 0,
        6..=7 => 1,
        8 => 2,
        _ => N,
    };
    for _ in 0..replaced {
        words[random.below(N)] = hostile(random, len);
    }
    words
}
