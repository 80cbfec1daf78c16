//! Texts: good, damaged, ill-formed, deep, and bytes of no meaning.

use crate::damage::{borders, broken_character, character, damage, insert};
use crate::numbers::bytes;
use crate::profile::profile;
use crate::random::Random;

pub struct Texts {
    borders: Vec<Vec<u8>>,
}

impl Texts {
    pub fn new() -> Self {
        Self {
            borders: borders().collect(),
        }
    }

    pub fn text(&self, random: &mut Random) -> Vec<u8> {
        match random.below(16) {
            0 => Vec::new(),
            1..=2 => good(random),
            3..=8 => damaged(random),
            9..=10 => ill_formed(random),
            11 => deep(random),
            12 => noise(random, |random| random.byte()),
            13..=14 => noise(random, |random| random.pick(b"()()a \"\\;\n")),
            _ => self.borders[random.below(self.borders.len())].clone(),
        }
    }
}

pub fn good(random: &mut Random) -> Vec<u8> {
    let size = if random.percent(1) {
        10_000
    } else {
        random.pick(&[1, 8, 30, 100, 400])
    };
    let size = random.below(size);
    profile(random, size)
}

fn damaged(random: &mut Random) -> Vec<u8> {
    let mut text = good(random);
    for _ in 0..=random.below(3) {
        damage(random, &mut text);
    }
    text
}

fn ill_formed(random: &mut Random) -> Vec<u8> {
    let mut text = good(random);
    for _ in 0..=random.below(2) {
        let inserted = if random.percent(70) {
            broken_character(random)
        } else {
            character(random)
        };
        insert(random, &mut text, &inserted);
    }
    if random.percent(20) {
        damage(random, &mut text);
    }
    text
}

/// Lists in lists, with some closed too often or not at all.
fn deep(random: &mut Random) -> Vec<u8> {
    let depth = random.pick(&[2, 5, 60, 250, 1_000, 3_000]);
    let closed = if random.percent(70) {
        depth
    } else {
        depth + random.below(3) - 1
    };
    let mut text = b"(".repeat(depth);
    if random.percent(50) {
        let len = random.below(5);
        text.extend(bytes(random, len));
    }
    text.extend(b")".repeat(closed));
    text
}

fn noise(random: &mut Random, byte: fn(&mut Random) -> u8) -> Vec<u8> {
    let longest = random.pick(&[4, 16, 80]);
    (0..random.below(longest)).map(|_| byte(random)).collect()
}
