//! Lists of the writer's calls: orderly ones, and words of no meaning.

use crate::calls::Script;
use crate::numbers::{hostile, threshold};
use crate::profile::ATOM_CHARACTERS;
use crate::random::Random;
use crate::styles::style;
use crate::texts::Texts;

pub fn script(random: &mut Random, texts: &Texts) -> Script {
    let atoms = if random.percent(70) {
        atom_characters(random)
    } else {
        texts.text(random)
    };
    let longest = if random.percent(5) {
        400
    } else {
        random.pick(&[2, 8, 40])
    };
    let count = random.below(longest);
    let mut words = if random.percent(80) {
        orderly(random, count, atoms.len())
    } else {
        any(random, count, atoms.len())
    };
    if random.percent(10) {
        words.truncate(random.below(words.len()));
    }
    let whole = words.len() / 4;
    let room = if random.percent(70) {
        whole + random.below(2)
    } else {
        random.below(whole + 1)
    };
    Script {
        words,
        atoms,
        style: style(random),
        answers: (0..room).map(|_| hostile(random, whole)).collect(),
    }
}

fn atom_characters(random: &mut Random) -> Vec<u8> {
    (0..6 + random.below(60))
        .map(|_| random.pick(ATOM_CHARACTERS))
        .collect()
}

/// Mostly items that nest well, with a finish at last.
fn orderly(random: &mut Random, count: usize, atoms: usize) -> Vec<u64> {
    let opening = random.pick(&[5, 30, 60, 97]);
    let mut open = if random.percent(10) {
        1 + random.below(600)
    } else {
        1
    };
    let mut words = [1, 0, 0, u64::MAX].repeat(open);
    for _ in 0..count {
        let kind = match random.below(100) {
            0 => 3 + random.below(3) as u64,
            share if share < opening => 1,
            share if share % 3 == 0 && (open > 1 || random.percent(10)) => 2,
            _ => 0,
        };
        match kind {
            1 => open += 1,
            2 => open = open.saturating_sub(1),
            _ => {}
        }
        words.extend(call(random, kind, atoms));
    }
    words.extend([2, 0, 0, 0].repeat(open));
    words.extend([3 + random.below(2) as u64, 0, 0, 0]);
    words
}

fn call(random: &mut Random, kind: u64, atoms: usize) -> [u64; 4] {
    let (place, len) = if random.percent(95) {
        (random.below(atoms) as u64, 1 + random.below(6) as u64)
    } else {
        (hostile(random, atoms), hostile(random, atoms))
    };
    [kind, place, len, threshold(random)]
}

fn any(random: &mut Random, count: usize, near: usize) -> Vec<u64> {
    let mut words = Vec::new();
    for _ in 0..count {
        let kind = if random.percent(95) {
            random.below(5) as u64
        } else {
            hostile(random, near)
        };
        words.extend([
            kind,
            hostile(random, near),
            hostile(random, near),
            hostile(random, near),
        ]);
    }
    words
}
