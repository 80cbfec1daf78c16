//! The cases for the reader.

use crate::damage::{borders, broken_character, character, damage, insert, LATER};
use crate::examples;
use crate::model::Model;
use crate::options::Options;
use crate::profile::{comment, gap, profile, ATOM_CHARACTERS};
use crate::random::Random;
use crate::reading::{Case, Phase, Reader};

/// The tokens' bytes, one wrong byte, and one character of more than a byte.
const SYMBOLS: [&[u8]; 11] = [
    b"(",
    b")",
    b"\"",
    b"\\",
    b";",
    b"a",
    b" ",
    b"\n",
    b"\t",
    b"[",
    "é".as_bytes(),
];

/// The examples, those that a rule lists, then random ones.
pub fn all(options: &Options) -> impl Iterator<Item = Case> {
    let longest = if options.quick { 4 } else { 5 };
    let mut maker = Maker::new(options.seed, 6_000);
    let random = std::iter::repeat_with(move || {
        let kind = maker.random.pick(&KINDS);
        maker.case(kind)
    });
    let default = if options.quick { 40_000 } else { 1_000_000 };
    examples::cases()
        .chain(exhaustive(longest))
        .chain(borders().map(to_the_end))
        .chain(pairs().map(to_the_end))
        .chain(random)
        .take(options.cases.unwrap_or(default))
}

/// Every text of up to `longest` symbols.
pub fn exhaustive(longest: u32) -> impl Iterator<Item = Case> {
    (0..=longest).flat_map(|len| {
        (0..SYMBOLS.len().pow(len)).map(move |mut number| {
            let mut text = Vec::new();
            for _ in 0..len {
                text.extend_from_slice(SYMBOLS[number % SYMBOLS.len()]);
                number /= SYMBOLS.len();
            }
            to_the_end(text)
        })
    })
}

/// Every first byte with every second, and behind them both sides of the borders of a third and a fourth: a text for a first byte and 16 second ones.
/// Each character stands on a line of its own, in more lists than its bytes can close.
fn pairs() -> impl Iterator<Item = Vec<u8>> {
    (0..=0xFF).flat_map(|first: u8| {
        (0..16).map(move |high: u8| {
            let mut text = Vec::new();
            for low in 0..16 {
                for (third, fourth) in LATER.iter().flat_map(|&b| LATER.map(|c| (b, c))) {
                    text.extend([b'\n', b'(', b'(', first, 16 * high + low, third, fourth]);
                }
            }
            text
        })
    })
}

/// The text with a call more than it takes to read it, and `finish`.
pub fn to_the_end(text: Vec<u8>) -> Case {
    let calls = calls_to_the_end(&text) + 1;
    Case {
        text,
        calls,
        finish: true,
    }
}

/// How many calls of `next_item` there are until each further one gives the same.
pub fn calls_to_the_end(text: &[u8]) -> usize {
    let mut reader = Model::new(text);
    let mut calls = 0;
    while reader.record().phase != Phase::Finishing && reader.record().position < text.len() {
        // Only the record it leaves counts here.
        let _ = reader.next_item();
        calls += 1;
    }
    calls
}

#[derive(Clone, Copy)]
pub enum Kind {
    Good,
    Damaged,
    Symbols,
    Bytes,
    Characters,
    Broken,
    Faults,
}

pub const KINDS: [Kind; 7] = [
    Kind::Good,
    Kind::Damaged,
    Kind::Symbols,
    Kind::Bytes,
    Kind::Characters,
    Kind::Broken,
    Kind::Faults,
];

pub struct Maker {
    random: Random,
    largest: usize,
}

impl Maker {
    pub fn new(seed: u64, largest: usize) -> Self {
        Self {
            random: Random::new(seed),
            largest,
        }
    }

    pub fn case(&mut self, kind: Kind) -> Case {
        let text = self.text(kind);
        let calls = calls_to_the_end(&text);
        let random = &mut self.random;
        // One in ten stops early, where `finish` is mostly 10.
        let calls = if random.percent(10) {
            random.below(calls + 1)
        } else {
            calls + random.below(4)
        };
        let finish = random.percent(90);
        Case {
            text,
            calls,
            finish,
        }
    }

    pub fn text(&mut self, kind: Kind) -> Vec<u8> {
        let size = self.size();
        let random = &mut self.random;
        match kind {
            Kind::Good => ended(random, size),
            Kind::Damaged => harmed(random, size, damage),
            Kind::Symbols => symbols(random, size),
            Kind::Bytes => bytes(random, size),
            Kind::Characters => harmed(random, size, |random, text| {
                let bytes = character(random);
                insert(random, text, &bytes);
            }),
            Kind::Broken => harmed(random, size, |random, text| {
                let bytes = broken_character(random);
                insert(random, text, &bytes);
            }),
            Kind::Faults => faults(random, size),
        }
    }

    /// Mostly short: many short texts reach more than few long ones.
    fn size(&mut self) -> usize {
        let limit = match self.random.below(50) {
            0 => self.largest,
            1..=15 => 400,
            _ => 60,
        };
        self.random.below(limit.min(self.largest))
    }
}

/// A good profile with a piece of harm or several.
fn harmed(random: &mut Random, size: usize, harm: impl Fn(&mut Random, &mut Vec<u8>)) -> Vec<u8> {
    let mut text = ended(random, size);
    for _ in 0..=random.below(4) {
        harm(random, &mut text);
    }
    text
}

/// A good profile with something behind it: mostly space or a comment, else what `finish` refuses.
fn ended(random: &mut Random, size: usize) -> Vec<u8> {
    let mut text = profile(random, size);
    if random.percent(50) {
        gap(random, &mut text);
    }
    if random.percent(15) {
        comment(random, &mut text);
    } else if random.percent(30) {
        let wrong: [&[u8]; 10] = [
            b" a",
            b"(",
            b")",
            b" \"a b\"",
            b"[",
            b" \"\t",
            b";\x7F",
            b" \"a",
            b" \"\\",
            b" \xC3(",
        ];
        text.extend_from_slice(random.pick(&wrong));
    }
    text
}

/// The symbols of the short texts and atom characters, in a list, so that an atom isn't the end.
fn symbols(random: &mut Random, size: usize) -> Vec<u8> {
    let mut text = b"((".to_vec();
    while text.len() < size {
        let symbol = random.pick(&SYMBOLS);
        text.extend_from_slice(symbol);
        if random.percent(50) {
            text.push(random.pick(ATOM_CHARACTERS));
        }
    }
    text
}

/// Characters that no token has, most of them broken, one behind the other.
fn faults(random: &mut Random, size: usize) -> Vec<u8> {
    let mut text = Vec::new();
    while text.len() < size {
        let bytes = if random.percent(80) {
            broken_character(random)
        } else {
            character(random)
        };
        text.extend_from_slice(&bytes);
    }
    text
}

/// Any bytes: all 256, those of ASCII, or those past it.
fn bytes(random: &mut Random, size: usize) -> Vec<u8> {
    let (low, count) = random.pick(&[(0, 256), (0, 128), (0x20, 96), (0x80, 128)]);
    let mut text = random
        .pick(&[b"" as &[u8], b"(", b"((", b"(((((\""])
        .to_vec();
    text.extend((0..size).map(|_| (low + random.below(count)) as u8));
    text
}
