//! Harm done to good texts: what copying and storing do, characters that have no place in a profile, and broken ones.

use crate::random::Random;

/// One piece of harm to some bytes of the text.
pub fn damage(random: &mut Random, text: &mut Vec<u8>) {
    if text.is_empty() {
        text.push(random.byte());
        return;
    }
    let from = random.below(text.len());
    let longest = if random.percent(70) { 4 } else { text.len() };
    let to = text.len().min(from + 1 + random.below(longest));
    match random.below(8) {
        0 => text[from] ^= 1 << random.below(8),
        1 => text[from] = random.byte(),
        2 => text.truncate(from),
        3 => {
            text.drain(from..to);
        }
        4 => {
            let copy = text[from..to].to_vec();
            text.splice(from..from, copy);
        }
        5 => text[from..to].fill(0),
        // The two halves change places.
        6 => text[from..to].rotate_left((to - from) / 2),
        _ => {
            let other = random.below(text.len());
            text.swap(from, other);
        }
    }
}

/// The first and last characters of each length, those about the surrogates, and some that a text editor leaves behind.
const CHARACTERS: [char; 18] = [
    '\u{80}',
    '\u{85}',
    '\u{A0}',
    'é',
    'µ',
    '\u{7FF}',
    '\u{800}',
    '\u{2028}',
    '”',
    '\u{D7FF}',
    '\u{E000}',
    '\u{FEFF}',
    '\u{FFFD}',
    '\u{FFFF}',
    '\u{10000}',
    '𝄞',
    '\u{FFFFF}',
    '\u{10FFFF}',
];

pub fn character(random: &mut Random) -> Vec<u8> {
    random.pick(&CHARACTERS).to_string().into_bytes()
}

/// Bytes that are no character: a cut one, an overlong form, a surrogate, one past the last, a lone tail, a byte that none has.
pub fn broken_character(random: &mut Random) -> Vec<u8> {
    let tail = 0x80 | random.byte() & 0x3F;
    match random.below(7) {
        0 => {
            let mut cut = character(random);
            cut.truncate(1 + random.below(cut.len() - 1));
            cut
        }
        1 => vec![random.pick(&[0xC0, 0xC1]), tail],
        2 => vec![0xE0, 0x80 | tail & 0x1F, tail],
        3 => vec![0xED, 0xA0 | tail & 0x1F, tail],
        4 => vec![0xF0, 0x80 | tail & 0x0F, tail, tail],
        5 => vec![
            random.pick(&[0xF4, 0xF5, 0xF8, 0xFE, 0xFF]),
            0x90,
            tail,
            tail,
        ],
        _ => vec![tail; 1 + random.below(3)],
    }
}

/// Puts the bytes at a place of the text, as they are or in a state of their own.
pub fn insert(random: &mut Random, text: &mut Vec<u8>, bytes: &[u8]) {
    let at = random.below(text.len() + 1);
    let states: [&[u8]; 9] = [b"", b"", b"", b" ", b"a", b"\"b", b"\"\\", b"\"\"", b";c"];
    let state = random.pick(&states);
    text.splice(at..at, state.iter().chain(bytes).copied());
}

/// Third and fourth bytes: both sides of the borders of a UTF8-tail.
pub const LATER: [u8; 4] = [0x7F, 0x80, 0xBF, 0xC0];

/// The bytes on both sides of each border in RFC 3629's ABNF, put together in every way, in each state of the reader.
pub fn borders() -> impl Iterator<Item = Vec<u8>> {
    const FIRST: [u8; 22] = [
        0x7F, 0x80, 0xBF, 0xC0, 0xC1, 0xC2, 0xDF, 0xE0, 0xE1, 0xEC, 0xED, 0xEE, 0xEF, 0xF0, 0xF1,
        0xF3, 0xF4, 0xF5, 0xF7, 0xF8, 0xFE, 0xFF,
    ];
    const SECOND: [u8; 8] = [0x7F, 0x80, 0x8F, 0x90, 0x9F, 0xA0, 0xBF, 0xC0];
    const STATES: [&[u8]; 5] = [b"(", b"a", b"\"", b"\"\\", b";"];
    let count = FIRST.len() * SECOND.len() * LATER.len() * LATER.len() * STATES.len();
    (0..count).map(|mut number| {
        let mut digit = |base: usize| {
            let digit = number % base;
            number /= base;
            digit
        };
        let mut text = STATES[digit(STATES.len())].to_vec();
        text.push(FIRST[digit(FIRST.len())]);
        text.push(SECOND[digit(SECOND.len())]);
        text.push(LATER[digit(LATER.len())]);
        text.push(LATER[digit(LATER.len())]);
        text
    })
}
