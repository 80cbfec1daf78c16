//! Good profiles by a random grammar: one node with space and comments about it.

use crate::random::Random;

const WORDS: [&str; 16] = [
    "stage", "axis", "x", "y", "z", "limit", "travel", "focus", "series", "step", "unit", "-12.5",
    "+0.25", "3e-6", "@home", "~",
];

pub const ATOM_CHARACTERS: &[u8] =
    b"!#$%&*+-./:<=>?@_~0123456789ABCDEFGHIJKLMNOPQRSTUVWXYZabcdefghijklmnopqrstuvwxyz";

/// A profile of about `size` bytes.
pub fn profile(random: &mut Random, size: usize) -> Vec<u8> {
    let mut out = Vec::new();
    if random.percent(30) {
        gap(random, &mut out);
    }
    if random.percent(5) {
        atom(random, &mut out, size);
    } else {
        list(random, &mut out, size);
    }
    out
}

fn list(random: &mut Random, out: &mut Vec<u8>, size: usize) {
    // Percentages that differ from text to text: some are flat, some little else than nesting.
    let opening = random.pick(&[2, 10, 30, 45, 80]);
    let closing = random.pick(&[2, 10, 30, 45]);
    let mut open = 1;
    out.push(b'(');
    while out.len() < size {
        if random.percent(opening) {
            out.push(b'(');
            open += 1;
        } else if open > 1 && random.percent(closing) {
            out.push(b')');
            open -= 1;
        } else {
            let longest = size - out.len();
            atom(random, out, longest);
            gap(random, out);
        }
        if random.percent(20) {
            gap(random, out);
        }
    }
    for _ in 0..open {
        out.push(b')');
        if random.percent(10) {
            gap(random, out);
        }
    }
}

/// An atom: a word, or pieces with no space between them.
fn atom(random: &mut Random, out: &mut Vec<u8>, longest: usize) {
    if random.percent(50) {
        out.extend_from_slice(random.pick(&WORDS).as_bytes());
        return;
    }
    for _ in 0..=random.below(3) {
        let longest = if random.percent(3) { longest } else { 12 };
        let len = random.below(longest) + 1;
        if random.percent(50) {
            string(random, out, len);
        } else {
            out.extend((0..len).map(|_| random.pick(ATOM_CHARACTERS)));
        }
    }
}

fn string(random: &mut Random, out: &mut Vec<u8>, len: usize) {
    out.push(b'"');
    // `""` is an atom too.
    for _ in 1..len {
        let byte = printable(random);
        if byte == b'"' || byte == b'\\' || random.percent(5) {
            out.push(b'\\');
        }
        out.push(byte);
    }
    out.push(b'"');
}

/// What may stand between two atoms: space, line ends, comments.
pub fn gap(random: &mut Random, out: &mut Vec<u8>) {
    match random.below(12) {
        0 => out.extend_from_slice(b"\r\n\t"),
        1 => out.push(random.pick(b"\t\r")),
        2..=3 => {
            out.push(b'\n');
            out.extend((0..random.below(8)).map(|_| b' '));
        }
        4 => {
            comment(random, out);
            out.push(random.pick(b"\n\n\r"));
        }
        _ => out.push(b' '),
    }
}

/// A comment without the line end that closes it.
pub fn comment(random: &mut Random, out: &mut Vec<u8>) {
    out.push(b';');
    let longest = if random.percent(3) { 400 } else { 20 };
    for _ in 0..random.below(longest) {
        let byte = if random.percent(5) {
            b'\t'
        } else {
            printable(random)
        };
        out.push(byte);
    }
}

fn printable(random: &mut Random) -> u8 {
    b' ' + random.below(0x7F - 0x20) as u8
}
