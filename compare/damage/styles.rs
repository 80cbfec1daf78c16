//! Styles: the usual ones, empty ones, long ones, and bytes that are no layout.

use crate::calls::Style;
use crate::numbers::bytes;
use crate::random::Random;

pub fn style(random: &mut Random) -> Style {
    Style {
        line_break: string(random, b"\n"),
        indentation: string(random, b"  "),
    }
}

fn string(random: &mut Random, usual: &[u8]) -> Vec<u8> {
    match random.below(8) {
        0..=3 => usual.to_vec(),
        4 => Vec::new(),
        5 => random
            .pick(&[&b"\r\n"[..], b"\t", b"(", b"\"", b";", b"\xC3"])
            .to_vec(),
        6 => {
            let len = random.below(9);
            bytes(random, len)
        }
        _ => vec![random.byte(); random.below(5_000)],
    }
}
