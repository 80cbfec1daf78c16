//! What crates/characters has to print: see crates/characters/src/main.rt for the cases and the lines.

use crate::atoms::kind;
use std::io::{Read, Write};

/// The class numbers of crates/sise_util/src/classes.rt, from the crate's own tests.
fn class_of(byte: u8) -> u8 {
    match byte {
        b' ' => 0,
        b'"' => 1,
        b'\t' => 2,
        b'\n' | b'\r' => 4,
        b'\\' => 5,
        b';' => 7,
        b'(' => 8,
        b')' => 9,
        _ if crate::is_atom_chr(char::from(byte)) => 3,
        _ if crate::is_atom_string_chr(char::from(byte)) => 10,
        _ => 6,
    }
}

fn bit(yes: bool) -> char {
    if yes {
        '1'
    } else {
        '0'
    }
}

/// The crate takes a `&str`: bytes that are no valid UTF-8 have a byte past 0x7E, which no atom has.
fn check_atom(bytes: &[u8]) -> bool {
    std::str::from_utf8(bytes).map_or(false, crate::check_atom)
}

/// The number of an atom's kind, which the crate does not have, and 0 for no atom.
fn kind_number(bytes: &[u8]) -> u32 {
    if check_atom(bytes) {
        kind(bytes)
    } else {
        0
    }
}

/// By the standard library's decoder, which takes a broken character as a maximal subpart.
fn character(bytes: &[u8], place: usize) -> String {
    let rest = bytes.get(place..).unwrap_or_default();
    let Some(chunk) = rest.utf8_chunks().next() else {
        return String::from("-/0");
    };
    match chunk.valid().chars().next() {
        Some(chr) => format!("{}/{}", u32::from(chr), chr.len_utf8()),
        None => format!("-/{}", chunk.invalid().len()),
    }
}

fn case_bytes(line: &[u8]) -> Vec<u8> {
    match line.strip_prefix(b"x") {
        None => line.to_vec(),
        Some(digits) => digits
            .chunks_exact(2)
            .map(|pair| {
                let text = std::str::from_utf8(pair).expect("hexadecimal digits");
                u8::from_str_radix(text, 16).expect("hexadecimal digits")
            })
            .collect(),
    }
}

pub fn run() {
    let mut out = String::new();
    for byte in 0..=255u8 {
        let chr = char::from(byte);
        let atom = bit(crate::is_atom_chr(chr));
        let string = bit(crate::is_atom_string_chr(chr));
        out += &format!("{byte} {} {atom}{string}\n", class_of(byte));
    }
    let mut input = Vec::new();
    std::io::stdin()
        .read_to_end(&mut input)
        .expect("cases on standard input");
    for line in input.split_inclusive(|&b| b == b'\n') {
        let Some(line) = line.strip_suffix(b"\n") else {
            continue;
        };
        let bytes = case_bytes(line);
        out += &format!("{} ", kind_number(&bytes));
        for len in 0..=bytes.len() + 1 {
            let number = bytes.get(..len).map_or(0, kind_number);
            out += &number.to_string();
        }
        for place in 0..=bytes.len() + 1 {
            out.push(' ');
            out += &character(&bytes, place);
        }
        out.push('\n');
    }
    std::io::stdout()
        .write_all(out.as_bytes())
        .expect("standard output");
}
