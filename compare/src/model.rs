//! Document 01's rules for the reader ("Refusals" and "parser.rs: the reader") with request 2.7 of document 02, over bytes.
//! Written from the documents and RFC 3629 alone, so that the crate is a check of it on valid text.

use crate::reading::{Answer, Item, Phase, Reader, Record, Refusal};

pub const FRESH: Record = Record {
    position: 0,
    phase: Phase::Beginning,
    lists: 0,
};

pub struct Model<'a> {
    text: &'a [u8],
    record: Record,
}

impl<'a> Model<'a> {
    pub fn new(text: &'a [u8]) -> Self {
        Self {
            text,
            record: FRESH,
        }
    }

    /// The reader after so many calls of `next_item`.
    pub fn after(text: &'a [u8], calls: usize) -> Self {
        let mut reader = Self::new(text);
        for _ in 0..calls {
            // Only the record it leaves counts here.
            let _ = reader.next_item();
        }
        reader
    }
}

impl<'a> Reader<'a> for Model<'a> {
    fn next_item(&mut self) -> Answer<'a> {
        let (answer, record) = next_item(self.text, self.record);
        self.record = record;
        answer
    }

    fn record(&self) -> Record {
        self.record
    }

    fn finish(self) -> Result<(), Refusal> {
        finish(self.text, self.record)
    }
}

/// The answer and the record it leaves.
pub fn next_item(text: &[u8], record: Record) -> (Answer<'_>, Record) {
    if !is_sound(text, record) {
        return (Err(Refusal::bare(11)), record);
    }
    if record.phase == Phase::Finishing {
        return (Err(Refusal::bare(9)), record);
    }
    match token(text, record.position) {
        Err(stop) => {
            let left = Record {
                position: stop.position,
                ..record
            };
            (Err(stop.refusal), left)
        }
        Ok(token) => take(text, record, token),
    }
}

/// `finish` consumes the reader, so there is no record after it.
pub fn finish(text: &[u8], record: Record) -> Result<(), Refusal> {
    if !is_sound(text, record) {
        return Err(Refusal::bare(11));
    }
    if record.phase != Phase::Finishing {
        return Err(Refusal::bare(10));
    }
    match token(text, record.position) {
        Err(stop) => Err(stop.refusal),
        Ok(Token {
            kind: Kind::End, ..
        }) => Ok(()),
        Ok(token) => Err(Refusal::at(7, token.start)),
    }
}

fn is_sound(text: &[u8], record: Record) -> bool {
    record.position <= text.len()
        && record.lists <= record.position
        && (record.lists >= 1) == (record.phase == Phase::Parsing)
}

/// What a token does to a record that is beginning or parsing.
fn take(text: &[u8], record: Record, token: Token) -> (Answer<'_>, Record) {
    let mut left = Record {
        position: token.end,
        ..record
    };
    let beginning = record.phase == Phase::Beginning;
    let answer = match token.kind {
        Kind::End => Err(Refusal::at(5, token.start)),
        Kind::Close if beginning => Err(Refusal::at(6, token.start)),
        Kind::Open => {
            left.phase = Phase::Parsing;
            left.lists += 1;
            Ok(Item::ListStart(token.start))
        }
        Kind::Close => {
            left.lists -= 1;
            if left.lists == 0 {
                left.phase = Phase::Finishing;
            }
            Ok(Item::ListEnd(token.start))
        }
        Kind::Atom => {
            if beginning {
                left.phase = Phase::Finishing;
            }
            Ok(Item::Atom(token.start, &text[token.start..token.end]))
        }
    };
    (answer, left)
}

enum Kind {
    End,
    Open,
    Close,
    Atom,
}

struct Token {
    kind: Kind,
    start: usize,
    end: usize,
}

/// A refusal by the text, and the position it leaves.
struct Stop {
    refusal: Refusal,
    position: usize,
}

fn token(text: &[u8], position: usize) -> Result<Token, Stop> {
    let mut start = position;
    let (kind, end) = loop {
        match text.get(start) {
            None => break (Kind::End, start),
            Some(b' ' | b'\t' | b'\n' | b'\r') => start += 1,
            Some(b';') => start = comment_end(text, start + 1)?,
            Some(b'(') => break (Kind::Open, start + 1),
            Some(b')') => break (Kind::Close, start + 1),
            Some(&byte) if byte == b'"' || is_atom_character(byte) => {
                break (Kind::Atom, atom_end(text, start)?)
            }
            Some(_) => return Err(wrong_character(1, text, start)),
        }
    };
    Ok(Token { kind, start, end })
}

/// The place after the comment's LF or CR, or the text's end.
fn comment_end(text: &[u8], mut at: usize) -> Result<usize, Stop> {
    loop {
        match text.get(at) {
            None => return Ok(at),
            Some(b'\n' | b'\r') => return Ok(at + 1),
            Some(b'\t' | 0x20..=0x7E) => at += 1,
            Some(_) => return Err(wrong_character(3, text, at)),
        }
    }
}

fn atom_end(text: &[u8], mut at: usize) -> Result<usize, Stop> {
    loop {
        match text.get(at) {
            Some(b'"') => at = string_end(text, at + 1)?,
            Some(&byte) if is_atom_character(byte) => at += 1,
            _ => return Ok(at),
        }
    }
}

/// The place after the closing `"` of a string whose opening one stands before `at`.
fn string_end(text: &[u8], mut at: usize) -> Result<usize, Stop> {
    loop {
        let escaped = text.get(at) == Some(&b'\\');
        if escaped {
            at += 1;
        }
        match text.get(at) {
            None => return Err(unfinished_string(text)),
            Some(b'"') if !escaped => return Ok(at + 1),
            Some(b'"' | b'\\') if escaped => at += 1,
            Some(&byte) if is_string_character(byte) => at += 1,
            Some(_) => return Err(wrong_character(2, text, at)),
        }
    }
}

fn unfinished_string(text: &[u8]) -> Stop {
    Stop {
        refusal: Refusal::at(4, text.len()),
        position: text.len(),
    }
}

/// Refusal `number` of the character at `place`, or 8 where none stands there, which passes the broken one's bytes (document 02, 2.7).
fn wrong_character(number: u8, text: &[u8], place: usize) -> Stop {
    match character(&text[place..]) {
        Ok((code, len)) => Stop {
            refusal: Refusal {
                number,
                place,
                code,
            },
            position: place + len,
        },
        Err(len) => Stop {
            refusal: Refusal::at(8, place),
            position: place + len,
        },
    }
}

fn is_atom_character(byte: u8) -> bool {
    byte.is_ascii_alphanumeric() || b"!#$%&*+-./:<=>?@_~".contains(&byte)
}

fn is_string_character(byte: u8) -> bool {
    matches!(byte, 0x20..=0x7E) && byte != b'"' && byte != b'\\'
}

/// The code point and length of the character that the bytes begin with, by the ABNF in section 4 of RFC 3629; or the length of the longest start of
/// one found there, at least one byte. There is a first byte.
fn character(bytes: &[u8]) -> Result<(u32, usize), usize> {
    let first = bytes[0];
    // The length, the first byte's bits of the code point, and the second byte's range; later bytes are 80 to BF.
    let (len, bits, second) = match first {
        0x00..=0x7F => return Ok((u32::from(first), 1)),
        0xC2..=0xDF => (2, first & 0x1F, 0x80..=0xBF),
        0xE0 => (3, first & 0x0F, 0xA0..=0xBF),
        0xE1..=0xEC | 0xEE..=0xEF => (3, first & 0x0F, 0x80..=0xBF),
        0xED => (3, first & 0x0F, 0x80..=0x9F),
        0xF0 => (4, first & 0x07, 0x90..=0xBF),
        0xF1..=0xF3 => (4, first & 0x07, 0x80..=0xBF),
        0xF4 => (4, first & 0x07, 0x80..=0x8F),
        _ => return Err(1),
    };
    let mut code = u32::from(bits);
    for place in 1..len {
        match bytes.get(place) {
            Some(byte @ 0x80..=0xBF) if place > 1 || second.contains(byte) => {
                code = code << 6 | u32::from(byte & 0x3F);
            }
            _ => return Err(place),
        }
    }
    Ok((code, len))
}
