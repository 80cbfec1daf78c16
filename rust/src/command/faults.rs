//! A refusal shown to a person: the place, the line, and what may help.

use super::files::Source;
use super::scan::Fault;
use super::Status;
use sise::bytes::{Position, Reason};

/// The most characters that are shown of a line before its caret, and behind it.
const BEFORE: usize = 60;
const BEHIND: usize = 40;

pub fn report(source: &Source, fault: &Fault) -> Status {
    eprint!("{}", explained(source, fault));
    Status::Refused
}

fn explained(source: &Source, fault: &Fault) -> String {
    let Source { name, text, .. } = source;
    let (refusal, place) = (fault.refusal, fault.refusal.place.unwrap_or(text.len()));
    let mut all = format!("{name}:{}: ", Position::of(text, place));
    all += &format!("refused {}: {}", refusal.number(), refusal.reason.meaning());
    if let Some(chr) = refusal.chr {
        all += &format!(", U+{:04X}", u32::from(chr));
    }
    all.push('\n');
    all += &line(text, place);
    if let Some(hint) = encoding(text, place) {
        all += &format!("{name}: hint: {hint}\n");
    }
    if let Some((place, note)) = elsewhere(text, fault) {
        all += &format!("{name}:{}: {note}\n", Position::of(text, place));
        all += &line(text, place);
    } else if refusal.reason == Reason::UnexpectedEof {
        all += &format!("{name}: hint: nothing but blanks and comments is in it\n");
    }
    all
}

/// Another place that the refusal has to do with.
fn elsewhere(text: &[u8], fault: &Fault) -> Option<(usize, String)> {
    match fault.refusal.reason {
        Reason::UnexpectedEof => {
            let &innermost = fault.open.last()?;
            let around = match fault.open.len() - 1 {
                0 => String::new(),
                1 => ", and so is the one around it".into(),
                n => format!(", and so are the {n} around it"),
            };
            Some((innermost, format!("this list is still open{around}")))
        }
        Reason::UnfinishedString => {
            let start = string_start(text, fault.from)?;
            Some((start, "this string has no end".into()))
        }
        Reason::ExpectedEof => {
            let note = match text.get(fault.refusal.place?) {
                Some(b')') => "here ended the text's one list: the `)` behind it is one too many",
                _ => "here ended the text's one atom or list",
            };
            Some((fault.end.checked_sub(1)?, note.into()))
        }
        _ => None,
    }
}

/// Where the string begins that the text ends in; what is between `from` and its atom are blanks and comments.
fn string_start(text: &[u8], from: usize) -> Option<usize> {
    let mut start = None;
    let mut comment = false;
    let mut at = from;
    while let Some(&byte) = text.get(at) {
        match (byte, start) {
            (b'\n' | b'\r', None) => comment = false,
            (b';', None) => comment = true,
            (b'"', None) if !comment => start = Some(at),
            (b'\\', Some(_)) => at += 1,
            (b'"', Some(_)) => start = None,
            _ => {}
        }
        at += 1;
    }
    start
}

/// What a text's first bytes say of how it was saved.
fn encoding(text: &[u8], place: usize) -> Option<&'static str> {
    match text {
        _ if place > 0 => None,
        [0xEF, 0xBB, 0xBF, ..] => {
            Some("the file begins with a byte order mark; save it as UTF-8 without one")
        }
        [0xFF, 0xFE, ..] | [0xFE, 0xFF, ..] => Some("the file looks like UTF-16; save it as UTF-8"),
        [_, 0, ..] | [0, _, ..] => Some("the file has zero bytes, as UTF-16 has; save it as UTF-8"),
        _ => None,
    }
}

/// The line that a place is in, with a caret below it; nothing of an empty line. Tabs stay, so that the caret stands where the character does.
fn line(text: &[u8], place: usize) -> String {
    let is_end = |byte: &u8| matches!(byte, b'\n' | b'\r');
    let start = text[..place]
        .iter()
        .rposition(is_end)
        .map_or(0, |at| at + 1);
    let len = text[place..]
        .iter()
        .position(is_end)
        .unwrap_or(text.len() - place);
    let (before, behind) = (
        printable(&text[start..place]),
        printable(&text[place..place + len]),
    );
    if before.is_empty() && behind.is_empty() {
        return String::new();
    }
    let cut = before.len().saturating_sub(BEFORE);
    let mut shown: String = if cut > 0 { "..." } else { "" }.into();
    shown.extend(&before[cut..]);
    let caret: String = shown
        .chars()
        .map(|chr| if chr == '\t' { '\t' } else { ' ' })
        .collect();
    shown.extend(behind.iter().take(BEHIND));
    if behind.len() > BEHIND {
        shown += "...";
    }
    format!("    {shown}\n    {caret}^\n")
}

/// Characters as they can be shown, with U+FFFD for what cannot.
fn printable(bytes: &[u8]) -> Vec<char> {
    let shown = |chr: char| match chr {
        '\t' => '\t',
        _ if chr.is_control() || chr == '\u{FEFF}' => char::REPLACEMENT_CHARACTER,
        _ => chr,
    };
    String::from_utf8_lossy(bytes).chars().map(shown).collect()
}
