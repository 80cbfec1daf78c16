//! The script that `replay` reads and the answers it prints; crates/replay has the format at its top.

use crate::reading::{Answer, Case, Item, Reading, Record, Refusal};

/// `R N K F`, the N bytes of the text, and a line end.
pub fn put_case(out: &mut Vec<u8>, case: &Case) {
    let finish = u8::from(case.finish);
    let header = format!("R {} {} {finish}\n", case.text.len(), case.calls);
    out.extend_from_slice(header.as_bytes());
    out.extend_from_slice(&case.text);
    out.push(b'\n');
}

/// The line that begins a case's answers.
pub const CASE: &[u8] = b"case\n";

/// The lines after `CASE`: one for each call.
pub fn put_answers(out: &mut Vec<u8>, reading: &Reading) {
    for (answer, record) in &reading.items {
        put_item(out, answer, record);
    }
    match &reading.finish {
        None => {}
        Some(Ok(())) => out.extend_from_slice(b"ok\n"),
        Some(Err(refusal)) => {
            out.extend_from_slice(refused(refusal).as_bytes());
            out.push(b'\n');
        }
    }
}

fn put_item(out: &mut Vec<u8>, answer: &Answer, record: &Record) {
    let words = match answer {
        Ok(Item::ListStart(place)) => format!("L {place}"),
        Ok(Item::Atom(place, bytes)) => format!("A {place} {}", bytes.len()),
        Ok(Item::ListEnd(place)) => format!("E {place}"),
        Err(refusal) => refused(refusal),
    };
    out.extend_from_slice(words.as_bytes());
    put_record(out, record);
    if let Ok(Item::Atom(_, bytes)) = answer {
        out.extend_from_slice(b" | ");
        out.extend_from_slice(bytes);
    }
    out.push(b'\n');
}

pub fn put_record(out: &mut Vec<u8>, record: &Record) {
    let phase = record.phase as u8;
    let state = format!(" | {} {phase} {}", record.position, record.lists);
    out.extend_from_slice(state.as_bytes());
}

pub fn refused(refusal: &Refusal) -> String {
    format!("! {} {} {}", refusal.number, refusal.place, refusal.code)
}
