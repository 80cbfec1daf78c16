//! The longest text that document 01 allows, and one byte more; and atoms that are longer.

use crate::answers::{ensure, refused, twice, Check};
use crate::calls::{Calls, Script, Style};
use crate::guard::Edge;
use crate::kinds;

pub const LONGEST: usize = 16_777_216;

/// An empty list, over any text.
const LIST: [u32; 4] = [0, 0, 0, 1];

pub fn check(calls: &mut Calls) -> Check {
    let longest = vec![b' '; LONGEST];
    let too_long = vec![b' '; LONGEST + 1];
    tree_calls(calls, &longest, [refused(5), 0, 2])?;
    tree_calls(calls, &too_long, [refused(13); 3])?;
    record_calls(calls, &longest, [refused(5), 0, refused(11)])?;
    record_calls(calls, &too_long, [refused(13); 3])?;
    atom_calls(calls)?;
    writer_calls(calls)
}

/// The calls on a single atom have no limit.
fn atom_calls(calls: &mut Calls) -> Check {
    let mut atom = vec![b'a'; LONGEST + 2];
    let plain = kinds::check(calls, &atom)?;
    atom[LONGEST + 1] = b'"';
    let unfinished = kinds::check(calls, &atom)?;
    atom[0] = b'"';
    let string = kinds::check(calls, &atom)?;
    atom.push(b'a');
    let mixed = kinds::check(calls, &atom)?;
    ensure(
        [plain, unfinished, string, mixed] == [1, 0, 2, 3],
        "atom_kind past the longest text",
    )
}

/// The answers of the three tree calls over a text.
fn tree_calls(calls: &mut Calls, text: &[u8], expected: [u64; 3]) -> Check {
    let (parsed, table) = twice(|edge| calls.parse_tree(text, &LIST, edge))?;
    ensure(
        parsed.answer(text.len())? == expected[0] && table == LIST,
        "parse_tree at the longest text",
    )?;
    let indexed = twice(|edge| calls.index_path(text, &LIST, &[], edge))?;
    ensure(
        indexed.answer(text.len())? == expected[1],
        "index_path at the longest text",
    )?;
    let found = twice(|edge| calls.find_path(text, &LIST, &[], edge))?;
    ensure(
        found.number == indexed.number && found.values == [0, u64::from(found.number == 0)],
        "find_path at the longest text",
    )?;
    let (style, buffer) = (lines(), b"before");
    let (wrote, after) =
        twice(|edge| calls.serialize_tree(&style, buffer, text, &LIST, 0, false, edge))?;
    let wrote = wrote.answer(text.len())?;
    let left: &[u8] = if wrote == 2 { b"()fore" } else { buffer };
    ensure(
        wrote == expected[2] && after == left,
        "serialize_tree at the longest text",
    )
}

/// The answers of the two tree calls over a fresh record, and that of both over words that mean none: 13 comes before 11.
fn record_calls(calls: &mut Calls, text: &[u8], expected: [u64; 3]) -> Check {
    let (style, buffer, none) = (lines(), b"before", 4);
    let (read, _, table) = twice(|edge| calls.next_tree(text, [0; 3], &LIST, edge))?;
    ensure(
        read.answer(text.len())? == expected[0] && table == LIST,
        "next_tree at the longest text",
    )?;
    let (put, ..) = twice(|edge| calls.put_tree(&style, buffer, text, &LIST, 0, [0; 9], edge))?;
    ensure(
        put.answer(0)? == expected[1],
        "put_tree at the longest text",
    )?;
    let words = [0, none, 0];
    let (read, record, _) = twice(|edge| calls.next_tree(text, words, &LIST, edge))?;
    ensure(
        read.answer(text.len())? == expected[2] && record == words,
        "next_tree at the longest text, over no record",
    )?;
    let words = [0, none, 0, 0, 0, 0, 0, 0, 0];
    let (put, record, after) =
        twice(|edge| calls.put_tree(&style, buffer, text, &LIST, 0, words, edge))?;
    ensure(
        put.answer(0)? == expected[2] && record == words && after == buffer,
        "put_tree at the longest text, over no record",
    )
}

/// An atom that ends at the limit, one that ends past it, and a line break past it, in a buffer that has room.
fn writer_calls(calls: &mut Calls) -> Check {
    let longest = LONGEST as u64;
    let words = [
        [0, 0, longest + 1, 0],
        [0, 1, longest, 0],
        [4, 0, 0, 0],
        [3, 0, 0, 0],
    ];
    let script = Script {
        words: words.concat(),
        atoms: vec![b'a'; LONGEST + 1],
        style: lines(),
        answers: vec![0; words.len()],
    };
    let buffer = vec![0; LONGEST + 2];
    for singly in [false, true] {
        let wrote = calls.write(&script, &buffer, singly, Edge::End);
        ensure(
            wrote.answers == [refused(22), 0, refused(22), longest],
            "write_calls at the longest text",
        )?;
        ensure(
            wrote.position == longest,
            "write_calls: the longest position",
        )?;
        ensure(
            wrote.buffer[LONGEST..] == [0, 0],
            "write_calls: the bytes past the longest text",
        )?;
    }
    Ok(())
}

pub fn lines() -> Style {
    Style {
        line_break: b"\n".to_vec(),
        indentation: b"  ".to_vec(),
    }
}
