//! A node read and a tree put over any words of a record: what the calls one by one give.

use crate::answers::{ensure, only_first, refused, twice, Check};
use crate::calls::{Call, Calls};
use crate::forms::{bytes, held, Held};
use crate::guard::Edge;
use crate::singly::{reader_is_sound, writer_is_sound};
use crate::tree::Tree;

/// The most bytes that the calls one by one copy.
const MOST_COPIED: usize = 200_000;

/// What reading a node comes to: its answer, and the record.
type Read = (u64, [u64; 3]);

/// Reads the node due into the table.
pub fn check_read(calls: &mut Calls, text: &[u8], words: [u64; 3], table: &[u32]) -> Check {
    let (reported, record, after) = twice(|edge| calls.next_tree(text, words, table, edge))?;
    let answer = reported.answer(text.len())?;
    if !reader_is_sound(words, text.len()) {
        return ensure(
            answer == refused(11) && record == words && after == table,
            "next_tree: 11, and nothing moves",
        );
    }
    let Some((due, end)) = by_items(calls, text, words)? else {
        return Ok(());
    };
    if due > (table.len() / 4) as u64 && due < refused(0) {
        return ensure(
            answer == refused(14) && record == words && after == table,
            "next_tree: 14, and nothing moves",
        );
    }
    ensure(
        (answer, record) == (due, end),
        "next_tree: the answer and the record of its items",
    )?;
    if due > refused(0) {
        return ensure(after == table, "next_tree: refused, the table is as before");
    }
    let tree = &after[..4 * due as usize];
    ensure(
        held(tree, text) == Held::Tree && u64::from(tree[3]) == due,
        "next_tree: a tree of so many nodes",
    )?;
    ensure(
        only_first(table, &after, 4 * due),
        "next_tree: the words behind the tree are as before",
    )
}

/// The same by next_item: the number of nodes, or the refusal. `None`, if that takes too long.
fn by_items(calls: &mut Calls, text: &[u8], words: [u64; 3]) -> Check<Option<Read>> {
    let (mut record, mut nodes, mut open) = (words, 0u64, 0u64);
    for _ in 0..=MOST_COPIED / (text.len() + 1) {
        let (number, [kind, ..], after) = calls.next_item(text, record, Edge::End);
        record = after;
        match (number, kind) {
            (0, 0) => nodes += 1,
            (0, 1) => {
                nodes += 1;
                open += 1;
            }
            (0, _) if open == 0 => return Ok(Some((refused(12), record))),
            (0, _) => open -= 1,
            (number, _) => return Ok(Some((refused(u64::from(number)), record))),
        }
        if open == 0 {
            return Ok(Some((nodes, record)));
        }
    }
    Ok(None)
}

/// Puts the tree of a table.
pub fn check_put(calls: &mut Calls, tree: &Tree, words: [u64; 9]) -> Check {
    let Tree {
        text,
        table,
        style,
        buffer,
        break_line_at,
        ..
    } = tree;
    let (reported, record, after) =
        twice(|edge| calls.put_tree(style, buffer, text, table, *break_line_at, words, edge))?;
    let answer = reported.answer(0)?;
    let due = match held(table, text) {
        _ if !writer_is_sound(words) => refused(11),
        Held::NotATree => refused(15),
        Held::NoAtom => refused(17),
        Held::Tree if words[1] > 1 => refused(19),
        Held::Tree => return check_written(calls, tree, words, (answer, record, after)),
    };
    ensure(answer == due, "put_tree: 11, 15, 17 or 19")?;
    ensure(
        record == words && after == *buffer,
        "put_tree: refused, record and buffer are as before",
    )
}

/// What a tree leaves that may be put: its answer, the record and the buffer.
fn check_written(
    calls: &mut Calls,
    tree: &Tree,
    words: [u64; 9],
    left: (u64, [u64; 9], Vec<u8>),
) -> Check {
    let made = made(tree);
    let style = &tree.style;
    let lent = tree.buffer.len() + style.line_break.len() + style.indentation.len();
    if made.len() * lent > MOST_COPIED {
        return Ok(());
    }
    let (mut offset, mut record, mut bytes) = (None, words, tree.buffer.clone());
    for call in &made {
        let reported;
        (reported, record, bytes) = calls.write_one(call, style, &bytes, record, Edge::End);
        if reported.number != 0 {
            return ensure(
                left == (refused(22), words, tree.buffer.clone()),
                "put_tree: 22 where one of its calls has no room",
            );
        }
        offset = offset.or(Some(reported.values[0]));
    }
    ensure(
        left == (offset.unwrap_or(0), record, bytes),
        "put_tree: the answer, the record and the bytes of its calls",
    )
}

/// The calls of a tree, one by one.
fn made(tree: &Tree) -> Vec<Call> {
    let mut calls = Vec::new();
    // How many children are still to come of each list that is open, the innermost last.
    let mut open = vec![1];
    let mut first = false;
    let nodes = tree.table.get(3).map_or(0, |&nodes| nodes as usize);
    for node in tree.table.chunks_exact(4).take(nodes) {
        while let Some(0) = open.last() {
            calls.push(Call::EndList);
            open.pop();
            first = false;
        }
        if let Some(left) = open.last_mut() {
            *left -= 1;
        }
        let given = tree.break_line_at;
        if node[0] == 0 {
            calls.push(Call::BeginList {
                break_line_at: given,
            });
            open.push(node[1]);
            first = true;
        } else {
            let atom = bytes(node[1], node[2], &tree.text).unwrap_or_default();
            calls.push(Call::PutAtom {
                atom: atom.to_vec(),
                break_line_at: if first { u64::MAX } else { given },
            });
            first = false;
        }
    }
    calls.extend(open.iter().skip(1).map(|_| Call::EndList));
    calls
}
