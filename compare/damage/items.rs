//! `sise_read_items`, and the items written again.

use crate::answers::{ensure, only_first, refusal, refused, twice, Check};
use crate::calls::{Calls, Script};
use crate::guard::Edge;
use crate::limits::lines;
use crate::singly;

/// Reads the items into words of several lengths. `parsed` is what parse_tree answers of the text, `count` how many items count_items gives.
pub fn check(calls: &mut Calls, text: &[u8], parsed: u64, count: u64) -> Check {
    // "A text of n bytes has at most n items."
    let (whole, words) = read(calls, text, &vec![u64::MAX; 4 * text.len()])?;
    if refusal(parsed).is_some() {
        ensure(
            whole == parsed,
            "read_items: the same refusal as parse_tree's",
        )?;
        return singly::check_reading(calls, text, whole, &[]);
    }
    ensure(whole == count, "read_items: as many items as count_items")?;
    let words = &words[..4 * whole as usize];
    in_order(text, words)?;
    singly::check_reading(calls, text, whole, words)?;
    let (short, _) = read(calls, text, &words[1..])?;
    ensure(short == refused(14), "read_items: one word short")?;
    let (full, same) = read(calls, text, words)?;
    ensure(full == whole && same == words, "read_items: exactly full")?;
    written(calls, text, words)
}

/// One call, and what holds after it.
fn read(calls: &mut Calls, text: &[u8], before: &[u64]) -> Check<(u64, Vec<u64>)> {
    let (reported, after) = twice(|edge| calls.read_items(text, before, edge))?;
    let answer = reported.answer(text.len())?;
    let written = if refusal(answer).is_some() {
        0
    } else {
        4 * answer
    };
    ensure(
        only_first(before, &after, written),
        "read_items: the words past the items are as before",
    )?;
    Ok((answer, after))
}

/// Each item stands behind the last, an atom with its bytes, a list start at a `(`, a list end at a `)`.
fn in_order(text: &[u8], words: &[u64]) -> Check {
    let mut end = 0;
    for item in words.chunks_exact(4) {
        let (place, len) = (item[1] as usize, item[2] as usize);
        let good = match (item[0], text.get(place)) {
            (0, Some(_)) => len > 0 && place + len <= text.len(),
            (1, Some(b'(')) | (2, Some(b')')) => len == 0,
            _ => false,
        };
        ensure(
            good && place >= end && item[3] == 0,
            "read_items: an item's words",
        )?;
        end = place + len.max(1);
    }
    Ok(())
}

/// Up to this length a text's items are written again with indentations; for a longer one they could pass every limit.
const LONGEST_INDENTED: usize = 400;

/// The items, written again, read as the same kinds.
fn written(calls: &mut Calls, text: &[u8], words: &[u64]) -> Check {
    let mut style = lines();
    if text.len() > LONGEST_INDENTED {
        style.indentation.clear();
    }
    // An item is a byte of the text or more, and no more lists are open than there are items.
    let room = text.len() * (style.indentation.len() * text.len() + 2) + 1;
    let script = Script {
        words: [words, &[4, 0, 0, 0]].concat(),
        atoms: text.to_vec(),
        style,
        answers: vec![0; words.len() / 4 + 1],
    };
    let wrote = calls.write(&script, &vec![0; room], false, Edge::End);
    ensure(
        wrote.answers.iter().all(|&word| refusal(word).is_none()),
        "read_items: its words are accepted by write_calls",
    )?;
    let again = &wrote.buffer[..wrote.position as usize];
    let (_, reread) = read(calls, again, words)?;
    let kinds = |words: &[u64]| words.iter().copied().step_by(4).collect::<Vec<_>>();
    ensure(
        kinds(&reread) == kinds(words),
        "read_items: the items written again",
    )
}
