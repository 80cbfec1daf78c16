//! `sise_count_items`, `sise_parse_tree`, and beside them `sise_read_items` and the calls on a single atom.

use crate::answers::{ensure, only_first, refusal, refused, twice, Check};
use crate::calls::Calls;
use crate::forms;
use crate::forms::{held, Held};
use crate::items;
use crate::kinds;

/// A whole text's refusals; 12 comes only where a list start was read before.
const OF_TEXT: [u64; 8] = [1, 2, 3, 4, 5, 6, 7, 8];

/// Reads the text into tables of several lengths, and gives what the call left of this one.
pub fn check(calls: &mut Calls, text: &[u8], before: &[u32]) -> Check<Vec<u32>> {
    // "A text of n bytes has n nodes at most."
    let (whole, tree) = parsed(calls, text, &vec![0; 4 * text.len()])?;
    let count = twice(|edge| calls.count_items(text, edge))?;
    ensure(
        count <= text.len() as u64,
        "count_items: no more items than bytes",
    )?;
    items::check(calls, text, whole, count)?;
    let (answer, after) = parsed(calls, text, before)?;
    kinds::check_read(calls, text)?;
    if refusal(whole).is_some() {
        ensure(
            refusal(whole) != Some(14),
            "parse_tree: four words a byte are enough",
        )?;
        ensure(
            answer == whole,
            "parse_tree: a text's refusal whatever the table",
        )?;
        return Ok(after);
    }
    let tree = &tree[..4 * whole as usize];
    ensure(count == forms::items(tree), "count_items: the tree's items")?;
    let fits = tree.len() <= before.len();
    ensure(
        answer == if fits { whole } else { refused(14) },
        "parse_tree: 14 by the length alone",
    )?;
    ensure(
        !fits || after.starts_with(tree),
        "parse_tree: the same tree in any table",
    )?;
    kinds::check_tree(calls, text, tree)?;
    exact(calls, text, tree)?;
    Ok(after)
}

/// A table of the tree's length, and one a word shorter.
fn exact(calls: &mut Calls, text: &[u8], tree: &[u32]) -> Check {
    let mut before = vec![u32::MAX; tree.len()];
    let (_, full) = parsed(calls, text, &before)?;
    ensure(full == tree, "parse_tree: exactly full")?;
    before.pop();
    let (short, _) = parsed(calls, text, &before)?;
    ensure(short == refused(14), "parse_tree: one word short")
}

/// One call, and what holds after it.
fn parsed(calls: &mut Calls, text: &[u8], before: &[u32]) -> Check<(u64, Vec<u32>)> {
    let (reported, after) = twice(|edge| calls.parse_tree(text, before, edge))?;
    let answer = reported.answer(text.len())?;
    if let Some(number) = refusal(answer) {
        ensure(
            number == 14 || OF_TEXT.contains(&number),
            "parse_tree: a refusal of the text, or 14",
        )?;
        ensure(
            after == before,
            "parse_tree: refused, the words are as before",
        )?;
    } else {
        ensure(
            only_first(before, &after, 4 * answer),
            "parse_tree: the words past the tree are as before",
        )?;
        ensure(
            after.get(3).is_some_and(|&span| u64::from(span) == answer),
            "parse_tree: the nodes answered",
        )?;
        ensure(
            matches!(after[..], [1..=3, ..] | [0, _, 0, ..]),
            "parse_tree: 0 as the root's third word",
        )?;
        ensure(
            held(&after, text) == Held::Tree,
            "parse_tree: the table holds a tree of atoms",
        )?;
    }
    Ok((answer, after))
}
