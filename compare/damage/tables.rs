//! Tables: good ones, good ones that were changed, and words of no meaning.

use crate::atoms::{is_atom, kind};
use crate::calls::Calls;
use crate::forms::bytes;
use crate::guard::Edge;
use crate::numbers::hostile;
use crate::random::Random;

/// A table for the text, whatever the text is.
pub fn table(random: &mut Random, calls: &mut Calls, text: &[u8]) -> Vec<u32> {
    match random.below(6) {
        0 => words(random, text.len()),
        1 => nodes(random, text),
        _ => {
            let mut table = good(calls, text);
            for _ in 0..random.pick(&[0, 0, 1, 1, 2, 3]) {
                change(random, &mut table, text);
            }
            table
        }
    }
}

/// The text's own table; the words that no node filled are 0.
fn good(calls: &mut Calls, text: &[u8]) -> Vec<u32> {
    let (reported, mut table) = calls.parse_tree(text, &vec![0; 4 * text.len()], Edge::End);
    if reported.number == 0 {
        table.truncate(4 * reported.values[0] as usize);
    }
    table
}

pub fn words(random: &mut Random, near: usize) -> Vec<u32> {
    let longest = random.pick(&[8, 40, 4 * near + 8]);
    (0..random.below(longest))
        .map(|_| hostile(random, near) as u32)
        .collect()
}

/// Nodes that have a form, or an atom's with another first word, with counts, ways back and spans that overlap, stop short or run past the end.
fn nodes(random: &mut Random, text: &[u8]) -> Vec<u32> {
    let mut table = Vec::new();
    for _ in 0..random.below(9) {
        if random.percent(50) {
            let (children, back, span) = (random.below(4), random.below(4), random.below(6));
            table.extend([0, children as u32, back as u32, span as u32]);
        } else {
            let place = random.below(text.len() + 2) as u32;
            let len = random.below(text.len() + 2 - place as usize) as u32;
            table.extend([first_word(random, bytes(place, len, text)), place, len, 1]);
        }
    }
    table
}

/// An atom's first word: most often its kind, and one of the three where the bytes are no atom.
fn first_word(random: &mut Random, bytes: Option<&[u8]>) -> u32 {
    match bytes {
        _ if random.percent(10) => hostile(random, 4) as u32,
        _ if random.percent(20) => random.below(6) as u32,
        Some(atom) if is_atom(atom) => kind(atom),
        _ => random.pick(&[1, 2, 3]),
    }
}

/// One change to some words.
fn change(random: &mut Random, table: &mut Vec<u32>, text: &[u8]) {
    if table.is_empty() {
        table.push(random.below(3) as u32);
        return;
    }
    let at = random.below(table.len());
    // A node's beginning, so that forms stay as they are.
    let node = at / 4 * 4;
    let to = table.len().min(node + 4 * (1 + random.below(3)));
    match random.below(17) {
        0 => table[at] = hostile(random, text.len()) as u32,
        1 => table[at] = hostile(random, table.len() / 4) as u32,
        2 => table[at] = table[at].wrapping_add(1),
        3 => table[at] = table[at].wrapping_sub(1),
        4 => table.truncate(at),
        5 => {
            table.remove(at);
        }
        6 => {
            let copy = table[node..to].to_vec();
            table.splice(node..node, copy);
        }
        7 => {
            table.drain(node..to);
        }
        8 => table[node..to].rotate_left((to - node).min(4)),
        // The part of the table from a node.
        9 => {
            table.drain(..node);
        }
        10..=11 => turn_back(random, table, node),
        12..=13 => table[node] = random.below(6) as u32,
        14 => table[node] = hostile(random, 4) as u32,
        _ => move_atom(random, &mut table[node..to], text),
    }
}

/// The node, if it is a list, gets another way back to its parent.
fn turn_back(random: &mut Random, table: &mut [u32], node: usize) {
    let hostile = hostile(random, node / 4) as u32;
    if let [0, _, third, ..] = &mut table[node..] {
        *third = random.pick(&[0, 1, third.wrapping_add(1), third.wrapping_sub(1), hostile]);
    }
}

/// The first node, if it is an atom, becomes another part of the text.
fn move_atom(random: &mut Random, nodes: &mut [u32], text: &[u8]) {
    if let [kind @ 1..=3, place, len, ..] = nodes {
        *place = random.below(text.len() + 1) as u32;
        let longest = text.len() - *place as usize;
        let longest = random.pick(&[longest, longest.min(3)]);
        *len = random.below(longest + 1) as u32;
        *kind = first_word(random, bytes(*place, *len, text));
    }
}
