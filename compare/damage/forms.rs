//! What a table holds, by document 01's rules, request 2.6's for the third word of a list and request 2.3's for the first word of an atom; and which nodes
//! of it a lookup looks at.

use crate::atoms::{is_atom, may_be};

#[derive(Clone, Copy, PartialEq)]
pub enum Held {
    Tree,
    /// A tree, but some of what it calls an atom is none.
    NoAtom,
    NotATree,
}

pub fn held(table: &[u32], text: &[u8]) -> Held {
    let Some(rest) = behind(table, None, text) else {
        return Held::NotATree;
    };
    let tree = &table[..table.len() - rest.len()];
    let mut atoms = tree.chunks_exact(4).filter(|node| node[0] != 0);
    if atoms.all(|node| bytes(node[1], node[2], text).is_some_and(is_atom)) {
        Held::Tree
    } else {
        Held::NoAtom
    }
}

/// The words behind the first node, if it and its children have the forms and the children fill its span. Its parent, if any, lies `back` nodes before it.
fn behind<'a>(table: &'a [u32], back: Option<usize>, text: &[u8]) -> Option<&'a [u32]> {
    let &[kind, first, second, nodes] = table.first_chunk::<4>()?;
    let (span, rest) = table.split_at_checked(4 * nodes as usize)?;
    match (kind, second, nodes) {
        (0, third, 1..) if back.is_none_or(|back| back == third as usize) => {
            let mut row = &span[4..];
            for _ in 0..first {
                let back = (span.len() - row.len()) / 4;
                row = behind(row, Some(back), text)?;
            }
            row.is_empty().then_some(rest)
        }
        (1.., len, 1) => may_be(kind, bytes(first, len, text)?).then_some(rest),
        _ => None,
    }
}

/// So many bytes of the text from a place on.
pub fn bytes(place: u32, len: u32, text: &[u8]) -> Option<&[u8]> {
    text.get(place as usize..place as usize + len as usize)
}

/// The items of the nodes: one for an atom, two for a list.
pub fn items(tree: &[u32]) -> u64 {
    tree.chunks(4)
        .map(|node| if node[0] == 0 { 2 } else { 1 })
        .sum()
}

/// The index of the node that a path leads to.
pub fn node_at(tree: &[u32], path: &[u64]) -> Option<u64> {
    let mut node = 0;
    for &step in path {
        if tree[4 * node] != 0 || step >= u64::from(tree[4 * node + 1]) {
            return None;
        }
        node += 1;
        for _ in 0..step {
            node += tree[4 * node + 3] as usize;
        }
    }
    Some(node as u64)
}

/// How the lookup of request 2.8 goes along a path, by the words as they stand: the nodes that it looks at, in order, and 0 or the number of its refusal.
pub fn way(table: &[u32], path: &[u64]) -> (Vec<usize>, u32) {
    let mut looked = Vec::new();
    let mut node = 0;
    let mut steps = path.iter();
    let mut passed = 0;
    loop {
        let Some(words) = table[(4 * node).min(table.len())..].first_chunk::<4>() else {
            return (looked, 15);
        };
        looked.push(node);
        if passed > 0 {
            if words[3] == 0 {
                return (looked, 15);
            }
            passed -= 1;
            node += words[3] as usize;
            continue;
        }
        let Some(&step) = steps.next() else {
            return (looked, 0);
        };
        if words[0] != 0 || step >= u64::from(words[1]) {
            return (looked, 16);
        }
        passed = step;
        node += 1;
    }
}
