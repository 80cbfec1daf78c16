//! Document 01's rules for trees and their tables, as they stand there ("Trees", and the tree calls' order of refusals), with a list's third word as
//! request 2.6 has it, an atom's first word as request 2.3 has it, and the lookup of request 2.8.

use crate::atoms::{is_atom, kind, may_be};
use crate::reading::{Item, Reader, Record, Refusal};
use crate::writer_model::{Model, Phase};
use crate::writing::{Call, Style};

#[derive(Debug, PartialEq, Eq)]
pub enum Node {
    Atom { kind: u32, place: usize, len: usize },
    List(Vec<Node>),
}

impl Node {
    /// The nodes in it with itself.
    pub fn size(&self) -> usize {
        match self {
            Node::Atom { .. } => 1,
            Node::List(children) => 1 + children.iter().map(Node::size).sum::<usize>(),
        }
    }

    /// Its words, behind those of its parent and of the nodes between: a list's third is the distance in nodes back to its parent, 0 at the root.
    fn put_words(&self, back: usize, out: &mut Vec<u32>) {
        let word = |number: usize| u32::try_from(number).expect("a short text");
        match self {
            Node::Atom { kind, place, len } => out.extend([*kind, word(*place), word(*len), 1]),
            Node::List(children) => {
                out.extend([0, word(children.len()), word(back), word(self.size())]);
                let mut back = 1;
                for child in children {
                    child.put_words(back, out);
                    back += child.size();
                }
            }
        }
    }

    /// Whether each atom of it is one.
    fn atoms_hold(&self, text: &[u8]) -> bool {
        match self {
            Node::Atom { place, len, .. } => is_atom(&text[*place..*place + *len]),
            Node::List(children) => children.iter().all(|child| child.atoms_hold(text)),
        }
    }
}

/// What `parse_tree` gives, and leaves of the table.
pub struct Parsed {
    /// The node, or the text's refusal.
    pub node: Result<Node, Refusal>,
    pub answer: Result<usize, Refusal>,
    /// After the node, and after the call, which 14 leaves as it was.
    pub read: Record,
    pub left: Record,
}

/// `parse_tree` from the reader's state on, into a table.
pub fn parse_tree<'a>(reader: &mut impl Reader<'a>, table: &mut [u32]) -> Parsed {
    let before = reader.record();
    let node = read_node(reader);
    let read = reader.record();
    let mut left = read;
    let answer = match &node {
        Err(refusal) => Err(*refusal),
        Ok(node) if node.size() > table.len() / 4 => {
            left = before;
            Err(Refusal::bare(14))
        }
        Ok(node) => {
            let mut words = Vec::new();
            node.put_words(0, &mut words);
            table[..words.len()].copy_from_slice(&words);
            Ok(node.size())
        }
    };
    Parsed {
        node,
        answer,
        read,
        left,
    }
}

/// The node that is due, item after item.
pub fn read_node<'a>(reader: &mut impl Reader<'a>) -> Result<Node, Refusal> {
    let mut open: Vec<Vec<Node>> = Vec::new();
    loop {
        let node = match reader.next_item()? {
            Item::ListStart(_) => {
                open.push(Vec::new());
                continue;
            }
            Item::Atom(place, bytes) => Node::Atom {
                kind: kind(bytes),
                place,
                len: bytes.len(),
            },
            Item::ListEnd(place) => match open.pop() {
                None => return Err(Refusal::at(12, place)),
                Some(children) => Node::List(children),
            },
        };
        match open.last_mut() {
            None => return Ok(node),
            Some(children) => children.push(node),
        }
    }
}

/// The tree that a table holds over a text. The first node's third word isn't looked at, if it is a list.
pub fn held(words: &[u32], text: &[u8]) -> Option<Node> {
    node_at(words, 0, None, words.len() / 4, text)
}

/// Node `at`, whose nodes end before node `end` or with it, and whose parent, if it is a list, lies `back` nodes before it.
fn node_at(words: &[u32], at: usize, back: Option<usize>, end: usize, text: &[u8]) -> Option<Node> {
    let word = |k: usize| words.get(4 * at + k).map(|&word| word as usize);
    let span = word(3)?;
    if span > end.checked_sub(at)? {
        return None;
    }
    let kind = *words.get(4 * at)?;
    match (kind, word(1)?, word(2)?, span) {
        (1.., place, len, 1) => {
            let bytes = text.get(place..place + len)?;
            may_be(kind, bytes).then_some(Node::Atom { kind, place, len })
        }
        (0, count, third, 1..) if back.is_none_or(|back| back == third) => {
            let mut children = Vec::new();
            let mut next = at + 1;
            for _ in 0..count {
                let child = node_at(words, next, Some(next - at), at + span, text)?;
                next += child.size();
                children.push(child);
            }
            (next == at + span).then_some(Node::List(children))
        }
        _ => None,
    }
}

/// A tree's calls at the threshold. A list's first child, if an atom, gets the largest one.
fn put_calls(node: &Node, text: &[u8], threshold: u64, out: &mut Vec<Call>) {
    match node {
        Node::Atom { place, len, .. } => {
            let atom = text[*place..*place + *len].to_vec();
            out.push(Call::PutAtom(atom, threshold));
        }
        Node::List(children) => {
            out.push(Call::BeginList(threshold));
            for (number, child) in children.iter().enumerate() {
                let on_line = number == 0 && matches!(child, Node::Atom { .. });
                let threshold = if on_line { u64::MAX } else { threshold };
                put_calls(child, text, threshold, out);
            }
            out.push(Call::EndList);
        }
    }
}

/// The writer that the tree calls of a case begin with, and the calls that it accepted.
pub fn opened(style: Style, room: usize, lists: usize) -> (Model, Vec<Call>) {
    let mut model = Model::new(style, room);
    let mut accepted = Vec::new();
    for _ in 0..lists {
        for call in [
            Call::BeginList(u64::MAX),
            Call::PutAtom(b"h".to_vec(), u64::MAX),
        ] {
            if model.call(&call).is_ok() {
                accepted.push(call);
            }
        }
    }
    (model, accepted)
}

pub fn serialize_tree(
    model: &mut Model,
    tree: Option<&Node>,
    text: &[u8],
    threshold: u64,
) -> Result<usize, u8> {
    write_tree(model, tree, text, threshold, None)
}

/// Bytes, breaks and indents.
pub type Size = [usize; 3];

/// What the tree would add, or the refusal.
pub fn measure_tree(
    model: &Model,
    tree: Option<&Node>,
    text: &[u8],
    threshold: u64,
) -> Result<Size, u8> {
    let mut after = model.clone();
    serialize_tree(&mut after, tree, text, threshold)?;
    Ok([
        after.text.len() - model.text.len(),
        after.breaks - model.breaks,
        after.indents - model.indents,
    ])
}

/// As `serialize_tree`; 23, "after all of 01's checks", where `measure_tree` has another answer than the one given.
pub fn commit_tree(
    model: &mut Model,
    tree: Option<&Node>,
    text: &[u8],
    threshold: u64,
    given: Result<Size, u8>,
) -> Result<usize, u8> {
    let due = measure_tree(model, tree, text, threshold);
    if due.is_ok() && due != given {
        return Err(23);
    }
    serialize_tree(model, tree, text, threshold)
}

/// A whole text in house style at a threshold, with a final line break.
pub fn serialize_house_at(
    model: &mut Model,
    tree: Option<&Node>,
    text: &[u8],
    threshold: u64,
) -> Result<usize, u8> {
    write_tree(model, tree, text, threshold, Some(Call::Finish(true)))
}

/// 15, 17, 19, 22, "each over the whole node before the next". A refusal leaves the model as it was.
fn write_tree(
    model: &mut Model,
    tree: Option<&Node>,
    text: &[u8],
    threshold: u64,
    last: Option<Call>,
) -> Result<usize, u8> {
    let tree = tree.ok_or(15)?;
    if !tree.atoms_hold(text) {
        return Err(17);
    }
    if matches!(model.phase, Phase::Finished | Phase::Done) {
        return Err(19);
    }
    let mut calls = Vec::new();
    put_calls(tree, text, threshold, &mut calls);
    calls.extend(last);
    let mut after = model.clone();
    let offsets: Result<Vec<usize>, u8> = calls.iter().map(|call| after.call(call)).collect();
    let first = offsets?[0];
    *model = after;
    Ok(first)
}

/// The index of the node at the end of the path.
pub fn index_path(tree: Option<&Node>, path: &[u64]) -> Result<usize, u8> {
    let mut node = tree.ok_or(15)?;
    let mut index = 0;
    for &step in path {
        let Node::List(children) = node else {
            return Err(16);
        };
        let step = usize::try_from(step).map_err(|_| 16)?;
        node = children.get(step).ok_or(16)?;
        index += 1 + children[..step].iter().map(Node::size).sum::<usize>();
    }
    Ok(index)
}

/// The index of the node at the end of the path by the words as they stand, and the number of nodes looked at: the root, then at each list its children up
/// to the wanted one.
pub fn find_path(words: &[u32], path: &[u64]) -> Result<(usize, usize), u8> {
    let nodes: Vec<&[u32]> = words.chunks_exact(4).collect();
    let mut index = 0;
    let mut looked = vec![nodes.first().ok_or(15)?];
    for &step in path {
        if nodes[index][0] != 0 || step >= u64::from(nodes[index][1]) {
            return Err(16);
        }
        index += 1;
        looked.push(nodes.get(index).ok_or(15)?);
        for _ in 0..step {
            match nodes[index][3] {
                0 => return Err(15),
                span => index += span as usize,
            }
            looked.push(nodes.get(index).ok_or(15)?);
        }
    }
    Ok((index, looked.len()))
}
