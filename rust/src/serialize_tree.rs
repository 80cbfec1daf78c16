use crate::ffi::LONGEST;
use crate::{Serializer, TreeNode};

/// Writes a tree.
///
/// # Example
///
/// ```
/// use sise::sise_tree;
///
/// let tree = sise_tree!(["example", ["1", "2", "3"], ["a", "b", "c"]]);
///
/// let style = sise::SerializerStyle {
///     line_break: "\n",
///     indentation: " ",
/// };
///
/// let mut result = String::new();
/// let mut serializer = sise::Serializer::new(style, &mut result);
///
/// sise::serialize_tree(&mut serializer, &tree, usize::MAX);
/// // Don't forget to finish the serializer
/// serializer.finish(false);
///
/// let expected_result = "(example (1 2 3) (a b c))";
/// assert_eq!(result, expected_result);
/// ```
///
/// Where lines are broken, an atom that is a list's first child stays on the line of its `(`:
///
/// ```
/// use sise::sise_tree;
///
/// let tree = sise_tree!(["example", ["1", "2", "3"], ["a", "b", "c"]]);
///
/// let style = sise::SerializerStyle {
///     line_break: "\n",
///     indentation: " ",
/// };
///
/// let mut result = String::new();
/// let mut serializer = sise::Serializer::new(style, &mut result);
///
/// sise::serialize_tree(&mut serializer, &tree, 0);
/// // Don't forget to finish the serializer
/// serializer.finish(true);
///
/// let expected_result = "(example\n (1\n  2\n  3\n )\n (a\n  b\n  c\n )\n)\n";
/// assert_eq!(result, expected_result);
/// ```
///
/// The serializer is only borrowed, so a tree can be a part of what is written:
///
/// ```
/// use sise::sise_tree;
///
/// let tree = sise_tree!(["1", "2", "3"]);
///
/// let style = sise::SerializerStyle {
///     line_break: "\n",
///     indentation: " ",
/// };
///
/// let mut result = String::new();
/// let mut serializer = sise::Serializer::new(style, &mut result);
///
/// // Serialize the head
/// serializer.begin_list(usize::MAX);
/// serializer.put_atom("head", usize::MAX);
///
/// // Serialize the subtree
/// sise::serialize_tree(&mut serializer, &tree, usize::MAX);
///
/// // Serialize the tail
/// serializer.put_atom("tail", usize::MAX);
/// serializer.end_list();
/// serializer.finish(false);
///
/// let expected_result = "(head (1 2 3) tail)";
/// assert_eq!(result, expected_result);
/// ```
///
/// # Panics
///
/// As [`Serializer::put_atom`] and [`Serializer::begin_list`] do; what comes before in the tree
/// has been written then: a tree that is not written as a whole is written call by call.
pub fn serialize_tree(
    serializer: &mut Serializer<'_, '_>,
    root_node: &TreeNode,
    break_line_at: usize,
) {
    let root = match root_node {
        TreeNode::Atom(atom) => return serializer.put_atom(atom, break_line_at),
        TreeNode::List(list) => list,
    };
    let written = Table::of(root)
        .is_some_and(|table| serializer.put_tree(&table.text, &table.words, break_line_at));
    if !written {
        serialize_items(serializer, root, break_line_at);
    }
}

/// A tree as the library's calls take it: its atoms behind each other, and four words for each node, a list's children behind it.
#[derive(Default)]
struct Table {
    text: Vec<u8>,
    words: Vec<u32>,
}

impl Table {
    /// `None`, if the tree has more nodes or bytes than a text may have.
    fn of(root: &[TreeNode]) -> Option<Self> {
        let mut table = Self::default();
        // The children still to come of each list that is open, the innermost last, and the list's number.
        let mut open = vec![(root.iter(), table.begin_list(root.len(), 0))];
        while let Some((children, list)) = open.last_mut() {
            match children.next() {
                Some(TreeNode::Atom(atom)) => table.put_atom(atom.as_bytes()),
                Some(TreeNode::List(children)) => {
                    let begun = table.begin_list(children.len(), *list);
                    open.push((children.iter(), begun));
                }
                None => {
                    table.end_list(*list);
                    open.pop();
                }
            }
            if table.nodes().max(table.text.len()) > LONGEST as usize {
                return None;
            }
        }
        Some(table)
    }

    fn nodes(&self) -> usize {
        self.words.len() / 4
    }

    fn put_atom(&mut self, atom: &[u8]) {
        let place = self.text.len() as u32;
        self.words.extend([kind(atom), place, atom.len() as u32, 1]);
        self.text.extend_from_slice(atom);
    }

    /// The list's number, by the number of the one that it stands in.
    fn begin_list(&mut self, children: usize, outer: usize) -> usize {
        let list = self.nodes();
        self.words
            .extend([0, children as u32, (list - outer) as u32, 0]);
        list
    }

    fn end_list(&mut self, list: usize) {
        self.words[4 * list + 3] = (self.nodes() - list) as u32;
    }
}

/// Which atom the bytes are, if they are one: 1 plain, 2 one whole string, 3 any other. The library tests both.
fn kind(atom: &[u8]) -> u32 {
    if !atom.contains(&b'"') {
        return 1;
    }
    let [b'"', inside @ ..] = atom else {
        return 3;
    };
    let mut escaped = false;
    let end = inside.iter().position(|&byte| {
        let ends = byte == b'"' && !escaped;
        escaped = byte == b'\\' && !escaped;
        ends
    });
    match end {
        Some(end) if end + 1 == inside.len() => 2,
        _ => 3,
    }
}

/// The list, call by call, up to the call that is refused.
fn serialize_items(serializer: &mut Serializer<'_, '_>, root: &[TreeNode], break_line_at: usize) {
    serializer.begin_list(break_line_at);
    // The children still to come of each list that is open, the innermost last.
    let mut open = vec![root.iter()];
    let mut list_beginning = true;
    while let Some(children) = open.last_mut() {
        match children.next() {
            Some(TreeNode::Atom(atom)) => {
                let threshold = if list_beginning {
                    usize::MAX
                } else {
                    break_line_at
                };
                serializer.put_atom(atom, threshold);
                list_beginning = false;
            }
            Some(TreeNode::List(list)) => {
                serializer.begin_list(break_line_at);
                open.push(list.iter());
                list_beginning = true;
            }
            None => {
                serializer.end_list();
                open.pop();
                list_beginning = false;
            }
        }
    }
}
