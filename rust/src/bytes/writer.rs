use super::{Layout, Node, Refusal};
use crate::ffi::{Strings, Writing};

/// Writes a text call by call, behind what a vector holds. Each call answers the offset of what it wrote, from the text's first byte; a refused one leaves
/// the vector and the writer as they were.
///
/// ```
/// use sise::bytes::{Layout, Reason, Writer, ONE_LINE};
///
/// let mut out = b"; the x axis\n".to_vec();
/// let mut writer = Writer::new(Layout::HOUSE, &mut out);
/// writer.begin_list(ONE_LINE)?;
/// writer.put_atom(b"limit", ONE_LINE)?;
/// let refusal = writer.put_atom(b"57 5", ONE_LINE).unwrap_err();
/// assert_eq!(refusal.reason, Reason::InvalidAtom);
/// assert_eq!(writer.put_atom(b"57.5", ONE_LINE), Ok(7));
/// writer.end_list()?;
/// writer.finish(true)?;
/// assert_eq!(writer.counts(), (1, 1, 0));
/// assert_eq!(out, b"; the x axis\n(limit 57.5)\n");
/// # Ok::<(), sise::bytes::Refusal>(())
/// ```
pub struct Writer<'a, 'b> {
    writing: Writing<'a, 'b, Vec<u8>>,
}

impl<'a, 'b> Writer<'a, 'b> {
    /// A writer with the two strings of a layout. Where lines are broken and whether there is a final break is said at each call.
    pub fn new(layout: Layout<'a>, out: &'b mut Vec<u8>) -> Self {
        let Layout {
            line_break,
            indentation,
            ..
        } = layout;
        let strings = Strings {
            line_break,
            indentation,
        };
        Self {
            writing: Writing::<Vec<u8>>::new(strings, out),
        }
    }

    /// Writes an atom, on a new line if the line so far has `break_line_at` bytes or more. Refused: 17, 19, 22.
    pub fn put_atom(&mut self, atom: &[u8], break_line_at: u64) -> Result<usize, Refusal> {
        answered(self.writing.put_atom(atom, break_line_at))
    }

    /// Writes a list's `(`, on a new line if the line so far has `break_line_at` bytes or more. Refused: 19, 22.
    pub fn begin_list(&mut self, break_line_at: u64) -> Result<usize, Refusal> {
        answered(self.writing.begin_list(break_line_at))
    }

    /// Writes a list's `)`, on a new line if a line was broken in the list. Refused: 18 or 19, 22.
    pub fn end_list(&mut self) -> Result<usize, Refusal> {
        answered(self.writing.end_list())
    }

    /// Writes a node of a tree, with all that is in it, and answers the offset of its first item. The first child of each list, if an atom, stays on the line of
    /// its `(`; every other item goes to a new line if the line so far has `break_line_at` bytes or more. It is written whole or not at all. Refused: 19, 22.
    ///
    /// ```
    /// use sise::bytes::{Layout, Tree, Writer, ONE_LINE};
    ///
    /// let tree = Tree::parse(b"(limits (x -57.5 57.5) (y 0 12))")?;
    /// let mut out = Vec::new();
    /// let mut writer = Writer::new(Layout::HOUSE, &mut out);
    /// writer.begin_list(ONE_LINE)?;
    /// assert_eq!(writer.put_tree(tree.at(&[2])?, ONE_LINE), Ok(1));
    /// assert_eq!(writer.put_tree(tree.at(&[1, 0])?, 8), Ok(12));
    /// writer.end_list()?;
    /// writer.finish(true)?;
    /// assert_eq!(out, b"((y 0 12)\n  x\n)\n");
    /// # Ok::<(), sise::bytes::Refusal>(())
    /// ```
    pub fn put_tree(&mut self, node: Node, break_line_at: u64) -> Result<usize, Refusal> {
        let (text, table) = node.part();
        answered(self.writing.put_tree(text, table, break_line_at))
    }

    /// Ends the text, and answers its length. Refused: 20 or 19, 22.
    pub fn finish(&mut self, final_break: bool) -> Result<usize, Refusal> {
        answered(self.writing.finish(final_break))
    }

    /// How many bytes have been written.
    pub fn len(&self) -> usize {
        self.writing.record()[0] as usize
    }

    /// Whether nothing has been written.
    pub fn is_empty(&self) -> bool {
        self.len() == 0
    }

    /// How many lists are open.
    pub fn open(&self) -> usize {
        self.writing.record()[2] as usize
    }

    /// How many spaces, line breaks and indentations have been written.
    pub fn counts(&self) -> (usize, usize, usize) {
        let [.., spaces, breaks, indents] = *self.writing.record();
        (spaces as usize, breaks as usize, indents as usize)
    }
}

fn answered(answer: Result<u64, u32>) -> Result<usize, Refusal> {
    answer
        .map(|offset| offset as usize)
        .map_err(|number| Refusal::new(number, [0; 2]))
}
