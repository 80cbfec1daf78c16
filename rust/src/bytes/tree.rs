use super::{lent, Kind, Refusal, HOUSE_THRESHOLD, LONGEST, ONE_LINE};

/// How a tree is laid out as a text.
#[derive(Clone, Copy, Debug, PartialEq, Eq, Hash)]
pub struct Layout<'a> {
    /// What ends a line
    pub line_break: &'a [u8],
    /// What stands at a line's beginning, once for each list that is open there
    pub indentation: &'a [u8],
    /// An item goes to a new line where the line so far has so many bytes or more: 0 breaks every line, [`ONE_LINE`] none
    pub break_line_at: u64,
    /// Whether a line break stands at the end
    pub final_break: bool,
}

impl Layout<'static> {
    /// LF, two spaces, lines of 72 bytes, a final break.
    pub const HOUSE: Self = Self {
        line_break: b"\n",
        indentation: b"  ",
        break_line_at: HOUSE_THRESHOLD,
        final_break: true,
    };

    /// House style with another threshold.
    pub const fn house_at(break_line_at: u64) -> Self {
        Self {
            break_line_at,
            ..Self::HOUSE
        }
    }

    /// One line, with no break at its end.
    pub const LINE: Self = Self {
        break_line_at: ONE_LINE,
        final_break: false,
        ..Self::HOUSE
    };
}

/// How large a tree is as a text in some layout.
#[derive(Clone, Copy, Debug, PartialEq, Eq, Hash)]
pub struct Size {
    /// All bytes
    pub bytes: usize,
    /// The line breaks among them
    pub breaks: usize,
    /// The indentations among them
    pub indents: usize,
}

/// A text, and the table of its nodes, four words a node. Nothing recurses: lists may nest as deep as the text is long.
#[derive(Clone, Debug)]
pub struct Tree<'a> {
    text: &'a [u8],
    table: Vec<u32>,
}

impl<'a> Tree<'a> {
    /// Reads a whole text. Refused: 13; the first refusal in the text (1 to 8).
    pub fn parse(text: &'a [u8]) -> Result<Self, Refusal> {
        // A node has a byte of the text or more. Words that nothing is written to cost no memory.
        let words = if text.len() > LONGEST {
            0
        } else {
            4 * text.len()
        };
        let mut table = vec![0; words];
        let nodes = lent::parse_tree(text, &mut table)?;
        Ok(Self::read(text, table, nodes))
    }

    /// A text, and a table that was read from it.
    pub(super) fn read(text: &'a [u8], mut table: Vec<u32>, nodes: usize) -> Self {
        table.truncate(4 * nodes);
        table.shrink_to_fit();
        Self { text, table }
    }

    /// The text that the tree was read from.
    pub fn text(&self) -> &'a [u8] {
        self.text
    }

    /// The table, for the calls of [`lent`].
    pub fn table(&self) -> &[u32] {
        &self.table
    }

    /// How many nodes the tree has.
    pub fn nodes(&self) -> usize {
        self.table.len() / 4
    }

    /// The text's one node.
    pub fn root(&self) -> Node<'_> {
        Node {
            tree: self,
            index: 0,
        }
    }

    /// The node at an index, in the table's order: a list, then its children in order.
    pub fn node(&self, index: usize) -> Option<Node<'_>> {
        (index < self.nodes()).then_some(Node { tree: self, index })
    }

    /// The node at the end of a path from the root, each step a child's number from 0. It looks at the nodes on the way, and no others. Refused: 16.
    pub fn at(&self, path: &[u64]) -> Result<Node<'_>, Refusal> {
        let (index, _) = lent::find_path(&self.table, self.text, path)?;
        Ok(Node { tree: self, index })
    }
}

/// A node of a tree.
#[derive(Clone, Copy, Debug)]
pub struct Node<'t> {
    tree: &'t Tree<'t>,
    index: usize,
}

impl<'t> Node<'t> {
    fn words(&self) -> &'t [u32] {
        &self.tree.table[4 * self.index..][..4]
    }

    /// The text, and the node's own part of the table.
    pub(super) fn part(&self) -> (&'t [u8], &'t [u32]) {
        let words = &self.tree.table[4 * self.index..][..4 * self.nodes()];
        (self.tree.text, words)
    }

    /// The node's index in the table.
    pub fn index(&self) -> usize {
        self.index
    }

    /// How many nodes there are in it, with itself.
    pub fn nodes(&self) -> usize {
        self.words()[3] as usize
    }

    /// Whether it is a list.
    pub fn is_list(&self) -> bool {
        self.words()[0] == 0
    }

    /// The kind of an atom; `None` of a list.
    pub fn kind(&self) -> Option<Kind> {
        Kind::by_number(self.words()[0])
    }

    /// The place of an atom's first byte in the text; `None` of a list.
    pub fn place(&self) -> Option<usize> {
        (!self.is_list()).then_some(self.words()[1] as usize)
    }

    /// An atom's bytes; none of a list.
    pub fn bytes(&self) -> &'t [u8] {
        let words = self.words();
        match words[0] {
            0 => &[],
            _ => &self.tree.text[words[1] as usize..][..words[2] as usize],
        }
    }

    /// A list's children, in order; none of an atom.
    pub fn children(&self) -> Children<'t> {
        let left = if self.is_list() {
            self.words()[1] as usize
        } else {
            0
        };
        Children {
            tree: self.tree,
            next: self.index + 1,
            left,
        }
    }

    /// How large the node is as a text. Refused: 22, if that is more than [`LONGEST`] bytes.
    pub fn size(&self, layout: Layout) -> Result<Size, Refusal> {
        lent::measure_tree(
            layout,
            LONGEST,
            self.tree.text,
            &self.tree.table[4 * self.index..],
        )
    }

    /// The node as a text. Refused: 22, if that has more than [`LONGEST`] bytes.
    ///
    /// ```
    /// use sise::bytes::{Layout, Tree};
    ///
    /// let tree = Tree::parse(b"(x ; an axis\n (1 2))")?;
    /// assert_eq!(tree.root().write(Layout::HOUSE)?, b"(x (1 2))\n");
    /// assert_eq!(tree.root().write(Layout::house_at(0))?, b"(x\n  (1\n    2\n  )\n)\n");
    /// assert_eq!(tree.at(&[1])?.write(Layout::LINE)?, b"(1 2)");
    /// # Ok::<(), sise::bytes::Refusal>(())
    /// ```
    pub fn write(&self, layout: Layout) -> Result<Vec<u8>, Refusal> {
        let size = self.size(layout)?;
        let mut out = vec![0; size.bytes];
        lent::serialize_tree(
            layout,
            &mut out,
            self.tree.text,
            &self.tree.table[4 * self.index..],
        )?;
        Ok(out)
    }

    /// The node as a text, if that still has the size that [`Node::size`] answered, which a user may have seen and agreed to. Refused: 22; 23, if it has
    /// another, as in another layout.
    ///
    /// ```
    /// use sise::bytes::{Layout, Reason, Tree};
    ///
    /// let tree = Tree::parse(b"(x (1 2))")?;
    /// let size = tree.root().size(Layout::HOUSE)?;
    /// assert_eq!((size.bytes, size.breaks, size.indents), (10, 1, 0));
    /// assert_eq!(tree.root().commit(Layout::HOUSE, size)?, b"(x (1 2))\n");
    /// let refusal = tree.root().commit(Layout::house_at(0), size).unwrap_err();
    /// assert_eq!(refusal.reason, Reason::SizeChanged);
    /// # Ok::<(), sise::bytes::Refusal>(())
    /// ```
    pub fn commit(&self, layout: Layout, size: Size) -> Result<Vec<u8>, Refusal> {
        let mut out = vec![0; self.size(layout)?.bytes];
        let table = &self.tree.table[4 * self.index..];
        lent::commit_tree(layout, &mut out, self.tree.text, table, size)?;
        Ok(out)
    }
}

/// The children of a list, in order.
#[derive(Clone, Debug)]
pub struct Children<'t> {
    tree: &'t Tree<'t>,
    next: usize,
    left: usize,
}

impl<'t> Iterator for Children<'t> {
    type Item = Node<'t>;

    fn next(&mut self) -> Option<Node<'t>> {
        self.left = self.left.checked_sub(1)?;
        let node = Node {
            tree: self.tree,
            index: self.next,
        };
        self.next += node.nodes();
        Some(node)
    }

    fn size_hint(&self) -> (usize, Option<usize>) {
        (self.left, Some(self.left))
    }
}

impl ExactSizeIterator for Children<'_> {}
