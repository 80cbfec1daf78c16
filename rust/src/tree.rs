/// A node of a tree: an atom, or a list of nodes.
///
/// A tree of Rust values is dropped, copied, compared and printed by recursion, as in the crate
/// sise: some ten thousand lists in each other pass the stack of a thread. A
/// [`bytes::Tree`](crate::bytes::Tree) has no such limit.
#[derive(Clone, Debug, PartialEq, Eq, Hash)]
pub enum TreeNode {
    /// An atom: one or more of
    ///
    /// - a letter, a digit, or one of `! # $ % & * + - . / : < = > ? @ _ ~`;
    /// - a string: a `"`, any number of characters from space to `~`, and a `"`. A `"` or a `\`
    ///   stands in it only behind a `\`, and any other of its characters may.
    ///
    /// What an atom means is the program's own affair.
    Atom(String),

    /// A list of nodes
    List(Vec<TreeNode>),
}

impl TreeNode {
    /// Whether the node is an atom.
    #[inline]
    pub fn is_atom(&self) -> bool {
        matches!(self, Self::Atom(_))
    }

    /// Whether the node is a list.
    #[inline]
    pub fn is_list(&self) -> bool {
        matches!(self, Self::List(_))
    }

    /// The atom's own string, if the node is an atom.
    #[inline]
    pub fn into_atom(self) -> Option<String> {
        match self {
            Self::Atom(atom) => Some(atom),
            Self::List(_) => None,
        }
    }

    /// The list's own nodes, if the node is a list.
    #[inline]
    pub fn into_list(self) -> Option<Vec<Self>> {
        match self {
            Self::Atom(_) => None,
            Self::List(list) => Some(list),
        }
    }

    /// The atom's string, if the node is an atom.
    #[inline]
    pub fn as_atom(&self) -> Option<&String> {
        match self {
            Self::Atom(atom) => Some(atom),
            Self::List(_) => None,
        }
    }

    /// The list's nodes, if the node is a list.
    #[inline]
    pub fn as_list(&self) -> Option<&Vec<Self>> {
        match self {
            Self::Atom(_) => None,
            Self::List(list) => Some(list),
        }
    }

    /// The atom's string, to be changed, if the node is an atom.
    #[inline]
    pub fn as_mut_atom(&mut self) -> Option<&mut String> {
        match self {
            Self::Atom(atom) => Some(atom),
            Self::List(_) => None,
        }
    }

    /// The list's nodes, to be changed, if the node is a list.
    #[inline]
    pub fn as_mut_list(&mut self) -> Option<&mut Vec<Self>> {
        match self {
            Self::Atom(_) => None,
            Self::List(list) => Some(list),
        }
    }

    /// The node that a path leads to, each step a child's number from 0.
    ///
    /// It walks over Rust values; the proved lookups are those over tables, in
    /// [`bytes`](crate::bytes).
    ///
    /// # Example
    ///
    /// ```
    /// use sise::sise_tree;
    ///
    /// // (example (1 2 3) (a b c))
    /// let tree = sise_tree!(["example", ["1", "2", "3"], ["a", "b", "c"]]);
    /// assert_eq!(*tree.index_path(&[]).unwrap(), tree);
    /// assert_eq!(*tree.index_path(&[0]).unwrap(), "example");
    /// assert_eq!(*tree.index_path(&[1]).unwrap(), sise_tree!(["1", "2", "3"]));
    /// assert_eq!(tree.index_path(&[1, 0]).unwrap(), "1");
    /// assert_eq!(tree.index_path(&[2, 0]).unwrap(), "a");
    /// assert!(tree.index_path(&[3]).is_none());
    /// assert!(tree.index_path(&[0, 1]).is_none());
    /// ```
    pub fn index_path(&self, path: &[usize]) -> Option<&Self> {
        path.iter()
            .try_fold(self, |node, &index| node.as_list()?.get(index))
    }
}

impl PartialEq<str> for TreeNode {
    fn eq(&self, other: &str) -> bool {
        self.as_atom().is_some_and(|atom| atom == other)
    }
}

impl PartialEq<&str> for TreeNode {
    fn eq(&self, other: &&str) -> bool {
        *self == **other
    }
}

impl PartialEq<String> for TreeNode {
    fn eq(&self, other: &String) -> bool {
        *self == **other
    }
}

impl<'a> From<&'a str> for TreeNode {
    #[inline]
    fn from(atom: &'a str) -> Self {
        Self::Atom(String::from(atom))
    }
}

impl From<String> for TreeNode {
    #[inline]
    fn from(atom: String) -> Self {
        Self::Atom(atom)
    }
}

impl From<Vec<TreeNode>> for TreeNode {
    #[inline]
    fn from(list: Vec<Self>) -> Self {
        Self::List(list)
    }
}
