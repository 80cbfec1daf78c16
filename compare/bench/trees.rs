//! Trees: the same text by the library's tree calls and by the crate's.

use crate::exported::{
    sise_commit_tree, sise_find_path, sise_index_path, sise_measure_tree, sise_parse_tree,
    sise_serialize_tree,
};
use crate::parse_tree::parse_tree;
use crate::serialize_tree::serialize_tree;
use crate::serializer::Serializer;
use crate::writing::STYLE;
use crate::{Parser, TreeNode};

/// A text's tree on both sides, and the memory that they write into.
pub struct Trees<'a> {
    text: &'a str,
    table: Vec<u32>,
    tree: TreeNode,
    buffer: Vec<u8>,
    out: String,
}

impl<'a> Trees<'a> {
    pub fn new(text: &'a str) -> Self {
        let mut trees = Self {
            text,
            // A node is a byte of the text or more.
            table: vec![0; 4 * text.len()],
            tree: TreeNode::List(Vec::new()),
            buffer: vec![0; 3 * text.len() + 64],
            out: String::with_capacity(3 * text.len() + 64),
        };
        trees.tree = trees.parse_by_crate();
        let nodes = trees.parse_by_library();
        assert_eq!(nodes, size(&trees.tree));
        trees
    }

    pub fn parse_by_library(&mut self) -> u64 {
        let (text, table) = (self.text, &mut self.table);
        // Here and below, what is lent outlives the call, and nobody else borrows what it writes.
        answered(|values| unsafe {
            sise_parse_tree(
                text.as_ptr(),
                text.len(),
                table.as_mut_ptr(),
                table.len(),
                values,
            )
        })
    }

    pub fn parse_by_crate(&self) -> TreeNode {
        parse_tree(&mut Parser::new(self.text)).expect("a good text")
    }

    pub fn write_by_library(&mut self, threshold: usize) -> u64 {
        answered(|values| unsafe {
            sise_serialize_tree(
                STYLE.line_break.as_ptr(),
                STYLE.line_break.len(),
                STYLE.indentation.as_ptr(),
                STYLE.indentation.len(),
                self.buffer.as_mut_ptr(),
                self.buffer.len(),
                self.text.as_ptr(),
                self.text.len(),
                self.table.as_ptr(),
                self.table.len(),
                threshold as u64,
                false,
                values,
            )
        })
    }

    /// Bytes, line breaks and indentations.
    pub fn measure_by_library(&self, threshold: usize) -> [u64; 3] {
        let mut size = [0; 3];
        let number = unsafe {
            sise_measure_tree(
                STYLE.line_break.as_ptr(),
                STYLE.line_break.len(),
                STYLE.indentation.as_ptr(),
                STYLE.indentation.len(),
                self.buffer.len(),
                self.text.as_ptr(),
                self.text.len(),
                self.table.as_ptr(),
                self.table.len(),
                threshold as u64,
                false,
                size.as_mut_ptr(),
            )
        };
        assert_eq!(number, 0);
        size
    }

    /// Size first, then the text.
    pub fn commit_by_library(&mut self, threshold: usize) -> u64 {
        let size = self.measure_by_library(threshold);
        answered(|values| unsafe {
            sise_commit_tree(
                STYLE.line_break.as_ptr(),
                STYLE.line_break.len(),
                STYLE.indentation.as_ptr(),
                STYLE.indentation.len(),
                self.buffer.as_mut_ptr(),
                self.buffer.len(),
                self.text.as_ptr(),
                self.text.len(),
                self.table.as_ptr(),
                self.table.len(),
                threshold as u64,
                false,
                size.as_ptr(),
                values,
            )
        })
    }

    pub fn write_by_crate(&mut self, threshold: usize) -> u64 {
        self.out.clear();
        let mut serializer = Serializer::new(STYLE, &mut self.out);
        serialize_tree(&mut serializer, &self.tree, threshold);
        serializer.finish(false);
        self.out.len() as u64
    }

    /// Both sides write the same text.
    pub fn agree(&mut self, threshold: usize) -> bool {
        let n = self.write_by_library(threshold) as usize;
        self.write_by_crate(threshold);
        self.buffer.get(..n) == Some(self.out.as_bytes())
    }

    pub fn index_by_library(&self, path: &[u64]) -> u64 {
        let (table, text) = (&self.table, self.text);
        answered(|values| unsafe {
            sise_index_path(
                table.as_ptr(),
                table.len(),
                text.as_ptr(),
                text.len(),
                path.as_ptr(),
                path.len(),
                values,
            )
        })
    }

    /// The lookup that does not test the table.
    pub fn find_by_library(&self, path: &[u64]) -> u64 {
        let (table, text) = (&self.table, self.text);
        answered(|values| unsafe {
            sise_find_path(
                table.as_ptr(),
                table.len(),
                text.as_ptr(),
                text.len(),
                path.as_ptr(),
                path.len(),
                values,
            )
        })
    }

    pub fn index_by_crate(&self, path: &[usize]) -> Option<&TreeNode> {
        self.tree.index_path(path)
    }
}

/// What a call answers that is not refused.
fn answered(call: impl FnOnce(*mut u64) -> u32) -> u64 {
    let mut values = [0; 2];
    assert_eq!(call(values.as_mut_ptr()), 0);
    values[0]
}

fn size(tree: &TreeNode) -> u64 {
    match tree {
        TreeNode::Atom(_) => 1,
        TreeNode::List(children) => 1 + children.iter().map(size).sum::<u64>(),
    }
}
