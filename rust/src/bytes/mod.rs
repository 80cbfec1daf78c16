//! The library's own face: texts as bytes, refusals by number and place, trees as tables.
//!
//! The crate's API beside this module takes texts in UTF-8 and panics where it is called out of turn. Here a text is any bytes, what is read or handed over is refused and never panics, and each
//! refusal has the number that docs/REFUSALS.md explains, with its place in the text, and from that its line and column.
//!
//! ```
//! use sise::bytes::{Layout, Reason, Tree};
//!
//! let text = b"(stage (axis x (limit -57.5 57.5)))";
//! let tree = Tree::parse(text)?;
//! assert_eq!(tree.at(&[1, 2, 1])?.bytes(), b"-57.5");
//! assert_eq!(tree.root().size(Layout::HOUSE)?.bytes, 36);
//!
//! let damaged = b"(stage\r\n  (limit -57.5 57,5))";
//! let refusal = Tree::parse(damaged).unwrap_err();
//! assert_eq!(refusal.reason, Reason::IllegalChr);
//! assert_eq!((refusal.number(), refusal.place, refusal.chr), (1, Some(25), Some(',')));
//! assert_eq!(refusal.position(damaged).unwrap().to_string(), "2:18");
//! # Ok::<(), sise::bytes::Refusal>(())
//! ```
//!
//! - [`Reader`] reads a text item by item, and goes on behind a fault; [`Writer`] writes one call by call.
//! - [`Tree`] is a text read into a table, and [`Node`] a node of it: looked up by a path, measured, written in a [`Layout`].
//! - [`lent`] has the library's calls on lent memory, for a program that wants to allocate nothing, or has tables of its own.

pub mod lent;
mod position;
mod reader;
mod refusal;
mod tree;
mod writer;

pub use position::Position;
pub use reader::{Item, Phase, Reader};
pub use refusal::{Reason, Refusal};
pub use tree::{Children, Layout, Node, Size, Tree};
pub use writer::Writer;

use crate::ffi;

/// The most bytes of a text that is read into a tree, and of a text that is written.
pub const LONGEST: usize = ffi::LONGEST as usize;

/// The threshold of the house style: a line that is so long or longer gets no further item.
pub const HOUSE_THRESHOLD: u64 = 72;

/// The largest threshold: no line is broken.
pub const ONE_LINE: u64 = u64::MAX;

/// What kind of atom some bytes are. Its number is the first word of such an atom in a table.
#[derive(Clone, Copy, Debug, PartialEq, Eq, Hash)]
pub enum Kind {
    /// No `"` is in it.
    Plain = 1,
    /// It is one whole string.
    String = 2,
    /// Any other atom.
    Mixed = 3,
}

impl Kind {
    /// Of an atom's bytes; `None` if they are no atom.
    ///
    /// ```
    /// use sise::bytes::Kind;
    ///
    /// assert_eq!(Kind::of(b"-57.5"), Some(Kind::Plain));
    /// assert_eq!(Kind::of(b"\"a b\""), Some(Kind::String));
    /// assert_eq!(Kind::of(b"\"a\"\"b\""), Some(Kind::Mixed));
    /// assert_eq!(Kind::of(b"a b"), None);
    /// ```
    pub fn of(atom: &[u8]) -> Option<Self> {
        Self::by_number(ffi::atom_kind(atom))
    }

    fn by_number(number: u32) -> Option<Self> {
        match number {
            1 => Some(Self::Plain),
            2 => Some(Self::String),
            3 => Some(Self::Mixed),
            _ => None,
        }
    }
}

/// Whether some bytes are an atom.
pub fn is_atom(bytes: &[u8]) -> bool {
    ffi::check_atom(bytes) == 0
}
