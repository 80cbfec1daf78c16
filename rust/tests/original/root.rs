// A root for the six files of the crate sise 0.8.0, which are taken unchanged from SISE_SRC. The crate's own root, where its macro stands, is not at hand.

extern crate alloc;

/// Not every program calls all of it.
#[allow(dead_code)]
mod util {
    include!(concat!(env!("SISE_SRC"), "/util.rs"));
}

mod parser {
    include!(concat!(env!("SISE_SRC"), "/parser.rs"));
}

mod serializer {
    include!(concat!(env!("SISE_SRC"), "/serializer.rs"));
}

mod parse_tree {
    include!(concat!(env!("SISE_SRC"), "/parse_tree.rs"));
}

mod serialize_tree {
    include!(concat!(env!("SISE_SRC"), "/serialize_tree.rs"));
}

#[allow(dead_code)]
mod tree {
    include!(concat!(env!("SISE_SRC"), "/tree.rs"));
}

pub use parse_tree::parse_tree;
pub use parser::{ParseError, ParsedItem, Parser};
pub use serialize_tree::serialize_tree;
pub use serializer::{Serializer, SerializerStyle};
pub use tree::TreeNode;
pub use util::{check_atom, is_atom_chr, is_atom_string_chr};
