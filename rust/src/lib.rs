//! SISE profiles, proved: the API of the crate sise 0.8.0 over Dutakeri's library, in which every call is proved against its contract.
//!
//! A profile is a text of nested lists, as `(stage (axis x (limit -57.5 57.5)))`. A program that uses the crate sise 0.8.0 compiles against this package
//! unchanged. Reading, writing and the check of an atom are calls of the proved library, one for each call of the API, also where a whole tree is read or
//! written; the trees of Rust values ([`TreeNode`], [`sise_tree!`]) are Rust. docs/DIFFERENCES.md of the repository has the few differences.
//!
//! ```
//! use sise::{parse_tree, serialize_tree, Parser, Serializer, SerializerStyle};
//!
//! let mut parser = Parser::new("(stage (axis x (limit -57.5 57.5)))");
//! let tree = parse_tree(&mut parser)?;
//! parser.finish()?;
//! assert_eq!(tree.index_path(&[1, 2, 1]).unwrap(), "-57.5");
//!
//! let mut text = String::new();
//! let style = SerializerStyle { line_break: "\n", indentation: "  " };
//! let mut serializer = Serializer::new(style, &mut text);
//! serialize_tree(&mut serializer, &tree, 20);
//! serializer.finish(true);
//! assert_eq!(text, "(stage (axis x (limit\n      -57.5 57.5\n    )\n  )\n)\n");
//! # Ok::<(), sise::ParseError>(())
//! ```
//!
//! New programs may prefer [`bytes`], the library's own face: texts of any bytes, refusals with number, line and column, trees without a limit of depth,
//! sizes before anything is written.

#![warn(missing_docs)]

pub mod bytes;
mod ffi;
#[macro_use]
mod macros;
mod parse_tree;
mod parser;
mod serialize_tree;
mod serializer;
mod tree;
mod util;

pub use parse_tree::parse_tree;
pub use parser::{ParseError, ParsedItem, Parser};
pub use serialize_tree::serialize_tree;
pub use serializer::{Serializer, SerializerStyle};
pub use tree::TreeNode;
pub use util::{check_atom, is_atom_chr, is_atom_string_chr};

/// The README's program in Rust, run with the documentation's examples.
#[cfg(doctest)]
#[doc = include_str!("../../README.md")]
struct Readme;
