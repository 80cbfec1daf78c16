//! The crate sise 0.8.0 beside the proved library.
//!
//!     compare/run characters < crates/characters/stdin     what crates/characters has to print, by the crate and by Rust's own UTF-8 decoder
//!     compare/run reader [WORDS] [--replay PATH]           the program replay (default target/bin/replay) against the crate's Parser
//!     compare/run model [WORDS]                            document 01's rules, as model.rs has them, against the crate's Parser
//!     compare/run writer [WORDS] [--replay PATH]           replay against document 01's rules for the writer, and these against the crate's Serializer
//!     compare/run tree [WORDS] [--replay PATH]             replay against document 01's rules for trees, and these against the crate's tree calls
//!     compare/run sample script                            a fixed sample of the cases, for crates/replay/stdin
//!     compare/run sample answers                           what replay has to print for it, for crates/replay/stdout
//!
//! WORDS: --quick makes 40,000 cases rather than 1,000,000 (tree: 300,000); --cases N makes N; --seed S makes other random ones.
//! The exit status is 1 where something differs, 2 where the mode can't be run.
//!
//! The crate's files are included unchanged, in modules of this program, so that a mode can read their private state.

extern crate alloc;

mod atoms;
mod cases;
mod characters;
mod damage;
mod differences;
mod examples;
mod judge;
mod model;
mod options;
mod original;
mod profile;
mod random;
mod reader;
mod reading;
mod replay;
mod sample;
mod script;
mod tree;
mod tree_case;
mod tree_cases;
mod tree_examples;
mod tree_judge;
mod tree_model;
mod writer;
mod writer_cases;
mod writer_judge;
mod writer_model;
mod writing;

mod util {
    include!(concat!(env!("SISE_SRC"), "/util.rs"));
}

mod parser {
    include!(concat!(env!("SISE_SRC"), "/parser.rs"));

    use crate::reading::{Phase, Record};

    impl Parser<'_> {
        /// The private state as document 01 counts it: `depth` is 0 while one list is open.
        pub fn record(&self) -> Record {
            let (phase, lists) = match self.state {
                State::Beginning => (Phase::Beginning, 0),
                State::Parsing { depth } => (Phase::Parsing, depth + 1),
                State::Finishing => (Phase::Finishing, 0),
            };
            Record {
                position: self.lexer.rem_offset,
                phase,
                lists,
            }
        }
    }
}

mod serializer {
    include!(concat!(env!("SISE_SRC"), "/serializer.rs"));

    impl StackItem {
        fn copy(&self) -> Self {
            Self {
                line_broken: self.line_broken,
            }
        }
    }

    /// What the crate keeps of document 01's record while it writes.
    #[derive(Debug, PartialEq, Eq)]
    pub struct Kept {
        pub flags: Vec<bool>,
        pub list_beginning: bool,
        pub line_len: usize,
    }

    impl<'a> Serializer<'a, '_> {
        /// The same writer over a text of its own, for a call that may panic.
        pub fn copy<'c>(&self, out: &'c mut String) -> Serializer<'a, 'c> {
            let state = match &self.state {
                State::Beginning => State::Beginning,
                State::Finished => State::Finished,
                State::Writing(state) => State::Writing(WritingState {
                    stack: state.stack.iter().map(StackItem::copy).collect(),
                    ..*state
                }),
            };
            Serializer {
                style: self.style,
                out,
                state,
            }
        }

        pub fn text(&self) -> &str {
            self.out
        }

        /// The private state; `None` before the first item and after the last.
        pub fn kept(&self) -> Option<Kept> {
            let State::Writing(state) = &self.state else {
                return None;
            };
            let outer = state.stack.iter().map(|item| item.line_broken);
            Some(Kept {
                flags: outer.chain([state.current_list_line_broken]).collect(),
                list_beginning: state.list_beginning,
                line_len: state.line_len,
            })
        }

        /// Whether the whole node is written.
        pub fn is_finished(&self) -> bool {
            matches!(self.state, State::Finished)
        }
    }
}

mod parse_tree {
    include!(concat!(env!("SISE_SRC"), "/parse_tree.rs"));
}

mod serialize_tree {
    include!(concat!(env!("SISE_SRC"), "/serialize_tree.rs"));
}

/// The crate's `tree`; most of its methods are called by no mode.
#[allow(dead_code)]
mod tree_node {
    include!(concat!(env!("SISE_SRC"), "/tree.rs"));
}

pub use parse_tree::parse_tree;
pub use parser::{ParseError, ParsedItem, Parser};
pub use serialize_tree::serialize_tree;
pub use serializer::Serializer;
pub use tree_node::TreeNode;
pub use util::{check_atom, is_atom_chr, is_atom_string_chr};

use std::process::ExitCode;

fn main() -> ExitCode {
    let words: Vec<String> = std::env::args().skip(1).collect();
    let mode = words.first().map_or("", String::as_str);
    let rest = words.get(1..).unwrap_or_default();
    let done = match mode {
        "characters" => {
            characters::run();
            Ok(true)
        }
        "reader" => reader::run(rest),
        "model" => judge::run(rest),
        "writer" => writer::run(rest),
        "tree" => tree::run(rest),
        "sample" => sample::run(rest),
        _ => Err(String::from(
            "the modes are: characters, reader, model, writer, tree, sample",
        )),
    };
    match done {
        Ok(true) => ExitCode::SUCCESS,
        Ok(false) => ExitCode::from(1),
        Err(message) => {
            eprintln!("compare: {message}");
            ExitCode::from(2)
        }
    }
}
