//! Prints a profile's travel limits, axis by axis, as a profile of their own.
//!
//!     cargo run --example limits ../profiles/stage.sise
//!
//! It is written against the API of the crate sise 0.8.0, and compiles and runs unchanged against that crate and against this package.

use sise::{sise_tree, ParseError, ParsedItem, Parser, Serializer, SerializerStyle, TreeNode};
use std::process::ExitCode;

/// The travel limits of a profile.
pub fn limits(text: &str) -> Result<String, ParseError> {
    let mut parser = Parser::new(text);
    let profile = sise::parse_tree(&mut parser)?;
    parser.finish()?;
    let nodes = profile.as_list().into_iter().flatten();
    let axes = nodes.filter(|node| head(node) == Some("axis"));
    Ok(written(&axes.filter_map(axis).collect::<Vec<_>>()))
}

/// The atom that a list begins with.
fn head(node: &TreeNode) -> Option<&str> {
    node.index_path(&[0])?.as_atom().map(String::as_str)
}

/// An axis by its name, and what its list of limits has behind its first atom.
fn axis(node: &TreeNode) -> Option<(&TreeNode, TreeNode)> {
    let name = node.index_path(&[1])?;
    let mut children = node.as_list()?.iter();
    let limits = match children.find(|child| head(child) == Some("limit")) {
        Some(limit) => TreeNode::from(limit.as_list()?[1..].to_vec()),
        None => sise_tree!(["no", "limit"]),
    };
    Some((name, limits))
}

/// One axis a line.
fn written(axes: &[(&TreeNode, TreeNode)]) -> String {
    let mut text = String::from("; found by the program limits\n");
    let style = SerializerStyle {
        line_break: "\n",
        indentation: "  ",
    };
    let mut serializer = Serializer::new(style, &mut text);
    serializer.begin_list(0);
    serializer.put_atom("limits", usize::MAX);
    for (name, limits) in axes {
        serializer.begin_list(0);
        sise::serialize_tree(&mut serializer, name, usize::MAX);
        sise::serialize_tree(&mut serializer, limits, usize::MAX);
        serializer.end_list();
    }
    serializer.end_list();
    serializer.finish(true);
    text
}

/// How deep the lists of a text go, as far as it can be read.
pub fn depth(text: &str) -> usize {
    let mut parser = Parser::new(text);
    let (mut open, mut deepest) = (0, 0);
    loop {
        match parser.next_item() {
            Ok(ParsedItem::ListStart(_)) => open += 1,
            Ok(ParsedItem::ListEnd(_)) => open -= 1,
            Ok(ParsedItem::Atom(atom, _)) => debug_assert!(sise::check_atom(atom)),
            Err(_) => return deepest,
        }
        deepest = deepest.max(open);
        if open == 0 {
            return deepest;
        }
    }
}

fn main() -> ExitCode {
    let Some(name) = std::env::args().nth(1) else {
        eprintln!("limits FILE");
        return ExitCode::from(2);
    };
    let text = match std::fs::read_to_string(&name) {
        Ok(text) => text,
        Err(error) => {
            eprintln!("{name}: {error}");
            return ExitCode::from(2);
        }
    };
    match limits(&text) {
        Ok(found) => {
            print!("{found}");
            println!("; {} lists deep", depth(&text));
            ExitCode::SUCCESS
        }
        Err(error) => {
            println!("{name}: {error}");
            ExitCode::FAILURE
        }
    }
}
