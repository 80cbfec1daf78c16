//! `get`: the node at the end of a path.

use super::files::Source;
use super::scan::scan;
use super::{faults, refused, Out, Status};
use sise::bytes::{Layout, Tree};
use std::io::{self, Write};

pub fn get(source: &Source, path: &[u64], out: &mut Out) -> io::Result<Status> {
    if let Err(fault) = scan(&source.text) {
        return Ok(faults::report(source, &fault));
    }
    let tree = match Tree::parse(&source.text) {
        Ok(tree) => tree,
        Err(refusal) => return Ok(refused(source, refusal)),
    };
    match tree.at(path).and_then(|node| node.write(Layout::HOUSE)) {
        Ok(text) => {
            out.write_all(&text)?;
            Ok(Status::Well)
        }
        Err(refusal) => {
            refused(source, refusal);
            if let Some(note) = longest_start(&tree, path) {
                eprintln!("{}: {note}", source.name);
            }
            Ok(Status::Refused)
        }
    }
}

/// How far a path leads that does not lead to a node.
fn longest_start(tree: &Tree, path: &[u64]) -> Option<String> {
    let mut node = tree.root();
    for (steps, &step) in path.iter().enumerate() {
        let Some(child) = node
            .children()
            .nth(usize::try_from(step).unwrap_or(usize::MAX))
        else {
            let start: Vec<String> = path[..steps].iter().map(u64::to_string).collect();
            let place = if steps == 0 {
                "the whole".into()
            } else {
                start.join(" ")
            };
            return Some(match (node.is_list(), node.children().len()) {
                (false, _) => format!("{place} is an atom, which has no children"),
                (true, 0) => format!("{place} is an empty list"),
                (true, 1) => format!("{place} is a list of one, with the number 0"),
                (true, n) => format!("{place} is a list of {n}, with the numbers 0 to {}", n - 1),
            });
        };
        node = child;
    }
    None
}
