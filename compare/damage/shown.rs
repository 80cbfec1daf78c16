//! A case that failed, in hexadecimal.

use crate::tree::Tree;
use crate::writing::Writing;
use std::fmt::LowerHex;

const MOST: usize = 300;

pub fn tree_shown(tree: &Tree) -> String {
    format!(
        "text {}; table {}; paths {:x?}; line break {}; indentation {}; buffer of {} bytes; threshold {:x}; final break {}; size made up {:x?}",
        values(&tree.text, ""),
        values(&tree.table, " "),
        tree.paths,
        values(&tree.style.line_break, ""),
        values(&tree.style.indentation, ""),
        tree.buffer.len(),
        tree.break_line_at,
        tree.final_break,
        tree.size,
    )
}

pub fn writing_shown(writing: &Writing) -> String {
    let script = &writing.script;
    format!(
        "words {}; atoms {}; line break {}; indentation {}; buffer of {} bytes; {} answers",
        values(&script.words, " "),
        values(&script.atoms, ""),
        values(&script.style.line_break, ""),
        values(&script.style.indentation, ""),
        writing.buffer.len(),
        script.answers.len(),
    )
}

pub fn bytes_shown(bytes: &[u8]) -> String {
    format!("bytes {}", values(bytes, ""))
}

fn values<T: LowerHex>(values: &[T], between: &str) -> String {
    let width = if between.is_empty() { 2 } else { 1 };
    let first: Vec<String> = values
        .iter()
        .take(MOST)
        .map(|value| format!("{value:0width$x}"))
        .collect();
    format!("of {} [{}]", values.len(), first.join(between))
}
