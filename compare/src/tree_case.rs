//! A case for the tree calls, and the script's form of it.

use crate::differences::Described;
use crate::writing::{number, Style};
use std::fmt::Write;

pub struct TreeCase {
    pub text: Vec<u8>,
    /// How often `next_item` is called before `parse_tree`.
    pub calls: usize,
    /// The table's length.
    pub words: usize,
    /// Words stored after `parse_tree`, with their places.
    pub stores: Vec<(usize, u32)>,
    /// The table's first word that the other calls are lent.
    pub first: usize,
    pub style: Style,
    /// The length of each buffer.
    pub room: usize,
    /// How many lists the writer has open, each with an atom.
    pub lists: usize,
    pub threshold: u64,
    /// How often `serialize_tree` is called.
    pub writings: usize,
    pub paths: Vec<Vec<u64>>,
}

/// The largest table that replay takes.
pub const MOST_WORDS: usize = 4096;

/// The longest path that replay takes.
pub const LONGEST_PATH: usize = 256;

/// What each word of the table is at first.
const UNWRITTEN: u32 = 0xAAAA_AAAA;

impl TreeCase {
    pub fn fresh_table(&self) -> Vec<u32> {
        vec![UNWRITTEN; self.words]
    }

    /// Stores the words; a place past the table has none.
    pub fn store(&self, table: &mut [u32]) {
        for &(place, word) in &self.stores {
            if let Some(stored) = table.get_mut(place) {
                *stored = word;
            }
        }
    }
}

pub fn put_case(out: &mut Vec<u8>, case: &TreeCase) {
    let (len, calls, words) = (case.text.len(), case.calls, case.words);
    out.extend_from_slice(format!("T {len} {calls} {words}\n").as_bytes());
    out.extend_from_slice(&case.text);
    let Style {
        line_break,
        indentation,
    } = case.style;
    let (b, i) = (line_break.len(), indentation.len());
    let (room, writings) = (case.room, case.writings);
    let (lists, threshold, first) = (case.lists, number(case.threshold), case.first);
    let paths = case.paths.len();
    let lines = format!(
        "\nW {room} {b} {i} {writings}\n{line_break}{indentation}\nP {lists} {threshold} {first} {paths}\n"
    );
    out.extend_from_slice(lines.as_bytes());
    put_list(out, &stores(case));
    for path in &case.paths {
        put_list(out, path);
    }
}

fn stores(case: &TreeCase) -> Vec<u64> {
    let pairs = case.stores.iter();
    pairs
        .flat_map(|&(place, word)| [place as u64, wide(word)])
        .collect()
}

/// In a script the largest word is any number past 32 bits.
fn wide(word: u32) -> u64 {
    if word == u32::MAX {
        u64::MAX
    } else {
        u64::from(word)
    }
}

fn put_list(out: &mut Vec<u8>, list: &[u64]) {
    let mut line = format!("{} ", list.len());
    for &item in list {
        let _ = write!(line, "{} ", number(item));
    }
    line.push('\n');
    out.extend_from_slice(line.as_bytes());
}

/// How much of a script the case takes at most.
pub fn size(case: &TreeCase) -> usize {
    let numbers: usize = case.paths.iter().map(|path| path.len() + 1).sum();
    case.text.len() + 11 * (numbers + 2 * case.stores.len()) + 200
}

impl Described for TreeCase {
    fn describe(&self) -> String {
        let mut script = Vec::new();
        put_case(&mut script, self);
        let (len, text) = (self.text.len(), self.text.escape_ascii());
        let script = String::from_utf8_lossy(&script);
        format!(
            "text of {len} bytes: {text}\n{:?}, script: {script}",
            self.style
        )
    }
}
