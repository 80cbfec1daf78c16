//! Shows a profile: show FILE [CHILD...]
//! It checks the file, prints the node at the end of the path of children, counted from 0, and the whole with every line broken, the size of each before it.
//! Then the profile is emptied between the size and the text, and is not written.

// The program uses some of the calls.
#[allow(dead_code)]
mod sise;

use sise::{Refusal, Size, Style};
use std::error::Error;
use std::process::ExitCode;

/// Every line is at least that long, and is broken; no line is ever that long.
const EVERY_LINE: u64 = 0;
const ONE_LINE: u64 = u64::MAX;

/// A text, and the table of its nodes.
struct Profile {
    text: Vec<u8>,
    table: Vec<u32>,
}

impl Profile {
    fn read(text: Vec<u8>) -> Result<Self, Refusal> {
        let mut table = vec![0; 4 * text.len()];
        let nodes = sise::parse_tree(&text, &mut table)?;
        table.truncate(4 * nodes);
        Ok(Self { text, table })
    }

    fn nodes(&self) -> usize {
        self.table.len() / 4
    }

    /// The part of the table that begins with the node at the end of the path.
    fn at(&self, path: &[u64]) -> Result<&[u32], Refusal> {
        let node = sise::index_path(&self.table, &self.text, path)?;
        Ok(&self.table[4 * node..])
    }

    /// The size of a subtree's text.
    fn measured(&self, subtree: &[u32], break_line_at: u64) -> Result<Size, Refusal> {
        let (style, room) = (Style::HOUSE, sise::LONGEST);
        sise::measure_tree(style, room, &self.text, subtree, break_line_at, true)
    }

    /// That text, if it is still of this size.
    fn committed(
        &self,
        subtree: &[u32],
        break_line_at: u64,
        size: Size,
    ) -> Result<String, Refusal> {
        let mut buf = vec![0; size.bytes as usize];
        let (style, text) = (Style::HOUSE, &self.text);
        sise::commit_tree(style, &mut buf, text, subtree, break_line_at, true, size)?;
        Ok(String::from_utf8_lossy(&buf).into_owned())
    }
}

/// Shows a text's size, and then the text.
fn print_tree(profile: &Profile, subtree: &[u32], break_line_at: u64) -> Result<(), Refusal> {
    let size = profile.measured(subtree, break_line_at)?;
    let Size {
        bytes,
        breaks,
        indents,
    } = size;
    println!("{bytes} bytes, {breaks} line breaks, {indents} indentations");
    print!("{}", profile.committed(subtree, break_line_at, size)?);
    Ok(())
}

/// Another program empties the profile after its size was shown: nothing is written.
fn print_emptied(profile: &Profile) -> Result<(), Refusal> {
    let size = profile.measured(&profile.table, EVERY_LINE)?;
    let emptied = Profile::read(b"()".to_vec())?;
    match emptied.committed(&emptied.table, EVERY_LINE, size) {
        Ok(text) => print!("{text}"),
        Err(refusal) => println!("emptied: {refusal}"),
    }
    Ok(())
}

fn show(name: &str, path: &[u64]) -> Result<(), Box<dyn Error>> {
    let text = std::fs::read(name).map_err(|error| format!("{name}: {error}"))?;
    let profile = Profile::read(text).map_err(|refusal| format!("{name}: {refusal}"))?;
    println!("{name}: {} nodes", profile.nodes());
    let node = profile
        .at(path)
        .map_err(|refusal| format!("path: {refusal}"))?;
    print_tree(&profile, node, ONE_LINE)?;
    print_tree(&profile, &profile.table, EVERY_LINE)?;
    print_emptied(&profile)?;
    Ok(())
}

fn main() -> ExitCode {
    let words: Vec<String> = std::env::args().skip(1).collect();
    let Some((name, steps)) = words.split_first() else {
        eprintln!("show FILE [CHILD...]");
        return ExitCode::from(2);
    };
    let path: Result<Vec<u64>, _> = steps.iter().map(|step| step.parse()).collect();
    let shown = match path {
        Ok(path) => show(name, &path),
        Err(error) => Err(error.into()),
    };
    match shown {
        Ok(()) => ExitCode::SUCCESS,
        Err(error) => {
            println!("{error}");
            ExitCode::FAILURE
        }
    }
}
