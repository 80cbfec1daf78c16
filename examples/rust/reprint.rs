//! Reprints a profile: reprint FILE [THRESHOLD]
//! It prints the file's tree in house style, its lines broken at the threshold (72, if none is named), and names on standard error what is lost: the
//! comments, each with its line. All else is kept, atoms byte for byte. A reprint at the same threshold is printed as it is.

// The program uses some of the calls.
#[allow(dead_code)]
mod sise;

use sise::{Refusal, Style};
use std::error::Error;
use std::io::Write;
use std::process::ExitCode;

const HOUSE_THRESHOLD: u64 = 72;

/// The most bytes of a text.
const LONGEST: usize = 16_777_216;

/// The table of a text's nodes.
fn parsed(text: &[u8]) -> Result<Vec<u32>, Refusal> {
    let mut table = vec![0; 4 * text.len()];
    let nodes = sise::parse_tree(text, &mut table)?;
    table.truncate(4 * nodes);
    Ok(table)
}

fn reprinted(text: &[u8], table: &[u32], threshold: u64) -> Result<Vec<u8>, Refusal> {
    let mut buf = vec![0; LONGEST];
    let size = sise::serialize_tree(Style::HOUSE, &mut buf, text, table, threshold, true)?;
    buf.truncate(size);
    Ok(buf)
}

/// The comments, each with its line: a `;` begins one, up to the line's end, where it is in no atom. The table says where the atoms lie.
fn comments<'a>(text: &'a [u8], table: &[u32]) -> Vec<(usize, &'a [u8])> {
    let mut comments = Vec::new();
    let atoms = table.chunks_exact(4).filter(|node| node[0] != 0);
    let mut atoms = atoms
        .map(|node| (node[1] as usize, node[2] as usize))
        .peekable();
    let (mut at, mut line) = (0, 1);
    while let Some(&byte) = text.get(at) {
        if let Some((_, len)) = atoms.next_if(|&(place, _)| place == at) {
            at += len;
            continue;
        }
        if byte == b';' {
            let mut parts = text[at..].split(|byte| b"\r\n".contains(byte));
            let comment = parts.next().unwrap_or_default();
            comments.push((line, comment));
            at += comment.len();
            continue;
        }
        line += usize::from(byte == b'\n');
        at += 1;
    }
    comments
}

fn reprint(name: &str, threshold: u64) -> Result<(), Box<dyn Error>> {
    let text = std::fs::read(name).map_err(|error| format!("{name}: {error}"))?;
    let refused = |refusal| format!("{name}: {refusal}");
    let table = parsed(&text).map_err(refused)?;
    let reprint = reprinted(&text, &table, threshold).map_err(refused)?;
    std::io::stdout().write_all(&reprint)?;
    let comments = comments(&text, &table);
    for (line, comment) in &comments {
        let comment = String::from_utf8_lossy(comment);
        eprintln!("{name}:{line}: lost: {comment}");
    }
    eprintln!("{name}: {} comments lost", comments.len());
    Ok(())
}

fn main() -> ExitCode {
    let words: Vec<String> = std::env::args().skip(1).collect();
    let Some((name, rest)) = words.split_first() else {
        eprintln!("reprint FILE [THRESHOLD]");
        return ExitCode::from(2);
    };
    let threshold = rest
        .first()
        .map_or(Ok(HOUSE_THRESHOLD), |word| word.parse());
    let done = match threshold {
        Ok(threshold) => reprint(name, threshold),
        Err(error) => Err(error.into()),
    };
    match done {
        Ok(()) => ExitCode::SUCCESS,
        Err(error) => {
            eprintln!("{error}");
            ExitCode::FAILURE
        }
    }
}
