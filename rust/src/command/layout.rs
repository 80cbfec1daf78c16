//! `fmt` and `size`: a profile in house style.

use super::files::Source;
use super::scan::scan;
use super::words::Fmt;
use super::{faults, refused, Out, Status};
use sise::bytes::{Layout, Tree};
use std::io::{self, Write};

/// A file in house style.
struct Formatted {
    text: Vec<u8>,
    /// Whether the file has comments, which are not in the text.
    comments: bool,
}

pub fn fmt(source: &Source, width: u64, options: Fmt, out: &mut Out) -> io::Result<Status> {
    let formatted = match formatted(source, width) {
        Ok(formatted) => formatted,
        Err(status) => return Ok(status),
    };
    if options.in_place {
        return Ok(overwrite(source, &formatted, options.drop_comments));
    }
    if options.check {
        return compare(source, &formatted, out);
    }
    if formatted.comments {
        eprintln!("{}: warning: its comments are not written", source.name);
    }
    out.write_all(&formatted.text)?;
    Ok(Status::Well)
}

/// A refusal has been shown where there is none.
fn formatted(source: &Source, width: u64) -> Result<Formatted, Status> {
    let found = scan(&source.text).map_err(|fault| faults::report(source, &fault))?;
    let tree = Tree::parse(&source.text);
    let text = tree.and_then(|tree| tree.root().write(Layout::house_at(width)));
    let text = text.map_err(|refusal| refused(source, refusal))?;
    Ok(Formatted {
        text,
        comments: found.comments,
    })
}

fn compare(source: &Source, formatted: &Formatted, out: &mut Out) -> io::Result<Status> {
    if formatted.text == source.text {
        return Ok(Status::Well);
    }
    let lost = match formatted.comments {
        true => ", and lose its comments",
        false => "",
    };
    writeln!(out, "{}: would change{lost}", source.name)?;
    Ok(Status::Refused)
}

fn overwrite(source: &Source, formatted: &Formatted, drop_comments: bool) -> Status {
    let name = &source.name;
    if formatted.text == source.text {
        return Status::Well;
    }
    if formatted.comments && !drop_comments {
        let told = "--drop-comments overwrites it";
        eprintln!("{name}: not overwritten, its comments would be lost; {told}");
        return Status::Refused;
    }
    if let Err(error) = source.replace(&formatted.text) {
        eprintln!("sise: {name}: {error}");
        return Status::Failed;
    }
    if formatted.comments {
        eprintln!("{name}: warning: its comments are dropped");
    }
    Status::Well
}

pub fn size(source: &Source, width: u64, out: &mut Out) -> io::Result<Status> {
    if let Err(fault) = scan(&source.text) {
        return Ok(faults::report(source, &fault));
    }
    let tree = Tree::parse(&source.text);
    match tree.and_then(|tree| tree.root().size(Layout::house_at(width))) {
        Ok(size) => {
            writeln!(out, "bytes {}", size.bytes)?;
            writeln!(out, "breaks {}", size.breaks)?;
            writeln!(out, "indents {}", size.indents)?;
            Ok(Status::Well)
        }
        Err(refusal) => Ok(refused(source, refusal)),
    }
}
