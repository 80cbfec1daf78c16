//! The command's words, and what each of them does.

mod faults;
mod files;
mod layout;
mod lookup;
mod scan;
mod words;

use files::Source;
use sise::bytes::{Item, Reader, Refusal};
use std::ffi::OsString;
use std::io::{self, BufWriter, ErrorKind, Write};
use std::process::ExitCode;
use words::{Task, Words};

const HELP: &str = include_str!("help.txt");

/// How the command ends, the worst that happened.
#[derive(Clone, Copy, PartialEq, Eq, PartialOrd, Ord)]
pub enum Status {
    Well = 0,
    /// A file is refused, or would change.
    Refused = 1,
    /// The command is not understood, or a file cannot be read or written.
    Failed = 2,
}

/// Where the command prints what it was asked for; what it says beside that goes to the standard error.
pub type Out<'a> = BufWriter<io::StdoutLock<'a>>;

pub fn main(words: impl Iterator<Item = OsString>) -> ExitCode {
    let words = match Words::read(words) {
        Ok(words) => words,
        Err(message) => {
            eprintln!("sise: {message}; see sise --help");
            return ExitCode::from(Status::Failed as u8);
        }
    };
    let mut out = BufWriter::new(io::stdout().lock());
    let ended = run(&words, &mut out).and_then(|status| out.flush().map(|()| status));
    let status = ended.unwrap_or_else(|error| {
        // Whoever reads the output may stop when it has seen enough.
        if error.kind() == ErrorKind::BrokenPipe {
            return Status::Well;
        }
        eprintln!("sise: standard output: {error}");
        Status::Failed
    });
    ExitCode::from(status as u8)
}

/// An error is one of the standard output.
fn run(words: &Words, out: &mut Out) -> io::Result<Status> {
    match words.task {
        Task::Help => write!(out, "{HELP}")?,
        Task::Version => writeln!(out, "sise {}", env!("CARGO_PKG_VERSION"))?,
        _ => return each_file(words, out),
    }
    Ok(Status::Well)
}

fn each_file(words: &Words, out: &mut Out) -> io::Result<Status> {
    let mut worst = Status::Well;
    for name in &words.files {
        let status = match Source::read(name) {
            Ok(source) => one_file(words, &source, out)?,
            Err(error) => {
                eprintln!("sise: {}: {error}", files::shown(name));
                Status::Failed
            }
        };
        worst = worst.max(status);
        // What is said of the next file comes behind it.
        out.flush()?;
    }
    Ok(worst)
}

fn one_file(words: &Words, source: &Source, out: &mut Out) -> io::Result<Status> {
    match &words.task {
        Task::Check => check(source, out),
        Task::Items => items(source, out),
        Task::Fmt(options) => layout::fmt(source, words.width, *options, out),
        Task::Get(path) => lookup::get(source, path, out),
        Task::Size => layout::size(source, words.width, out),
        Task::Help | Task::Version => Ok(Status::Well),
    }
}

fn check(source: &Source, out: &mut Out) -> io::Result<Status> {
    match scan::scan(&source.text) {
        Ok(found) => {
            let (nodes, depth) = (counted(found.nodes, "node"), counted(found.depth, "list"));
            writeln!(out, "{}: ok, {nodes}, {depth} deep", source.name)?;
            Ok(Status::Well)
        }
        Err(fault) => Ok(faults::report(source, &fault)),
    }
}

/// So many of a thing.
fn counted(number: usize, thing: &str) -> String {
    let plural = if number == 1 { "" } else { "s" };
    format!("{number} {thing}{plural}")
}

/// The lines are those of the proved program `items`, for a text of any length.
fn items(source: &Source, out: &mut Out) -> io::Result<Status> {
    let mut reader = Reader::new(&source.text);
    let refusal = loop {
        match reader.next_item() {
            Ok(Item::ListStart { place }) => writeln!(out, "L {place}")?,
            Ok(Item::Atom { place, len }) => writeln!(out, "A {place} {len}")?,
            Ok(Item::ListEnd { place }) => writeln!(out, "E {place}")?,
            Err(refusal) => break refusal,
        }
        if reader.is_whole() {
            match reader.finish() {
                Ok(()) => {
                    writeln!(out, "ok")?;
                    return Ok(Status::Well);
                }
                Err(refusal) => break refusal,
            }
        }
    };
    let (number, place) = (refusal.number(), refusal.place.unwrap_or(0));
    writeln!(out, "refused {number} {place}")?;
    out.flush()?;
    Ok(match scan::scan(&source.text) {
        Ok(_) => Status::Well,
        Err(fault) => faults::report(source, &fault),
    })
}

/// A refusal with no place in the text.
fn refused(source: &Source, refusal: Refusal) -> Status {
    eprintln!("{}: {refusal}", source.name);
    Status::Refused
}
