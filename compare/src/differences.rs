//! How many cases differ, and the first of them in full.

use std::fmt::Write;

/// A case that can be described in lines.
pub trait Described {
    fn describe(&self) -> String;
}

#[derive(Default)]
pub struct Differences {
    pub count: usize,
    first: Option<String>,
}

impl Differences {
    /// A case whose answers aren't those expected, both as lines.
    pub fn add(&mut self, case: &impl Described, expected: &[u8], found: &[u8]) {
        self.note(|| describe(case, expected, found));
    }

    /// A difference that belongs to no case.
    pub fn note(&mut self, description: impl FnOnce() -> String) {
        self.count += 1;
        self.first.get_or_insert_with(description);
    }

    /// Prints the first one; answers whether there is none.
    pub fn print(&self, title: &str) -> bool {
        if let Some(first) = &self.first {
            println!("{title}\n{first}");
        }
        self.first.is_none()
    }
}

/// Lines that are as expected stand once; elsewhere `-` has the expected line and `+` the one found.
fn describe(case: &impl Described, expected: &[u8], found: &[u8]) -> String {
    let mut out = case.describe();
    let _ = writeln!(out, "answers (- expected, + found):");
    let mut expected = expected.split_inclusive(|&b| b == b'\n');
    let mut found = found.split_inclusive(|&b| b == b'\n');
    loop {
        match (expected.next(), found.next()) {
            (None, None) => return out,
            (expected, found) if expected == found => put_line(&mut out, ' ', expected),
            (expected, found) => {
                put_line(&mut out, '-', expected);
                put_line(&mut out, '+', found);
            }
        }
    }
}

fn put_line(out: &mut String, mark: char, line: Option<&[u8]>) {
    let Some(line) = line else {
        return;
    };
    let (line, cut) = match line.strip_suffix(b"\n") {
        Some(line) => (line, ""),
        None => (line, " (no line end)"),
    };
    let _ = writeln!(out, "{mark} {}{cut}", line.escape_ascii());
}
