//! The program `replay`: it answers scripts, and its answers are held against those expected.

use crate::differences::{Described, Differences};
use crate::options::Options;
use crate::script::CASE;
use std::io::Write;
use std::iter::Peekable;
use std::path::{Path, PathBuf};
use std::process::{Command, Output, Stdio};

const LARGEST_SCRIPT: usize = 1_000_000;

/// What knows the script of a case and what replay has to print for it.
pub trait Judges<Case> {
    fn put_script(&self, script: &mut Vec<u8>, case: &Case);

    /// The lines after the case's first.
    fn lines(&mut self, case: &Case) -> Vec<u8>;

    fn script_and_answers(&mut self, cases: &[Case]) -> (Vec<u8>, Vec<u8>) {
        let mut script = Vec::new();
        let mut answers = Vec::new();
        for case in cases {
            self.put_script(&mut script, case);
            answers.extend_from_slice(CASE);
            answers.extend_from_slice(&self.lines(case));
        }
        (script, answers)
    }
}

/// Runs replay over all cases, as many at a time as a script takes; `size` answers how much of a script a case takes at most.
pub fn run<Case: Described>(
    options: &Options,
    cases: impl Iterator<Item = Case>,
    size: impl Fn(&Case) -> usize,
    judge: &mut impl Judges<Case>,
) -> Result<Differences, String> {
    let default = || PathBuf::from("target/bin/replay");
    let replay = options.replay.clone().unwrap_or_else(default);
    let mut differences = Differences::default();
    let mut cases = cases.peekable();
    while cases.peek().is_some() {
        let batch = batch(&mut cases, &size);
        let (script, expected) = judge.script_and_answers(&batch);
        let output = answers(&replay, &script)?;
        compare(&batch, &expected, &output, &mut differences);
    }
    Ok(differences)
}

/// The next cases, as many as a script takes, but always one.
fn batch<Case>(
    cases: &mut Peekable<impl Iterator<Item = Case>>,
    size: &impl Fn(&Case) -> usize,
) -> Vec<Case> {
    let mut batch: Vec<Case> = cases.next().into_iter().collect();
    let mut room = LARGEST_SCRIPT.saturating_sub(batch.iter().map(size).sum());
    while let Some(case) = cases.next_if(|case| size(case) <= room) {
        room -= size(&case);
        batch.push(case);
    }
    batch
}

fn answers(replay: &Path, script: &[u8]) -> Result<Output, String> {
    let not_run = |error| format!("cannot run {}: {error}", replay.display());
    let mut child = Command::new(replay)
        .stdin(Stdio::piped())
        .stdout(Stdio::piped())
        .spawn()
        .map_err(not_run)?;
    let stdin = child.stdin.take();
    std::thread::scope(|scope| {
        // Beside the reading, since replay may answer before it has the whole script. If it ends early, its answers fall short.
        scope.spawn(move || stdin.map(|mut stdin| stdin.write_all(script)));
        child.wait_with_output().map_err(not_run)
    })
}

fn compare<Case: Described>(
    batch: &[Case],
    expected: &[u8],
    output: &Output,
    differences: &mut Differences,
) {
    let before = differences.count;
    if output.stdout != expected {
        let mut found = blocks(&output.stdout).into_iter();
        for (case, expected) in batch.iter().zip(blocks(expected)) {
            let found = found.next().unwrap_or_default();
            if found != expected {
                differences.add(case, expected, found);
            }
        }
        if differences.count == before {
            differences.note(|| String::from("more is printed than the answers to the cases"));
        }
    }
    if !output.status.success() {
        let failure = format!("replay ended with {}", output.status);
        // Said at once, since a case may be the first difference.
        eprintln!("compare: {failure}");
        differences.note(|| failure);
    }
}

/// The lines of each case.
fn blocks(output: &[u8]) -> Vec<&[u8]> {
    let mut starts = Vec::new();
    let mut at = 0;
    for line in output.split_inclusive(|&b| b == b'\n') {
        if line == CASE {
            starts.push(at);
        }
        at += line.len();
    }
    let ends = starts.iter().skip(1).chain([&at]);
    let spans = starts.iter().zip(ends);
    spans
        .map(|(&start, &end)| &output[start + CASE.len()..end])
        .collect()
}
