//! The exported calls on damaged and hostile input, in memory whose neighbours fault. A fault ends the program; the line before it names the seed
//! and a case not far back, and `--seed S --from K --cases N` goes on from there.

mod answers;
#[path = "../src/atoms.rs"]
mod atoms;
mod calls;
mod cases;
#[path = "../src/damage.rs"]
mod damage;
mod deep;
#[path = "../exported.rs"]
mod exported;
mod forms;
mod guard;
mod inside;
mod items;
mod kinds;
mod limits;
mod numbers;
mod options;
#[path = "../src/profile.rs"]
mod profile;
#[path = "../src/random.rs"]
mod random;
mod reading;
mod records;
mod reprint;
mod scripts;
mod shown;
mod singly;
mod styles;
mod tables;
mod texts;
mod tree;
mod writing;

use answers::Check;
use calls::Calls;
use options::Options;
use reprint::Count;
use std::process::ExitCode;
use std::time::{Duration, Instant};
use texts::Texts;

/// How often a seed's run says where it is; in a run of hours, once.
const REPORTS: u64 = 20;

fn main() -> ExitCode {
    match Options::read(std::env::args().skip(1)).and_then(|options| run(&options)) {
        Ok(summary) => {
            println!("{summary}");
            ExitCode::SUCCESS
        }
        Err(failure) => {
            println!("damage: {failure}");
            ExitCode::FAILURE
        }
    }
}

fn run(options: &Options) -> Check<String> {
    let end = Instant::now() + Duration::from_secs_f64(options.hours * 3600.0);
    let mut calls = Calls::new();
    let texts = Texts::new();
    once(options, &mut calls)?;
    let mut seed = options.seed;
    let mut cases = 0;
    let mut count = Count::default();
    loop {
        cases += one_seed(options, &mut calls, &texts, seed)?;
        reprints(options, &mut calls, &texts, &mut count, seed)?;
        if Instant::now() >= end {
            break;
        }
        seed += 1;
    }
    let (first, made) = (options.seed, calls.made);
    let Count {
        texts,
        alike,
        otherwise,
    } = count;
    Ok(format!(
        "damage: {cases} cases, {made} calls, 0 faults; seeds {first} to {seed}\n\
         reprints: {texts} texts, each reprinted twice at 6 thresholds, where it fits; {alike} pairs alike, {otherwise} otherwise"
    ))
}

/// Texts that are reprinted.
fn reprints(
    options: &Options,
    calls: &mut Calls,
    texts: &Texts,
    count: &mut Count,
    seed: u64,
) -> Check {
    for number in 0..options.reprints {
        reprint::run(calls, texts, count, seed, number)
            .map_err(|rule| format!("seed {seed}, reprint {number}: {rule}"))?;
    }
    Ok(())
}

/// The checks that no seed changes.
fn once(options: &Options, calls: &mut Calls) -> Check {
    if options.small {
        return Ok(());
    }
    limits::check(calls)?;
    if options.deep {
        calls.made += deep::check()?;
    }
    Ok(())
}

fn one_seed(options: &Options, calls: &mut Calls, texts: &Texts, seed: u64) -> Check<u64> {
    let reports = if options.hours > 0.0 { 1 } else { REPORTS };
    let interval = (options.cases / reports).max(1);
    for number in options.from..options.from + options.cases {
        if (number - options.from) % interval == 0 {
            eprintln!("damage: seed {seed}, case {number}");
        }
        cases::run(calls, texts, seed, number)
            .map_err(|rule| format!("seed {seed}, case {number}: {rule}"))?;
    }
    Ok(options.cases)
}
