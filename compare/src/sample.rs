//! The mode `sample`: a fixed few hundred short cases, which crates/replay stores with their answers.
//! A change to the makers of cases changes it; both files are then written again.

use crate::cases::{exhaustive, to_the_end, Maker, KINDS};
use crate::damage::borders;
use crate::examples;
use crate::judge::Judge;
use crate::reading::Case;
use crate::replay::Judges;
use crate::tree_case::TreeCase;
use crate::tree_cases;
use crate::tree_examples;
use crate::tree_judge::TreeJudge;
use crate::writer_cases;
use crate::writer_judge::{silenced, WriterJudge};
use crate::writing::WriterCase;
use std::io::Write;

const LARGEST_SCRIPT: usize = 65_000;

pub fn run(words: &[String]) -> Result<bool, String> {
    let mut judge = Judge::default();
    let (mut script, mut answers) = judge.script_and_answers(&cases());
    if judge.disagreements.count > 0 {
        return Err(String::from("model and crate disagree on the sample"));
    }
    let mut writer_judge = WriterJudge::default();
    let (writer_script, writer_answers) =
        silenced(|| writer_judge.script_and_answers(&writer_sample()));
    if writer_judge.disagreements.count > 0 {
        return Err(String::from(
            "the writer's model and crate disagree on the sample",
        ));
    }
    script.extend_from_slice(&writer_script);
    answers.extend_from_slice(&writer_answers);
    let mut tree_judge = TreeJudge::default();
    let (tree_script, tree_answers) = silenced(|| tree_judge.script_and_answers(&tree_sample()));
    if tree_judge.disagreements.count > 0 {
        return Err(String::from(
            "the trees' model and crate disagree on the sample",
        ));
    }
    script.extend_from_slice(&tree_script);
    answers.extend_from_slice(&tree_answers);
    if script.len() >= LARGEST_SCRIPT {
        return Err(format!("the sample's script has {} bytes", script.len()));
    }
    // Last a case whose text runs past the script.
    script.extend_from_slice(b"R 9 1 1\n(a");
    answers.extend_from_slice(b"malformed\n");
    let out = match words {
        [word] if word == "script" => script,
        [word] if word == "answers" => answers,
        _ => return Err(String::from("sample wants one word: script or answers")),
    };
    let written = std::io::stdout().write_all(&out);
    written.map_err(|error| format!("standard output: {error}"))?;
    Ok(true)
}

/// The examples, every text of up to two symbols, and some of each other kind.
fn cases() -> Vec<Case> {
    let mut cases: Vec<Case> = examples::cases().chain(exhaustive(2)).collect();
    // A prime, so that the steps go through every state and every byte.
    cases.extend(borders().step_by(149).map(to_the_end));
    let mut maker = Maker::new(0, 150);
    for kind in KINDS {
        cases.extend((0..27).map(|_| maker.case(kind)));
    }
    cases
}

/// The worked writings, 250 open lists, some short lists of calls, and random ones.
fn writer_sample() -> Vec<WriterCase> {
    let mut cases = writer_cases::worked();
    cases.extend(writer_cases::deep(&[250]));
    // A prime, so that the steps go through every style, room and call.
    cases.extend(writer_cases::exhaustive(3).step_by(293));
    let mut maker = writer_cases::Maker::new(0, 60);
    cases.extend((0..90).map(|_| maker.case()));
    cases
}

/// The examples, some deep trees, some short texts, and random ones.
fn tree_sample() -> Vec<TreeCase> {
    let mut cases = tree_examples::cases();
    // Primes, so that the steps go through every threshold and depth.
    cases.extend(tree_cases::deep().into_iter().step_by(13));
    cases.extend(tree_cases::short(3, 0).step_by(11));
    let mut maker = tree_cases::Maker::new(0, 100);
    cases.extend((0..40).map(|_| maker.random_case()));
    cases
}
