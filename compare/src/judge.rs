//! What is expected of a case; on the way, the model is held against the crate.

use crate::cases;
use crate::differences::{Described, Differences};
use crate::examples;
use crate::model::Model;
use crate::options::Options;
use crate::original::{Masked, Original};
use crate::reading::{Case, Reading};
use crate::replay::Judges;
use crate::script::{put_answers, put_case};

#[derive(Default)]
pub struct Judge {
    pub cases: usize,
    pub calls: usize,
    /// Cases whose text isn't valid UTF-8.
    masked: usize,
    /// Cases whose faults were counted.
    counted: usize,
    pub disagreements: Differences,
}

impl Judge {
    /// The crate's answers where the text is valid UTF-8, else the model's.
    pub fn expected<'a>(&mut self, case: &'a Case) -> Reading<'a> {
        self.cases += 1;
        self.calls += case.calls + usize::from(case.finish);
        let model = Reading::of(case, Model::new(&case.text));
        self.count_faults(case, &model);
        if let Ok(text) = std::str::from_utf8(&case.text) {
            let original = Reading::of(case, Original::new(text));
            self.hold(case, &original, &model);
            return original;
        }
        self.masked += 1;
        let masked = Masked::new(&case.text);
        let original = masked.unmask(Reading::of(case, Original::new(&masked.text)));
        self.hold(case, &original, &model);
        model
    }

    /// Where no byte is ASCII, each character is a fault, and a broken one is one: as many as the standard library's decoder has characters, which
    /// replaces each maximal subpart by one.
    fn count_faults(&mut self, case: &Case, model: &Reading) {
        let ascii = case.text.iter().any(u8::is_ascii);
        let last = model.items.last().map(|(_, record)| record.position);
        if ascii || last != Some(case.text.len()) {
            return;
        }
        self.counted += 1;
        let expected = String::from_utf8_lossy(&case.text).chars().count();
        let faults = model.items.iter().filter_map(|(answer, _)| answer.err());
        let found = faults.filter(|fault| matches!(fault.number, 1 | 8)).count();
        if found != expected {
            self.disagreements
                .note(|| format!("{found} faults and not {expected}: {}", case.describe()));
        }
    }

    fn hold(&mut self, case: &Case, original: &Reading, model: &Reading) {
        if original != model {
            self.disagreements
                .add(case, &lines(original), &lines(model));
        }
    }

    /// Prints the count of agreement; answers whether it is whole.
    pub fn print(&self) -> bool {
        let valid = self.cases - self.masked;
        let (masked, count) = (self.masked, self.disagreements.count);
        println!("model against crate: {valid} texts of valid UTF-8 and {masked} others, {count} disagreements");
        println!(
            "faults counted as the standard library's decoder replaces them: {} texts",
            self.counted
        );
        self.disagreements
            .print("the first one, the crate's answers expected:")
    }
}

impl Judges<Case> for Judge {
    fn put_script(&self, script: &mut Vec<u8>, case: &Case) {
        put_case(script, case);
    }

    fn lines(&mut self, case: &Case) -> Vec<u8> {
        lines(&self.expected(case))
    }
}

pub fn lines(reading: &Reading) -> Vec<u8> {
    let mut out = Vec::new();
    put_answers(&mut out, reading);
    out
}

/// The mode `model`.
pub fn run(words: &[String]) -> Result<bool, String> {
    let options = Options::read(words)?;
    if options.replay.is_some() {
        return Err(String::from("the mode model runs no replay"));
    }
    let examples_hold = examples::check();
    let mut judge = Judge::default();
    for case in cases::all(&options) {
        judge.expected(&case);
    }
    println!("model: {} cases, {} calls", judge.cases, judge.calls);
    let agree = judge.print();
    Ok(agree && examples_hold)
}
